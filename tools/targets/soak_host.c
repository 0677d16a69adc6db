/* A session of a real program on a pair (strm_host.h), in eight parts of equal work, as soak.c tells them: lines are typed to `cat`, and read as
 * echo and as what it puts out.
 *
 *     soak_host COUNT      so many lines */
#include <poll.h>
#include <stdio.h>
#include <stdlib.h>
#include <strm_host.h>
#include <sys/resource.h>
#include <time.h>

enum { PARTS = 8 };

static strm_pair p = STRM_CLOSED;
static strm_host *host;
static uint8_t out[4096];
static unsigned long restarts;

static void must(int holds, const char *what)
{
    if (holds) return;
    fprintf(stderr, "soak_host: %s\n", what);
    exit(1);
}

/* Whether a call is made again, as the journal was full. */
static bool again(strm_refusal e)
{
    if (e != STRM_JOURNAL_FULL || strm_restart(&p)) return false;
    restarts++;
    return true;
}

/* Carries what is there; how many bytes were shown. */
static size_t shown(void)
{
    struct pollfd ready = { strm_host_fd(host), POLLIN, 0 };
    uint32_t what = 0;
    size_t n = 0;
    strm_refusal e;
    do e = strm_host_pump(host, &what);
    while (again(e));
    must(!e, "a pump is refused");
    for (;;) {
        strm_reply r;
        e = strm_read(&p, STRM_MASTER, out, sizeof out, &r);
        if (again(e)) continue;
        if (e) break;
        n += r.bytes;
    }
    if (!n && !(what & STRM_HOST_MOVED)) must(poll(&ready, 1, 120000) > 0, "nothing is shown for two minutes");
    return n;
}

/* Types a line and reads it twice: as echo, and from the program. */
static void line_passes(const char *line, size_t n)
{
    strm_reply r;
    strm_refusal e;
    size_t seen = 0;
    do e = strm_write(&p, STRM_MASTER, line, n, &r);
    while (again(e));
    must(!e && r.value == n, "a line isn't taken");
    while (seen < 2 * (n + 1)) seen += shown();
    must(seen == 2 * (n + 1), "bytes that nobody wrote");
}

static long resident(void)
{
    FILE *file = fopen("/proc/self/statm", "r");
    long size, pages = 0;
    must(file && fscanf(file, "%ld %ld", &size, &pages) == 2, "/proc/self/statm");
    fclose(file);
    return pages * 4;
}

static double used(void)
{
    struct timespec at;
    clock_gettime(CLOCK_PROCESS_CPUTIME_ID, &at);
    return (double)at.tv_sec * 1e9 + (double)at.tv_nsec;
}

int main(int count, char **words)
{
    static const char line[] = "what is typed comes back twice\n";
    char *cat[] = { "cat", NULL };
    must(count == 2, "soak_host COUNT");
    unsigned long part = strtoul(words[1], NULL, 10) / PARTS;
    must(!strm_new(&p, 256, 8192, 262144) && !strm_open_terminal(&p), "no pair");
    must(!strm_host_spawn(&host, &p, cat, NULL, NULL), "cat isn't started");
    while (restarts < 2) line_passes(line, sizeof line - 1); /* all memory of the journal is resident then */
    for (int at = 1; at <= PARTS; at++) {
        double began = used();
        for (unsigned long left = part; left > 0; left--) line_passes(line, sizeof line - 1);
        printf("%d %ld %lu %.1f\n", at, resident(), part, (used() - began) / (double)part);
        fflush(stdout);
    }
    strm_host_close(host);
    strm_free(&p);
    return 0;
}
