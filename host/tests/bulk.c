/* Bulk output of a program, on a terminal of Linux and on a pair, by the same harness: bulk PROGRAM [MEGABYTES [ROUNDS]]. Says how many megabytes a
 * second come, and what a megabyte takes of the processor. */
#define _GNU_SOURCE
#include <errno.h>
#include <fcntl.h>
#include <poll.h>
#include <signal.h>
#include <stdio.h>
#include <stdlib.h>
#include <string.h>
#include <sys/ioctl.h>
#include <sys/resource.h>
#include <sys/wait.h>
#include <termios.h>
#include <time.h>
#include <unistd.h>

#include <strm_host.h>

static double now(void)
{
    struct timespec t;
    clock_gettime(CLOCK_MONOTONIC, &t);
    return (double)t.tv_sec + (double)t.tv_nsec / 1e9;
}

/* The time of processors that this process and its children have had. */
static double work(void)
{
    struct rusage own, theirs;
    getrusage(RUSAGE_SELF, &own), getrusage(RUSAGE_CHILDREN, &theirs);
    return (double)(own.ru_utime.tv_sec + own.ru_stime.tv_sec + theirs.ru_utime.tv_sec + theirs.ru_stime.tv_sec)
           + (double)(own.ru_utime.tv_usec + own.ru_stime.tv_usec + theirs.ru_utime.tv_usec + theirs.ru_stime.tv_usec) / 1e6;
}

static void stops(const char *what)
{
    perror(what);
    exit(2);
}

/* Reads all that a program shows on a pseudoterminal of the kernel. */
static size_t by_linux(char *words[])
{
    static char room[65536];
    size_t total = 0;
    int m = posix_openpt(O_RDWR | O_NOCTTY | O_CLOEXEC | O_NONBLOCK), s;
    pid_t child;
    if (m < 0 || grantpt(m) || unlockpt(m) || (s = open(ptsname(m), O_RDWR | O_NOCTTY)) < 0) stops("pty");
    child = fork();
    if (!child) {
        setsid();
        ioctl(s, TIOCSCTTY, 0);
        dup2(s, 0), dup2(s, 1), dup2(s, 2);
        close(s);
        execv(words[0], words);
        _exit(127);
    }
    close(s);
    for (;;) {
        struct pollfd p = { m, POLLIN, 0 };
        ssize_t n;
        poll(&p, 1, -1);
        n = read(m, room, sizeof room);
        if (n > 0) total += (size_t)n;
        else if (n < 0 && errno != EAGAIN) break;
    }
    waitpid(child, NULL, 0);
    close(m);
    return total;
}

static size_t by_pair(char *words[])
{
    static char room[65536];
    size_t total = 0;
    strm_pair pair = STRM_CLOSED;
    strm_host *h;
    uint32_t what = 0;
    if (strm_new(&pair, 256, 8192, 1 << 20) || strm_open_terminal(&pair) || strm_host_spawn(&h, &pair, words, NULL, NULL)) stops("spawn");
    while (!(what & STRM_HOST_ENDED)) {
        struct pollfd p = { strm_host_fd(h), POLLIN, 0 };
        size_t n = 0;
        strm_refusal e = strm_host_take(h, room, sizeof room, &n, &what);
        total += n;
        if (e == STRM_JOURNAL_FULL) strm_restart(&pair);
        else if (!n && !what) poll(&p, 1, -1);
    }
    strm_host_close(h);
    strm_free(&pair);
    return total;
}

/* The best of some rounds, by turns, with lines of a length. */
static int compares(char *path, long megabytes, long rounds, const char *line)
{
    char pieces[32];
    char *program[] = { path, (char *)"floods", pieces, (char *)line, NULL };
    double best[2] = { 0, 0 }, least[2] = { 0, 0 };
    size_t total[2] = { 0, 0 };
    long k;
    snprintf(pieces, sizeof pieces, "%ld", megabytes * 256);
    for (k = 0; k < 2 * rounds; k++) {
        double began = now(), worked = work(), rate;
        total[k % 2] = k % 2 ? by_pair(program) : by_linux(program);
        rate = (double)total[k % 2] / 1e6 / (now() - began);
        worked = (work() - worked) * 1e3 / ((double)total[k % 2] / 1e6);
        if (rate > best[k % 2]) best[k % 2] = rate;
        if (k < 2 || worked < least[k % 2]) least[k % 2] = worked;
    }
    printf("bulk output in lines of %s: Linux %.1f MB/s, on a pair %.1f MB/s, %.2f times; of the processor, both ends, %.2f and %.2f ms a MB\n", line,
           best[0], best[1], best[1] / best[0], least[0], least[1]);
    if (total[0] != total[1]) printf("Linux %zu bytes, on a pair %zu\n", total[0], total[1]);
    return total[0] != total[1];
}

int main(int n, char **words)
{
    static const char *const lines[] = { "8", "32", "64" };
    int differs = 0;
    size_t k;
    if (n < 2) return 2;
    for (k = 0; k < 3; k++) differs |= compares(words[1], n > 2 ? atol(words[2]) : 8, n > 3 ? atol(words[3]) : 5, lines[k]);
    return differs;
}
