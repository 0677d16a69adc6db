/* What a server needs for so many terminals, by libstrm and by pseudoterminals of Linux: memory, time to make one, descriptors.
 *
 *     cc -O2 -Iinclude bench/sessions.c libstrm.a -o sessions && ./sessions [SESSIONS..]
 *
 * Each terminal has STRM_TERMINAL_BLOCKS blocks and a journal of 64 entries and 16,384 bytes, and 100 keystrokes are typed at it, each of whose echo
 * is read, a line each ten; a pseudoterminal gets the same. Memory of terminals is what the process holds more (resident), and that of
 * pseudoterminals what the kernel says of Slab and VmallocUsed (/proc/meminfo), where other work of the machine counts too. Time is CPU time of the
 * process, the mean. Where the system gives no more pseudoterminals the row says how many there were. */
#define _GNU_SOURCE
#include <errno.h>
#include <fcntl.h>
#include <stdio.h>
#include <stdlib.h>
#include <string.h>
#include <strm.h>
#include <sys/resource.h>
#include <time.h>
#include <unistd.h>

enum { KEYS = 100 };

typedef struct cost {
    unsigned long made;
    double bytes, made_ns, typed_ns;
    long descriptors;
} cost;

static char out[8192];

static void die(const char *what)
{
    fprintf(stderr, "sessions: %s\n", what);
    exit(1);
}

static double cpu(void)
{
    struct timespec t;
    clock_gettime(CLOCK_PROCESS_CPUTIME_ID, &t);
    return (double)t.tv_sec * 1e9 + (double)t.tv_nsec;
}

/* How many descriptors are open: the number of the next one tells, as none of a lower number is closed here. */
static long descriptors(void)
{
    int next = dup(0);
    if (next < 0) die("no descriptor is left");
    close(next);
    return next;
}

/* The sum of numbers of a file of the system, in kB, whose lines begin with these words. */
static double kilobytes(const char *file, const char *first, const char *second)
{
    char line[256];
    double sum = 0;
    FILE *f = fopen(file, "r");
    if (!f) return 0;
    while (fgets(line, sizeof line, f))
        if (!strncmp(line, first, strlen(first)) || !strncmp(line, second, strlen(second))) sum += strtod(strchr(line, ':') + 1, NULL);
    fclose(f);
    return sum;
}

static const char *key(int i)
{
    return i % 10 == 9 ? "\r" : "k";
}

/* ------------------------------------------------------------------------------------------------------- terminals of libstrm */

static void done(strm_refusal e)
{
    if (e) die(strm_refusal_name(e));
}

static void drain(strm_pair *p, uint32_t side)
{
    strm_reply r;
    while (strm_ready(p, side) & STRM_CAN_READ) done(strm_read(p, side, out, 4096, &r));
}

static void types(strm_pair *p)
{
    int i;
    strm_reply r;
    for (i = 0; i < KEYS; i++) {
        if (i % 4 == 0) done(strm_restart(p)); /* the entries of four keys have room */
        done(strm_write(p, STRM_MASTER, key(i), 1, &r));
        done(strm_run(p));
        drain(p, STRM_MASTER), drain(p, STRM_SLAVE);
    }
}

static cost terminals(unsigned long count)
{
    strm_pair *all = (strm_pair *)calloc(count, sizeof *all);
    cost is = { count, 0, 0, 0, 0 };
    unsigned long i;
    long open_before = descriptors();
    double before, began;
    if (!all) die("no memory");
    before = kilobytes("/proc/self/status", "VmRSS:", "VmRSS:");
    began = cpu();
    for (i = 0; i < count; i++) done(strm_new(&all[i], STRM_TERMINAL_BLOCKS, 64, 16384)), done(strm_open_terminal(&all[i]));
    is.made_ns = cpu() - began;
    for (i = 0; i < count; i++) types(&all[i]);
    is.typed_ns = cpu() - began - is.made_ns;
    is.bytes = (kilobytes("/proc/self/status", "VmRSS:", "VmRSS:") - before) * 1024;
    is.descriptors = descriptors() - open_before;
    for (i = 0; i < count; i++) strm_free(&all[i]);
    free(all);
    return is;
}

/* ------------------------------------------------------------------------------------------------------- pseudoterminals */

static bool opens(int *master, int *slave)
{
    *master = posix_openpt(O_RDWR | O_NOCTTY);
    if (*master < 0) return false;
    if (grantpt(*master) || unlockpt(*master)) die("no pseudoterminal");
    *slave = open(ptsname(*master), O_RDWR | O_NOCTTY);
    if (*slave < 0) close(*master);
    return *slave >= 0;
}

static void system_types(int master, int slave)
{
    int i;
    for (i = 0; i < KEYS; i++) {
        ssize_t want = i % 10 == 9 ? 2 : 1;
        if (write(master, key(i), 1) != 1) die("a key");
        while (want > 0) want -= read(master, out, (size_t)want);
        if (i % 10 == 9 && read(slave, out, sizeof out) != 10) die("a line");
    }
}

static cost pseudoterminals(unsigned long count)
{
    int(*all)[2] = (int(*)[2])calloc(count, sizeof *all);
    cost is = { 0, 0, 0, 0, 0 };
    unsigned long i;
    double before = kilobytes("/proc/meminfo", "Slab:", "VmallocUsed:"), began = cpu();
    if (!all) die("no memory");
    while (is.made < count && opens(&all[is.made][0], &all[is.made][1])) is.made++;
    is.made_ns = cpu() - began;
    for (i = 0; i < is.made; i++) system_types(all[i][0], all[i][1]);
    is.typed_ns = cpu() - began - is.made_ns;
    is.bytes = (kilobytes("/proc/meminfo", "Slab:", "VmallocUsed:") - before) * 1024;
    is.descriptors = 2 * (long)is.made;
    for (i = 0; i < is.made; i++) close(all[i][1]), close(all[i][0]);
    free(all);
    return is;
}

/* ------------------------------------------------------------------------------------------------------- the table */

static void tells(const char *what, unsigned long wanted, cost is)
{
    double each = is.made ? (double)is.made : 1, keys = each * KEYS;
    printf("| %s | %lu | %lu | %.1f | %.1f | ", what, wanted, is.made, is.bytes / 1e6, is.bytes / each / 1e3);
    printf("%.2f | %.2f | %ld |\n", is.made_ns / each / 1e3, is.typed_ns / keys / 1e3, is.descriptors);
    fflush(stdout);
}

int main(int count, char **words)
{
    static char first[] = "1000", second[] = "10000";
    static char *usual[] = { NULL, first, second };
    struct rlimit most;
    int i;
    if (!getrlimit(RLIMIT_NOFILE, &most)) most.rlim_cur = most.rlim_max, setrlimit(RLIMIT_NOFILE, &most);
    if (count < 2) count = 3, words = usual;
    printf("| What | wanted | made | MB in all | kB each | us to make one | us a keystroke | descriptors |\n|---|---|---|---|---|---|---|---|\n");
    for (i = 1; i < count; i++) {
        unsigned long wanted = strtoul(words[i], NULL, 10);
        tells("terminals", wanted, terminals(wanted));
        tells("pseudoterminals", wanted, pseudoterminals(wanted));
    }
    return 0;
}
