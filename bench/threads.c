/* Threads at pairs, through libstrm_mt, beside a pseudoterminal of Linux; and beside a Mutex round plain pairs of Rust, whose program is
 * bench/threads.rs.
 *
 *     cc -O2 -Iinclude bench/threads.c libstrm_mt.a -lpthread -o threads && ./threads [BASELINE [ROUNDS]]
 *
 * BASELINE is what rustc -O makes of bench/threads.rs; without it its column is empty. A round is a byte that is written, carried and read; of a
 * terminal of Linux in raw mode, which carries by itself, it is a write and a read, and each thread is a process with one of its own. Rounds (100,000
 * a thread) are made twice: what is told is the second time, the best of five. Then what it takes from a write until the reader, which sleeps, has
 * the byte: by a worker that makes the turn; by the writer's thread that makes it; by one that is woken by poll(2); of a terminal of Linux; of a
 * pipe. The median, and what one of a hundred exceeds, of 20,000. */
#define _GNU_SOURCE
#include <fcntl.h>
#include <poll.h>
#include <pthread.h>
#include <stdio.h>
#include <stdlib.h>
#include <strm_mt.h>
#include <sys/wait.h>
#include <termios.h>
#include <time.h>
#include <unistd.h>

enum { MOST = 4, WAKES = 20000, TIMES = 5 };

static unsigned long rounds = 100000;
static const strm_choices sizes = { 256, 4096, 262144, 0, true };

static void fails(const char *what)
{
    printf("%s\n", what);
    exit(1);
}

static void must(strm_refusal e, const char *what)
{
    if (!e) return;
    printf("%s: %s\n", what, strm_refusal_name(e));
    exit(1);
}

static double now(void)
{
    struct timespec t;
    clock_gettime(CLOCK_MONOTONIC, &t);
    return (double)t.tv_sec + (double)t.tv_nsec / 1e9;
}

/* ------------------------------------------------------------------------------------------------------------- rounds */

typedef struct part {
    strm_end *master, *slave;
    unsigned long calls;
    pthread_t thread;
} part;

/* A pair without modules, both sides open. */
static part opens(strm_system *of)
{
    part it = { NULL, NULL, 0, 0 };
    uint32_t number;
    must(strm_system_claim(of, &number), "claim");
    must(strm_system_open(of, number, &it.master), "open");
    must(strm_end_unlock(it.master), "unlock");
    must(strm_end_open_slave(it.master, &it.slave), "open the slave");
    return it;
}

static void *makes_rounds(void *at)
{
    part *p = (part *)at;
    unsigned long i;
    for (i = 0; i < rounds; i++) {
        uint8_t byte[1];
        strm_reply r;
        size_t turns;
        p->calls += strm_end_write(p->master, "z", 1, &r) == STRM_OK;
        must(strm_end_run(p->master, &turns), "turns");
        p->calls += strm_end_read(p->slave, byte, 1, &r) == STRM_OK;
    }
    return NULL;
}

/* The calls a second of so many threads, at a pair each or all on one. */
static double calls_a_second(size_t threads, bool on_one)
{
    part all[MOST];
    strm_system *of;
    double from = 0, calls = 0;
    size_t i, pass;
    must(strm_system_new(&of, MOST, &sizes), "a system");
    for (i = 0; i < threads; i++) {
        if (i == 0 || !on_one) all[i] = opens(of);
        else must(strm_end_split(all[0].master, &all[i].master), "split"), must(strm_end_split(all[0].slave, &all[i].slave), "split");
    }
    for (pass = 0; pass < 2; pass++) {
        from = now(), calls = 0;
        for (i = 0; i < threads; i++) {
            all[i].calls = 0;
            if (pthread_create(&all[i].thread, NULL, makes_rounds, &all[i])) fails("no thread");
        }
        for (i = 0; i < threads; i++) pthread_join(all[i].thread, NULL), calls += (double)all[i].calls;
    }
    from = now() - from;
    for (i = 0; i < threads; i++) strm_end_free(all[i].slave), strm_end_free(all[i].master);
    must(strm_system_free(of), "free");
    return calls / from;
}

/* The same of the program of bench/threads.rs: the least time of both passes less the least of one. */
static double of_baseline(const char *program, size_t threads, bool on_one)
{
    double took[2] = { 1e9, 1e9 };
    int warm, i;
    for (i = 0; i < 2 * TIMES; i++) {
        char words[512];
        size_t pairs = on_one ? 1 : threads;
        double from;
        warm = i % 2;
        snprintf(words, sizeof words, "echo %zu %zu %lu %zu %d | %s pair >/dev/null", pairs, threads / pairs, rounds, rounds * threads * 4 + 64, warm,
            program);
        from = now();
        if (system(words)) fails(program);
        if (now() - from < took[warm]) took[warm] = now() - from;
    }
    return (double)(threads * rounds * 2) / (took[1] - took[0]);
}

/* A terminal of Linux in raw mode. */
static void pseudoterminal(int fd[2])
{
    struct termios modes;
    fd[0] = posix_openpt(O_RDWR | O_NOCTTY);
    if (fd[0] < 0 || grantpt(fd[0]) || unlockpt(fd[0])) fails("no pseudoterminal");
    fd[1] = open(ptsname(fd[0]), O_RDWR | O_NOCTTY);
    if (fd[1] < 0 || tcgetattr(fd[1], &modes)) fails("no slave");
    cfmakeraw(&modes);
    tcsetattr(fd[1], TCSANOW, &modes);
}

/* Processes with one each; on one there are two, of which one writes and one reads. */
static double of_linux(size_t processes, bool on_one)
{
    double from = now();
    int fd[2], status;
    size_t i;
    if (on_one) pseudoterminal(fd);
    for (i = 0; i < processes; i++) {
        unsigned long k;
        char byte;
        if (fork()) continue;
        if (!on_one) pseudoterminal(fd);
        for (k = 0; k < rounds; k++) {
            if (!(on_one && i == 1) && write(fd[0], "z", 1) != 1) _exit(1);
            if (!(on_one && i == 0) && read(fd[1], &byte, 1) != 1) _exit(1);
        }
        _exit(0);
    }
    for (i = 0; i < processes; i++)
        if (wait(&status) < 0 || status) fails("a process failed");
    if (on_one) close(fd[0]), close(fd[1]);
    return (double)((on_one ? 1 : processes) * rounds * 2) / (now() - from);
}

/* ------------------------------------------------------------------------------------------------------------- wakes */

static double stamps[2][WAKES]; /* when a byte was written, and when the reader had it */

/* Who makes the turns; and the reader sleeps in poll(2). */
enum { BY_WORKER = 1, BY_WRITER = 2, BY_POLL = 4 };

typedef struct way {
    int how, to, from; /* descriptors of Linux, else -1 */
    part pair;
    pthread_mutex_t lock;
    pthread_cond_t more;
    unsigned long taken;
} way;

/* Sleeps until a byte is there. */
static void takes(way *w)
{
    uint8_t byte[1];
    uint32_t ready;
    strm_reply r;
    if (w->from >= 0) {
        if (read(w->from, byte, 1) != 1) fails("read");
    } else if (w->how & BY_POLL) {
        struct pollfd fd = { strm_end_fd(w->pair.slave), POLLIN, 0 };
        while (must(strm_end_ready(w->pair.slave, &ready), "look"), !(ready & STRM_CAN_READ)) poll(&fd, 1, -1);
        must(strm_end_read(w->pair.slave, byte, 1, &r), "read");
    } else {
        must(strm_end_read_wait(w->pair.slave, byte, 1, -1, &r), "read");
    }
}

static void *reads(void *at)
{
    way *w = (way *)at;
    unsigned long i;
    for (i = 0; i < WAKES; i++) {
        takes(w);
        stamps[1][i] = now();
        pthread_mutex_lock(&w->lock);
        w->taken = i + 1;
        pthread_cond_signal(&w->more);
        pthread_mutex_unlock(&w->lock);
    }
    return NULL;
}

/* Writes when the reader sleeps: some time behind the byte before. */
static void writes(way *w, unsigned long i)
{
    struct timespec little = { 0, 50000 };
    size_t turns;
    pthread_mutex_lock(&w->lock);
    while (w->taken < i) pthread_cond_wait(&w->more, &w->lock);
    pthread_mutex_unlock(&w->lock);
    nanosleep(&little, NULL);
    stamps[0][i] = now();
    if (w->to >= 0) {
        if (write(w->to, "z", 1) != 1) fails("write");
        return;
    }
    must(strm_end_write_all(w->pair.master, "z", 1, -1, &turns), "write");
    if (w->how & BY_WRITER) must(strm_end_run(w->pair.master, &turns), "turns");
}

static int by_size(const void *a, const void *b)
{
    double x = *(const double *)a, y = *(const double *)b;
    return (x > y) - (x < y);
}

static void of_wakes(const char *name, int how, int to, int from)
{
    static way w;
    strm_system *of = NULL;
    pthread_t reader;
    unsigned long i;
    w.how = how, w.to = to, w.from = from, w.taken = 0;
    pthread_mutex_init(&w.lock, NULL);
    pthread_cond_init(&w.more, NULL);
    if (to < 0) {
        must(strm_system_new(&of, 1, &sizes), "a system");
        if (how & BY_WORKER) must(strm_workers_start(of, 1), "a worker");
        w.pair = opens(of);
    }
    if (pthread_create(&reader, NULL, reads, &w)) fails("no thread");
    for (i = 0; i < WAKES; i++) writes(&w, i);
    pthread_join(reader, NULL);
    for (i = 0; i < WAKES; i++) stamps[1][i] -= stamps[0][i];
    qsort(stamps[1], WAKES, sizeof stamps[1][0], by_size);
    printf("| %s | %.1f | %.1f |\n", name, stamps[1][WAKES / 2] * 1e6, stamps[1][WAKES - WAKES / 100] * 1e6);
    if (!of) return;
    strm_end_free(w.pair.master), strm_end_free(w.pair.slave);
    must(strm_system_free(of), "free");
}

static double most(double a, double b)
{
    return a > b ? a : b;
}

int main(int count, char **words)
{
    static const struct { const char *name; size_t threads; bool on_one; } rows[] = {
        { "1", 1, false }, { "2, a pair each", 2, false }, { "4, a pair each", 4, false },
        { "2, on one pair", 2, true }, { "4, on one pair", 4, true },
    };
    int pty[2], both[2];
    size_t i, k;
    if (count > 2) rounds = strtoul(words[2], NULL, 10);
    printf("| threads | calls a second | a Mutex round the baseline | a Linux pty, a process each |\n|---|---|---|---|\n");
    for (i = 0; i < sizeof rows / sizeof *rows; i++) {
        double ours = 0, linux_ = 0;
        for (k = 0; k < TIMES; k++) {
            ours = most(ours, calls_a_second(rows[i].threads, rows[i].on_one));
            if (!rows[i].on_one || rows[i].threads == 2) linux_ = most(linux_, of_linux(rows[i].threads, rows[i].on_one));
        }
        printf("| %s | %.0f | ", rows[i].name, ours);
        if (count > 1) printf("%.0f", of_baseline(words[1], rows[i].threads, rows[i].on_one));
        if (linux_ > 0) printf(" | %.0f |\n", linux_);
        else printf(" | |\n");
        fflush(stdout);
    }
    pseudoterminal(pty);
    if (pipe(both)) fails("no pipe");
    printf("\n| from a write until a sleeping reader has it | median, us | 99 of 100 below, us |\n|---|---|---|\n");
    of_wakes("a worker makes the turn", BY_WORKER, -1, -1);
    of_wakes("the writer makes it", BY_WRITER, -1, -1);
    of_wakes("the same, woken by poll(2)", BY_WRITER | BY_POLL, -1, -1);
    of_wakes("a Linux pty", 0, pty[0], pty[1]);
    of_wakes("a pipe", 0, both[1], both[0]);
    return 0;
}
