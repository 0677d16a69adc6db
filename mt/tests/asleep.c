/* Whether a wait costs time of the processor: 100 threads wait for input of 50 terminals, by ends of the master and of the slave, four workers for
 * work, and one thread by poll(2), while nothing happens for some seconds.
 *
 *     asleep [SECONDS [MOST]]      3 seconds; a failure where more than MOST (30) milliseconds of the processor were used
 */
#define _GNU_SOURCE
#include <poll.h>
#include <pthread.h>
#include <stdio.h>
#include <stdlib.h>
#include <strm_mt.h>
#include <sys/resource.h>
#include <unistd.h>

enum { TERMINALS = 50, WORKERS = 4 };

static uint32_t waiting;

static void must(strm_refusal e, const char *what)
{
    if (!e) return;
    printf("%s: %s\n", what, strm_refusal_name(e));
    exit(1);
}

static void *waits(void *at)
{
    uint32_t ready;
    strm_refusal e;
    __atomic_fetch_add(&waiting, 1, __ATOMIC_SEQ_CST);
    e = strm_end_wait((strm_end *)at, STRM_CAN_READ, -1, &ready);
    if (e != STRM_ENXIO) must(e, "wait");
    return NULL;
}

static void *polls(void *at)
{
    struct pollfd fd = { strm_end_fd((strm_end *)at), POLLIN, 0 };
    uint32_t ready;
    __atomic_fetch_add(&waiting, 1, __ATOMIC_SEQ_CST);
    while (strm_end_ready((strm_end *)at, &ready) == STRM_OK) poll(&fd, 1, -1);
    return NULL;
}

static double milliseconds(void)
{
    struct rusage used;
    getrusage(RUSAGE_SELF, &used);
    return (double)(used.ru_utime.tv_sec + used.ru_stime.tv_sec) * 1e3 + (double)(used.ru_utime.tv_usec + used.ru_stime.tv_usec) / 1e3;
}

static void starts(pthread_t *thread, void *(*does)(void *), strm_end *end)
{
    if (pthread_create(thread, NULL, does, end)) must(STRM_NO_MEMORY, "a thread");
}

/* Terminals, each with a thread that waits at either side, and an end by which it is hung up; one thread polls. */
static strm_end *end[TERMINALS][2], *hangs_up[TERMINALS], *polled;
static pthread_t thread[TERMINALS][2], poller;

static void opens(strm_system *of)
{
    int i, k;
    for (i = 0; i < TERMINALS; i++) {
        must(strm_system_terminal(of, &end[i][0], &end[i][1]), "a terminal");
        must(strm_end_split(end[i][0], &hangs_up[i]), "split");
        for (k = 0; k < 2; k++) starts(&thread[i][k], waits, end[i][k]);
    }
    must(strm_end_split(hangs_up[0], &polled), "split");
    starts(&poller, polls, polled);
}

/* All wake: the slaves are hung up, the masters closed. */
static void closes(void)
{
    int i, k;
    for (i = 0; i < TERMINALS; i++) must(strm_end_close(hangs_up[i]), "close");
    for (i = 0; i < TERMINALS; i++)
        for (k = 0; k < 2; k++) pthread_join(thread[i][k], NULL);
    pthread_join(poller, NULL);
    strm_end_free(polled);
    for (i = 0; i < TERMINALS; i++) {
        for (k = 0; k < 2; k++) strm_end_free(end[i][k]);
        strm_end_free(hangs_up[i]);
    }
}

int main(int count, char **words)
{
    unsigned seconds = count > 1 ? (unsigned)atoi(words[1]) : 3;
    double most = count > 2 ? atof(words[2]) : 30, used;
    strm_choices sizes = { 128, 64, 16384, 0, true };
    strm_system *of;
    must(strm_system_new(&of, TERMINALS, &sizes), "a system");
    must(strm_workers_start(of, WORKERS), "workers");
    opens(of);
    while (__atomic_load_n(&waiting, __ATOMIC_SEQ_CST) < 2 * TERMINALS + 1) usleep(1000);
    sleep(1); /* they have said that they will wait, and by now they do */
    used = milliseconds();
    sleep(seconds);
    used = milliseconds() - used;
    closes();
    must(strm_system_free(of), "free");
    printf("%d threads and %d workers asleep for %u seconds: %.2f ms of the processor\n", 2 * TERMINALS + 1, WORKERS, seconds, used);
    return used > most;
}
