/* Storms: threads that make all calls at random at the pairs of a system, each by ends of its own, while workers make turns and others audit, split
 * and join. For a run-time library that looks for races, and for what must hold whatever comes between what.
 *
 *     storm PAIRS THREADS CALLS SEED      THREADS: at each pair
 *
 * At the end all ends of a pair are joined and it is settled: what they were told is what the pair was told, and the sum of what each thread counted.
 * The last line is 'N calls, N refused, settled'. */
#define _GNU_SOURCE
#include <poll.h>
#include <pthread.h>
#include <stdio.h>
#include <stdlib.h>
#include <strm_mt.h>

enum { MOST_PAIRS = 64, MOST_THREADS = 64 };

typedef struct thread {
    strm_end *end;
    uint64_t state, granted, refused;
    unsigned long calls;
    pthread_t thread;
} thread;

static strm_system *of;
static size_t pairs, threads;
static thread every[MOST_PAIRS][MOST_THREADS];

static void fails(const char *what, strm_refusal e)
{
    printf("%s: %s\n", what, strm_refusal_name(e));
    exit(1);
}

static void must(strm_refusal e, const char *what)
{
    if (e) fails(what, e);
}

static uint32_t chance(thread *t, uint32_t n)
{
    t->state = t->state * 6364136223846793005u + 1442695040888963407u;
    return (uint32_t)(t->state >> 33) % n;
}

/* ------------------------------------------------------------------------------------------------------------- calls */

/* A side is closed near the end of a thread's calls only, as what comes behind is refused. */
static uint32_t any_op(thread *t, unsigned long left)
{
    static const uint32_t usual[] = { STRM_OP_WRITE, STRM_OP_READ, STRM_OP_WRITE, STRM_OP_READ, STRM_OP_PUT, STRM_OP_GET, STRM_OP_IOCTL,
        STRM_OP_IOCTL_RESULT, STRM_OP_SIGNALS, STRM_OP_NREAD, STRM_OP_LOOK, STRM_OP_FLUSH, STRM_OP_PUSH, STRM_OP_POP, STRM_OP_MODE };
    if (left < t->calls / 16 && chance(t, 64) == 0) return STRM_OP_CLOSE;
    if (chance(t, 200) == 0) return STRM_OP_UNLOCK;
    return usual[chance(t, sizeof usual / sizeof *usual)];
}

/* A call of any kind, with numbers that fit mostly. */
static void calls(thread *t, unsigned long left)
{
    static const uint8_t keys[] = "ls -l\r\x7f\x15\x03\x04\x11\x13 word\tword\r";
    strm_ask ask = { 0, 0, 0, 0, 0, 0, false, false };
    uint8_t bytes[1200], out[8192];
    size_t n = chance(t, 4) ? chance(t, 40) : chance(t, sizeof bytes), i;
    strm_reply reply;
    strm_refusal e;
    ask.op = any_op(t, left);
    ask.a = chance(t, 8), ask.b = chance(t, 5), ask.c = chance(t, 20);
    if (ask.op == STRM_OP_READ) ask.a = chance(t, 4096);
    if (ask.op == STRM_OP_GET) ask.a = STRM_ANY, ask.b = 64, ask.c = 256;
    if (ask.op == STRM_OP_PUT) n = ask.c + chance(t, 40);
    if (ask.op == STRM_OP_IOCTL) n = ask.a == STRM_TIOCSWINSZ ? 8 : chance(t, 36);
    if (ask.op == STRM_OP_FLUSH) ask.b = chance(t, 2) ? STRM_ANY : ask.b;
    for (i = 0; i < n; i++) bytes[i] = keys[chance(t, sizeof keys - 1)];
    e = strm_end_call(t->end, &ask, bytes, n, out, sizeof out, &reply);
    if (e > STRM_EIO) fails("a refusal without a name", e);
    if (e) t->refused++;
    else t->granted++;
}

/* A cut, whose trace is taken to its end. */
static void cuts(thread *t)
{
    strm_trace trace = STRM_CLOSED;
    strm_cursor at = { 0, 0 };
    strm_entry entry;
    uint8_t bytes[STRM_WRITE_MOST + 8192];
    strm_refusal e;
    size_t length = 0;
    must(strm_end_cut(t->end, &trace), "cut");
    while ((e = strm_end_trace_next(&trace, &at, &entry, bytes, sizeof bytes)) == STRM_OK)
        if (entry.kind > STRM_TURNED) fails("an entry that is neither a call nor a turn", 0);
    if (e != STRM_EAGAIN) fails("an entry of a trace", e);
    e = strm_end_trace_base(&trace, NULL, 0, &length);
    if (e != STRM_EINVAL || length == 0) fails("a base", e);
    strm_end_trace_free(&trace);
}

/* What is done beside calls: splits, waits, turns, looks, audits, cuts. */
static void does(thread *t, uint32_t number)
{
    strm_account all;
    strm_visit visit;
    strm_end *second;
    strm_share share;
    uint32_t ready;
    size_t made;
    struct pollfd fd;
    switch (chance(t, 12)) {
    case 0:
        must(strm_end_split(t->end, &second), "split");
        must(strm_end_join(second, t->end), "join");
        t->end = second;
        break;
    case 1: must(strm_system_turn(of, number, &visit), "turn"); break;
    case 2: strm_system_run(of, number, &made); break;
    case 3: must(strm_system_audit(of, number, &all), "audit"); break;
    case 4: must(strm_end_restart(t->end), "restart"); break;
    case 5:
        fd.fd = strm_end_fd(t->end), fd.events = POLLIN;
        poll(&fd, 1, (int)chance(t, 2));
        strm_end_ready(t->end, &ready);
        break;
    case 6: strm_end_set_group(t->end, chance(t, 3), chance(t, 2) != 0, chance(t, 2) != 0); break;
    case 7: strm_end_told(t->end, &share); break;
    case 8: strm_end_run(t->end, &made); break;
    case 9:
        /* (it opens once the slave was closed, and the master wasn't) */
        if (strm_end_open_slave(t->end, &second)) break;
        t->granted++;
        must(strm_end_join(t->end, second), "join");
        break;
    case 10: cuts(t); break;
    default: strm_end_wait(t->end, chance(t, 32), (int)chance(t, 3), &ready); break;
    }
}

static void *storms(void *at)
{
    thread *t = (thread *)at;
    strm_share share;
    unsigned long i;
    strm_end_told(t->end, &share);
    for (i = 0; i < t->calls; i++) {
        calls(t, t->calls - i);
        if (chance(t, 8) == 0) does(t, share.pair);
    }
    return NULL;
}

/* ------------------------------------------------------------------------------------------------------------- pairs */

/* Opens a terminal; half of the threads at it have ends of the master, half of the slave. */
static void opens(thread *at, uint64_t seed)
{
    strm_end *side[2];
    size_t i;
    must(strm_system_terminal(of, &side[0], &side[1]), "a terminal");
    for (i = 0; i < threads; i++) {
        at[i].end = side[i % 2];
        if (i > 1 || (i == 0 && threads == 1)) must(strm_end_split(side[i % 2], &at[i].end), "split");
        at[i].state = seed * 7919 + i;
    }
    if (threads == 1) must(strm_end_join(at[0].end, side[0]), "join"), must(strm_end_join(at[0].end, side[1]), "join");
}

static void settles(thread *at, uint64_t *granted, uint64_t *refused)
{
    strm_account all, before;
    strm_share share;
    uint64_t sum = 5; /* of strm_system_terminal: two opened, one unlocked, two pushed */
    size_t i;
    for (i = 0; i < threads; i++) sum += at[i].granted, *refused += at[i].refused;
    for (i = 1; i < threads; i++) must(strm_end_join(at[0].end, at[i].end), "join");
    strm_end_told(at[0].end, &share);
    if (share.told.calls != sum) fails("the ends count other calls", 0);
    must(strm_system_audit(of, share.pair, &before), "audit");
    must(strm_end_settle(at[0].end, &all), "settle");
    if (memcmp(&share.told, &all.told, sizeof all.told) != 0) fails("told and account differ", 0);
    if (memcmp(&before.told, &all.told, sizeof all.told) != 0) fails("the audit tells another sum", 0);
    if (all.told.written.from_master != all.ms.written || all.told.written.from_slave != all.sm.written) fails("the books say another sum", 0);
    if (all.told.read.from_master != all.ms.gone[STRM_RULE_READ] || all.told.read.from_slave != all.sm.gone[STRM_RULE_READ])
        fails("the books say another sum", 0);
    must(strm_system_release(of, share.pair), "release");
    *granted += sum;
}

int main(int count, char **words)
{
    strm_choices sizes = { 600, 256, 32768, 0, true };
    uint64_t granted = 0, refused = 0;
    size_t i, k;
    if (count != 5) return 2;
    pairs = strtoul(words[1], NULL, 10), threads = strtoul(words[2], NULL, 10);
    if (pairs < 1 || pairs > MOST_PAIRS || threads < 1 || threads > MOST_THREADS) return 2;
    must(strm_system_new(&of, pairs, &sizes), "a system");
    must(strm_workers_start(of, 2), "workers");
    for (i = 0; i < pairs; i++) {
        opens(every[i], strtoul(words[4], NULL, 10) * 1009 + i);
        for (k = 0; k < threads; k++) every[i][k].calls = strtoul(words[3], NULL, 10);
    }
    for (i = 0; i < pairs; i++)
        for (k = 0; k < threads; k++)
            if (pthread_create(&every[i][k].thread, NULL, storms, &every[i][k])) fails("no thread", 0);
    for (i = 0; i < pairs; i++)
        for (k = 0; k < threads; k++) pthread_join(every[i][k].thread, NULL);
    for (i = 0; i < pairs; i++) settles(every[i], &granted, &refused);
    must(strm_workers_stop(of), "stop the workers");
    must(strm_system_free(of), "free");
    printf("%llu calls, %llu refused, settled\n", (unsigned long long)granted, (unsigned long long)refused);
    return 0;
}
