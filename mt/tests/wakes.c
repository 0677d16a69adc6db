/* Whether a wake is lost: threads that sleep, each woken by what another one does, round by round. Nothing else would wake them: where a wake is lost
 * all of them sleep, and no round is made any more.
 *
 *     wakes KIND ROUNDS [STALL]      STALL: so many seconds without a round are a failure (120)
 *
 *   echo         two ends of a pair send a byte to and fro
 *   lock         eight ends call on one pair, each as fast as it can
 *   pairs        16 threads send a byte through one of 4,096 pairs at random, which rest between, and wait for it
 *   descriptors  echo, by poll(2)
 *   answers      the master sets a window, which ptem answers; the slave waits for the signal, and asks the window
 *   hangups      a pair is opened, its slave waits, the master closes
 *   turns        echo without workers: who writes makes the turns
 *   room         one end writes, the other reads, and the pair has blocks for four bytes on their way
 *   flow         the same of 512 bytes each, which flow control holds back
 *
 * All have a journal of 64 entries that begins anew. The last line is 'KIND: N rounds', with the time of each. */
#define _GNU_SOURCE
#include <poll.h>
#include <pthread.h>
#include <stdio.h>
#include <stdlib.h>
#include <strm_mt.h>
#include <time.h>
#include <unistd.h>

enum { MANY = 4096, WAITERS = 16, CALLERS = 8 };

static const strm_choices sizes = { 128, 64, 16384, 0, true };
static unsigned long rounds, made, steps, stall = 120;
static strm_system *of;

static void fails(const char *what, strm_refusal e)
{
    printf("%s: %s\n", what, strm_refusal_name(e));
    exit(1);
}

static void must(strm_refusal e, const char *what)
{
    if (e) fails(what, e);
}

static void steps_on(void)
{
    __atomic_fetch_add(&steps, 1, __ATOMIC_RELAXED);
}

static void made_one(void)
{
    __atomic_fetch_add(&made, 1, __ATOMIC_RELAXED);
    steps_on();
}

/* ------------------------------------------------------------------------------------------------------------- what the kinds have in common */

typedef struct lane {
    strm_end *master, *slave;
} lane;

/* A pair without modules, both sides open. */
static lane opens(void)
{
    lane it;
    uint32_t number;
    must(strm_system_claim(of, &number), "claim");
    must(strm_system_open(of, number, &it.master), "open");
    must(strm_end_unlock(it.master), "unlock");
    must(strm_end_open_slave(it.master, &it.slave), "open the slave");
    steps_on();
    return it;
}

/* Joins both ends and settles: whether what they were told is what the books say. The pair stays claimed. */
static uint32_t settles(lane it)
{
    strm_account all;
    strm_share share;
    must(strm_end_join(it.master, it.slave), "join");
    strm_end_told(it.master, &share);
    must(strm_end_settle(it.master, &all), "settle");
    steps_on();
    if (all.told.written.from_master != all.ms.written || all.told.written.from_slave != all.sm.written) fails("the books say another sum", 0);
    if (all.told.read.from_master != all.ms.gone[STRM_RULE_READ] || all.told.read.from_slave != all.sm.gone[STRM_RULE_READ])
        fails("the books say another sum", 0);
    return share.pair;
}

static void begins_with(size_t pairs, size_t workers, const strm_choices *of_each)
{
    must(strm_system_new(&of, pairs, of_each), "a system");
    if (workers) must(strm_workers_start(of, workers), "workers");
}

static void begins(size_t pairs, size_t workers)
{
    begins_with(pairs, workers, &sizes);
}

static pthread_t starts(void *(*does)(void *), void *with)
{
    pthread_t thread;
    if (pthread_create(&thread, NULL, does, with)) fails("no thread", 0);
    return thread;
}

static void sends(strm_end *end)
{
    size_t taken;
    must(strm_end_write_all(end, "x", 1, -1, &taken), "write");
}

static void takes(strm_end *end)
{
    uint8_t byte[1];
    strm_reply r;
    must(strm_end_read_wait(end, byte, 1, -1, &r), "read");
    if (r.bytes != 1 || byte[0] != 'x') fails("another byte came", 0);
}

/* ------------------------------------------------------------------------------------------------------------- echo, turns */

static void *echoes(void *at)
{
    strm_end *end = (strm_end *)at;
    unsigned long i;
    for (i = 0; i < rounds; i++) takes(end), sends(end);
    return NULL;
}

static void of_echo(void)
{
    lane it;
    pthread_t other;
    unsigned long i;
    begins(1, 1);
    it = opens();
    other = starts(echoes, it.slave);
    for (i = 0; i < rounds; i++) sends(it.master), takes(it.master), made_one();
    pthread_join(other, NULL);
    settles(it);
}

/* The same, and each makes the turns behind its own writes. */
static void carries(strm_end *end)
{
    size_t n;
    sends(end);
    must(strm_end_run(end, &n), "run");
}

static void *carried(void *at)
{
    strm_end *end = (strm_end *)at;
    unsigned long i;
    for (i = 0; i < rounds; i++) takes(end), carries(end);
    return NULL;
}

static void of_turns(void)
{
    lane it;
    pthread_t other;
    unsigned long i;
    begins(1, 0);
    it = opens();
    other = starts(carried, it.slave);
    for (i = 0; i < rounds; i++) carries(it.master), takes(it.master), made_one();
    pthread_join(other, NULL);
    settles(it);
}

/* ------------------------------------------------------------------------------------------------------------- room */

static void *drains(void *at)
{
    strm_end *end = (strm_end *)at;
    unsigned long i;
    for (i = 0; i < rounds; i++) takes(end), made_one();
    return NULL;
}

/* A write asks for 36 blocks, so the fifth waits until a byte is read; no turn comes behind that read. */
static void of_room(void)
{
    strm_choices few = { 40, 64, 16384, 0, true };
    lane it;
    pthread_t other;
    unsigned long i;
    begins_with(1, 1, &few);
    it = opens();
    other = starts(drains, it.slave);
    for (i = 0; i < rounds; i++) sends(it.master);
    pthread_join(other, NULL);
    settles(it);
}

/* ------------------------------------------------------------------------------------------------------------- flow */

static void *floods(void *at)
{
    static const uint8_t piece[512];
    unsigned long i;
    size_t taken;
    for (i = 0; i < rounds; i++) must(strm_end_write_all((strm_end *)at, piece, sizeof piece, -1, &taken), "write");
    return NULL;
}

/* Each read empties the head, behind which a queue waits for room there: the read enables it again. */
static void of_flow(void)
{
    lane it;
    pthread_t other;
    unsigned long came = 0;
    begins(1, 1);
    it = opens();
    other = starts(floods, it.master);
    while (came < rounds * 512) {
        uint8_t some[4096];
        strm_reply r;
        must(strm_end_read_wait(it.slave, some, sizeof some, -1, &r), "read");
        came += r.bytes;
        made_one();
    }
    pthread_join(other, NULL);
    settles(it);
}

/* ------------------------------------------------------------------------------------------------------------- lock */

/* Calls that find what they ask for, or don't: each visit frees the lock, and some change nothing. */
static void *calls(void *at)
{
    strm_end *end = (strm_end *)at;
    unsigned long i, each = rounds / CALLERS + 1;
    for (i = 0; i < each; i++) {
        uint8_t some[64];
        strm_reply r;
        size_t messages, bytes;
        strm_refusal e = strm_end_write(end, "abc", 3, &r);
        if (e && e != STRM_EAGAIN && e != STRM_ENOSR) fails("write", e);
        e = strm_end_read(end, some, sizeof some, &r);
        if (e && e != STRM_EAGAIN) fails("read", e);
        must(strm_end_nread(end, &messages, &bytes), "nread");
        made_one();
    }
    return NULL;
}

static void of_lock(void)
{
    lane it;
    strm_end *end[CALLERS];
    pthread_t thread[CALLERS];
    int i;
    begins(1, 1);
    it = opens();
    for (i = 0; i < CALLERS; i++) must(strm_end_split(i % 2 ? it.master : it.slave, &end[i]), "split");
    for (i = 0; i < CALLERS; i++) thread[i] = starts(calls, end[i]);
    for (i = 0; i < CALLERS; i++) pthread_join(thread[i], NULL);
    for (i = 0; i < CALLERS; i++) must(strm_end_join(it.master, end[i]), "join");
    settles(it);
}

/* ------------------------------------------------------------------------------------------------------------- pairs */

static lane many[MANY];

static void *wanders(void *at)
{
    size_t mine = *(size_t *)at;
    uint64_t state = mine + 1;
    unsigned long i;
    for (i = 0; i < rounds / WAITERS + 1; i++) {
        lane *it;
        state = state * 6364136223846793005u + 1442695040888963407u;
        it = &many[(state >> 33) % (MANY / WAITERS) * WAITERS + mine];
        sends(it->master);
        takes(it->slave);
        made_one();
    }
    return NULL;
}

static void of_pairs(void)
{
    pthread_t thread[WAITERS];
    size_t mine[WAITERS], i;
    begins(MANY, 4);
    for (i = 0; i < MANY; i++) many[i] = opens();
    for (i = 0; i < WAITERS; i++) mine[i] = i, thread[i] = starts(wanders, &mine[i]);
    for (i = 0; i < WAITERS; i++) pthread_join(thread[i], NULL);
    for (i = 0; i < MANY; i++) settles(many[i]);
}

/* ------------------------------------------------------------------------------------------------------------- descriptors */

/* As takes, by poll(2): look, and poll where nothing is there to read. */
static void polls(strm_end *end)
{
    struct pollfd ready = { strm_end_fd(end), POLLIN, 0 };
    uint8_t byte[1];
    uint32_t bits;
    strm_reply r;
    for (;;) {
        must(strm_end_ready(end, &bits), "look");
        if (bits & STRM_CAN_READ) break;
        if (poll(&ready, 1, -1) < 0) fails("poll", 0);
    }
    must(strm_end_read(end, byte, 1, &r), "read");
}

static void *polled(void *at)
{
    strm_end *end = (strm_end *)at;
    unsigned long i;
    for (i = 0; i < rounds; i++) polls(end), sends(end);
    return NULL;
}

static void of_descriptors(void)
{
    lane it;
    pthread_t other;
    unsigned long i;
    begins(1, 1);
    it = opens();
    other = starts(polled, it.slave);
    for (i = 0; i < rounds; i++) sends(it.master), polls(it.master), made_one();
    pthread_join(other, NULL);
    settles(it);
}

/* ------------------------------------------------------------------------------------------------------------- answers */

static strm_winsize window_of(unsigned long round)
{
    strm_winsize size = { (uint16_t)(1 + round % 1000), (uint16_t)(80 + round % 2), 0, 0 };
    return size;
}

/* Waits for each change of the window, asks its size, and says so. */
static void *signalled(void *at)
{
    strm_end *end = (strm_end *)at;
    unsigned long i;
    for (i = 0; i < rounds; i++) {
        strm_winsize wanted = window_of(i), told = { 0, 0, 0, 0 };
        uint8_t numbers[32];
        uint32_t ready;
        size_t n;
        must(strm_end_wait(end, STRM_HAS_SIGNALS, -1, &ready), "wait for a signal");
        must(strm_end_signals(end, numbers, &n), "signals");
        if (n != 1 || numbers[0] != STRM_SIGWINCH) fails("another signal", 0);
        must(strm_end_get_winsize(end, &told, -1), "get a window");
        if (told.rows != wanted.rows || told.columns != wanted.columns) fails("another window", 0);
        sends(end);
    }
    return NULL;
}

static void of_answers(void)
{
    lane it;
    pthread_t other;
    unsigned long i;
    begins(1, 1);
    must(strm_system_terminal(of, &it.master, &it.slave), "a terminal");
    other = starts(signalled, it.slave);
    for (i = 0; i < rounds; i++) {
        strm_winsize size = window_of(i);
        must(strm_end_set_winsize(it.master, &size, -1), "set a window");
        takes(it.master);
        made_one();
    }
    pthread_join(other, NULL);
    settles(it);
}

/* ------------------------------------------------------------------------------------------------------------- hangups */

typedef struct handed {
    uint32_t given, taken; /* rounds */
    strm_end *slave;
    pthread_mutex_t lock;
    pthread_cond_t more;
} handed;

/* Waits for input of slave after slave: it comes to an end. */
static void *hung(void *at)
{
    handed *h = (handed *)at;
    unsigned long i;
    for (i = 0; i < rounds; i++) {
        uint32_t ready;
        strm_end *slave;
        pthread_mutex_lock(&h->lock);
        while (h->given == h->taken) pthread_cond_wait(&h->more, &h->lock);
        slave = h->slave;
        pthread_mutex_unlock(&h->lock);
        must(strm_end_wait(slave, 0, -1, &ready), "wait for a hang-up");
        if (!(ready & STRM_HUNG_UP)) fails("not hung up", 0);
        pthread_mutex_lock(&h->lock);
        h->taken++;
        pthread_cond_broadcast(&h->more);
        pthread_mutex_unlock(&h->lock);
    }
    return NULL;
}

static void of_hangups(void)
{
    handed h = { 0, 0, NULL, PTHREAD_MUTEX_INITIALIZER, PTHREAD_COND_INITIALIZER };
    struct timespec little = { 0, 20000 };
    pthread_t other;
    unsigned long i;
    begins(2, 1);
    other = starts(hung, &h);
    for (i = 0; i < rounds; i++) {
        lane it = opens();
        pthread_mutex_lock(&h.lock);
        h.slave = it.slave;
        h.given++;
        pthread_cond_broadcast(&h.more);
        pthread_mutex_unlock(&h.lock);
        if (i % 3 == 0) nanosleep(&little, NULL); /* the other one sleeps by then, mostly */
        must(strm_end_close(it.master), "close");
        pthread_mutex_lock(&h.lock);
        while (h.taken != h.given) pthread_cond_wait(&h.more, &h.lock);
        pthread_mutex_unlock(&h.lock);
        must(strm_system_release(of, settles(it)), "release");
        made_one();
    }
    pthread_join(other, NULL);
}

/* ------------------------------------------------------------------------------------------------------------- main */

static void *watches(void *at)
{
    unsigned long last = 0, still = 0;
    (void)at;
    for (;;) {
        unsigned long now;
        sleep(1);
        now = __atomic_load_n(&steps, __ATOMIC_RELAXED);
        still = now == last ? still + 1 : 0;
        last = now;
        if (still < stall) continue;
        printf("A WAKE WAS LOST: no round in %lu seconds, behind %lu\n", stall, now);
        fflush(stdout);
        _exit(1);
    }
    return NULL;
}

int main(int count, char **words)
{
    static const struct { const char *name; void (*runs)(void); } kinds[] = {
        { "echo", of_echo }, { "lock", of_lock }, { "pairs", of_pairs }, { "descriptors", of_descriptors },
        { "answers", of_answers }, { "hangups", of_hangups }, { "turns", of_turns }, { "room", of_room }, { "flow", of_flow },
    };
    struct timespec from, to;
    size_t i;
    if (count > 3) stall = strtoul(words[3], NULL, 10);
    for (i = 0; count > 2 && i < sizeof kinds / sizeof *kinds; i++) {
        if (strcmp(words[1], kinds[i].name)) continue;
        rounds = strtoul(words[2], NULL, 10);
        starts(watches, NULL);
        clock_gettime(CLOCK_MONOTONIC, &from);
        kinds[i].runs();
        clock_gettime(CLOCK_MONOTONIC, &to);
        must(strm_system_free(of), "free");
        printf("%s: %lu rounds, %.2f us each\n", words[1], made,
            ((double)(to.tv_sec - from.tv_sec) * 1e6 + (double)(to.tv_nsec - from.tv_nsec) / 1e3) / (double)(made ? made : 1));
        return 0;
    }
    fprintf(stderr, "wakes KIND ROUNDS [STALL]\n");
    return 2;
}
