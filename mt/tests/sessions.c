/* Shell sessions on many terminals, three threads each: one types, one is the shell, one shows; workers make the turns, and one thread audits pairs
 * all the while. Whatever comes between what: at the end of each session its ends are joined and settled, and what they were told is what the pair's
 * books say, as each audit found it too.
 *
 *     sessions [TERMINALS [SESSIONS [SEED]]]
 *
 * An hour of 100 terminals, with a command each five seconds, is 7,200 sessions of ten commands: what is done where no number is given, as fast as it
 * goes. A command is a line with keys struck wrong and erased, output of up to 4,000 bytes, an interrupt, a line typed while output is stopped, a
 * changed window. The last line is 'N sessions, N calls, N bytes: told and books agree', with the memory that is resident. */
#define _GNU_SOURCE
#include <pthread.h>
#include <stdio.h>
#include <stdlib.h>
#include <strm_mt.h>
#include <sys/resource.h>
#include <time.h>
#include <unistd.h>

enum { COMMANDS = 10, WORKERS = 4, STALL = 300 };

typedef struct terminal {
    strm_end *types, *shows, *shell;
    unsigned long sessions;
    uint64_t state; /* of what is typed */
    uint32_t prompts; /* how many were shown in this session */
    pthread_mutex_t lock;
    pthread_cond_t more;
    pthread_barrier_t all;
    pthread_t thread[3];
} terminal;

static strm_system *of;
static uint64_t calls, bytes;
static unsigned long done, audits;
static uint32_t over;

static void fails(const char *what, strm_refusal e)
{
    printf("%s: %s\n", what, strm_refusal_name(e));
    exit(1);
}

static void must(strm_refusal e, const char *what)
{
    if (e) fails(what, e);
}

static uint32_t chance(terminal *t, uint32_t n)
{
    t->state = t->state * 6364136223846793005u + 1442695040888963407u;
    return (uint32_t)(t->state >> 33) % n;
}

static void types_text(terminal *t, const char *text)
{
    size_t taken;
    must(strm_end_write_all(t->types, text, strlen(text), -1, &taken), "type");
}

/* Sleeps until so many prompts were shown. */
static void awaits(terminal *t, uint32_t prompts)
{
    pthread_mutex_lock(&t->lock);
    while (t->prompts < prompts) pthread_cond_wait(&t->more, &t->lock);
    pthread_mutex_unlock(&t->lock);
}

/* ------------------------------------------------------------------------------------------------------------- the three */

/* A command, behind which a prompt is shown. */
static void commands(terminal *t)
{
    static const char *const lines[] = { "make\r", "ls -l\x7f\x7f\x7f\r", "cat nonsense\x15" "cat file\r", "grep x\x17y file\r", "\r" };
    strm_winsize size = { 24, 80, 0, 0 };
    switch (chance(t, 8)) {
    case 0:
        types_text(t, "sleep 100\x03");
        return;
    case 1:
        types_text(t, "\x13make\r");
        types_text(t, "\x11");
        return;
    case 2:
        size.rows = (uint16_t)(1 + chance(t, 100));
        must(strm_end_set_winsize(t->types, &size, -1), "set a window");
        break;
    default: break;
    }
    types_text(t, lines[chance(t, sizeof lines / sizeof *lines)]);
}

static void begins(terminal *t)
{
    must(strm_system_terminal(of, &t->types, &t->shell), "a terminal");
    must(strm_end_split(t->types, &t->shows), "split");
    t->prompts = 0;
}

static void agrees(const strm_account *all)
{
    if (all->told.written.from_master != all->ms.written || all->told.read.from_master != all->ms.gone[STRM_RULE_READ]
        || all->told.written.from_slave != all->sm.written || all->told.read.from_slave != all->sm.gone[STRM_RULE_READ])
        fails("told and books differ", 0);
}

/* Joins the ends of a session and settles its pair. */
static void ends(terminal *t)
{
    strm_share share;
    strm_account all;
    must(strm_end_join(t->shell, t->shows), "join");
    must(strm_end_join(t->shell, t->types), "join");
    strm_end_told(t->shell, &share);
    must(strm_end_settle(t->shell, &all), "settle");
    if (memcmp(&share.told, &all.told, sizeof all.told) != 0) fails("told and account differ", 0);
    agrees(&all);
    must(strm_system_release(of, share.pair), "release");
    __atomic_fetch_add(&calls, all.told.calls, __ATOMIC_RELAXED);
    __atomic_fetch_add(&bytes, all.ms.written + all.sm.written, __ATOMIC_RELAXED);
    __atomic_fetch_add(&done, 1, __ATOMIC_RELAXED);
}

static void *typist(void *at)
{
    terminal *t = (terminal *)at;
    unsigned long i;
    for (i = 0; i < t->sessions; i++) {
        uint32_t k;
        begins(t);
        pthread_barrier_wait(&t->all);
        for (k = 1; k <= COMMANDS; k++) awaits(t, k), commands(t);
        if (chance(t, 2)) awaits(t, k); /* else the last command is hung up upon */
        must(strm_end_close(t->types), "hang up");
        pthread_barrier_wait(&t->all);
        ends(t);
    }
    return NULL;
}

/* Writes, unless it is hung up. */
static bool says(terminal *t, const char *text, size_t n)
{
    size_t taken;
    strm_refusal e = strm_end_write_all(t->shell, text, n, -1, &taken);
    if (e && e != STRM_ENXIO) fails("say", e);
    return !e;
}

/* INTR and QUIT keys flush nothing here, so that no prompt is lost. */
static bool keeps_output(terminal *t)
{
    strm_termios modes;
    strm_refusal e = strm_end_tcgetattr(t->shell, &modes, -1);
    if (!e) {
        modes.lflag |= STRM_NOFLSH;
        e = strm_end_tcsetattr(t->shell, STRM_TCSETSW, &modes, -1);
    }
    if (e && e != STRM_ENXIO) fails("set modes", e);
    return !e;
}

/* Answers what is there: false once it is hung up. */
static bool answers(terminal *t, uint32_t ready)
{
    char out[4096];
    uint8_t numbers[32];
    strm_reply r;
    strm_refusal e;
    size_t n, i;
    if (ready & STRM_HAS_SIGNALS) {
        must(strm_end_signals(t->shell, numbers, &n), "signals");
        for (i = 0; i < n; i++)
            if (numbers[i] == STRM_SIGINT && !says(t, "\n$ ", 3)) return false;
    }
    if (!(ready & STRM_CAN_READ)) return !(ready & STRM_HUNG_UP);
    e = strm_end_read(t->shell, out, sizeof out, &r);
    if (e == STRM_EAGAIN) return true;
    must(e, "read a line");
    if (r.bytes == 0) return false;
    n = (size_t)out[0] * r.bytes * 37 % 4000;
    for (i = 0; i < n; i++) out[i] = i % 60 == 59 ? '\n' : 'o';
    return says(t, out, n) && says(t, "$ ", 2);
}

static void *shell(void *at)
{
    terminal *t = (terminal *)at;
    unsigned long i;
    for (i = 0; i < t->sessions; i++) {
        uint32_t ready;
        bool on;
        pthread_barrier_wait(&t->all);
        on = keeps_output(t) && says(t, "$ ", 2);
        while (on) {
            must(strm_end_wait(t->shell, STRM_CAN_READ | STRM_HAS_SIGNALS, -1, &ready), "wait for input");
            on = answers(t, ready);
        }
        pthread_barrier_wait(&t->all);
    }
    return NULL;
}

/* Takes what is shown, until the side is closed. */
static void *screen(void *at)
{
    terminal *t = (terminal *)at;
    unsigned long i;
    for (i = 0; i < t->sessions; i++) {
        char text[4096];
        strm_reply r;
        strm_refusal e;
        pthread_barrier_wait(&t->all);
        while ((e = strm_end_read_wait(t->shows, text, sizeof text, -1, &r)) == STRM_OK) {
            size_t k;
            uint32_t prompts = 0;
            for (k = 0; k < r.bytes; k++) prompts += text[k] == '$';
            pthread_mutex_lock(&t->lock);
            t->prompts += prompts;
            pthread_cond_signal(&t->more);
            pthread_mutex_unlock(&t->lock);
        }
        if (e != STRM_ENXIO) fails("show", e);
        pthread_barrier_wait(&t->all);
    }
    return NULL;
}

/* ------------------------------------------------------------------------------------------------------------- all of them */

/* Audits pair after pair; and says so where no session ends for long. */
static void *auditor(void *at)
{
    uint32_t pair = 0;
    unsigned long last = 0;
    time_t since = time(NULL);
    (void)at;
    while (!__atomic_load_n(&over, __ATOMIC_SEQ_CST)) {
        struct timespec little = { 0, 200000 };
        unsigned long now = __atomic_load_n(&done, __ATOMIC_RELAXED);
        strm_account all;
        must(strm_system_audit(of, pair, &all), "audit");
        agrees(&all);
        audits++;
        pair = (uint32_t)((pair + 1) % strm_system_pairs(of));
        if (now != last) last = now, since = time(NULL);
        if (time(NULL) - since > STALL) fails("no session ends any more", 0);
        nanosleep(&little, NULL);
    }
    return NULL;
}

static pthread_t starts(void *(*does)(void *), void *with)
{
    pthread_t thread;
    if (pthread_create(&thread, NULL, does, with)) fails("no thread", 0);
    return thread;
}

static void terminals(terminal *t, size_t count, unsigned long sessions, uint64_t seed)
{
    void *(*const does[3])(void *) = { typist, shell, screen };
    size_t i, k;
    for (i = 0; i < count; i++) {
        t[i].sessions = sessions / count + (i < sessions % count);
        t[i].state = seed * 1000003u + i;
        pthread_mutex_init(&t[i].lock, NULL);
        pthread_cond_init(&t[i].more, NULL);
        pthread_barrier_init(&t[i].all, NULL, 3);
        for (k = 0; k < 3; k++) t[i].thread[k] = starts(does[k], &t[i]);
    }
    for (i = 0; i < count; i++)
        for (k = 0; k < 3; k++) pthread_join(t[i].thread[k], NULL);
}

int main(int count, char **words)
{
    strm_choices sizes = { STRM_TERMINAL_BLOCKS, 64, 16384, 0, true };
    size_t many = count > 1 ? strtoul(words[1], NULL, 10) : 100;
    unsigned long sessions = count > 2 ? strtoul(words[2], NULL, 10) : 7200;
    terminal *all = (terminal *)calloc(many, sizeof *all);
    struct rusage used;
    pthread_t audits_them;
    if (!all) fails("memory", STRM_NO_MEMORY);
    must(strm_system_new(&of, many, &sizes), "a system");
    must(strm_workers_start(of, WORKERS), "workers");
    audits_them = starts(auditor, NULL);
    terminals(all, many, sessions, count > 3 ? strtoul(words[3], NULL, 10) : 1);
    __atomic_store_n(&over, 1, __ATOMIC_SEQ_CST);
    pthread_join(audits_them, NULL);
    must(strm_system_free(of), "free");
    free(all);
    getrusage(RUSAGE_SELF, &used);
    if (done != sessions) fails("sessions are lacking", 0);
    printf("%lu sessions, %llu calls, %llu bytes: told and books agree, as %lu audits found; %ld kB resident at most\n", done,
        (unsigned long long)calls, (unsigned long long)bytes, audits, used.ru_maxrss);
    return 0;
}
