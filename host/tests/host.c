/* Tests of libstrm_host: host PROGRAM [STATIC], by the programs of program.c, the second one linked as a static one. The last line is
 * 'N passed, M failed, K skipped'. */
#define _GNU_SOURCE
#include <errno.h>
#include <fcntl.h>
#include <poll.h>
#include <signal.h>
#include <stdio.h>
#include <stdlib.h>
#include <string.h>
#include <sys/stat.h>
#include <sys/wait.h>
#include <time.h>
#include <unistd.h>

#include <strm_host.h>

#define ROOM 65536
#define LATE 120 /* seconds in which anything comes, on a machine with much else to do too */

static int passed, failed, skipped;
static const char *program, *fixed;

/* A program on a pair, and what it has shown. */
typedef struct session {
    strm_pair pair;
    strm_host *host;
    size_t n;
    bool full; /* the journal was full once */
    char shown[ROOM];
} session;

static double now(void)
{
    struct timespec t;
    clock_gettime(CLOCK_MONOTONIC, &t);
    return (double)t.tv_sec + (double)t.tv_nsec / 1e9;
}

static void is(const char *what, bool holds, const session *s)
{
    static double before;
    double at = now();
    holds ? passed++ : failed++;
    printf("%s %s (%.2f s)\n", holds ? "ok    " : "FAILED", what, before > 0 ? at - before : 0);
    before = at;
    if (!holds && s) printf("       shown: %.*s\n", (int)s->n, s->shown);
}

static void begins(session *s, const char *path, const char *what, const char *more, size_t blocks, size_t entries)
{
    strm_winsize size = { 24, 80, 0, 0 };
    char *words[4];
    int why;
    memset(s, 0, sizeof *s);
    words[0] = (char *)path, words[1] = (char *)what, words[2] = (char *)more, words[3] = NULL;
    if (strm_new(&s->pair, blocks, entries, 262144) || strm_open_terminal(&s->pair)) exit(2);
    why = strm_host_spawn(&s->host, &s->pair, words, NULL, &size);
    if (why) {
        printf("spawn: %s\n", strerror(why));
        exit(2);
    }
}

static void starts(session *s, const char *what, const char *more) { begins(s, program, what, more, 256, 8192); }

/* A pump, with what it shows. */
static uint32_t pumps(session *s)
{
    uint32_t what = 0;
    strm_reply r;
    strm_refusal e = strm_host_pump(s->host, &what);
    if (e == STRM_JOURNAL_FULL) {
        s->full = true;
        strm_restart(&s->pair);
        e = strm_host_pump(s->host, &what);
    }
    if (e && e != STRM_JOURNAL_FULL) printf("       pump: %s\n", strm_refusal_name(e));
    while (s->n + 4096 < ROOM && what & STRM_HOST_SHOWS) {
        e = strm_read(&s->pair, STRM_MASTER, s->shown + s->n, 4096, &r);
        if (e == STRM_JOURNAL_FULL && !strm_restart(&s->pair)) continue;
        if (e) break;
        s->n += r.bytes;
    }
    return what;
}

/* Carries on till the program waits or has ended: whether it did so in time. */
static bool rests(session *s, double seconds)
{
    double end = now() + seconds;
    while (now() < end) {
        struct pollfd p = { strm_host_fd(s->host), POLLIN, 0 };
        if (pumps(s) & (STRM_HOST_MOVED | STRM_HOST_SHOWS)) continue;
        if (strm_host_waits(s->host)) return true;
        poll(&p, 1, 2);
    }
    return false;
}

/* The same by its descriptor alone, without a look at the clock, till a text was shown. */
static bool shows(session *s, const char *text, double seconds)
{
    double end = now() + seconds;
    for (;;) {
        struct pollfd p = { strm_host_fd(s->host), POLLIN, 0 };
        while (pumps(s) & (STRM_HOST_MOVED | STRM_HOST_SHOWS)) {}
        if (memmem(s->shown, s->n, text, strlen(text))) return true;
        if (now() > end || poll(&p, 1, (int)(1000 * seconds)) <= 0) return false;
    }
}

static void types(session *s, const char *keys)
{
    strm_reply r;
    strm_refusal e = strm_write(&s->pair, STRM_MASTER, keys, strlen(keys), &r);
    if (e == STRM_JOURNAL_FULL && !strm_restart(&s->pair)) e = strm_write(&s->pair, STRM_MASTER, keys, strlen(keys), &r);
    if (e) printf("       write: %s\n", strm_refusal_name(e));
}

static bool shown(const session *s, const char *text) { return s->n == strlen(text) && !memcmp(s->shown, text, s->n); }

static int ends(session *s)
{
    int status = -1;
    double end = now() + LATE;
    while (!strm_host_ended(s->host) && now() < end) {
        pumps(s);
        poll(NULL, 0, 1);
    }
    strm_host_wait(s->host, &status);
    strm_host_close(s->host);
    strm_free(&s->pair);
    return status;
}

/* ------------------------------------------------------------------------------------------------------------- tests */

static void lines_go_one_by_one(void)
{
    static const char *const kinds[] = { "lines", "lines", "busy" }, *const naps[] = { "0", "1", "0" };
    static session s;
    int k, joined = 0, ended = 0;
    for (k = 0; k < 200 && ended == k && !joined; k++) {
        starts(&s, kinds[k % 3], naps[k % 3]);
        shows(&s, "> ", LATE);
        types(&s, "one\rtwo\rthree\rfour\r\004");
        shows(&s, "end", LATE);
        joined += !memmem(s.shown, s.n, "[one]", 5) || !memmem(s.shown, s.n, "[two]", 5) || !memmem(s.shown, s.n, "[three]", 7)
                  || !memmem(s.shown, s.n, "[four]", 6) || memchr(s.shown, 4, s.n);
        ended += !ends(&s);
    }
    is("200 sessions: each line is a read of its own, and an EOF key the end of input", !joined && ended == 200, &s);
}

static void modes_stand_in_their_place(void)
{
    static session s;
    static const char *const when[] = { "0", "1", "2" };
    char want[50 * 8 + 1] = "";
    int k;
    for (k = 0; k < 50; k++) strcat(want, "a\r\nb\nc\r\n");
    for (k = 0; k < 3; k++) {
        starts(&s, "turns", when[k]);
        rests(&s, LATE);
        is("output under modes that are taken back at once", shown(&s, want), &s);
        ends(&s);
    }
}

static void a_secret_has_no_echo(const char *path, const char *name)
{
    static session s;
    begins(&s, path, "secret", NULL, 256, 8192);
    shows(&s, "word: ", LATE);
    types(&s, "hus\003h\r");
    rests(&s, LATE);
    is(name, shown(&s, "word: \r\n(hus\003h)\r\n"), &s);
    ends(&s);
}

static void raw_keys(const char *path, const char *name)
{
    static session s;
    begins(&s, path, "raw", NULL, 256, 8192);
    shows(&s, "raw", LATE);
    types(&s, "ab");
    rests(&s, 0.2);
    types(&s, "c");
    shows(&s, ">", LATE);
    types(&s, "\003\004q");
    rests(&s, LATE);
    is(name, shown(&s, "raw<3:abc><3:\003\004q>"), &s);
    ends(&s);
}

static void windows(void)
{
    static session s;
    strm_winsize size = { 30, 100, 0, 0 };
    starts(&s, "window", NULL);
    shows(&s, "ready", LATE);
    strm_host_resize(s.host, &size);
    shows(&s, "again", LATE);
    is("SIGWINCH, by the host and by the program itself", shown(&s, "ready[30 100]again"), &s);
    strm_get_winsize(&s.pair, STRM_SLAVE, &size);
    is("the window that the program set is the pair's", size.rows == 7 && size.columns == 100, &s);
    ends(&s);
}

/* A journal that is full at any call: what was asked comes to its end when it has begun anew. */
static void full_journals(void)
{
    static session s;
    static const char *const when[] = { "0", "1", "2" };
    strm_winsize size = { 30, 100, 0, 0 };
    char want[50 * 8 + 1] = "";
    int whole[2] = { 0, 0 }, fulls = 0, k;
    size_t entries;
    for (k = 0; k < 50; k++) strcat(want, "a\r\nb\nc\r\n");
    for (entries = 16; entries < 80 && whole[0] == (int)entries - 16; entries++) {
        int why;
        begins(&s, program, "window", NULL, 256, entries);
        shows(&s, "ready", LATE);
        while ((why = strm_host_resize(s.host, &size)) == ENOSPC && !strm_restart(&s.pair)) fulls++;
        shows(&s, "again", LATE);
        whole[0] += !why && shown(&s, "ready[30 100]again");
        ends(&s);
    }
    for (entries = 16; entries < 80 && 3 * whole[1] == (int)entries - 16; entries += 3) {
        begins(&s, program, "turns", when[entries % 3], 256, entries);
        rests(&s, LATE);
        whole[1] += shown(&s, want);
        ends(&s);
    }
    is("windows, with journals that are full anywhere", whole[0] == 64 && fulls > 0, &s);
    is("modes, with journals that are full anywhere", whole[1] == 22, &s);
}

static void counts_and_flushes(void)
{
    static session s;
    starts(&s, "count", NULL);
    shows(&s, "> ", LATE);
    types(&s, "one\rtwo\runfinished");
    shows(&s, "[8]", LATE);
    shows(&s, "[0]", LATE);
    types(&s, "three\r");
    rests(&s, LATE);
    is("FIONREAD counts all lines, and TCIFLUSH takes them", memmem(s.shown, s.n, "[8]", 3) && memmem(s.shown, s.n, "[0]", 3)
       && memmem(s.shown, s.n, "[three]", 7), &s);
    ends(&s);
}

static void false_rests(void)
{
    static session s;
    static const char *const asks[] = { "read", "poll", "select", "epoll" };
    double began;
    size_t k;
    for (k = 0; k < sizeof asks / sizeof *asks; k++) {
        starts(&s, "asks", asks[k]);
        began = now();
        is(asks[k], rests(&s, LATE) && now() - began < LATE / 2 && shown(&s, "asks"), &s);
        types(&s, "x\r");
        ends(&s);
    }
    starts(&s, "asks", "nap");
    is("a poll with a time-out is no rest", rests(&s, LATE) && shown(&s, "askslate"), &s);
    types(&s, "x\r");
    ends(&s);
}

static void interrupts(void)
{
    static session s;
    int status;
    starts(&s, "lines", "0");
    shows(&s, "> ", LATE);
    types(&s, "abc\003");
    status = ends(&s);
    is("an INTR key", WIFSIGNALED(status) && WTERMSIG(status) == SIGINT, &s);
    starts(&s, "lines", "0");
    shows(&s, "> ", LATE);
    is("kill", !strm_host_kill(s.host, SIGTERM), &s);
    status = ends(&s);
    is("and its status", WIFSIGNALED(status) && WTERMSIG(status) == SIGTERM, &s);
}

static void small_pools(void)
{
    static session s;
    static const size_t blocks[] = { 36, 40, 64 };
    size_t k, n;
    for (k = 0; k < 3; k++) {
        size_t total = 0;
        begins(&s, program, "floods", "64", blocks[k], 256);
        for (n = 0; n < 1000000 && !(pumps(&s) & STRM_HOST_ENDED); n++) total += s.n, s.n = 0;
        total += s.n;
        is("a pool that is small, and a journal: all bytes come", total == 64 * (4096 + 64) && s.full, NULL);
        ends(&s);
    }
}

static void terminals_that_are_taken(void)
{
    static session s;
    int status;
    starts(&s, "takes", NULL);
    if (!shows(&s, "> ", LATE)) {
        status = ends(&s);
        if (WIFEXITED(status) && WEXITSTATUS(status) == 77) skipped++, printf("skipped vhangup(2): no right to it\n");
        else is("a terminal that was taken by vhangup(2)", false, &s);
        return;
    }
    types(&s, "one\rtwo\r\004");
    shows(&s, "end", LATE);
    is("a terminal that was taken by vhangup(2)", memmem(s.shown, s.n, "[one]", 5) && memmem(s.shown, s.n, "[two]", 5), &s);
    ends(&s);
}

static void who_outlives_the_program(void)
{
    static session s;
    char fifo[] = "/tmp/strmXXXXXX";
    char *words[] = { (char *)"sh", (char *)"-c", (char *)"trap '' HUP; (read x <$0; echo late) & echo first", fifo, NULL };
    int told = mkstemp(fifo);
    memset(&s, 0, sizeof s);
    close(told);
    unlink(fifo);
    if (told < 0 || mkfifo(fifo, 0600)) exit(2);
    if (strm_new(&s.pair, 256, 8192, 262144) || strm_open_terminal(&s.pair) || strm_host_spawn(&s.host, &s.pair, words, NULL, NULL)) exit(2);
    while (!strm_host_ended(s.host)) rests(&s, 1);
    is("the end is the program's, not that of its children", shown(&s, "first\r\n"), &s);
    told = open(fifo, O_WRONLY);
    if (write(told, "\n", 1) != 1) exit(2);
    close(told);
    unlink(fifo);
    is("and what they write is carried", shows(&s, "late", LATE), &s);
    strm_host_close(s.host);
    strm_free(&s.pair);
}

static size_t entries_of(session *s)
{
    strm_cursor at = { 0, 0 };
    strm_entry e;
    static uint8_t room[ROOM];
    size_t n = 0;
    while (!strm_next_entry(&s->pair, &at, &e, room, sizeof room)) n++;
    return n;
}

static void an_idle_host_enters_nothing(void)
{
    static session s;
    size_t before;
    int k;
    starts(&s, "lines", "0");
    rests(&s, LATE);
    before = entries_of(&s);
    for (k = 0; k < 1000; k++) pumps(&s), strm_host_waits(s.host);
    is("a thousand pumps of an idle host are no entry", entries_of(&s) == before, NULL);
    types(&s, "\004");
    ends(&s);
}

static void refusals(void)
{
    strm_pair p = STRM_CLOSED;
    strm_host *h = NULL;
    char *none[] = { (char *)"/no/such/program", NULL };
    int fds = dup(0);
    close(fds);
    strm_new(&p, 256, 8192, 262144);
    is("a pair that isn't open", strm_host_spawn(&h, &p, none, NULL, NULL) != 0 && !h, NULL);
    strm_open_terminal(&p);
    is("a program that isn't there", strm_host_spawn(&h, &p, none, NULL, NULL) == ENOENT && !h, NULL);
    setenv("STRM_SHIM", "/no/such/shim", 1);
    is("a shim that isn't there", strm_host_spawn(&h, &p, none, NULL, NULL) == ELIBACC && !h, NULL);
    unsetenv("STRM_SHIM");
    strm_free(&p);
    is("no descriptor is left", dup(0) == fds, NULL);
    close(fds);
    strm_host_close(NULL);
}

static void ends_are_hard(void)
{
    static session s;
    double began;
    pid_t pid;
    starts(&s, "stays", NULL);
    shows(&s, "stays", LATE);
    pid = strm_host_pid(s.host);
    began = now();
    strm_host_close(s.host);
    is("who takes SIGHUP is killed", kill(pid, 0) < 0 && errno == ESRCH && now() - began < LATE / 2, &s);
    strm_free(&s.pair);
    starts(&s, "fails", NULL);
    rests(&s, LATE);
    is("wrong arguments of the program are refused as Linux refuses them", shown(&s, "-1 1 -1 1 -1 1\r\n"), &s);
    ends(&s);
}

static void children_that_nobody_waits_for(void)
{
    static session s;
    int status = -1;
    double end = now() + LATE;
    signal(SIGCHLD, SIG_IGN);
    starts(&s, "lines", "0");
    rests(&s, LATE);
    types(&s, "\004");
    while (!strm_host_ended(s.host) && now() < end) rests(&s, 1);
    is("an end is seen where SIGCHLD is ignored", strm_host_ended(s.host) && !strm_host_wait(s.host, &status) && status == 0, &s);
    signal(SIGCHLD, SIG_DFL);
    strm_host_close(s.host);
    strm_free(&s.pair);
}

int main(int n, char **words)
{
    if (n < 2) return 2;
    program = words[1], fixed = n > 2 ? words[2] : NULL;
    refusals();
    lines_go_one_by_one();
    modes_stand_in_their_place();
    a_secret_has_no_echo(program, "a secret has no echo, and its keys no meaning");
    raw_keys(program, "raw keys, three at least");
    if (fixed) a_secret_has_no_echo(fixed, "a secret of a static program");
    if (fixed) raw_keys(fixed, "raw keys of a static program");
    windows();
    full_journals();
    counts_and_flushes();
    false_rests();
    interrupts();
    small_pools();
    terminals_that_are_taken();
    who_outlives_the_program();
    an_idle_host_enters_nothing();
    ends_are_hard();
    children_that_nobody_waits_for();
    printf("%d passed, %d failed, %d skipped\n", passed, failed, skipped);
    return failed > 0;
}
