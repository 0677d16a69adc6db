/* An event loop: one thread serves 30 terminals by poll(2). Of each a user types at a socket, as over a network, and a program runs at another one:
 *
 *   user's socket -> strm_write of the master -> ldterm -> strm_read of the slave -> program's socket
 *   user's socket <- strm_read of the master <- ldterm <- strm_write of the slave <- program's socket
 *
 * No byte is taken from a socket that its pair has no room for (strm_ready), so a user who doesn't read stops the program that writes, and nobody
 * else. Users and programs are processes of their own here, so that they come in any order; what each user sees doesn't depend on it. */
#define _POSIX_C_SOURCE 200809L
#include <errno.h>
#include <fcntl.h>
#include <poll.h>
#include <signal.h>
#include <stdio.h>
#include <stdlib.h>
#include <string.h>
#include <strm.h>
#include <sys/socket.h>
#include <sys/wait.h>
#include <unistd.h>

enum { SESSIONS = 30, COMMANDS = 4, ROOM = 1024 };

/* Bytes on their way between a socket and a side of a pair. */
typedef struct way {
    uint8_t bytes[ROOM];
    size_t from, to;
} way;

/* A side of a pair and its socket, which is -1 once it is closed. `in` goes from the socket to the pair; `over`: no more comes from the socket. */
typedef struct end {
    int fd;
    bool over;
    way in, out;
} end;

typedef struct session {
    strm_pair pair;
    end ends[2];
    pid_t program;
} session;

/* What a user tells at the end. */
typedef struct report {
    int number;
    unsigned lines, bytes, sum;
} report;

static session sessions[SESSIONS];

static void fail(const char *what)
{
    perror(what);
    exit(1);
}

static void check(const char *what, strm_refusal refused)
{
    if (!refused) return;
    fprintf(stderr, "%s: %s\n", what, strm_refusal_name(refused));
    exit(1);
}

/* ------------------------------------------------------------------------------------------------------------- the loop */

static bool is_empty(const way *bytes)
{
    return bytes->from == bytes->to;
}

/* Makes the turns, and leaves room in the journal for the calls behind them: nobody keeps it, so it begins anew. */
static void run(session *s)
{
    strm_left left;
    strm_refusal refused;
    while ((refused = strm_run(&s->pair)) == STRM_JOURNAL_FULL) check("restart", strm_restart(&s->pair));
    check("run", refused);
    check("room", strm_room(&s->pair, &left));
    if (left.entries < 8 || left.bytes < 3 * 8192) check("restart", strm_restart(&s->pair));
}

static bool can(session *s, uint32_t side, uint32_t bits)
{
    return (strm_ready(&s->pair, side) & bits) != 0;
}

static void hang_up(session *s, uint32_t side)
{
    close(s->ends[side].fd);
    s->ends[side].fd = -1;
    check("close", strm_close(&s->pair, side));
}

/* Whether what the side wrote has left its modules. A close takes what stands there. */
static bool has_drained(session *s, uint32_t side)
{
    strm_standing told;
    check("sizes", strm_sizes(&s->pair, side == STRM_MASTER ? STRM_M_LDTERM_W : STRM_S_LDTERM_W, &told));
    return told.messages == 0;
}

/* From the socket, if the pair has room. */
static bool receives(session *s, uint32_t side)
{
    end *e = &s->ends[side];
    ssize_t n;
    if (e->fd < 0 || e->over || !is_empty(&e->in) || !can(s, side, STRM_CAN_WRITE | STRM_HUNG_UP)) return false;
    n = read(e->fd, e->in.bytes, ROOM);
    if (n < 0 && (errno == EAGAIN || errno == EINTR)) return false;
    e->over = n <= 0;
    e->in.from = 0, e->in.to = n > 0 ? (size_t)n : 0;
    return true;
}

/* Into the pair, as much as it takes. Where no more comes the side is closed. */
static bool writes(session *s, uint32_t side)
{
    end *e = &s->ends[side];
    strm_reply r;
    if (e->fd < 0) return false;
    if (can(s, side, STRM_HUNG_UP)) e->in.from = e->in.to;
    if (is_empty(&e->in)) {
        if (!e->over || !has_drained(s, side)) return false;
        hang_up(s, side);
        return true;
    }
    if (!can(s, side, STRM_CAN_WRITE)) return false;
    check("write", strm_write(&s->pair, side, e->in.bytes + e->in.from, e->in.to - e->in.from, &r));
    e->in.from += r.value;
    return true;
}

/* A side read the end of input: the program is gone, the user is, or an EOF key was typed. */
static void ends_input(session *s, uint32_t side)
{
    if (side == STRM_SLAVE && !can(s, side, STRM_HUNG_UP)) {
        shutdown(s->ends[side].fd, SHUT_WR);
        return;
    }
    if (side == STRM_SLAVE) kill(s->program, SIGHUP);
    hang_up(s, side);
}

/* Out of the pair, if what was read before has gone to the socket. */
static bool reads(session *s, uint32_t side)
{
    end *e = &s->ends[side];
    strm_reply r;
    if (e->fd < 0 || !is_empty(&e->out) || !can(s, side, STRM_CAN_READ)) return false;
    check("read", strm_read(&s->pair, side, e->out.bytes, ROOM, &r));
    e->out.from = 0, e->out.to = r.bytes;
    if (r.bytes == 0) ends_input(s, side);
    return true;
}

/* To the socket, as much as it takes. */
static bool sends(session *s, uint32_t side)
{
    end *e = &s->ends[side];
    ssize_t n;
    if (e->fd < 0 || is_empty(&e->out)) return false;
    n = send(e->fd, e->out.bytes + e->out.from, e->out.to - e->out.from, MSG_NOSIGNAL);
    if (n < 0 && (errno == EAGAIN || errno == EINTR)) return false;
    if (n < 0) hang_up(s, side);
    e->out.from = n < 0 ? e->out.to : e->out.from + (size_t)n;
    return true;
}

/* Signals of keys go to the program. */
static void signals(session *s)
{
    uint8_t numbers[32];
    size_t n, i;
    if (!can(s, STRM_SLAVE, STRM_HAS_SIGNALS)) return;
    check("signals", strm_signals(&s->pair, STRM_SLAVE, numbers, &n));
    for (i = 0; i < n; i++) {
        if (strm_host_signal(numbers[i])) kill(s->program, strm_host_signal(numbers[i]));
    }
}

/* All that can be done for a session without waiting. */
static void serve(session *s)
{
    bool moved = true;
    while (moved) {
        uint32_t side;
        moved = false;
        for (side = STRM_MASTER; side <= STRM_SLAVE; side++) {
            moved = receives(s, side) || moved;
            moved = writes(s, side) || moved;
            run(s);
            signals(s);
            moved = reads(s, side) || moved;
            moved = sends(s, side) || moved;
        }
    }
}

/* What a socket is waited for: nothing while the pair has neither bytes for it nor room for its bytes. */
static struct pollfd wants(session *s, uint32_t side)
{
    end *e = &s->ends[side];
    struct pollfd told = { -1, 0, 0 };
    if (e->fd < 0) return told;
    if (!e->over && is_empty(&e->in) && can(s, side, STRM_CAN_WRITE | STRM_HUNG_UP)) told.events |= POLLIN;
    if (!is_empty(&e->out)) told.events |= POLLOUT;
    if (told.events) told.fd = e->fd;
    return told;
}

static void loop(void)
{
    struct pollfd polled[2 * SESSIONS];
    int i;
    for (;;) {
        bool is_over = true;
        for (i = 0; i < SESSIONS; i++) {
            serve(&sessions[i]);
            polled[2 * i] = wants(&sessions[i], STRM_MASTER);
            polled[2 * i + 1] = wants(&sessions[i], STRM_SLAVE);
            is_over = is_over && sessions[i].ends[0].fd < 0 && sessions[i].ends[1].fd < 0;
        }
        if (is_over) return;
        if (poll(polled, 2 * SESSIONS, -1) < 0 && errno != EINTR) fail("poll");
    }
}

/* ------------------------------------------------------------------------------------------------------------- users and programs */

static void say(int fd, const char *text)
{
    size_t n = strlen(text);
    while (n > 0) {
        ssize_t sent = send(fd, text, n, MSG_NOSIGNAL);
        if (sent < 0) _exit(1);
        text += sent, n -= (size_t)sent;
    }
}

/* A program: a prompt, a number that is read, and so many lines. */
static void program(int fd, int number, int reports)
{
    FILE *in = fdopen(fd, "r");
    char line[256], text[96];
    int i;
    (void)reports;
    for (;;) {
        say(fd, "$ ");
        if (!in || !fgets(line, sizeof line, in)) _exit(0);
        for (i = 0; i < atoi(line); i++) {
            snprintf(text, sizeof text, "session %d: line %d of %d, and some words to make it a long one\n", number, i + 1, atoi(line));
            say(fd, text);
        }
    }
}

/* Sees what comes up to the next prompt, or the end. */
static void see(FILE *in, report *told)
{
    int byte, last = 0;
    while ((byte = getc(in)) != EOF) {
        told->bytes++;
        told->lines += byte == '\n';
        told->sum = told->sum * 31 + (unsigned)byte;
        if (last == '$' && byte == ' ') return;
        last = byte;
    }
}

/* A user: types a number with a mistake at each prompt, and ends by an EOF key, by an INTR key, or by hanging up. */
static void user(int fd, int number, int reports)
{
    static const char *const last[] = { "\x04", "\x03", "" };
    FILE *in = fdopen(fd, "r");
    report told = { 0, 0, 0, 0 };
    char keys[32];
    int i;
    told.number = number;
    if (!in) _exit(1);
    for (i = 0; i < COMMANDS; i++) {
        see(in, &told);
        snprintf(keys, sizeof keys, "%dx\x7f\r", (number + 1) * (i + 1) * 3);
        say(fd, keys);
    }
    see(in, &told);
    say(fd, last[number % 3]);
    if (*last[number % 3]) see(in, &told);
    if (write(reports, &told, sizeof told) != (ssize_t)sizeof told) _exit(1);
    _exit(0);
}

/* Starts a process at a socket, and keeps the other end of it in the loop. */
static pid_t start(int number, uint32_t side, void (*plays)(int, int, int), int reports)
{
    int pair[2], i;
    pid_t child;
    if (socketpair(AF_UNIX, SOCK_STREAM, 0, pair)) fail("socketpair");
    child = fork();
    if (child < 0) fail("fork");
    if (child == 0) {
        close(pair[0]);
        for (i = 0; i < SESSIONS; i++) {
            if (sessions[i].ends[0].fd > 0) close(sessions[i].ends[0].fd);
            if (sessions[i].ends[1].fd > 0) close(sessions[i].ends[1].fd);
        }
        plays(pair[1], number, reports);
    }
    close(pair[1]);
    if (fcntl(pair[0], F_SETFL, O_NONBLOCK)) fail("fcntl");
    sessions[number].ends[side].fd = pair[0];
    return child;
}

static const char *ended_by(pid_t program)
{
    int status = 0;
    if (waitpid(program, &status, 0) < 0) fail("waitpid");
    if (!WIFSIGNALED(status)) return "EOF";
    return WTERMSIG(status) == SIGINT ? "INT" : WTERMSIG(status) == SIGHUP ? "HUP" : "?";
}

int main(void)
{
    static report told[SESSIONS];
    int reports[2], i;
    unsigned long bytes = 0;
    report each;
    if (pipe(reports)) fail("pipe");
    for (i = 0; i < SESSIONS; i++) {
        start(i, STRM_MASTER, user, reports[1]);
        sessions[i].program = start(i, STRM_SLAVE, program, reports[1]);
    }
    close(reports[1]);
    for (i = 0; i < SESSIONS; i++) {
        check("pair", strm_new(&sessions[i].pair, STRM_TERMINAL_BLOCKS, 1024, 65536));
        check("terminal", strm_open_terminal(&sessions[i].pair));
    }
    loop();
    while (read(reports[0], &each, sizeof each) == (ssize_t)sizeof each) told[each.number] = each;
    for (i = 0; i < SESSIONS; i++) {
        printf("session %2d: %4u lines, %6u bytes seen, sum %08x, ended by %s\n", i, told[i].lines, told[i].bytes, told[i].sum,
               ended_by(sessions[i].program));
        bytes += told[i].bytes;
        strm_free(&sessions[i].pair);
    }
    printf("%d sessions, %lu bytes\n", SESSIONS, bytes);
    return 0;
}
