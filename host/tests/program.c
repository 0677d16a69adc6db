/* What the tests run on a terminal: each word is something that a program does there. */
#define _GNU_SOURCE
#include <errno.h>
#include <fcntl.h>
#include <poll.h>
#include <signal.h>
#include <stdio.h>
#include <stdlib.h>
#include <string.h>
#include <sys/epoll.h>
#include <sys/ioctl.h>
#include <termios.h>
#include <time.h>
#include <unistd.h>

static volatile sig_atomic_t came;

static void comes(int number) { came = number; }

static void says(const char *text)
{
    size_t n = strlen(text);
    while (n) {
        ssize_t went = write(1, text, n);
        if (went < 0) exit(9);
        text += went, n -= (size_t)went;
    }
}

static void naps(long ms)
{
    struct timespec t = { ms / 1000, ms % 1000 * 1000000 };
    nanosleep(&t, NULL);
}

/* Each read as [bytes], till the end of input; busy between two reads where `ms` says so. */
static int lines(long ms)
{
    char room[512], text[600];
    ssize_t n;
    says("> ");
    while ((n = read(0, room, sizeof room - 1)) > 0) {
        room[n] = 0;
        snprintf(text, sizeof text, "[%.*s]", (int)(room[n - 1] == '\n' ? n - 1 : n), room);
        says(text);
        if (ms) naps(ms);
    }
    says(n < 0 ? "failed" : "end");
    return 0;
}

/* Lines by reads that never sleep. */
static int busy(void)
{
    char room[512], text[600];
    struct pollfd p = { 0, POLLIN, 0 };
    says("> ");
    for (;;) {
        ssize_t n;
        if (poll(&p, 1, 0) <= 0) continue;
        n = read(0, room, sizeof room - 1);
        if (n <= 0) break;
        snprintf(text, sizeof text, "[%.*s]", (int)n - 1, room);
        says(text);
    }
    says("end");
    return 0;
}

static void outputs(int when, tcflag_t on)
{
    struct termios t;
    tcgetattr(0, &t);
    t.c_oflag = on ? t.c_oflag | OPOST : t.c_oflag & ~(tcflag_t)OPOST;
    tcsetattr(0, when, &t);
}

/* Output under modes that are taken back at once. */
static int turns(int when)
{
    int k;
    for (k = 0; k < 50; k++) {
        says("a\n");
        outputs(when, 0);
        says("b\n");
        outputs(when, 1);
        says("c\n");
    }
    return 0;
}

/* A word without echo, as getpass(3) reads it. */
static int secret(void)
{
    struct termios t, before;
    char room[256];
    ssize_t n;
    tcgetattr(0, &before);
    t = before;
    t.c_lflag &= ~(tcflag_t)(ECHO | ISIG);
    tcsetattr(0, TCSAFLUSH, &t);
    says("word: ");
    n = read(0, room, sizeof room);
    tcsetattr(0, TCSAFLUSH, &before);
    says("\n(");
    if (n > 0 && write(1, room, (size_t)n - 1) < 0) return 1;
    says(")\n");
    return 0;
}

/* Keys as they come, three at least, till q. */
static int raw(void)
{
    struct termios t;
    char room[64], text[96];
    ssize_t n = 0;
    tcgetattr(0, &t);
    cfmakeraw(&t);
    t.c_cc[VMIN] = 3;
    tcsetattr(0, TCSANOW, &t);
    says("raw");
    do {
        n = read(0, room, sizeof room);
        snprintf(text, sizeof text, "<%zd:%.*s>", n, (int)n, room);
        says(text);
    } while (n > 0 && room[n - 1] != 'q');
    return 0;
}

static int window(void)
{
    struct winsize w;
    char text[64];
    sigset_t none, held;
    sigemptyset(&none), sigemptyset(&held), sigaddset(&held, SIGWINCH);
    sigprocmask(SIG_BLOCK, &held, NULL); /* it comes while the program waits, and not in front of that */
    signal(SIGWINCH, comes);
    says("ready");
    while (!came) sigsuspend(&none);
    ioctl(0, TIOCGWINSZ, &w);
    snprintf(text, sizeof text, "[%d %d]", w.ws_row, w.ws_col);
    says(text);
    came = 0, w.ws_row = 7;
    ioctl(0, TIOCSWINSZ, &w);
    while (!came) sigsuspend(&none);
    says("again");
    return 0;
}

/* How much is there to read, and what a flush leaves. */
static int count(void)
{
    int n = -1;
    char text[64], room[64];
    says("> ");
    while (ioctl(0, FIONREAD, &n) || n < 8) naps(1);
    naps(50);
    ioctl(0, FIONREAD, &n);
    snprintf(text, sizeof text, "[%d]", n);
    says(text);
    tcflush(0, TCIFLUSH);
    ioctl(0, FIONREAD, &n);
    snprintf(text, sizeof text, "[%d]", n);
    says(text);
    n = (int)read(0, room, sizeof room);
    snprintf(text, sizeof text, "[%.*s]", n - 1, room);
    says(text);
    return 0;
}

static int fails(void)
{
    struct termios t = { 0 };
    char text[128];
    int a = tcsetattr(0, 77, &t), b = a < 0 ? errno : 0, c = tcgetattr(99, &t), d = errno, e = ioctl(0, TCFLSH, 9), f = errno;
    snprintf(text, sizeof text, "%d %d %d %d %d %d\n", a, b == EINVAL, c, d == EBADF, e, f == EINVAL);
    says(text);
    return 0;
}

/* Asks in different ways. */
static int asks(const char *how)
{
    char c;
    struct pollfd p = { 0, POLLIN, 0 };
    struct epoll_event e = { EPOLLIN, { 0 } };
    int ready;
    fd_set set;
    says("asks");
    FD_ZERO(&set);
    FD_SET(0, &set);
    if (!strcmp(how, "poll")) poll(&p, 1, -1);
    if (!strcmp(how, "select")) select(1, &set, NULL, NULL, NULL);
    if (!strcmp(how, "epoll")) {
        ready = epoll_create1(0);
        epoll_ctl(ready, EPOLL_CTL_ADD, 0, &e);
        epoll_wait(ready, &e, 1, -1);
    }
    if (!strcmp(how, "nap")) poll(&p, 1, 400), says("late");
    return read(0, &c, 1) < 0;
}

static int floods(long n, unsigned line)
{
    static char text[4096];
    size_t k;
    for (k = 0; k < sizeof text; k++) text[k] = k % line == line - 1 ? '\n' : 'x';
    for (; n > 0; n--)
        if (write(1, text, sizeof text) != (ssize_t)sizeof text) return 1;
    return 0;
}

/* Takes the terminal from all who have it, as login(1) does, and opens it again. */
static int takes(void)
{
    char name[64];
    int fd;
    snprintf(name, sizeof name, "%s", ttyname(0));
    signal(SIGHUP, SIG_IGN);
    if (vhangup()) return 77;
    fd = open(name, O_RDWR);
    dup2(fd, 0), dup2(fd, 1), dup2(fd, 2);
    return lines(0);
}

static int stays(void)
{
    signal(SIGHUP, SIG_IGN);
    says("stays");
    while (pause()) {}
    return 0;
}

int main(int n, char **words)
{
    const char *what = n > 1 ? words[1] : "", *more = n > 2 ? words[2] : "0";
    if (!strcmp(what, "lines")) return lines(atol(more));
    if (!strcmp(what, "busy")) return busy();
    if (!strcmp(what, "turns")) return turns(atoi(more));
    if (!strcmp(what, "secret")) return secret();
    if (!strcmp(what, "raw")) return raw();
    if (!strcmp(what, "window")) return window();
    if (!strcmp(what, "count")) return count();
    if (!strcmp(what, "fails")) return fails();
    if (!strcmp(what, "asks")) return asks(more);
    if (!strcmp(what, "floods")) return floods(atol(more), n > 3 ? (unsigned)atoi(words[3]) : 64);
    if (!strcmp(what, "takes")) return takes();
    if (!strcmp(what, "stays")) return stays();
    return 2;
}
