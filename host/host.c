/* A host's beginning and end, and what is asked of it beside a pump. */
#define _GNU_SOURCE
#include <errno.h>
#include <fcntl.h>
#include <poll.h>
#include <signal.h>
#include <stddef.h>
#include <stdio.h>
#include <stdlib.h>
#include <string.h>
#include <sys/epoll.h>
#include <sys/ioctl.h>
#include <sys/random.h>
#include <sys/socket.h>
#include <sys/syscall.h>
#include <sys/un.h>
#include <sys/wait.h>
#include <termios.h>
#include <unistd.h>

#include "inner.h"

extern char **environ;

/* What Linux has in modes where System V says nothing: 38400 baud, eight bits, and a DISCARD key. */
#define LINUX_CFLAG 0xbfu
#define GRACE_MS 100

/* ------------------------------------------------------------------------------------------------------------- the terminal */

static int told(strm_refusal e) { return e ? strm_host_errno(e) : 0; }

/* The modes that the pair has; and what is the host's from now on. */
static int takes_over(strm_host *h, const strm_winsize *size)
{
    uint8_t numbers[32];
    size_t n;
    uint32_t pending = 0;
    strm_books books;
    strm_refusal e = strm_tcgetattr(h->pair, STRM_SLAVE, &h->modes);
    if (e) return e & STRM_NAKED ? EINVAL : told(e);
    if (!h->modes.cflag) {
        h->modes.cflag = LINUX_CFLAG, h->modes.cc[VDISCARD] = 'O' & 31;
        e = host_sets(h, STRM_TCSETS, &h->modes, &pending);
    }
    if (!e && size) e = host_sizes(h, STRM_MASTER, size, &pending);
    if (!e) e = strm_signals(h->pair, STRM_SLAVE, numbers, &n);
    if (!e) e = strm_ledger(h->pair, STRM_MASTER, &books);
    if (e) return told(e);
    h->signal_keys = books.gone[STRM_RULE_SIGNAL_KEY];
    h->signalled = false;
    h->vmin = 1;
    return 0;
}

static int opens_terminal(strm_host *h)
{
    char name[64];
    int on = 1;
    strm_winsize w;
    struct winsize k;
    h->master = posix_openpt(O_RDWR | O_NOCTTY | O_CLOEXEC | O_NONBLOCK);
    if (h->master < 0 || grantpt(h->master) || unlockpt(h->master) || ptsname_r(h->master, name, sizeof name)) return errno;
    h->slave = open(name, O_RDWR | O_NOCTTY | O_CLOEXEC);
    h->taken = fcntl(h->master, F_DUPFD_CLOEXEC, 0);
    if (h->slave < 0 || h->taken < 0 || ioctl(h->slave, TIOCGDEV, &h->device) || host_mirrors(h) || ioctl(h->master, TIOCPKT, &on)) return errno;
    if (!strm_get_winsize(h->pair, STRM_SLAVE, &w)) {
        k.ws_row = w.rows, k.ws_col = w.columns, k.ws_xpixel = w.width, k.ws_ypixel = w.height;
        ioctl(h->master, TIOCSWINSZ, &k);
    }
    return 0;
}

static int listens(strm_host *h, char *name)
{
    struct sockaddr_un at;
    unsigned char chance[8] = { 0 };
    socklen_t n;
    memset(&at, 0, sizeof at);
    at.sun_family = AF_UNIX;
    if (getrandom(chance, sizeof chance, 0) != (ssize_t)sizeof chance) return errno;
    n = (socklen_t)snprintf(name, HOST_NAME_MAX, "strm_host/%ld/%02x%02x%02x%02x%02x%02x%02x%02x", (long)getpid(), chance[0], chance[1], chance[2],
                            chance[3], chance[4], chance[5], chance[6], chance[7]);
    memcpy(at.sun_path + 1, name, n);
    h->listens = socket(AF_UNIX, SOCK_SEQPACKET | SOCK_CLOEXEC | SOCK_NONBLOCK, 0);
    n += (socklen_t)offsetof(struct sockaddr_un, sun_path) + 1;
    if (h->listens < 0 || bind(h->listens, (struct sockaddr *)&at, n) || listen(h->listens, 64)) return errno;
    return 0;
}

static int watches(strm_host *h)
{
    h->ready = epoll_create1(EPOLL_CLOEXEC);
    if (h->ready < 0) return errno;
    host_watches(h, h->master, EPOLLIN, true);
    host_watches(h, h->taken, 0, true);
    host_watches(h, h->listens, EPOLLIN, true);
    h->ends = -1;
#ifdef SYS_pidfd_open
    h->ends = (int)syscall(SYS_pidfd_open, h->child, 0);
    if (h->ends >= 0) {
        fcntl(h->ends, F_SETFD, FD_CLOEXEC);
        host_watches(h, h->ends, EPOLLIN, true);
    }
#endif
    if (h->ends < 0) host_beats(h);
    return 0;
}

void host_reopens(strm_host *h)
{
    char name[64];
    int fd = ptsname_r(h->master, name, sizeof name) ? -1 : open(name, O_RDWR | O_NOCTTY | O_CLOEXEC);
    if (fd < 0) return;
    close(h->slave);
    h->slave = fd;
    host_mirrors(h);
}

/* ------------------------------------------------------------------------------------------------------------- the program */

static void closes_from(int first)
{
    int fd;
#ifdef SYS_close_range
    if (!syscall(SYS_close_range, (unsigned)first, ~0u, 0u)) return;
#endif
    for (fd = first; fd < 1024; fd++) close(fd);
}

/* In the child: the terminal is its own, signals are as login(1) leaves them, and no other descriptor is open. */
static void becomes(strm_host *h, char *const words[], char **environment, int says)
{
    struct sigaction usual;
    sigset_t none;
    int n, fd, slave = fcntl(h->slave, F_DUPFD, 10);
    says = fcntl(says, F_DUPFD_CLOEXEC, 10);
    memset(&usual, 0, sizeof usual);
    usual.sa_handler = SIG_DFL;
    for (n = 1; n < NSIG; n++) sigaction(n, &usual, NULL);
    if (setsid() >= 0 && !ioctl(slave, TIOCSCTTY, 0)) {
        for (fd = 0; fd < 3; fd++) dup2(slave, fd);
        says = dup3(says, 3, O_CLOEXEC);
        closes_from(4);
        sigemptyset(&none);
        sigprocmask(SIG_SETMASK, &none, NULL);
        environ = environment;
        execvp(words[0], words);
    }
    n = errno;
    while (write(says, &n, sizeof n) < 0 && errno == EINTR) {}
    _exit(127);
}

static int starts(strm_host *h, char *const words[], char **environment)
{
    sigset_t all, before;
    int ways[2], why = 0;
    ssize_t n;
    if (pipe2(ways, O_CLOEXEC)) return errno;
    sigfillset(&all);
    pthread_sigmask(SIG_SETMASK, &all, &before);
    h->child = fork();
    if (!h->child) becomes(h, words, environment, ways[1]);
    if (h->child < 0) why = errno;
    pthread_sigmask(SIG_SETMASK, &before, NULL);
    close(ways[1]);
    if (h->child > 0) {
        while ((n = read(ways[0], &why, sizeof why)) < 0 && errno == EINTR) {}
        if (n > 0) {
            while (waitpid(h->child, &h->status, 0) < 0 && errno == EINTR) {}
            h->reaped = true;
        }
    }
    close(ways[0]);
    return why;
}

int strm_host_spawn(strm_host **made, strm_pair *pair, char *const words[], char *const environment[], const strm_winsize *size)
{
    char shim[4096], name[HOST_NAME_MAX];
    char **words_of = NULL;
    strm_host *h = calloc(1, sizeof *h);
    int why;
    if (!h) return ENOMEM;
    h->pair = pair, h->reaped = true;
    h->master = h->slave = h->taken = h->listens = h->ready = h->ends = h->timer = -1;
    why = host_shim(shim, sizeof shim);
    if (!why) why = takes_over(h, size);
    if (!why) why = opens_terminal(h);
    if (!why) why = listens(h, name);
    if (!why && !(words_of = host_environment(environment ? environment : environ, shim, h->device, name))) why = ENOMEM;
    h->reaped = false;
    if (!why) why = starts(h, words, words_of);
    if (why) h->reaped = true;
    if (!why) why = watches(h);
    free(words_of);
    if (why) strm_host_close(h);
    else *made = h;
    return why;
}

/* ------------------------------------------------------------------------------------------------------------- what is asked */

int strm_host_fd(const strm_host *h) { return h->ready; }

pid_t strm_host_pid(const strm_host *h) { return h->child; }

bool strm_host_ended(const strm_host *h)
{
    strm_standing processed = { 0, 0 }, driven = { 0, 0 };
    if (!h->reaped || !h->drained || h->down_at != h->down_n || strm_enabled(h->pair, 0) != STRM_NO_QUEUE) return false;
    strm_sizes(h->pair, STRM_S_LDTERM_W, &processed);
    strm_sizes(h->pair, STRM_S_DRV_W, &driven);
    return !processed.messages && !driven.messages;
}

pid_t strm_host_group(const strm_host *h)
{
    pid_t group = 0;
    return ioctl(h->master, TIOCGPGRP, &group) || group < 0 ? 0 : group;
}

int strm_host_kill(strm_host *h, int signal)
{
    pid_t group = strm_host_group(h);
    if (group <= 0 || h->reaped) return ESRCH;
    return kill(-group, signal) ? errno : 0;
}

int strm_host_wait(strm_host *h, int *status)
{
    /* It has ended too where its status isn't to be had: the caller ignores SIGCHLD, or waits for any child elsewhere. */
    if (!h->reaped) h->reaped = waitpid(h->child, &h->status, WNOHANG) != 0;
    if (!h->reaped) return EAGAIN;
    *status = h->status;
    return 0;
}

int strm_host_resize(strm_host *h, const strm_winsize *size)
{
    bool behind = h->sizing != 0; /* the one before was asked for, and its answer wasn't here */
    strm_refusal e = host_sizes(h, STRM_MASTER, size, &h->sizing);
    if (!e && behind) e = host_sizes(h, STRM_MASTER, size, &h->sizing);
    if (!e) e = host_signals(h);
    return told(e);
}

void strm_host_tcgetattr(const strm_host *h, strm_termios *t) { *t = h->modes; }

int strm_host_tcsetattr(strm_host *h, const strm_termios *t)
{
    bool behind = h->setting != 0;
    strm_refusal e = host_sets(h, STRM_TCSETS, t, &h->setting);
    if (!e && behind) e = host_sets(h, STRM_TCSETS, t, &h->setting);
    if (e) return told(e);
    h->modes = *t;
    return h->silent || !host_mirrors(h) ? 0 : errno;
}

/* ------------------------------------------------------------------------------------------------------------- the end */

static void closes(int *fd)
{
    if (*fd >= 0) close(*fd);
    *fd = -1;
}

/* Waits a little for who was hung up, and kills who stays. */
static void buries(strm_host *h)
{
    int ms;
    for (ms = 0; !h->reaped && ms < GRACE_MS; ms++) {
        if (waitpid(h->child, &h->status, WNOHANG)) h->reaped = true;
        else poll(NULL, 0, 1);
    }
    if (h->reaped) return;
    kill(h->child, SIGKILL);
    while (waitpid(h->child, &h->status, 0) < 0 && errno == EINTR) {}
    h->reaped = true;
}

int strm_host_close(strm_host *h)
{
    size_t k;
    int status;
    if (!h) return 0;
    for (k = 0; k < h->askers; k++) closes(&h->asker[k].fd);
    closes(&h->ready);
    closes(&h->listens);
    closes(&h->taken);
    closes(&h->slave);
    closes(&h->master);
    buries(h);
    closes(&h->ends);
    closes(&h->timer);
    status = h->status;
    free(h);
    return status;
}
