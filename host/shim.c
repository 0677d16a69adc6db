/* libstrm_shim.so, preloaded into programs: the modes of one terminal are those that its host keeps. All other calls go to the system as they are. */
#define _GNU_SOURCE
#include <asm/ioctls.h>
#include <dlfcn.h>
#include <errno.h>
#include <signal.h>
#include <stdarg.h>
#include <stddef.h>
#include <stdio.h>
#include <stdlib.h>
#include <string.h>
#include <sys/socket.h>
#include <sys/syscall.h>
#include <sys/un.h>
#include <termios.h>
#include <unistd.h>

#include "asks.h"

#define SHOWN __attribute__((visibility("default")))
#ifndef TIOCGDEV
#define TIOCGDEV _IOR('T', 0x32, unsigned int)
#endif

static unsigned device;
static struct sockaddr_un at;
static socklen_t at_size;

__attribute__((constructor)) static void begins(void)
{
    const char *told = getenv(HOST_TTY);
    char name[HOST_NAME_MAX];
    if (!told || sscanf(told, "%u %63s", &device, name) != 2) {
        device = 0;
        return;
    }
    at.sun_family = AF_UNIX;
    memcpy(at.sun_path + 1, name, strlen(name));
    at_size = (socklen_t)(offsetof(struct sockaddr_un, sun_path) + 1 + strlen(name));
}

static int real(int fd, unsigned long request, void *p) { return (int)syscall(SYS_ioctl, fd, request, p); }

static int ours(int fd)
{
    unsigned found = 0;
    int before = errno, is = device && !real(fd, TIOCGDEV, &found) && found == device;
    errno = before;
    return is;
}

/* Sends an ask with the terminal's descriptor, and waits for what is told. */
static int exchanged(int s, int fd, host_ask *ask, host_told *told)
{
    union { struct cmsghdr head; char room[CMSG_SPACE(sizeof(int))]; } control;
    struct iovec part = { ask, sizeof *ask };
    struct msghdr m;
    struct cmsghdr *c;
    memset(&m, 0, sizeof m);
    memset(&control, 0, sizeof control);
    m.msg_iov = &part, m.msg_iovlen = 1, m.msg_control = &control, m.msg_controllen = sizeof control;
    c = CMSG_FIRSTHDR(&m);
    c->cmsg_level = SOL_SOCKET, c->cmsg_type = SCM_RIGHTS, c->cmsg_len = CMSG_LEN(sizeof fd);
    memcpy(CMSG_DATA(c), &fd, sizeof fd);
    return !connect(s, (struct sockaddr *)&at, at_size) && sendmsg(s, &m, MSG_NOSIGNAL) == (ssize_t)sizeof *ask
           && recv(s, told, sizeof *told, 0) == (ssize_t)sizeof *told;
}

/* Asks the host: whether it answered. No signal's handler runs meanwhile, as none does within a system call. */
static int asked(int fd, host_ask *ask, host_told *told)
{
    sigset_t all, before;
    int error = errno, done, s = socket(AF_UNIX, SOCK_SEQPACKET | SOCK_CLOEXEC, 0);
    if (s < 0) {
        errno = error;
        return 0;
    }
    sigfillset(&all);
    pthread_sigmask(SIG_SETMASK, &all, &before);
    done = exchanged(s, fd, ask, told);
    close(s);
    pthread_sigmask(SIG_SETMASK, &before, NULL);
    errno = error;
    return done;
}

/* Who is in the background is stopped, or told EIO, by a call that does nothing else: tcflow(3) of no action. */
static int in_background(int fd)
{
    int before = errno;
    if (real(fd, TCXONC, (void *)99L) && errno != EINVAL) return 1;
    errno = before;
    return 0;
}

static int refused(const host_told *told)
{
    if (told->error) errno = (int)told->error;
    return told->error ? -1 : 0;
}

/* The modes that a program sets, or those that it is told. */
static int modes_of(int fd, unsigned long request, void *p)
{
    host_ask ask;
    host_told told;
    memset(&ask, 0, sizeof ask);
    if (request == TCGETS) {
        if (real(fd, request, p)) return -1;
        if (asked(fd, &ask, &told)) memcpy(p, &told.modes, sizeof told.modes);
        return 0;
    }
    if (in_background(fd)) return -1;
    ask.op = request == TCSETS ? HOST_SET : request == TCSETSW ? HOST_SET_BEHIND : HOST_SET_FLUSHING;
    memcpy(&ask.modes, p, sizeof ask.modes);
    return asked(fd, &ask, &told) ? refused(&told) : real(fd, request, p);
}

static int flushed(int fd, unsigned long request, void *p)
{
    host_ask ask;
    host_told told;
    if (in_background(fd)) return -1;
    memset(&ask, 0, sizeof ask);
    ask.op = request == TCFLSH ? HOST_FLUSH : HOST_DRAIN;
    ask.value = (uint32_t)(unsigned long)p;
    return asked(fd, &ask, &told) ? refused(&told) : real(fd, request, p);
}

static int sized(int fd, unsigned long request, void *p)
{
    host_ask ask;
    host_told told;
    memset(&ask, 0, sizeof ask);
    ask.op = HOST_SIZE;
    memcpy(ask.size, p, sizeof ask.size);
    if (in_background(fd)) return -1;
    return asked(fd, &ask, &told) ? refused(&told) : real(fd, request, p);
}

static int counted(int fd, unsigned long request, void *p)
{
    host_ask ask;
    host_told told;
    memset(&ask, 0, sizeof ask);
    ask.op = HOST_COUNT;
    if (!asked(fd, &ask, &told)) return real(fd, request, p);
    memcpy(p, &told.value, sizeof(int));
    return 0;
}

static int any_ioctl(int fd, unsigned long request, void *p)
{
    switch (request) {
    case TCGETS: case TCSETS: case TCSETSW: case TCSETSF: return ours(fd) ? modes_of(fd, request, p) : real(fd, request, p);
    case TCFLSH: return ours(fd) ? flushed(fd, request, p) : real(fd, request, p);
    case TCSBRK: return p && ours(fd) ? flushed(fd, request, p) : real(fd, request, p);
    case TIOCSWINSZ: return ours(fd) ? sized(fd, request, p) : real(fd, request, p);
    case FIONREAD: return ours(fd) ? counted(fd, request, p) : real(fd, request, p);
    default: return real(fd, request, p);
    }
}

SHOWN int ioctl(int fd, unsigned long request, ...)
{
    va_list list;
    void *p;
    va_start(list, request);
    p = va_arg(list, void *);
    va_end(list);
    return any_ioctl(fd, request, p);
}

/* ------------------------------------------------------------------------------------------------------------- termios(3) */

SHOWN int tcgetattr(int fd, struct termios *t)
{
    static int (*usual)(int, struct termios *);
    host_ask ask;
    host_told told;
    if (!usual) *(void **)&usual = dlsym(RTLD_NEXT, "tcgetattr");
    if (usual(fd, t)) return -1;
    memset(&ask, 0, sizeof ask);
    if (!ours(fd) || !asked(fd, &ask, &told)) return 0;
    t->c_iflag = told.modes.iflag, t->c_oflag = told.modes.oflag, t->c_cflag = told.modes.cflag, t->c_lflag = told.modes.lflag;
    memcpy(t->c_cc, told.modes.cc, sizeof told.modes.cc);
    return 0;
}

SHOWN int tcsetattr(int fd, int when, const struct termios *t)
{
    static int (*usual)(int, int, const struct termios *);
    host_modes modes;
    if (!usual) *(void **)&usual = dlsym(RTLD_NEXT, "tcsetattr");
    if (!ours(fd) || when < TCSANOW || when > TCSAFLUSH) return usual(fd, when, t);
    modes.iflag = t->c_iflag, modes.oflag = t->c_oflag, modes.cflag = t->c_cflag, modes.lflag = t->c_lflag, modes.line = t->c_line;
    memcpy(modes.cc, t->c_cc, sizeof modes.cc);
    if (modes_of(fd, when == TCSANOW ? TCSETS : when == TCSADRAIN ? TCSETSW : TCSETSF, &modes)) return -1;
    /* As glibc tells of what a pty doesn't do: fewer than eight bits, parity, no input. All else was set. */
    if ((t->c_cflag & (PARENB | CREAD)) != CREAD || (t->c_cflag & CSIZE && (t->c_cflag & CSIZE) != CS8)) {
        errno = EINVAL;
        return -1;
    }
    return 0;
}

SHOWN int tcflush(int fd, int which) { return any_ioctl(fd, TCFLSH, (void *)(long)which); }

SHOWN int tcdrain(int fd) { return any_ioctl(fd, TCSBRK, (void *)1L); }
