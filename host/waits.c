/* Whether who has a terminal waits for it: /proc/PID/syscall says in which call a process sleeps, and with which arguments. */
#define _GNU_SOURCE
#include <ctype.h>
#include <dirent.h>
#include <errno.h>
#include <fcntl.h>
#include <poll.h>
#include <stdio.h>
#include <stdlib.h>
#include <string.h>
#include <sys/epoll.h>
#include <sys/ioctl.h>
#include <sys/syscall.h>
#include <termios.h>
#include <unistd.h>

#include "inner.h"

#define POLLED_MAX 1024

typedef struct asked_of {
    pid_t process, thread;
    const char *terminal;
} asked_of;

static ssize_t told_by(const char *path, char *text, size_t room)
{
    int fd = open(path, O_RDONLY | O_CLOEXEC);
    ssize_t n;
    if (fd < 0) return -1;
    n = read(fd, text, room - 1);
    close(fd);
    if (n >= 0) text[n] = 0;
    return n;
}

static bool is_terminal(const asked_of *by, unsigned long fd)
{
    char path[64], name[128];
    ssize_t n;
    snprintf(path, sizeof path, "/proc/%d/fd/%lu", by->process, fd);
    n = readlink(path, name, sizeof name - 1);
    if (n < 0) return false;
    name[n] = 0;
    return !strcmp(name, by->terminal) || !strcmp(name, "/dev/tty");
}

/* Memory of the process. */
static bool fetched(const asked_of *by, unsigned long from, void *to, size_t n)
{
    char path[64];
    int fd;
    bool whole;
    snprintf(path, sizeof path, "/proc/%d/mem", by->process);
    fd = open(path, O_RDONLY | O_CLOEXEC);
    if (fd < 0) return false;
    whole = pread(fd, to, n, (off_t)from) == (ssize_t)n;
    close(fd);
    return whole;
}

static bool polls(const asked_of *by, unsigned long at, unsigned long n)
{
    struct pollfd fds[POLLED_MAX];
    unsigned long k;
    if (n > POLLED_MAX || !fetched(by, at, fds, n * sizeof *fds)) return false;
    for (k = 0; k < n; k++)
        if (fds[k].fd >= 0 && fds[k].events & POLLIN && is_terminal(by, (unsigned long)fds[k].fd)) return true;
    return false;
}

static bool selects(const asked_of *by, unsigned long n, unsigned long at)
{
    unsigned char bits[POLLED_MAX / 8];
    unsigned long k;
    if (!at || n > POLLED_MAX || !fetched(by, at, bits, (n + 7) / 8)) return false;
    for (k = 0; k < n; k++)
        if (bits[k / 8] >> k % 8 & 1 && is_terminal(by, k)) return true;
    return false;
}

static bool watches(const asked_of *by, unsigned long fd)
{
    char path[64], text[8192], *line;
    unsigned long watched, events;
    snprintf(path, sizeof path, "/proc/%d/fdinfo/%lu", by->process, fd);
    if (told_by(path, text, sizeof text) < 0) return false;
    for (line = strstr(text, "tfd:"); line; line = strstr(line + 4, "tfd:"))
        if (sscanf(line, "tfd: %lu events: %lx", &watched, &events) == 2 && events & EPOLLIN && is_terminal(by, watched)) return true;
    return false;
}

/* Whether a call asks the terminal for input, and ends by nothing else. */
static bool call_asks(const asked_of *by, long call, const unsigned long a[6])
{
    switch (call) {
    case SYS_read: case SYS_readv: return is_terminal(by, a[0]);
#ifdef SYS_poll
    case SYS_poll: return (int)a[2] < 0 && polls(by, a[0], a[1]);
#endif
    case SYS_ppoll: return !a[2] && polls(by, a[0], a[1]);
#ifdef SYS_select
    case SYS_select: return !a[4] && selects(by, a[0], a[1]);
#endif
    case SYS_pselect6: return !a[4] && selects(by, a[0], a[1]);
#ifdef SYS_epoll_wait
    case SYS_epoll_wait: return (int)a[3] < 0 && watches(by, a[0]);
#endif
    case SYS_epoll_pwait: return (int)a[3] < 0 && watches(by, a[0]);
    default: return false;
    }
}

static bool thread_asks(const asked_of *by)
{
    char path[64], text[256];
    long call;
    unsigned long a[6];
    snprintf(path, sizeof path, "/proc/%d/task/%d/syscall", by->process, by->thread);
    if (told_by(path, text, sizeof text) < 0) return errno == EPERM || errno == EACCES; /* another user's: it sleeps, and that is all we know */
    if (sscanf(text, "%ld %lx %lx %lx %lx %lx %lx", &call, &a[0], &a[1], &a[2], &a[3], &a[4], &a[5]) != 7) return false;
    return call_asks(by, call, a);
}

/* A process of the group that sleeps, and of which a thread asks. */
static bool process_asks(pid_t process, pid_t group, const char *terminal)
{
    char path[64], text[1024], state, *end;
    int of;
    asked_of by = { process, process, terminal };
    struct dirent *entry;
    DIR *threads;
    bool asks = false;
    snprintf(path, sizeof path, "/proc/%d/stat", process);
    if (told_by(path, text, sizeof text) < 0 || !(end = strrchr(text, ')'))) return false;
    if (sscanf(end + 1, " %c %*d %d", &state, &of) != 2 || of != group || state == 'Z' || state == 'T') return false;
    if (state == 'S' && thread_asks(&by)) return true;
    snprintf(path, sizeof path, "/proc/%d/task", process);
    threads = opendir(path);
    while (threads && !asks && (entry = readdir(threads)) != NULL) {
        by.thread = (pid_t)atoi(entry->d_name);
        asks = by.thread > 0 && by.thread != process && thread_asks(&by);
    }
    if (threads) closedir(threads);
    return asks;
}

bool strm_host_asks(int master)
{
    char terminal[64];
    pid_t group = 0;
    struct dirent *entry;
    bool asks;
    DIR *all;
    if (ioctl(master, TIOCGPGRP, &group) || group <= 0 || ptsname_r(master, terminal, sizeof terminal)) return false;
    if (process_asks(group, group, terminal)) return true;
    asks = false;
    all = opendir("/proc");
    while (all && !asks && (entry = readdir(all)) != NULL)
        if (isdigit((unsigned char)entry->d_name[0])) asks = process_asks((pid_t)atoi(entry->d_name), group, terminal);
    if (all) closedir(all);
    return asks;
}

static bool under_way(strm_host *h)
{
    struct pollfd p = { h->listens, POLLIN, 0 };
    return h->askers || h->told || h->up_n || h->down_n || strm_enabled(h->pair, 0) != STRM_NO_QUEUE || poll(&p, 1, 0) || host_output_waits(h);
}

bool strm_host_waits(strm_host *h)
{
    strm_standing standing = { 0, 0 };
    if (strm_host_ended(h)) return true;
    if (h->reaped || under_way(h)) return false;
    strm_sizes(h->pair, STRM_S_HEAD_R, &standing);
    if (standing.messages && !h->holds) return false;
    host_unread(h);
    /* What it did before it asked is here by now. */
    return strm_host_asks(h->master) && !under_way(h);
}
