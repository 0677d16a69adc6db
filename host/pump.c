/* Carries bytes between the kernel's pseudoterminal and the pair, and hands on what comes up. */
#define _GNU_SOURCE
#include <errno.h>
#include <poll.h>
#include <signal.h>
#include <string.h>
#include <sys/epoll.h>
#include <sys/ioctl.h>
#include <sys/wait.h>
#include <termios.h>
#include <unistd.h>

#include "inner.h"

#ifndef TIOCSIG
#define TIOCSIG _IOW('T', 0x36, int)
#endif
/* The kernel's buffer has 4096; more than a half of it isn't given to a program that doesn't read. */
#define HOST_UNREAD 2048u
#define HOST_ROUNDS 64
#define HOST_READ 4096u
#define HOST_PIECE 512u
#define HOST_BLOCK 256u

void host_watches(strm_host *h, int fd, uint32_t events, bool anew)
{
    struct epoll_event e;
    memset(&e, 0, sizeof e);
    e.events = events, e.data.fd = fd;
    epoll_ctl(h->ready, anew ? EPOLL_CTL_ADD : EPOLL_CTL_MOD, fd, &e);
}

static bool readable(int fd)
{
    /* poll(2) makes the kernel hand on what it has on the way. */
    struct pollfd p = { fd, POLLIN, 0 };
    return poll(&p, 1, 0) > 0 && p.revents & POLLIN;
}

bool host_output_waits(const strm_host *h) { return !h->silent && readable(h->master); }

size_t host_unread(strm_host *h)
{
    int n = 0;
    readable(h->slave);
    if (ioctl(h->slave, FIONREAD, &n) && errno == EIO && !h->reaped) host_reopens(h);
    return n < 0 ? 0 : (size_t)n;
}

/* ------------------------------------------------------------------------------------------------------------- from the program */

/* A packet of the kernel's: bytes of the program, or news of its modes. */
static bool fetches(strm_host *h)
{
    ssize_t n;
    if (h->silent) return false;
    n = read(h->master, h->down, sizeof h->down);
    if (n < 0 && errno == EAGAIN && h->reaped) {
        /* What the program wrote before its end may be on its way. */
        h->drained = !readable(h->master);
        if (!h->drained) n = read(h->master, h->down, sizeof h->down);
    }
    if (n < 0 && errno != EAGAIN && errno != EINTR) {
        h->silent = h->drained = true;
        host_watches(h, h->master, 0, false);
    }
    if (n <= 0) return false;
    if (h->down[0]) {
        if (h->down[0] & TIOCPKT_IOCTL) h->told = true;
        return true;
    }
    h->down_at = 1, h->down_n = (size_t)n;
    h->read += (size_t)n - 1;
    host_weighs(h);
    return true;
}

/* What was fetched goes down the slave's stream in pieces that ldterm takes whole, as the journal has what a write brought; a pool with few
 * blocks takes smaller ones. */
static strm_refusal goes_down(strm_host *h)
{
    strm_reply r;
    size_t n = h->down_n - h->down_at;
    strm_refusal e = strm_write(h->pair, STRM_SLAVE, h->down + h->down_at, n < HOST_PIECE ? n : HOST_PIECE, &r);
    if (e == STRM_ENOSR && n > HOST_BLOCK) e = strm_write(h->pair, STRM_SLAVE, h->down + h->down_at, HOST_BLOCK, &r);
    if (!e) h->down_at += r.value;
    if (e == STRM_ENXIO) h->down_at = h->down_n; /* nobody reads it any more */
    return e == STRM_ENXIO ? STRM_OK : e;
}

/* Turns, behind a write. Where it was refused and none can be made the master has to be read. */
static strm_refusal makes_room(strm_host *h, strm_refusal written)
{
    size_t turns = 0;
    strm_refusal e = strm_runqueues(h->pair, &turns);
    h->blocked = (written && !turns) || e == STRM_ENOSR;
    return host_waited(e) ? STRM_OK : e;
}

static strm_refusal writes(strm_host *h, bool *moved)
{
    h->blocked = false;
    while (!h->blocked) {
        strm_refusal e;
        if (h->down_at == h->down_n) {
            h->down_at = h->down_n = 0;
            if (!fetches(h)) return STRM_OK;
            *moved = true;
            if (h->told) return STRM_OK;
            continue;
        }
        e = goes_down(h);
        if (!e) *moved = true;
        /* Turns make room for the next piece. */
        if (!e || host_waited(e)) e = makes_room(h, e);
        if (e) return e;
    }
    return STRM_OK;
}

/* ------------------------------------------------------------------------------------------------------------- to the program */

static bool hands_on(strm_host *h)
{
    ssize_t n = write(h->master, h->up + h->up_at, h->up_n - h->up_at);
    if (n > 0) h->up_at += (size_t)n;
    if (n < 0 && errno != EAGAIN && errno != EINTR) h->up_at = h->up_n;
    if (h->up_at == h->up_n) h->up_at = h->up_n = 0;
    return n > 0;
}

/* A line, where the program has taken the last one; without ICANON what there is. */
static strm_refusal reads(strm_host *h, bool *moved)
{
    strm_standing standing = { 0, 0 };
    strm_reply r;
    strm_refusal e;
    bool lines = h->modes.lflag & STRM_ICANON;
    h->holds = false;
    if (h->silent) return STRM_OK;
    if (h->up_n && hands_on(h)) *moved = true;
    h->holds = h->up_n > 0;
    if (h->holds || strm_sizes(h->pair, STRM_S_HEAD_R, &standing) || !standing.messages) return STRM_OK;
    h->holds = host_unread(h) > (lines ? 0 : HOST_UNREAD);
    if (h->holds && !h->armed) {
        host_watches(h, h->taken, EPOLLOUT | EPOLLET, false);
        h->armed = true;
        h->holds = host_unread(h) > (lines ? 0 : HOST_UNREAD); /* what was taken in between makes no edge */
    }
    if (h->holds) return STRM_OK;
    e = strm_read(h->pair, STRM_SLAVE, h->up, sizeof h->up, &r);
    if (e) return e == STRM_JOURNAL_FULL || e == STRM_ERANGE ? e : STRM_OK;
    h->eof = lines && !r.bytes;
    if (h->eof) h->up[0] = h->kernel.cc[STRM_VEOF], r.bytes = 1;
    h->up_at = 0, h->up_n = r.bytes;
    *moved = true;
    if (h->up_n) hands_on(h);
    return STRM_OK;
}

/* ------------------------------------------------------------------------------------------------------------- what comes up */

static void signals_group(strm_host *h, uint8_t number)
{
    int signal = strm_host_signal(number);
    strm_winsize w;
    struct winsize k;
    if (number == STRM_SIGWINCH) {
        if (strm_get_winsize(h->pair, STRM_SLAVE, &w)) w = h->window; /* the journal is full */
        k.ws_row = w.rows, k.ws_col = w.columns, k.ws_xpixel = w.width, k.ws_ypixel = w.height;
        ioctl(h->master, TIOCSWINSZ, &k);
        return;
    }
    if (number == STRM_SIGINT || number == STRM_SIGQUIT || number == STRM_SIGTSTP) {
        if (!(h->modes.lflag & STRM_NOFLSH)) {
            h->up_at = h->up_n = 0;
            tcflush(h->slave, number == STRM_SIGTSTP ? TCIFLUSH : TCIOFLUSH);
        }
        ioctl(h->master, TIOCSIG, signal); /* also where kill(2) may not */
    } else if (signal) {
        strm_host_kill(h, signal);
    }
}

strm_refusal host_signals(strm_host *h)
{
    uint8_t numbers[32];
    size_t n, k;
    strm_books books;
    strm_refusal e;
    if (strm_ledger(h->pair, STRM_MASTER, &books)) return STRM_OK;
    if (books.gone[STRM_RULE_SIGNAL_KEY] == h->signal_keys && !h->signalled) return STRM_OK;
    e = strm_signals(h->pair, STRM_SLAVE, numbers, &n);
    if (e) return e == STRM_JOURNAL_FULL || e == STRM_ERANGE ? e : STRM_OK;
    h->signal_keys = books.gone[STRM_RULE_SIGNAL_KEY];
    h->signalled = false;
    for (k = 0; k < n; k++) signals_group(h, numbers[k]);
    return STRM_OK;
}

/* The pair's foreground group is the kernel's. */
static strm_refusal regroups(strm_host *h)
{
    uint32_t pending = 0;
    uint8_t b[4];
    strm_refusal e;
    pid_t group = strm_host_group(h);
    if (group == h->group || group < 0) return STRM_OK;
    strm_put_word(b, (uint32_t)group);
    e = host_ioctl(h, STRM_SLAVE, STRM_TIOCSPGRP, b, sizeof b, &pending);
    if (!e) h->group = group;
    return e == STRM_JOURNAL_FULL || e == STRM_ERANGE ? e : STRM_OK;
}

static strm_refusal runs(strm_host *h, bool *moved)
{
    size_t turns = 0;
    strm_refusal e;
    if (strm_enabled(h->pair, 0) == STRM_NO_QUEUE) return STRM_OK;
    e = strm_runqueues(h->pair, &turns);
    if (turns) *moved = true;
    return host_waited(e) ? STRM_OK : e;
}

/* ------------------------------------------------------------------------------------------------------------- a pump */

static void reaps(strm_host *h)
{
    int status;
    if (strm_host_wait(h, &status) || h->ends < 0) return;
    close(h->ends);
    h->ends = -1;
}

static void rounds_off(strm_host *h, uint32_t *what)
{
    strm_standing standing = { 0, 0 };
    /* Output that waits for a reader of the master is watched till a pump came in vain. */
    bool deaf = h->blocked && !*what;
    if (deaf != h->deaf && !h->silent) host_watches(h, h->master, deaf ? 0u : (uint32_t)EPOLLIN, false);
    h->deaf = deaf;
    if (h->armed && !h->holds) {
        host_watches(h, h->taken, 0, false);
        h->armed = false;
    }
    strm_sizes(h->pair, STRM_M_HEAD_R, &standing);
    if (standing.messages) *what |= STRM_HOST_SHOWS;
    if (strm_host_ended(h)) *what |= STRM_HOST_ENDED;
}

/* What the descriptor is readable for: who asks, and the program's end. Output is looked at anyhow. */
static void looks(strm_host *h)
{
    struct epoll_event events[HOST_ASKERS + 4];
    int n = epoll_wait(h->ready, events, HOST_ASKERS + 4, 0), k;
    bool asks = false, ends = h->ends < 0 && !h->reaped;
    for (k = 0; k < n; k++) {
        if (events[k].data.fd == h->ends) ends = true;
        else if (events[k].data.fd == h->timer) host_ticks(h);
        else if (events[k].data.fd != h->master && events[k].data.fd != h->taken) asks = true;
    }
    if (asks) host_hears(h);
    if (ends) reaps(h);
}

strm_refusal strm_host_pump(strm_host *h, uint32_t *what)
{
    bool moved = true;
    uint64_t before = h->read;
    strm_refusal e = STRM_OK;
    int k;
    *what = 0;
    looks(h);
    /* Output that waits for a reader is tried again by the next pump. */
    for (k = 0; moved && !e && k < HOST_ROUNDS && (k == 0 || !h->blocked); k++) {
        moved = false;
        e = runs(h, &moved);
        if (!e) e = host_signals(h);
        if (!e) e = writes(h, &moved);
        if (!e) e = runs(h, &moved);
        if (!e && (h->askers || h->told)) e = host_answers(h, &moved);
        if (!e) e = reads(h, &moved);
        if (moved) *what |= STRM_HOST_MOVED;
    }
    if (!e && *what && h->read == before) e = regroups(h);
    rounds_off(h, what);
    return e;
}

/* What stands at the master's head, as far as there is room. */
static strm_refusal takes(strm_host *h, uint8_t *out, size_t room, size_t *n)
{
    strm_reply r = { 0 };
    strm_refusal e = STRM_OK;
    do {
        e = strm_read(h->pair, STRM_MASTER, out + *n, HOST_READ, &r);
        if (!e) *n += r.bytes;
    } while (!e && r.bytes && room - *n >= HOST_READ);
    return e == STRM_EAGAIN ? STRM_OK : e;
}

strm_refusal strm_host_take(strm_host *h, void *out, size_t room, size_t *n, uint32_t *what)
{
    uint32_t seen = STRM_HOST_MOVED;
    strm_refusal e = room < HOST_READ ? STRM_EINVAL : STRM_OK;
    *n = 0, *what = 0;
    while (!e && seen & STRM_HOST_MOVED && room - *n >= HOST_READ) {
        e = strm_host_pump(h, &seen);
        if (!e && seen & STRM_HOST_SHOWS) {
            e = takes(h, out, room, n);
            if (room - *n >= HOST_READ) seen &= ~(uint32_t)STRM_HOST_SHOWS;
        }
        *what = (*what & STRM_HOST_MOVED) | seen;
    }
    return e;
}
