/* What programs ask their terminal, by the shim: each ask comes over a socket of its own, and is answered in its place among the output. */
#define _GNU_SOURCE
#include <errno.h>
#include <string.h>
#include <sys/epoll.h>
#include <sys/ioctl.h>
#include <sys/socket.h>
#include <termios.h>
#include <unistd.h>

#include "inner.h"

/* ------------------------------------------------------------------------------------------------------------- ioctls of the pair */

/* An ioctl, waited for by turns: EAGAIN while *pending is its number, and then it is asked for again. */
strm_refusal host_ioctl(strm_host *h, uint32_t side, uint32_t command, const uint8_t *body, size_t n, uint32_t *pending)
{
    strm_ask ask = { STRM_OP_IOCTL, side, command, 0, 0, 0, false, false };
    uint8_t none[1] = { 0 }, out[256];
    strm_reply r;
    strm_refusal e;
    if (!*pending) {
        e = strm_call(h->pair, &ask, n ? body : none, n, out, sizeof out, &r);
        if (e || r.kind != STRM_PENDING) return e ? e : r.kind == STRM_NAK ? (STRM_NAKED | r.value) : 0u;
        *pending = r.value;
    }
    e = strm_run(h->pair);
    if (e && !host_waited(e)) return e;
    ask.op = STRM_OP_IOCTL_RESULT, ask.a = *pending;
    e = strm_call(h->pair, &ask, none, 0, out, sizeof out, &r);
    if (e == STRM_EAGAIN || e == STRM_JOURNAL_FULL) return e;
    *pending = 0;
    return e ? e : r.kind == STRM_NAK ? (STRM_NAKED | r.value) : 0u;
}

strm_refusal host_sets(strm_host *h, uint32_t when, const strm_termios *t, uint32_t *pending)
{
    uint8_t b[35];
    strm_put_word(b, t->iflag), strm_put_word(b + 4, t->oflag), strm_put_word(b + 8, t->cflag), strm_put_word(b + 12, t->lflag);
    memcpy(b + 16, t->cc, sizeof t->cc);
    return host_ioctl(h, STRM_SLAVE, when, b, sizeof b, pending);
}

strm_refusal host_sizes(strm_host *h, uint32_t side, const strm_winsize *w, uint32_t *pending)
{
    strm_refusal e;
    uint8_t b[8];
    strm_put_word(b, (uint32_t)w->rows << 16 | w->columns), strm_put_word(b + 4, (uint32_t)w->width << 16 | w->height);
    h->signalled = true;
    e = host_ioctl(h, side, STRM_TIOCSWINSZ, b, sizeof b, pending);
    if (!e) h->window = *w;
    return e;
}

/* ------------------------------------------------------------------------------------------------------------- who asks */

/* Takes an ask with the descriptor of its terminal, by which it is known to be this one. */
static bool received(strm_host *h, host_asker *a, bool *over)
{
    union { struct cmsghdr head; char room[CMSG_SPACE(sizeof(int))]; } control;
    struct iovec part = { &a->ask, sizeof a->ask };
    struct msghdr m = { NULL, 0, &part, 1, &control, sizeof control, 0 };
    struct cmsghdr *c;
    unsigned device = 0;
    int fd = -1;
    ssize_t n = recvmsg(a->fd, &m, MSG_DONTWAIT | MSG_CMSG_CLOEXEC);
    *over = n >= 0 || (errno != EAGAIN && errno != EINTR);
    if (n < 0) return false;
    for (c = CMSG_FIRSTHDR(&m); c; c = CMSG_NXTHDR(&m, c))
        if (c->cmsg_level == SOL_SOCKET && c->cmsg_type == SCM_RIGHTS) memcpy(&fd, CMSG_DATA(c), sizeof fd);
    if (fd < 0) return false;
    n = n == (ssize_t)sizeof a->ask && !ioctl(fd, TIOCGDEV, &device) && device == h->device ? n : 0;
    close(fd);
    return n > 0;
}

static void dismissed(strm_host *h, size_t k)
{
    if (h->asker[k].fd >= 0) close(h->asker[k].fd);
    memmove(&h->asker[k], &h->asker[k + 1], (--h->askers - k) * sizeof h->asker[0]);
}

static void answered(strm_host *h, size_t k, int error, uint32_t value)
{
    host_told told;
    memset(&told, 0, sizeof told);
    told.error = (uint32_t)error, told.value = value, told.modes = host_shown(h);
    if (h->asker[k].fd >= 0 && send(h->asker[k].fd, &told, sizeof told, MSG_DONTWAIT | MSG_NOSIGNAL) < 0) told.error = (uint32_t)errno;
    dismissed(h, k);
}

static void joins(strm_host *h, int fd)
{
    host_asker *a = &h->asker[h->askers++];
    memset(a, 0, sizeof *a);
    a->fd = fd;
    if (fd >= 0) host_watches(h, fd, EPOLLIN, true);
}

/* Who connects and asks nothing gives its place to the next, so that it keeps nobody out. One place is left for who isn't reached by the shim. */
static bool makes_place(strm_host *h)
{
    size_t k;
    if (h->askers < HOST_ASKERS - 1) return true;
    for (k = 0; k < h->askers && h->asker[k].asked; k++) {}
    if (k == h->askers) return false;
    dismissed(h, k);
    return true;
}

void host_hears(strm_host *h)
{
    size_t k;
    bool over;
    int fd;
    while (makes_place(h) && (fd = accept4(h->listens, NULL, NULL, SOCK_CLOEXEC | SOCK_NONBLOCK)) >= 0) joins(h, fd);
    for (k = 0; k < h->askers;) {
        host_asker *a = &h->asker[k];
        if (!a->asked) {
            a->asked = received(h, a, &over);
            a->behind = h->read;
            if (!a->asked && over) {
                dismissed(h, k);
                continue;
            }
        }
        k++;
    }
}

/* ------------------------------------------------------------------------------------------------------------- answers */

static void drops_input(strm_host *h)
{
    h->up_n = h->up_at = 0;
    tcflush(h->slave, TCIFLUSH);
}

/* Modes that were set: the pair has them, and the kernel is told. */
static strm_refusal sets(strm_host *h, host_asker *a)
{
    uint32_t when = a->ask.op == HOST_SET ? STRM_TCSETS : a->ask.op == HOST_SET_BEHIND ? STRM_TCSETSW : STRM_TCSETSF;
    strm_termios t = host_termios(&a->ask.modes);
    strm_refusal e = host_sets(h, when, &t, &a->ioctl);
    if (e) return e;
    if (when == STRM_TCSETSF) drops_input(h);
    host_takes(h, &a->ask.modes);
    if (a->fd >= 0) h->doubt = false;
    host_mirrors(h);
    return STRM_OK;
}

static strm_refusal flushes(strm_host *h, uint32_t which)
{
    uint32_t what = which == TCIFLUSH ? STRM_FLUSHR : which == TCOFLUSH ? STRM_FLUSHW : STRM_FLUSHRW;
    strm_refusal e = which > TCIOFLUSH ? STRM_EINVAL : strm_flush(h->pair, STRM_SLAVE, what, STRM_ANY);
    if (!e && what & STRM_FLUSHR) drops_input(h);
    return e;
}

/* What a read would find: complete lines under ICANON, and no EOF key. */
static uint32_t counts(strm_host *h)
{
    strm_standing standing = { 0, 0 };
    size_t n = host_unread(h);
    strm_sizes(h->pair, STRM_S_HEAD_R, &standing);
    n += h->up_n - h->up_at;
    return (uint32_t)((h->eof && n == 1 ? 0 : n) + standing.bytes);
}

static strm_refusal done(strm_host *h, host_asker *a, uint32_t *value)
{
    strm_winsize w = { a->ask.size[0], a->ask.size[1], a->ask.size[2], a->ask.size[3] };
    strm_refusal e;
    switch (a->ask.op) {
    case HOST_GET: case HOST_DRAIN: return STRM_OK;
    case HOST_SET: case HOST_SET_BEHIND: case HOST_SET_FLUSHING: return sets(h, a);
    case HOST_FLUSH: return flushes(h, a->ask.value);
    case HOST_SIZE:
        e = host_sizes(h, STRM_SLAVE, &w, &a->ioctl);
        return e ? e : host_signals(h); /* by which the kernel has the size before the program goes on */
    case HOST_COUNT: *value = counts(h); return STRM_OK;
    default: return STRM_EINVAL;
    }
}

/* Whether all that was written before the ask went down. */
static bool in_place(const strm_host *h, const host_asker *a)
{
    if (a->fd < 0 || h->silent) return true;
    return h->down_n == h->down_at && (h->read - a->behind >= HOST_BEHIND || !host_output_waits(h));
}

static bool reads_only(const host_ask *ask) { return ask->op == HOST_GET || ask->op == HOST_COUNT; }

strm_refusal host_answers(strm_host *h, bool *moved)
{
    size_t k = 0;
    bool held = false; /* what waits keeps its place, and only who reads passes it */
    host_modes unseen;
    while (k < h->askers) {
        host_asker *a = &h->asker[k];
        uint32_t value = 0;
        strm_refusal e = STRM_EAGAIN;
        if (a->asked && (reads_only(&a->ask) || (!held && in_place(h, a)))) e = done(h, a, &value);
        if (e == STRM_JOURNAL_FULL || e == STRM_ERANGE) return e;
        if (host_waited(e)) {
            held = held || a->asked;
            k++;
            continue;
        }
        answered(h, k, strm_host_errno(e), value);
        *moved = true;
    }
    if (!h->told || h->askers == HOST_ASKERS) return STRM_OK;
    h->told = false;
    if (host_unseen(h, &unseen)) {
        joins(h, -1);
        h->asker[h->askers - 1].asked = true, h->asker[h->askers - 1].ask.modes = unseen, h->asker[h->askers - 1].ask.op = HOST_SET;
        *moved = true;
    }
    return STRM_OK;
}
