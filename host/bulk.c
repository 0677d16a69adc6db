/* While a program puts out much, the kernel is told of modes without OPOST: it looks at each byte otherwise, to find nothing to do. Who isn't reached
 * by the shim and reads modes then sees OPOST off; and as what it sets says nothing of OPOST, this stays so till it has set ICANON again. */
#define _GNU_SOURCE
#include <sys/epoll.h>
#include <sys/timerfd.h>
#include <time.h>
#include <unistd.h>

#include "inner.h"

/* So much within so long is much; and at each tick is looked whether it still is. */
#define BULK 65536u
#define BULK_NS 100000000L
#define TICK_NS 20000000L
#define BEAT_NS 100000000L

static long since(const struct timespec *then, const struct timespec *now)
{
    return now->tv_sec - then->tv_sec > 1 ? BULK_NS : (now->tv_sec - then->tv_sec) * 1000000000L + now->tv_nsec - then->tv_nsec;
}

static bool ticks(strm_host *h, long ns)
{
    struct itimerspec every = { { 0, ns }, { 0, ns } };
    if (h->timer < 0) {
        h->timer = timerfd_create(CLOCK_MONOTONIC, TFD_CLOEXEC | TFD_NONBLOCK);
        if (h->timer < 0) return false;
        host_watches(h, h->timer, EPOLLIN, true);
    }
    return !timerfd_settime(h->timer, 0, &every, NULL);
}

static long beat(const strm_host *h) { return h->ends < 0 && !h->reaped ? BEAT_NS : 0; }

void host_beats(strm_host *h) { ticks(h, beat(h)); }

void host_weighs(strm_host *h)
{
    struct timespec now;
    bool much;
    if (h->bulk || h->read - h->weighed < BULK) return;
    clock_gettime(CLOCK_MONOTONIC, &now);
    much = since(&h->weighed_at, &now) < BULK_NS;
    h->weighed = h->read, h->weighed_at = now;
    if (!much || !(h->modes.oflag & STRM_OPOST)) return;
    h->bulk = ticks(h, TICK_NS);
    if (h->bulk) host_mirrors(h);
}

void host_ticks(strm_host *h)
{
    uint64_t times;
    if (read(h->timer, &times, sizeof times) < 0) return;
    if (!h->bulk) {
        if (h->reaped) ticks(h, 0);
        return;
    }
    if (h->read - h->weighed < BULK && !h->doubt) {
        h->bulk = false;
        ticks(h, beat(h));
        host_mirrors(h);
    }
    h->weighed = h->read;
}
