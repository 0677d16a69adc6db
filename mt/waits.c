/* Waiting for the state of a pair, and descriptors that tell of it. */
#define _GNU_SOURCE
#include <sys/eventfd.h>
#include <time.h>
#include <unistd.h>

#include "inner.h"

/* ------------------------------------------------------------------------------------------------------------- who is told */

/* Makes the descriptors readable of ends that have looked. */
static void tells_watches(pair *changed)
{
    static const uint64_t one = 1;
    strm_end *end;
    latch_takes(&changed->latch);
    for (end = changed->watches; end; end = end->next)
        if (__atomic_exchange_n(&end->armed, 0, __ATOMIC_SEQ_CST)) (void)!write(end->fd, &one, sizeof one);
    latch_gives(&changed->latch);
}

void pair_changed(pair *changed)
{
    bell_rings(&changed->changed[STRM_MASTER], BELL_ALL);
    bell_rings(&changed->changed[STRM_SLAVE], BELL_ALL);
    if (__atomic_load_n(&changed->watched, __ATOMIC_SEQ_CST)) tells_watches(changed);
}

/* Whether a side is ready for something of these; true where another thread has the lock, as that can't be told. */
static bool is_ready(pair *of, seat *by, uint32_t number, uint32_t side, uint32_t wanted)
{
    strm_prospect told;
    uint32_t e = strm_mt_ready(&by->member, number, side, &told);
    if (e == STRM_BUSY) return true;
    bell_rings(&of->freed, BELL_ONE);
    return e || (told.bits & wanted);
}

void pair_moved(pair *of, seat *by, uint32_t number)
{
    uint32_t side;
    for (side = STRM_MASTER; side <= STRM_SLAVE; side++) {
        uint32_t word;
        BELL_GAP();
        word = __atomic_load_n(&of->changed[side], __ATOMIC_SEQ_CST);
        if ((word & 1u) && is_ready(of, by, number, side, bell_wanted(word))) bell_wakes(&of->changed[side], word, BELL_ALL);
    }
    if (__atomic_load_n(&of->watched, __ATOMIC_SEQ_CST)) tells_watches(of);
}

void pair_is_full(pair *full)
{
    __atomic_store_n(&full->full, 1, __ATOMIC_SEQ_CST);
    pair_changed(full);
}

void pair_works(strm_system *system, pair *of)
{
    if (work_called(&of->turns)) work_adds(&system->work, (size_t)(of - system->pair));
}

/* ------------------------------------------------------------------------------------------------------------- looks */

/* A call that every side refuses: as its side isn't open, or is hung up (ENXIO), else as it names no module. It changes nothing. */
static bool is_open(strm_end *end)
{
    static const strm_ask none = { STRM_OP_PUSH, 0, 0, 0, 0, 0, false, false };
    strm_reply reply;
    strm_refusal e;
    UNTIL_FREE(end->pair, e, strm_mt_call(&end->seat->member, &none, NULL, 0, NULL, 0, &reply));
    return e != STRM_ENXIO;
}

/* Takes what the descriptor has counted, so that it tells of the next change. The look comes behind it. */
static void arms(strm_end *end)
{
    uint64_t count;
    if (end->fd < 0) return;
    (void)!read(end->fd, &count, sizeof count);
    BELL_GAP();
    __atomic_store_n(&end->armed, 1, __ATOMIC_SEQ_CST);
}

/* Begins the journal anew that a worker found full. */
static strm_refusal begins_full(strm_end *end)
{
    if (!__atomic_load_n(&end->pair->full, __ATOMIC_SEQ_CST)) return STRM_OK;
    return __atomic_exchange_n(&end->pair->full, 0, __ATOMIC_SEQ_CST) ? strm_end_restart(end) : STRM_OK;
}

strm_refusal strm_end_ready(strm_end *end, uint32_t *ready)
{
    strm_prospect told = { 0, STRM_NO_QUEUE };
    strm_refusal e;
    arms(end);
    e = begins_full(end);
    if (e) return e;
    UNTIL_FREE(end->pair, e, strm_mt_ready(&end->seat->member, end->number, end->side, &told));
    if (e) return e;
    *ready = told.bits;
    return told.bits || is_open(end) ? STRM_OK : STRM_ENXIO;
}

/* The time that is so many milliseconds from now; NULL where it has no end. */
static const struct timespec *time_in(int timeout, struct timespec *then)
{
    if (timeout < 0) return NULL;
    clock_gettime(CLOCK_MONOTONIC, then);
    then->tv_sec += timeout / 1000;
    then->tv_nsec += timeout % 1000 * 1000000L;
    if (then->tv_nsec >= 1000000000L) then->tv_sec++, then->tv_nsec -= 1000000000L;
    return then;
}

strm_refusal strm_end_wait(strm_end *end, uint32_t what, int timeout, uint32_t *ready)
{
    struct timespec then;
    const struct timespec *until = NULL;
    uint32_t heard = 0, *bell = &end->pair->changed[end->side];
    bool over = timeout == 0;
    for (;;) {
        strm_refusal e = strm_end_ready(end, ready);
        if (e || (*ready & (what | STRM_HUNG_UP))) return e;
        if (over) return STRM_EAGAIN;
        if (!heard) until = time_in(timeout, &then);
        else over = !bell_sleeps(bell, heard, until);
        heard = bell_heard_for(bell, (what | STRM_HUNG_UP) & BELL_WANTS);
    }
}

/* ------------------------------------------------------------------------------------------------------------- descriptors */

int strm_end_fd(strm_end *end)
{
    pair *of = end->pair;
    if (end->fd >= 0) return end->fd;
    end->fd = eventfd(1, EFD_NONBLOCK | EFD_CLOEXEC);
    if (end->fd < 0) return -1;
    latch_takes(&of->latch);
    end->next = of->watches;
    of->watches = end;
    __atomic_fetch_add(&of->watched, 1, __ATOMIC_SEQ_CST);
    latch_gives(&of->latch);
    return end->fd;
}

void end_unwatched(strm_end *end)
{
    pair *of = end->pair;
    strm_end **at = &of->watches;
    if (end->fd < 0) return;
    latch_takes(&of->latch);
    while (*at != end) at = &(*at)->next;
    *at = end->next;
    __atomic_fetch_sub(&of->watched, 1, __ATOMIC_SEQ_CST);
    latch_gives(&of->latch);
    close(end->fd);
    end->fd = -1;
}
