/* Ends: calls, and what is cut off and joined. */
#define _GNU_SOURCE
#include <stdlib.h>

#include "inner.h"

/* ------------------------------------------------------------------------------------------------------------- ends that come and go */

strm_end *end_made(strm_system *system, seat *taken, uint32_t number, uint32_t side)
{
    strm_end *made = (strm_end *)calloc(1, sizeof *made);
    if (!made) return NULL;
    made->seat = taken;
    made->system = system;
    made->pair = &system->pair[number];
    made->number = number;
    made->side = side;
    made->fd = -1;
    __atomic_fetch_add(&system->ends, 1, __ATOMIC_SEQ_CST);
    return made;
}

void end_gone(strm_end *end, bool with_seat)
{
    strm_system *system = end->system;
    end_unwatched(end);
    if (with_seat) {
        strm_mt_free(&end->seat->member);
        free(end->seat);
    }
    free(end);
    __atomic_fetch_sub(&system->ends, 1, __ATOMIC_SEQ_CST);
}

void strm_end_free(strm_end *end)
{
    end_gone(end, true);
}

/* Anything may have changed. */
static void changed(strm_end *end)
{
    pair_changed(end->pair);
    pair_works(end->system, end->pair);
}

/* An end of the same pair in a seat of its own, which has nothing in hand yet; NULL where there is no memory. */
static strm_end *beside(const strm_end *end, uint32_t side)
{
    seat *taken = (seat *)calloc(1, sizeof *taken);
    strm_end *made = taken ? end_made(end->system, taken, end->number, side) : NULL;
    if (!made) free(taken);
    return made;
}

strm_refusal strm_end_open_slave(strm_end *end, strm_end **slave)
{
    strm_refusal e;
    strm_end *made = beside(end, STRM_SLAVE);
    if (!made) return STRM_NO_MEMORY;
    do {
        UNTIL_FREE(end->pair, e, strm_mt_open_slave(&end->seat->member, &made->seat->member));
    } while (e == STRM_JOURNAL_FULL && end->system->anew && !strm_end_restart(end));
    if (e) {
        end_gone(made, true);
        return e;
    }
    changed(end);
    *slave = made;
    return STRM_OK;
}

strm_refusal strm_end_split(strm_end *end, strm_end **second)
{
    strm_refusal e;
    strm_end *made = beside(end, end->side);
    if (!made) return STRM_NO_MEMORY;
    e = strm_mt_split(&end->seat->member, &made->seat->member);
    if (e) {
        end_gone(made, true);
        return e;
    }
    *second = made;
    return STRM_OK;
}

strm_refusal strm_end_join(strm_end *first, strm_end *second)
{
    strm_refusal e;
    /* the export doesn't compare hosts */
    if (first == second || first->system != second->system || first->pair != second->pair) return STRM_EINVAL;
    e = strm_mt_join(&first->seat->member, &second->seat->member);
    if (e == STRM_EINVAL) {
        /* the second one opened the pair, and goes on */
        seat *opener = second->seat;
        e = strm_mt_join(&opener->member, &first->seat->member);
        if (e) return e;
        second->seat = first->seat;
        first->seat = opener;
        first->side = second->side;
    }
    if (e) return e;
    end_gone(second, true);
    return STRM_OK;
}

void strm_end_told(const strm_end *end, strm_share *share)
{
    strm_mt_told(&end->seat->member, share);
}

void strm_end_set_group(strm_end *end, uint32_t group, bool ignores, bool orphaned)
{
    strm_mt_group(&end->seat->member, group, ignores, orphaned);
}

/* ------------------------------------------------------------------------------------------------------------- calls */

strm_refusal strm_end_restart(strm_end *end)
{
    strm_refusal e;
    UNTIL_FREE(end->pair, e, strm_mt_restart(&end->seat->member));
    if (!e) changed(end);
    return e;
}

/* What a worker noted of a full journal is true no more behind a cut: who looked would drop what is entered since. */
strm_refusal strm_end_cut(strm_end *end, strm_trace *trace)
{
    strm_refusal e;
    bool was_full = __atomic_exchange_n(&end->pair->full, 0, __ATOMIC_SEQ_CST) != 0;
    BELL_GAP();
    UNTIL_FREE(end->pair, e, strm_mt_cut(&end->seat->member, trace));
    if (!e) changed(end);
    else if (was_full) pair_is_full(end->pair);
    return e;
}

strm_refusal strm_end_trace_next(strm_trace *trace, strm_cursor *at, strm_entry *entry, void *bytes, size_t room)
{
    return strm_mt_trace_next(trace, at, entry, bytes, room);
}

strm_refusal strm_end_trace_base(strm_trace *trace, void *out, size_t room, size_t *length)
{
    return strm_mt_trace_base(trace, out, room, length);
}

void strm_end_trace_free(strm_trace *trace)
{
    strm_mt_trace_free(trace);
}

/* Behind a read: whether a worker would be woken to find no enabled queue, as mostly is so. */
static bool is_at_rest(strm_end *end)
{
    strm_prospect told;
    uint32_t e;
    if (!work_sleeps(&end->system->work) || __atomic_load_n(&end->pair->turns, __ATOMIC_SEQ_CST) != AT_REST) return false;
    e = strm_mt_ready(&end->seat->member, end->number, end->side, &told);
    if (e == STRM_BUSY) return false;
    bell_rings(&end->pair->freed, BELL_ONE);
    return !e && told.queue == STRM_NO_QUEUE;
}

/* Tells those to whom a granted call may matter. By itself a write makes no side ready for anything, before a turn carries it, and nor does what only
 * looks, or takes what stood at the head (tried by mt/tests/rings.c). A read lets blocks go, for which a writer may wait. */
static void rings(strm_end *end, uint32_t op)
{
    switch (op) {
    case STRM_OP_LOOK: case STRM_OP_NREAD: case STRM_OP_SIGNALS: case STRM_OP_IOCTL_RESULT: return;
    case STRM_OP_WRITE: case STRM_OP_PUT: pair_works(end->system, end->pair); return;
    case STRM_OP_READ: case STRM_OP_GET:
        pair_moved(end->pair, end->seat, end->number);
        if (!is_at_rest(end)) pair_works(end->system, end->pair);
        return;
    default: changed(end);
    }
}

strm_refusal strm_end_call(strm_end *end, const strm_ask *ask, const void *bytes, size_t n, void *out, size_t room, strm_reply *reply)
{
    strm_refusal e;
    do {
        UNTIL_FREE(end->pair, e, strm_mt_call(&end->seat->member, ask, bytes, n, out, room, reply));
    } while (e == STRM_JOURNAL_FULL && end->system->anew && !strm_end_restart(end));
    if (!e) rings(end, ask->op);
    return e;
}
