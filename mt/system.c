/* Systems: pairs, those who claim them, and visits by the number of a pair. */
#define _GNU_SOURCE
#include <stdlib.h>
#include <string.h>

#include "inner.h"

enum { LINE = 64, ANEW_BYTES = 8192 };

/* ------------------------------------------------------------------------------------------------------------- seats */

/* A further member of the host, with an opener; under the latch. */
static seat *seated(strm_system *system)
{
    seat *made = (seat *)calloc(1, sizeof *made);
    if (made && strm_mt_seat(&system->first.member, &made->member)) {
        free(made);
        made = NULL;
    }
    return made;
}

seat *system_sits(strm_system *system)
{
    seat *taken;
    latch_takes(&system->latch);
    taken = system->idle;
    if (taken) system->idle = taken->next;
    else taken = seated(system);
    latch_gives(&system->latch);
    return taken;
}

void system_rises(strm_system *system, seat *taken)
{
    latch_takes(&system->latch);
    taken->next = system->idle;
    system->idle = taken;
    latch_gives(&system->latch);
}

static void frees(seat *one)
{
    strm_mt_free(&one->member);
    free(one);
}

/* ------------------------------------------------------------------------------------------------------------- systems */

/* Pairs at the beginnings of lines of the cache. */
static bool lays_pairs(strm_system *system, size_t pairs)
{
    system->memory = calloc(pairs + 1, LINE);
    if (!system->memory) return false;
    system->pair = (pair *)(((uintptr_t)system->memory + LINE - 1) / LINE * LINE);
    system->pairs = pairs;
    return true;
}

strm_refusal strm_system_new(strm_system **made, size_t pairs, const strm_choices *choices)
{
    strm_system *system;
    strm_refusal e = STRM_NO_MEMORY;
    if (pairs < 1 || pairs > 65536 || choices->reserve) return STRM_EINVAL;
    if (choices->anew && (!choices->entries || choices->bytes < ANEW_BYTES)) return STRM_EINVAL;
    system = (strm_system *)calloc(1, sizeof *system);
    if (!system) return e;
    system->anew = choices->anew;
    if (lays_pairs(system, pairs))
        e = strm_mt_make(&system->first.member, (uint32_t)pairs, choices->blocks, choices->entries, choices->bytes);
    if (e) {
        free(system->memory);
        free(system);
        return e;
    }
    *made = system;
    return STRM_OK;
}

strm_refusal strm_system_free(strm_system *system)
{
    size_t i;
    if (__atomic_load_n(&system->ends, __ATOMIC_SEQ_CST)) return STRM_STILL_SHARED;
    if (system->worker) strm_workers_stop(system);
    for (i = 0; i < system->pairs; i++)
        if (system->pair[i].claimed) frees(system->pair[i].claimed);
    while (system->idle) {
        seat *one = system->idle;
        system->idle = one->next;
        frees(one);
    }
    strm_mt_free(&system->first.member);
    free(system->memory);
    free(system);
    return STRM_OK;
}

size_t strm_system_pairs(const strm_system *system)
{
    return system->pairs;
}

/* ------------------------------------------------------------------------------------------------------------- claims */

static void is_claimed(strm_system *system, uint32_t number, seat *by)
{
    latch_takes(&system->latch);
    system->pair[number].claimed = by;
    latch_gives(&system->latch);
}

/* Takes what has the minor of a claimed pair that isn't open, or NULL. */
static seat *takes_claim(strm_system *system, uint32_t number)
{
    seat *taken;
    if (number >= system->pairs) return NULL;
    latch_takes(&system->latch);
    taken = system->pair[number].claimed;
    system->pair[number].claimed = NULL;
    latch_gives(&system->latch);
    return taken;
}

strm_refusal strm_system_claim(strm_system *system, uint32_t *number)
{
    uint32_t found;
    strm_refusal e;
    seat *taken = system_sits(system);
    if (!taken) return STRM_NO_MEMORY;
    e = strm_mt_claim(&taken->member, &found);
    if (e) {
        system_rises(system, taken);
        return e;
    }
    is_claimed(system, found, taken);
    *number = found;
    return STRM_OK;
}

strm_refusal strm_system_release(strm_system *system, uint32_t number)
{
    seat *taken = takes_claim(system, number);
    if (!taken) return STRM_EINVAL;
    strm_mt_release(&taken->member);
    system_rises(system, taken);
    return STRM_OK;
}

strm_refusal strm_system_open(strm_system *system, uint32_t number, strm_end **master)
{
    strm_refusal e;
    strm_end *made;
    pair *of;
    seat *taken = takes_claim(system, number);
    if (!taken) return STRM_EINVAL;
    of = &system->pair[number];
    made = end_made(system, taken, number, STRM_MASTER);
    if (!made) {
        is_claimed(system, number, taken);
        return STRM_NO_MEMORY;
    }
    UNTIL_FREE(of, e, strm_mt_open(&taken->member));
    if (e) {
        end_gone(made, false);
        is_claimed(system, number, taken);
        return e;
    }
    *master = made;
    return STRM_OK;
}

strm_refusal strm_end_settle(strm_end *end, strm_account *account)
{
    strm_refusal e;
    UNTIL_FREE(end->pair, e, strm_mt_settle(&end->seat->member, account));
    if (e) return e;
    __atomic_store_n(&end->pair->full, 0, __ATOMIC_SEQ_CST);
    is_claimed(end->system, end->number, end->seat);
    end_gone(end, false);
    return STRM_OK;
}

/* ------------------------------------------------------------------------------------------------------------- terminals */

/* Opens both sides and pushes the modules; the ends that are there then, also where it is refused. */
static strm_refusal opens(strm_system *system, uint32_t number, strm_end **master, strm_end **slave)
{
    strm_refusal e = strm_system_open(system, number, master);
    if (!e) e = strm_end_unlock(*master);
    if (!e) e = strm_end_open_slave(*master, slave);
    if (!e) e = strm_end_push(*slave, STRM_PTEM);
    if (!e) e = strm_end_push(*slave, STRM_LDTERM);
    return e;
}

strm_refusal strm_system_terminal(strm_system *system, strm_end **master, strm_end **slave)
{
    strm_end *one = NULL, *other = NULL;
    strm_account account;
    uint32_t number;
    strm_refusal e = strm_system_claim(system, &number);
    if (e) return e;
    e = opens(system, number, &one, &other);
    if (!e) {
        *master = one, *slave = other;
        return STRM_OK;
    }
    if (other) strm_end_join(one, other);
    if (one) strm_end_settle(one, &account);
    strm_system_release(system, number);
    return e;
}

/* ------------------------------------------------------------------------------------------------------------- visits */

/* Makes a turn by a seat; a journal that is full is noted, where it is to begin anew. */
static strm_refusal makes_turn(strm_system *system, seat *by, uint32_t number, strm_visit *visit)
{
    pair *at = &system->pair[number];
    strm_refusal e;
    UNTIL_FREE(at, e, strm_mt_turn(&by->member, number, visit));
    if (e || visit->queue == STRM_NO_QUEUE) return e;
    if (visit->refusal == STRM_JOURNAL_FULL && system->anew) pair_is_full(at);
    if (!visit->refusal) pair_moved(at, by, number);
    return STRM_OK;
}

strm_refusal strm_system_turn(strm_system *system, uint32_t number, strm_visit *visit)
{
    strm_refusal e;
    seat *by;
    if (number >= system->pairs) return STRM_EINVAL;
    by = system_sits(system);
    if (!by) return STRM_NO_MEMORY;
    e = makes_turn(system, by, number, visit);
    system_rises(system, by);
    return e;
}

/* Makes turns by a seat until there are RUN_MOST. */
static strm_refusal runs(strm_system *system, seat *by, uint32_t number, size_t *made)
{
    while (*made < STRM_RUN_MOST) {
        strm_visit visit;
        strm_refusal e = makes_turn(system, by, number, &visit);
        if (e || visit.queue == STRM_NO_QUEUE) return e;
        if (visit.refusal) return visit.refusal;
        ++*made;
    }
    return STRM_EAGAIN;
}

strm_refusal strm_system_run(strm_system *system, uint32_t number, size_t *made)
{
    strm_refusal e;
    seat *by;
    *made = 0;
    if (number >= system->pairs) return STRM_EINVAL;
    by = system_sits(system);
    if (!by) return STRM_NO_MEMORY;
    e = runs(system, by, number, made);
    system_rises(system, by);
    return e;
}

strm_refusal strm_end_run(strm_end *end, size_t *made)
{
    strm_refusal e;
    *made = 0;
    do {
        e = runs(end->system, end->seat, end->number, made);
    } while (e == STRM_JOURNAL_FULL && end->system->anew && !strm_end_restart(end));
    return e;
}

strm_refusal strm_system_audit(strm_system *system, uint32_t number, strm_account *account)
{
    strm_refusal e;
    seat *by;
    if (number >= system->pairs) return STRM_EINVAL;
    by = system_sits(system);
    if (!by) return STRM_NO_MEMORY;
    UNTIL_FREE(&system->pair[number], e, strm_mt_audit(&by->member, number, account));
    system_rises(system, by);
    return e;
}
