/* Workers: threads that make turns wherever a queue is enabled. */
#define _GNU_SOURCE
#include <signal.h>
#include <stdlib.h>

#include "inner.h"

/* So many turns a worker makes at a pair while another one waits. */
enum { WORKER_TURNS = 64, WORKERS_MOST = 256 };

/* Makes turns at a pair until no queue is enabled, one is refused, or these are enough: true where more are to be made. *moved: one was made. */
static bool makes_turns(worker *w, pair *at, uint32_t number, bool *moved)
{
    int turns;
    for (turns = 0; turns < WORKER_TURNS; turns++) {
        strm_visit visit;
        uint32_t e;
        UNTIL_FREE(at, e, strm_mt_turn(&w->seat->member, number, &visit));
        if (e || visit.queue == STRM_NO_QUEUE) return false;
        if (visit.refusal) {
            /* it goes on behind the next call that is granted, or once an end begins the journal anew */
            if (visit.refusal == STRM_JOURNAL_FULL && w->system->anew) pair_is_full(at);
            return false;
        }
        *moved = true;
    }
    return true;
}

static void serves(worker *w, size_t number)
{
    pair *at = &w->system->pair[number];
    bool moved = false, goes_on;
    __atomic_store_n(&at->turns, AT_WORK, __ATOMIC_SEQ_CST);
    do {
        goes_on = makes_turns(w, at, (uint32_t)number, &moved);
    } while (!goes_on && !work_rests(&at->turns));
    /* one ring for all of these turns, so that who waits finds the pair as they left it */
    if (moved) pair_moved(at, w->seat, (uint32_t)number);
    if (goes_on) {
        __atomic_store_n(&at->turns, QUEUED, __ATOMIC_SEQ_CST);
        work_adds(&w->system->work, number);
    }
}

static void *works(void *one)
{
    worker *w = (worker *)one;
    work *all = &w->system->work;
    uint32_t heard = 0;
    while (!__atomic_load_n(&w->system->stops, __ATOMIC_SEQ_CST)) {
        size_t number;
        if (work_takes(all, w->at, &number)) {
            heard = 0;
            w->at = number + 1;
            /* who was woken wakes the next one, where there is work for it */
            if (work_waits(all)) bell_rings(&all->bell, BELL_ONE);
            serves(w, number);
            continue;
        }
        if (heard) bell_sleeps(&all->bell, heard, NULL);
        heard = bell_heard(&all->bell);
    }
    return NULL;
}

/* Ends the first so many workers. */
static void ends_workers(strm_system *system, size_t started)
{
    size_t i;
    __atomic_store_n(&system->stops, 1, __ATOMIC_SEQ_CST);
    bell_tolls(&system->work.bell);
    for (i = 0; i < started; i++) {
        pthread_join(system->worker[i].thread, NULL);
        system_rises(system, system->worker[i].seat);
    }
    free(system->worker);
    system->worker = NULL;
    system->workers = 0;
    __atomic_store_n(&system->stops, 0, __ATOMIC_SEQ_CST);
}

static bool starts(strm_system *system, worker *w)
{
    w->system = system;
    w->seat = system_sits(system);
    if (!w->seat) return false;
    if (pthread_create(&w->thread, NULL, works, w) == 0) return true;
    system_rises(system, w->seat);
    return false;
}

strm_refusal strm_workers_start(strm_system *system, size_t threads)
{
    sigset_t all, before;
    size_t started = 0;
    if (system->worker || threads < 1 || threads > WORKERS_MOST) return STRM_EINVAL;
    system->worker = (worker *)calloc(threads, sizeof *system->worker);
    if (!system->worker) return STRM_NO_MEMORY;
    sigfillset(&all);
    pthread_sigmask(SIG_SETMASK, &all, &before);
    while (started < threads && starts(system, &system->worker[started])) started++;
    pthread_sigmask(SIG_SETMASK, &before, NULL);
    system->workers = started;
    if (started == threads) return STRM_OK;
    ends_workers(system, started);
    return STRM_NO_MEMORY;
}

strm_refusal strm_workers_stop(strm_system *system)
{
    if (!system->worker) return STRM_EINVAL;
    ends_workers(system, system->workers);
    return STRM_OK;
}
