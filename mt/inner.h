/* The library from within. */
#ifndef STRM_MT_INNER_H
#define STRM_MT_INNER_H

#include "bells.h"
#include "exports.h"
#include "work.h"
#include <pthread.h>
#include <stddef.h>

/* A member of the host, with a pointer by which those that nobody uses hang together. */
typedef struct seat {
    strm_member member;
    struct seat *next;
} seat;

/* What the library has of a pair: a line of the cache. */
typedef struct pair {
    uint32_t freed;          /* the bell of its lock */
    uint32_t changed[2];     /* the bells of the state of its sides */
    uint32_t turns;          /* who makes its turns, of work.h */
    uint32_t full;           /* 1: who found its journal full had no end by which to begin it anew */
    uint32_t watched;        /* how many descriptors tell of it */
    uint32_t latch;          /* of the list of these */
    struct strm_end *watches;
    seat *claimed;           /* what has its minor in hand while it is claimed and not open; under the system's latch */
} pair;

/* A thread that makes turns. */
typedef struct worker {
    pthread_t thread;
    strm_system *system;
    seat *seat;
    size_t at; /* behind the pair that it was at last */
} worker;

struct strm_system {
    seat first;     /* has an opener and nothing in hand, and is used under the latch */
    seat *idle;     /* those that have an opener and nothing in hand; under the latch */
    uint32_t latch;
    uint32_t ends;  /* how many there are */
    uint32_t stops; /* 1: workers end */
    bool anew;
    size_t pairs;
    pair *pair;
    void *memory;   /* in which the pairs lie */
    work work;
    size_t workers;
    worker *worker;
};

struct strm_end {
    seat *seat; /* an end is in its hand */
    strm_system *system;
    pair *pair;
    uint32_t number, side;
    int fd;         /* -1 for none */
    uint32_t armed; /* 1: the end looked, and the descriptor tells of the next change */
    struct strm_end *next;
};

/* Makes an export until it isn't BUSY: another thread has the lock of the pair. Behind it the lock is free, and who waits for it is told. */
#define UNTIL_FREE(pair_, answer, export_)                                            \
    do {                                                                              \
        patience patience_ = { 0, 0 };                                                \
        while (((answer) = (export_)) == STRM_BUSY) bell_waits(&(pair_)->freed, &patience_); \
        bell_rings(&(pair_)->freed, BELL_ONE);                                        \
    } while (0)

/* system.c */
seat *system_sits(strm_system *system);                /* a seat with an opener, or NULL */
void system_rises(strm_system *system, seat *taken);   /* gives it back */

/* ends.c */
strm_end *end_made(strm_system *system, seat *taken, uint32_t number, uint32_t side);
void end_gone(strm_end *end, bool with_seat);

/* waits.c */
void pair_changed(pair *changed);                      /* tells all who wait for its state that it has changed */
void pair_moved(pair *of, seat *by, uint32_t number);  /* tells those who wait for what a side is ready for now */
void pair_works(strm_system *system, pair *of);        /* a queue may be enabled: a worker has to look */
void pair_is_full(pair *full);                         /* who looks or waits by an end begins the journal anew */
void end_unwatched(strm_end *end);                     /* closes its descriptor, if it has one */

#endif
