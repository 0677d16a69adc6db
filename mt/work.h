/* Work: which pairs may have an enabled queue, for workers that seek one and for none that has to look at all pairs.
 *
 * Each pair has a state:
 *   AT_REST     no call was granted since a worker found no enabled queue
 *   QUEUED      its bit is set, and the first worker that clears it has the pair
 *   AT_WORK     a worker makes its turns
 *   CALLED_ON   a worker makes its turns, and calls were granted since: it looks once more behind them
 * So no two workers are at one pair, and a call costs the bits a step only where the pair was at rest.
 *
 * Bits have two levels: one for each pair, and one for each word of these. A bit is set below first, then above. A worker that finds a word empty
 * clears its bit above, and looks at the word once more. */
#ifndef STRM_MT_WORK_H
#define STRM_MT_WORK_H

#include <stdbool.h>
#include <stddef.h>
#include <stdint.h>

enum { AT_REST, QUEUED, AT_WORK, CALLED_ON };

/* 65,536 pairs, 64 a word, and 64 words a word of these. */
enum { WORK_WORDS = 1024, WORK_TOPS = 16 };

typedef struct work {
    uint32_t bell; /* on which workers sleep that find none */
    uint64_t top[WORK_TOPS];
    uint64_t low[WORK_WORDS];
} work;

/* Sets a pair's bit, and wakes a worker that sleeps. */
void work_adds(work *w, size_t pair);

/* Takes a pair whose bit is set, the first from `from` on, and round; false where none is. */
bool work_takes(work *w, size_t from, size_t *pair);

/* Whether a worker sleeps, or is about to. */
static inline bool work_sleeps(const work *w)
{
    return __atomic_load_n(&w->bell, __ATOMIC_SEQ_CST) & 1u;
}

/* Whether a bit is set. */
bool work_waits(const work *w);

/* A call or a visit was granted at a pair of this state: true where its bit is to be set. */
bool work_called(uint32_t *turns);

/* A worker found no enabled queue, or one that it can't turn: false where calls were granted since, and it has the pair still. */
bool work_rests(uint32_t *turns);

#endif
