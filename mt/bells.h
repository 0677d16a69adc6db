/* Bells: words on which threads sleep, by futex(2), and the argument that no wake is lost.
 *
 * A bell is a word of 32 bits. Bit 0 says that a thread sleeps on it, or is about to; the six behind it what such threads want, where that is asked;
 * the others count how often it was rung. All steps are sequentially consistent, and so are those of a pair's lock (crates/strm_locks), so there is
 * one order of all of them, in which each load gives what the last store before it left.
 *
 * WHO SLEEPS   sets bit 0 and keeps the word (bell_heard), then looks for what it waits for (it tries the lock; it asks under the lock what the
 *              side is ready for; it seeks a pair with work), and sleeps while the word is what it kept (bell_sleeps). Behind each sleep it does all
 *              of this again.
 * WHO CHANGES  what others wait for makes the change, then reads the word (bell_rings). Where bit 0 is set it counts up, which clears all seven bits,
 *              and wakes those that sleep.
 *
 * No wake is lost. Let a thread S keep the word v, look, and find nothing; let the change C that it waits for come behind that look. Then C's load
 * of the word comes behind S's bell_heard. It finds v, or a word that was counted up since.
 *   It finds v, or v with more bits of what is wanted: bit 0 is set. The thread of C counts up, or finds that another did so since its load. Either
 *     way the count is that of v no more, and who counted up wakes behind it: S sleeps already and is woken, or bell_sleeps finds another word and
 *     returns.
 *   It finds another word: somebody counted up behind S's bell_heard, and wakes behind it, as above.
 * So S sets bit 0 anew and looks again. If C stands behind that look too, as the ring was for something else, the same holds of it. (The count has 25
 * bits: 2^25 rings between a bell_heard and its sleep would go unnoticed.)
 *
 * Where one is woken of several (the lock, work), another may go on sleeping while bit 0 is clear. None is forgotten: who is woken sets bit 0 before
 * it looks, and behind what it then does it rings as everybody does: behind its visit, if it got the lock; behind the work that it took, if more is
 * there. If it finds nothing, the bit is set, and what it waits for comes with a ring.
 *
 * A pair has a bell for its lock, which rings behind each visit and wakes one of those that met it BUSY, and one for the state of each side, which
 * wakes all. The latter rings behind a call that was granted and a journal that begins anew; and behind a run of turns, or a read, where the side is
 * then ready for something that is wanted, as who made them sees under the lock. If it isn't, they made nothing ready that is wanted, or somebody has
 * taken it since: who sleeps would have found nothing, and bit 0 stays. Lock and state have bells of their own since a refused call frees the lock
 * and changes nothing: on one bell threads that look and find nothing would wake each other without end. */
#ifndef STRM_MT_BELLS_H
#define STRM_MT_BELLS_H

#include <stdbool.h>
#include <stdint.h>

struct timespec;

enum { BELL_ONE = 1, BELL_ALL = 0x7fffffff, BELL_WANTS = 63, BELL_COUNTS = 128 };

/* How often a lock is tried before a thread sleeps: about as long as a call takes. */
enum { BELL_TRIES = 24 };

/* Where something may come between: trials wait here now and then (tests/gaps.h). */
#ifndef BELL_GAP
#define BELL_GAP() ((void)0)
#endif

/* Says that the thread is about to sleep, and what for, and gives the word on which it will. */
static inline uint32_t bell_heard_for(uint32_t *bell, uint32_t wanted)
{
    uint32_t bits = 1u | wanted << 1;
    BELL_GAP();
    return __atomic_fetch_or(bell, bits, __ATOMIC_SEQ_CST) | bits;
}

static inline uint32_t bell_heard(uint32_t *bell)
{
    return bell_heard_for(bell, 0);
}

/* Sleeps while the word is `heard`, until a time of CLOCK_MONOTONIC, or without end where it is NULL. False where the time is over. */
bool bell_sleeps(uint32_t *bell, uint32_t heard, const struct timespec *until);

/* What those want that sleep, or are about to: 0 where none does. */
static inline uint32_t bell_wanted(uint32_t word)
{
    return word >> 1 & BELL_WANTS;
}

/* Counts up, if nobody has done so since the word was read, and wakes so many. */
void bell_wakes(uint32_t *bell, uint32_t word, int most);

/* Behind a change: wakes so many of those that sleep, if any. */
static inline void bell_rings(uint32_t *bell, int most)
{
    uint32_t word;
    BELL_GAP();
    word = __atomic_load_n(bell, __ATOMIC_SEQ_CST);
    if (word & 1u) bell_wakes(bell, word, most);
}

/* Wakes all, also those that only think of sleeping. */
void bell_tolls(uint32_t *bell);

/* How patiently a thread waits for a lock that it found BUSY: it tries some times, and then sleeps between its tries. Zeroed at first. */
typedef struct patience {
    uint32_t tries, heard;
} patience;

void bell_waits(uint32_t *bell, patience *p);

/* A lock of the library's own, for what it does beside the pairs: 0 free, 1 taken, 2 taken and slept on. It is held for some steps. */
void latch_takes(uint32_t *latch);
void latch_gives(uint32_t *latch);

#endif
