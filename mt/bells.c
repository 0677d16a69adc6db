/* Sleeping and waking by futex(2). */
#define _GNU_SOURCE
#include <errno.h>
#include <linux/futex.h>
#include <stddef.h>
#include <sys/syscall.h>
#include <time.h>
#include <unistd.h>

#include "bells.h"

bool bell_sleeps(uint32_t *bell, uint32_t heard, const struct timespec *until)
{
    /* (of the two kinds of waiting this one takes a time, and not how long) */
    long slept;
    BELL_GAP();
    slept = syscall(SYS_futex, bell, FUTEX_WAIT_BITSET_PRIVATE, heard, until, NULL, FUTEX_BITSET_MATCH_ANY);
    return slept == 0 || errno != ETIMEDOUT;
}

void bell_wakes(uint32_t *bell, uint32_t word, int most)
{
    uint32_t count = word / BELL_COUNTS;
    /* (who is about to sleep may set bits meanwhile) */
    while (word / BELL_COUNTS == count) {
        uint32_t next = (count + 1) * BELL_COUNTS;
        if (!__atomic_compare_exchange_n(bell, &word, next, false, __ATOMIC_SEQ_CST, __ATOMIC_SEQ_CST)) continue;
        syscall(SYS_futex, bell, FUTEX_WAKE_PRIVATE, most, NULL, NULL, 0);
        return;
    }
}

void bell_tolls(uint32_t *bell)
{
    __atomic_fetch_add(bell, BELL_COUNTS, __ATOMIC_SEQ_CST);
    syscall(SYS_futex, bell, FUTEX_WAKE_PRIVATE, BELL_ALL, NULL, NULL, 0);
}

static inline void pauses(void)
{
#if defined(__x86_64__) || defined(__i386__)
    __builtin_ia32_pause();
#endif
}

void bell_waits(uint32_t *bell, patience *p)
{
    if (p->tries++ < BELL_TRIES) {
        pauses();
        return;
    }
    /* the try that was BUSY came behind the word that was kept, if one was */
    if (p->heard) bell_sleeps(bell, p->heard, NULL);
    p->heard = bell_heard(bell);
}

void latch_takes(uint32_t *latch)
{
    uint32_t was = 0;
    if (__atomic_compare_exchange_n(latch, &was, 1, false, __ATOMIC_SEQ_CST, __ATOMIC_SEQ_CST)) return;
    /* who slept doesn't know whether others do, so it takes it as slept on */
    while (__atomic_exchange_n(latch, 2, __ATOMIC_SEQ_CST) != 0) bell_sleeps(latch, 2, NULL);
}

void latch_gives(uint32_t *latch)
{
    if (__atomic_exchange_n(latch, 0, __ATOMIC_SEQ_CST) == 2) syscall(SYS_futex, latch, FUTEX_WAKE_PRIVATE, 1, NULL, NULL, 0);
}
