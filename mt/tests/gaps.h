/* Gaps between the steps of mt/, now and then, so that what may come between does: `cc -include mt/tests/gaps.h` of mt/ (tools/wakes). It includes
 * nothing, as it stands before what a file asks of the system's headers. */
#ifndef STRM_MT_GAPS_H
#define STRM_MT_GAPS_H

/* Waits for up to some 20 microseconds, once of so many times. */
static inline void bell_gap(void)
{
    static __thread unsigned state;
    unsigned spins;
    if (!state) state = (unsigned)(unsigned long)&state | 1u;
    state = state * 1664525u + 1013904223u;
    if (state >> 27) return;
    for (spins = state >> 10 & 16383; spins; spins--) __asm__ volatile("" ::: "memory");
}

#define BELL_GAP() bell_gap()

#endif
