/* Bits of 65,536 pairs (mt/work.h): whoever sets one, it is taken once, by whichever thread, and none is left; with mt/work.c and mt/bells.c alone.
 *
 *     work [ROUNDS]
 *
 * First by one thread beside a plain table. Then four threads call on pairs, ROUNDS (2,000,000) times in all, and four take those with work: no pair
 * is at work twice at a time, each is looked at behind its last call, and all are at rest in the end. */
#include "../bells.h"
#include "../work.h"
#include <pthread.h>
#include <stdio.h>
#include <stdlib.h>

enum { PAIRS = 65536, THREADS = 4 };

static work of;
static uint32_t turns[PAIRS], at_work[PAIRS];
static uint32_t calls_of[PAIRS], seen[PAIRS]; /* how many calls a pair had, and how many when it was last looked at */
static uint64_t served, rounds = 2000000;
static uint32_t over;

static void fails(const char *what)
{
    printf("%s\n", what);
    exit(1);
}

static size_t chance(uint64_t *state, size_t n)
{
    *state = *state * 6364136223846793005u + 1442695040888963407u;
    return (size_t)(*state >> 33) % n;
}

/* Each pair that is set comes out once, in order from where it is sought, and round. */
static void of_one_thread(void)
{
    static bool set[PAIRS];
    uint64_t state = 1;
    size_t i, k, pair, from, there = 0;
    for (i = 0; i < 20000; i++) {
        size_t some = chance(&state, 100) ? chance(&state, 8) : chance(&state, 3000);
        for (k = 0; k < some; k++) {
            pair = chance(&state, PAIRS);
            there += !set[pair];
            set[pair] = true;
            work_adds(&of, pair);
        }
        for (k = chance(&state, 9); k > 0; k--) {
            from = chance(&state, PAIRS + 1);
            if (work_waits(&of) < (there > 0)) fails("nothing waits, and a bit is set");
            if (work_takes(&of, from, &pair) != (there > 0)) fails("a bit isn't found, or one that isn't set");
            if (!there) break;
            if (!set[pair]) fails("a bit was taken twice");
            for (; from != pair; from = from >= PAIRS ? 0 : from + 1)
                if (from < PAIRS && set[from]) fails("a bit was passed by");
            set[pair] = false, there--;
        }
    }
    while (work_takes(&of, 0, &pair)) there--;
    if (there) fails("bits are left");
}

static void *calls(void *at)
{
    uint64_t state = *(uint64_t *)at, i;
    for (i = 0; i < rounds / THREADS; i++) {
        size_t pair = chance(&state, chance(&state, 2) ? 40 : PAIRS);
        __atomic_fetch_add(&calls_of[pair], 1, __ATOMIC_SEQ_CST);
        if (work_called(&turns[pair])) work_adds(&of, pair);
    }
    return NULL;
}

/* As a worker does. */
static void *serves(void *at)
{
    uint32_t heard = 0;
    size_t from = *(uint64_t *)at * 1000, pair;
    for (;;) {
        if (work_takes(&of, from, &pair)) {
            heard = 0, from = pair + 1;
            if (work_waits(&of)) bell_rings(&of.bell, BELL_ONE);
            if (__atomic_exchange_n(&at_work[pair], 1, __ATOMIC_SEQ_CST)) fails("two workers are at one pair");
            __atomic_store_n(&turns[pair], AT_WORK, __ATOMIC_SEQ_CST);
            do {
                __atomic_fetch_add(&served, 1, __ATOMIC_SEQ_CST);
                __atomic_store_n(&seen[pair], __atomic_load_n(&calls_of[pair], __ATOMIC_SEQ_CST), __ATOMIC_SEQ_CST);
                __atomic_store_n(&at_work[pair], 0, __ATOMIC_SEQ_CST);
            } while (!work_rests(&turns[pair]));
        } else if (__atomic_load_n(&over, __ATOMIC_SEQ_CST)) {
            return NULL;
        } else {
            if (heard) bell_sleeps(&of.bell, heard, NULL);
            heard = bell_heard(&of.bell);
        }
    }
}

int main(int count, char **words)
{
    pthread_t thread[2 * THREADS];
    uint64_t seed[2 * THREADS];
    size_t i;
    if (count > 1) rounds = strtoull(words[1], NULL, 10);
    of_one_thread();
    for (i = 0; i < 2 * THREADS; i++) {
        seed[i] = i + 1;
        if (pthread_create(&thread[i], NULL, i < THREADS ? calls : serves, &seed[i])) fails("no thread");
    }
    for (i = 0; i < THREADS; i++) pthread_join(thread[i], NULL);
    __atomic_store_n(&over, 1, __ATOMIC_SEQ_CST);
    bell_tolls(&of.bell);
    for (; i < 2 * THREADS; i++) pthread_join(thread[i], NULL);
    for (i = 0; i < PAIRS; i++)
        if (turns[i] != AT_REST || seen[i] != calls_of[i]) fails("a pair isn't at rest, or wasn't looked at behind a call");
    if (work_waits(&of) && work_takes(&of, 0, &i)) fails("a bit is left");
    printf("%llu calls at %d pairs, each looked at behind its last, %llu times in all\n", (unsigned long long)(rounds / THREADS * THREADS), PAIRS,
        (unsigned long long)served);
    return 0;
}
