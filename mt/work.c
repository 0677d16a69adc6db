/* Bits of pairs that may have an enabled queue. */
#include "work.h"
#include "bells.h"

static uint64_t bit_of(size_t at)
{
    return (uint64_t)1 << (at % 64);
}

static void sets(uint64_t *words, size_t at)
{
    __atomic_fetch_or(&words[at / 64], bit_of(at), __ATOMIC_SEQ_CST);
}

void work_adds(work *w, size_t pair)
{
    sets(w->low, pair);
    sets(w->top, pair / 64);
    bell_rings(&w->bell, BELL_ONE);
}

bool work_waits(const work *w)
{
    size_t i;
    for (i = 0; i < WORK_TOPS; i++)
        if (__atomic_load_n(&w->top[i], __ATOMIC_SEQ_CST)) return true;
    return false;
}

/* Clears a bit of a word, from this one on; false where none is set. */
static bool clears(uint64_t *word, size_t from, size_t *at)
{
    uint64_t bits = __atomic_load_n(word, __ATOMIC_SEQ_CST) & ~(bit_of(from) - 1);
    while (bits) {
        uint64_t bit = bits & -bits;
        if (__atomic_fetch_and(word, ~bit, __ATOMIC_SEQ_CST) & bit) {
            *at = (size_t)__builtin_ctzll(bit);
            return true;
        }
        bits &= ~bit; /* another worker took it */
    }
    return false;
}

/* Clears the bit above an empty word. Who sets one in the word meanwhile may find it set above still, so the word is looked at once more. Others may
 * miss the word for that time; the worker itself seeks again before it sleeps, or who set the bit finds that it is about to. */
static void tidies(work *w, size_t word)
{
    if (__atomic_load_n(&w->low[word], __ATOMIC_SEQ_CST)) return;
    BELL_GAP();
    __atomic_fetch_and(&w->top[word / 64], ~bit_of(word), __ATOMIC_SEQ_CST);
    if (__atomic_load_n(&w->low[word], __ATOMIC_SEQ_CST)) sets(w->top, word);
}

/* The first word from this one on that has a bit above, or WORK_WORDS. */
static size_t word_from(const work *w, size_t word)
{
    uint64_t mask = ~(uint64_t)0 << (word % 64);
    size_t i;
    for (i = word / 64; i < WORK_TOPS; i++, mask = ~(uint64_t)0) {
        uint64_t bits = __atomic_load_n(&w->top[i], __ATOMIC_SEQ_CST) & mask;
        if (bits) return i * 64 + (size_t)__builtin_ctzll(bits);
    }
    return WORK_WORDS;
}

/* The same from a pair on to the last. */
static bool takes_from(work *w, size_t from, size_t *pair)
{
    size_t word;
    for (word = word_from(w, from / 64); word < WORK_WORDS; word = word_from(w, word + 1)) {
        if (clears(&w->low[word], word == from / 64 ? from % 64 : 0, pair)) {
            *pair += word * 64;
            return true;
        }
        tidies(w, word);
    }
    return false;
}

bool work_takes(work *w, size_t from, size_t *pair)
{
    return takes_from(w, from, pair) || takes_from(w, 0, pair);
}

bool work_called(uint32_t *turns)
{
    uint32_t was = __atomic_load_n(turns, __ATOMIC_SEQ_CST);
    while (was == AT_REST || was == AT_WORK) {
        uint32_t becomes = was == AT_REST ? QUEUED : CALLED_ON;
        if (__atomic_compare_exchange_n(turns, &was, becomes, false, __ATOMIC_SEQ_CST, __ATOMIC_SEQ_CST)) return becomes == QUEUED;
    }
    return false;
}

bool work_rests(uint32_t *turns)
{
    uint32_t was = AT_WORK;
    BELL_GAP();
    if (__atomic_compare_exchange_n(turns, &was, AT_REST, false, __ATOMIC_SEQ_CST, __ATOMIC_SEQ_CST)) return true;
    __atomic_store_n(turns, AT_WORK, __ATOMIC_SEQ_CST);
    return false;
}
