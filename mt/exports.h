/* exports.h - what the archive of crates/strm_mt exports: threads at the pairs of a host, without a wait
 *
 * Names are prefixed strm_mt_. Structs and numbers that aren't here are those of strm.h and strm_mt.h.
 *
 * A member is what one thread has of a host: it shares the host's memory with the other members, and has its own opener of minors, or none, and one
 * thing in hand: nothing, a minor that it claimed, or an end of a pair. It is used by one thread at a time, and may be handed from one thread to
 * another (behind a lock, a thread's start or its join, or a sequentially consistent atomic). Members of one host may be used at once.
 * All zeros is a closed member, and a closed trace. The library keeps no pointer of the caller's, calls nothing back, has no state but members and
 * traces, and waits for nothing: where another thread has the lock of the pair the answer is STRM_BUSY, and nothing was done and nothing told.
 *
 * Each function answers 0, the number of a refusal (strm.h), or STRM_BUSY. One that isn't 0 has changed nothing: neither members nor what the
 * caller's pointers lead to. STRM_EINVAL comes first (a closed member, something else in hand than is asked for, numbers that name nothing), then
 * STRM_BUSY, then what the pair refuses.
 * `bytes`, `out` beside a length of 0 may be NULL. A bool is 0 or 1. Pointers don't overlap where one is written to.
 *
 * The number of a pair: from 0 to the number of pairs, without that; 64 times its system's number and its minor there. */
#ifndef STRM_MT_EXPORTS_H
#define STRM_MT_EXPORTS_H

#include <strm_mt.h>

#ifdef __cplusplus
extern "C" {
#endif

typedef struct strm_member {
    void *at;
    bool is_open;
} strm_member;

enum { STRM_BUSY = 12 }; /* another thread has the lock of the pair: nothing was done */

/* What a pair is ready for: the bits of strm_ready for a side (STRM_CAN_READ ..), and the queue that is enabled first, or STRM_NO_QUEUE. */
typedef struct strm_prospect {
    uint32_t bits;
    uint32_t queue;
} strm_prospect;

/* Makes a host of 1 to 65536 pairs that nobody opened, each of so many blocks of each kind (1 to 65536) and so large a journal, in a closed member:
 * its first, with an opener, and nothing in hand. All memory of the pairs is taken here. EINVAL: the member is open, or a number isn't one of these.
 * NO_MEMORY. */
uint32_t strm_mt_make(strm_member *member, uint32_t pairs, size_t blocks, size_t entries, size_t bytes);

/* A further member of the host, in a closed one, with an opener of its own and nothing in hand. The first has an opener: EINVAL where it hasn't (one
 * that open_slave or split made), or where the second isn't closed. What the first has in hand stays. NO_MEMORY. */
uint32_t strm_mt_seat(strm_member *member, strm_member *made);

/* Claims the first minor that it finds free: it is in hand then, and *pair is the number of its pair. EINVAL: something is in hand, or there is no
 * opener. NO_MINOR: each was found taken. It takes no lock: never BUSY. */
uint32_t strm_mt_claim(strm_member *member, uint32_t *pair);

/* Gives back the minor that is in hand: nothing is in hand then. EINVAL where no minor is in hand. Never BUSY. */
uint32_t strm_mt_release(strm_member *member);

/* open(2) of the master of the pair whose minor is in hand: an end with all parts and the minor is in hand then. EINVAL: no minor is in hand, or the
 * pair was opened before, and was dropped with an end. BUSY, JOURNAL_FULL, ENOSR, NO_MEMORY: the minor stays in hand. */
uint32_t strm_mt_open(strm_member *member);

/* open(2) of the slave by a call of the end in hand: the new end, with half of the parts, is in hand of the second member, which was closed, and has
 * no opener. EINVAL: no end is in hand, the second isn't closed. EAGAIN before the unlock (strm_mt_call), ERANGE: an end of one part. BUSY, NO_MEMORY
 * and what the pair refuses. */
uint32_t strm_mt_open_slave(strm_member *member, strm_member *slave);

/* Who makes the end's later calls: a process of this group, 0 for none; whether it ignores or blocks SIGTTIN and SIGTTOU; whether its group is
 * orphaned. EINVAL: no end is in hand. Never BUSY. */
uint32_t strm_mt_group(strm_member *member, uint32_t group, bool ignores, bool orphaned);

/* Makes any call by the end in hand, as strm_call does: op, a, b, c of `ask` say which one; its side, group and bools aren't looked at, as the end
 * calls as itself. Of a write the first 1024 bytes at most. EINVAL: no end is in hand; numbers that name no call; STRM_OP_OPEN_MASTER and
 * STRM_OP_OPEN_SLAVE; `room` is below the greatest answer of the call. Then BUSY, then what the pair refuses; out and *reply stay. Else the answer is
 * in *reply, its bytes at the front of out, which stays behind them, and the end was told of the call. */
uint32_t strm_mt_call(strm_member *member, const strm_ask *ask, const void *bytes, size_t n, void *out, size_t room, strm_reply *reply);

/* What the end in hand is. EINVAL: none is. It takes no lock: never BUSY. */
uint32_t strm_mt_told(strm_member *member, strm_share *told);

/* Cuts the end in hand in two: the second end, with half of the parts, told nothing, is in hand of the second member, which was closed and has no
 * opener. Both call alike. EINVAL: no end is in hand, the second isn't closed. ERANGE: an end of one part. NO_MEMORY. Never BUSY. */
uint32_t strm_mt_split(strm_member *member, strm_member *made);

/* One end of two: the end of the first has what both were told, and the parts of both; the second is closed. The two members ARE OF ONE HOST: nothing
 * here checks that, the caller does. EINVAL: either has no end in hand; the ends are of two pairs; the second has an opener (its end is the one that
 * opened the pair: join the other way round). Never BUSY. */
uint32_t strm_mt_join(strm_member *member, strm_member *other);

/* Settles the pair of the end in hand, which has all parts and the minor (it, or one that was joined to it, opened the pair): *told has what the end
 * was told, which is all that was told of this pair, and both ledgers; the pair is as new, and its minor is in hand. EINVAL: no end is in hand.
 * STILL_SHARED: parts are lacking, or the minor (an end that open_slave or split made). BUSY. */
uint32_t strm_mt_settle(strm_member *member, strm_account *told);

/* Makes the turn of the queue of a pair that was enabled first, if one is, and tells it. Any open member does for any pair of its host. EINVAL:
 * closed, no such pair. BUSY. */
uint32_t strm_mt_turn(strm_member *member, uint32_t pair, strm_visit *visit);

/* Begins the journal of the pair of the end in hand anew. EINVAL: no end is in hand. BUSY. No memory is taken. */
uint32_t strm_mt_restart(strm_member *member);

/* What a side of a pair is ready for, and which queue is enabled first. EINVAL: closed, no such pair, no such side. BUSY. */
uint32_t strm_mt_ready(strm_member *member, uint32_t pair, uint32_t side, strm_prospect *told);

/* What was told of a pair in all so far, and its ledgers. EINVAL: closed, no such pair. BUSY. */
uint32_t strm_mt_audit(strm_member *member, uint32_t pair, strm_account *told);

/* Cuts the pair of the end in hand: its base and all that was entered since go into a closed trace, and its journal begins anew. The member stays,
 * and what its end was told. EINVAL: the trace is open; no end is in hand. NO_MEMORY, before the lock is asked for or behind it, and BUSY: pair and
 * trace stay. */
uint32_t strm_mt_cut(strm_member *member, strm_trace *trace);

/* Takes the entry at a cursor of a trace, which moves behind it, as strm_next_entry does of a pair; a cursor begins zeroed. A trace belongs to no
 * member, and takes no lock: never BUSY. EINVAL: the trace is closed; or `room` is below the bytes of the entry, which is told then, and how many
 * they are. EAGAIN behind the last entry. */
uint32_t strm_mt_trace_next(strm_trace *trace, strm_cursor *at, strm_entry *entry, void *bytes, size_t room);

/* Puts the image of a trace's base into a buffer, as strm_image does that of a pair, and tells its length. EINVAL: the trace is closed; or the
 * buffer is too small: the length is told then, and the buffer stays. Never BUSY. */
uint32_t strm_mt_trace_base(strm_trace *trace, void *out, size_t room, size_t *length);

/* Gives the memory of a trace back, zeros over its bytes and its base, and closes it. A closed one stays so. */
void strm_mt_trace_free(strm_trace *trace);

/* Closes a member and drops what it has: a minor or an end that is in hand is lost with it (the pair never settles then). The memory of the host goes
 * with its last member. A closed one stays so. */
void strm_mt_free(strm_member *member);

#ifdef __cplusplus
}
#endif
#endif
