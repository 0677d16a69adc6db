/* strm_mt.h - pairs of strm.h that threads share
 *
 * NAME
 *   strm_mt - systems of 1 to 65,536 pairs that threads share: a lock each, ends by which threads call, workers that make turns, and a wait
 *   that sleeps. For Linux.
 *
 * SYNOPSIS
 *   #include <strm_mt.h>                                cc prog.c -lstrm_mt -lpthread    (or: cc prog.c libstrm_mt.a -lpthread)
 *
 *   strm_choices sizes = { STRM_TERMINAL_BLOCKS, 64, 16384, 0, true };
 *   strm_system *system;
 *   strm_end *master, *slave;
 *   strm_account account;
 *   strm_system_new(&system, 100, &sizes);             100 pairs
 *   strm_workers_start(system, 2);                     two threads that make turns, wherever a queue is enabled
 *   strm_system_terminal(system, &master, &slave);     a pair is claimed, both sides are open, ptem and ldterm on the slave
 *   ..                                                 in one thread, by the master's end:
 *   strm_end_write_all(master, "ls\r", 3, -1);
 *   ..                                                 in another one, by the slave's, which sleeps until a line is there:
 *   strm_end_read_wait(slave, buf, sizeof buf, -1, &r);
 *   ..                                                 once no other thread has one of them:
 *   strm_end_join(master, slave);
 *   strm_end_settle(master, &account);                 what both were told is what the pair's books say
 *   strm_system_free(system);
 *
 * DESCRIPTION
 *   An end is what a thread has of a pair: it calls as one side, and is told what its own calls were, wrote and read. The end that opens a pair has
 *   all of it; strm_end_open_slave and strm_end_split cut a part off for another thread, strm_end_join puts two together, and who has all of a pair
 *   again settles it. Then all that the ends were told is what the pair's own books say: no byte is counted twice, and none is lost.
 *   Each call is that of strm.h, is made whole under the lock of its pair, and returns at once: where it would have to wait for bytes or room it is
 *   refused with STRM_EAGAIN. It waits for nothing but that lock, which another thread has for the time of a call or a turn. strm_end_wait sleeps
 *   until an end may go on, and is woken by whoever makes it so. No thread spins but for the time of some calls in front of such a sleep.
 *   Bytes go from side to side by turns alone: of workers, or of whoever calls strm_system_run.
 *   No lock is round the whole: calls on different pairs don't wait for each other.
 *
 * ERRORS
 *   A function that returns strm_refusal gives 0 (STRM_OK), or the number of its refusal, as in strm.h. A refused call has changed nothing: neither
 *   a pair nor what the caller's pointers lead to, but where a function says otherwise. STRM_EINVAL is an argument that names nothing, or an end or
 *   a pair that isn't what is asked for. STRM_NO_MEMORY: malloc gave none, or the system no thread or descriptor.
 *
 * UNITS
 *   Lengths are bytes, times milliseconds of CLOCK_MONOTONIC: a negative one has no end, 0 doesn't sleep. The number of a pair is below how many the
 *   system has.
 *
 * OWNERSHIP
 *   strm_system_new takes all memory that the pairs will use, and touches none before it is used. Beside it each claimed pair and each end has some
 *   hundred bytes, and a claimed pair of a large system 16 for each 64 of its pairs. No call on a pair takes memory but strm_end_cut, for its
 *   trace; strm_end_trace_free gives it back. The library keeps no pointer of the caller's behind a call, and calls nothing back.
 *   It asks the system for memory (malloc), futex(2) and the clock, for threads where workers are started, and for eventfd(2) where strm_end_fd is
 *   called. It sets no signal handler.
 *
 * THREADS AND SIGNALS
 *   A system is used by any threads at once. An end is used by one thread at a time, and may be handed from one to another behind a lock, a thread's
 *   start or its join; two ends are independent, also those of one side of one pair. A trace is used so too, and is independent of the end that cut
 *   it, of its pair and of its system, also when these are gone. No function is called in a signal handler, nor in the forked child of a process with
 *   threads. A signal that a handler takes goes by a sleep: it sleeps on.
 *
 * WHAT A CALLER OWES (nothing checks it)
 *   Systems and ends are those that these functions made, and none is used that was freed, joined as the second, or settled. Two threads don't use
 *   one end at once, nor one trace, which is closed (STRM_CLOSED) or was made by strm_end_cut, and isn't copied and then used or freed twice. Its
 *   cursor was zeroed, and only strm_end_trace_next moved it. Pointers lead to as much memory as their length says, and don't overlap where one is
 *   written to; one beside a length of 0 may be NULL, no other. A bool is 0 or 1.
 *
 * WHAT STAYS
 *   STRM_VERSION of strm.h is the version of this library too, and its rules are those of strm.h.
 *
 * PROVED: what a call, a visit, a cut, a settling and an audit do and tell under the lock, and that none waits, by the contracts of crates/strm_mt;
 * so a wait that answers 'ready' saw it under the lock. NOT PROVED: all that waits and wakes, mt/ and the inline functions of this file: that no wake
 * is lost is argued in mt/bells.h, and tried (tools/wakes).
 */
#ifndef STRM_MT_H
#define STRM_MT_H

#include <strm.h>

#ifdef __cplusplus
extern "C" {
#endif

typedef struct strm_system strm_system;
typedef struct strm_end strm_end;

/* ------------------------------------------------------------------------------------------------------------- what is told */

/* How many bytes, by the side that wrote them. */
typedef struct strm_each {
    uint64_t from_master, from_slave;
} strm_each;

/* How many calls were granted, and the bytes that they wrote and read, those of control parts too. A number of calls stands still at 2^64 - 1. */
typedef struct strm_told {
    uint64_t calls;
    strm_each written, read;
} strm_told;

/* What an end is: what it was told of its calls, and with those of ends that were joined to it; how many parts of its pair it has, of 2^63; its pair;
 * and whom it calls as. */
typedef struct strm_share {
    strm_told told;
    uint64_t parts;
    uint32_t pair, side;
    uint32_t group;
    bool ignores, orphaned;
} strm_share;

/* What was told of a pair in all since it was opened, and its ledgers: ms of what the master wrote, sm of what the slave wrote. */
typedef struct strm_account {
    strm_told told;
    strm_books ms, sm;
} strm_account;

/* A visit to a pair: the queue that was enabled first and had a turn, or NO_QUEUE where none was enabled; 0, or the refusal of that turn; and what
 * the turn did where it was made. */
typedef struct strm_visit {
    uint32_t queue;
    strm_refusal refusal;
    strm_went went;
} strm_visit;

/* ------------------------------------------------------------------------------------------------------------- systems */

/* Makes a system of 1 to 65536 pairs that nobody opened, each of what is chosen, as strm_new_with has it. EINVAL: a number isn't one of these, or a
 * reserve is asked for, which these pairs haven't: one side can take blocks that the other needs. NO_MEMORY.
 * With `anew` a journal that is full for a call or a turn begins anew, and the call or turn is made then: none is JOURNAL_FULL. Else workers leave
 * a pair whose journal is full as it is until somebody begins it anew (strm_end_restart), or cuts it. */
strm_refusal strm_system_new(strm_system **made, size_t pairs, const strm_choices *choices);

/* Stops the workers, and frees a system, of which no end is left. STILL_SHARED: one is, and all stays. */
strm_refusal strm_system_free(strm_system *system);

/* How many pairs it has. */
size_t strm_system_pairs(const strm_system *system);

/* Claims a pair that nobody has, the first that it finds free: its number. NO_MINOR: each was found taken. NO_MEMORY. */
strm_refusal strm_system_claim(strm_system *system, uint32_t *pair);

/* Gives a claimed pair back that isn't open: somebody else may claim it. EINVAL: it isn't claimed, or is open. */
strm_refusal strm_system_release(strm_system *system, uint32_t pair);

/* open(2) of the master of a claimed pair: the end that has all of it. EINVAL: it isn't claimed, or is open, or was open and dropped with an end
 * (strm_end_free). ENOSR: it has too few blocks. JOURNAL_FULL, NO_MEMORY. The pair stays claimed. */
strm_refusal strm_system_open(strm_system *system, uint32_t pair, strm_end **master);

/* A terminal as a shell expects it, of a pair that is claimed by it: both sides open, ptem and ldterm on the slave. What strm_system_claim,
 * strm_system_open and the calls are refused for; nothing is claimed or open then. */
strm_refusal strm_system_terminal(strm_system *system, strm_end **master, strm_end **slave);

/* Makes the turn of the queue of a pair that was enabled first, if one is, and tells it. EINVAL: no such pair. NO_MEMORY. */
strm_refusal strm_system_turn(strm_system *system, uint32_t pair, strm_visit *visit);

/* Makes such turns until no queue is enabled, or a turn is refused, which it answers: ERANGE, JOURNAL_FULL, ENOSR. *turns is how many were made, also
 * then; EINVAL and NO_MEMORY made none. It makes RUN_MOST turns at most, and is EAGAIN where a queue is enabled behind them. A journal that is to
 * begin anew does so once an end of the pair calls, looks or waits, so that a turn by the number of a pair may be JOURNAL_FULL (strm_end_run). */
strm_refusal strm_system_run(strm_system *system, uint32_t pair, size_t *turns);

/* What was told of a pair so far, and its ledgers, of one moment under its lock. EINVAL: no such pair. NO_MEMORY. */
strm_refusal strm_system_audit(strm_system *system, uint32_t pair, strm_account *account);

/* ------------------------------------------------------------------------------------------------------------- workers */

/* Starts so many threads, 1 to 256, that make turns wherever a queue is enabled, and sleep where none is; their signals are blocked. A worker is at
 * one pair for some turns, and goes on to the next that waits. A turn that is refused is made again once a call on its pair is granted.
 * EINVAL: workers are there, or the number is none of these. NO_MEMORY: a thread couldn't be had, and none is left. */
strm_refusal strm_workers_start(strm_system *system, size_t threads);

/* Stops them, and waits until each has ended, behind a turn that is under way; what is enabled stays so. EINVAL: none is there. It and
 * strm_workers_start are called by one thread at a time. */
strm_refusal strm_workers_stop(strm_system *system);

/* ------------------------------------------------------------------------------------------------------------- ends */

/* open(2) of the slave by a call of an end of the pair, and the end that calls as it, with half of the parts. EAGAIN before strm_end_unlock. ERANGE:
 * an end of one part. EINVAL, ENXIO, ENOSR, JOURNAL_FULL, NO_MEMORY. */
strm_refusal strm_end_open_slave(strm_end *end, strm_end **slave);

/* Cuts an end in two, which call alike: the second, for another thread, has half of the parts and was told nothing yet. ERANGE: an end of one part.
 * NO_MEMORY. */
strm_refusal strm_end_split(strm_end *end, strm_end **second);

/* Joins the second end to the first, which has the parts of both then, and what both were told; the second is gone. It calls as the end that opened
 * the pair did, where that is one of them, else as the first did. EINVAL: they are of two pairs or of two systems, or one end twice. Both stay then.
 * */
strm_refusal strm_end_join(strm_end *first, strm_end *second);

/* Settles the pair of an end that has all of it: *account has what its ends were told in all, which is what the pair's books say, and both ledgers.
 * The pair is as new, and stays claimed: it may be opened again or released. The end is gone. STILL_SHARED: another end has a part of the pair, or
 * one was dropped with it; all stays then. */
strm_refusal strm_end_settle(strm_end *end, strm_account *account);

/* Drops an end, for a program that doesn't settle: its parts go with it, and the pair is never settled nor opened again. A side isn't closed by it
 * (strm_end_close). */
void strm_end_free(strm_end *end);

/* What an end is. Nothing is waited for. */
void strm_end_told(const strm_end *end, strm_share *share);

/* Who makes the end's later calls (job control): a process of this group, 0 for none; whether it ignores or blocks SIGTTIN and SIGTTOU; whether its
 * group is orphaned. */
void strm_end_set_group(strm_end *end, uint32_t group, bool ignores, bool orphaned);

/* Makes a call by an end, as strm_call does: op, a, b and c of `ask` say which one, and the end its side and caller: side, group and bools aren't
 * looked at. Of a write the first WRITE_MOST bytes are brought. OP_OPEN_MASTER and OP_OPEN_SLAVE are EINVAL. */
strm_refusal strm_end_call(strm_end *end, const strm_ask *ask, const void *bytes, size_t n, void *out, size_t room, strm_reply *reply);

/* Makes turns of the end's pair, as strm_system_run does; a full journal begins anew where that was chosen. */
strm_refusal strm_end_run(strm_end *end, size_t *turns);

/* Begins the journal of the end's pair anew, as strm_restart does. */
strm_refusal strm_end_restart(strm_end *end);

/* Cuts the end's pair, as strm_cut does: its journal, the calls of all ends and all turns in the order in which they were made, goes into a trace
 * that was closed, and is empty behind it. So calls and turns go on that it was too full for. Where the system begins full journals anew (`anew`) a
 * trace has what was entered since that happened last; else no entry is lost between two cuts. The end isn't told of a cut, which is no entry.
 * EINVAL: the trace is open. NO_MEMORY: malloc gave none for the copies. Pair and trace stay then. */
strm_refusal strm_end_cut(strm_end *end, strm_trace *trace);

/* strm_trace_next, strm_trace_base and strm_trace_free of a trace that strm_end_cut made: takes the entry at a cursor, which begins zeroed; puts the
 * image of its base, of which strm_restore makes a pair, into a buffer; gives its memory back and closes it. Where libstrm of the same version is
 * linked too, its functions take such a trace as well. No lock is waited for. */
strm_refusal strm_end_trace_next(strm_trace *trace, strm_cursor *at, strm_entry *entry, void *bytes, size_t room);
strm_refusal strm_end_trace_base(strm_trace *trace, void *out, size_t room, size_t *length);
void strm_end_trace_free(strm_trace *trace);

/* ------------------------------------------------------------------------------------------------------------- waiting */

/* What the end's side is ready for, as strm_ready has it, seen under the lock. ENXIO: the side isn't open. */
strm_refusal strm_end_ready(strm_end *end, uint32_t *ready);

/* Sleeps until the end's side is ready for something of `what`, bits of strm_ready, or is hung up: *ready is all that it is ready for. EAGAIN: the
 * time is over, and *ready has none of these. ENXIO: the side isn't open, or was closed meanwhile by another end; *ready is 0. It costs no time of
 * the processor while it sleeps, but that calls and turns on its own pair wake it to look. Two ends of one side that wait for the same are both
 * woken, and one of them finds what the other took: it waits again. */
strm_refusal strm_end_wait(strm_end *end, uint32_t what, int timeout, uint32_t *ready);

/* A descriptor for poll(2), POLLIN: an eventfd(2), the end's, made at the first call and closed with the end. It becomes readable where the side may
 * have become ready for more since this end looked (strm_end_ready, strm_end_wait), and is so at first; a look makes it unreadable, and nothing else
 * does. So look, call until the call is EAGAIN, then poll. It may be readable, and the side as it was. -1: the system gives none. */
int strm_end_fd(strm_end *end);

/* ------------------------------------------------------------------------------------------------------------- helpers of ends, not proved */

/* A call without bytes. */
static inline strm_refusal strm_end_do(strm_end *end, uint32_t op, uint32_t a, uint32_t b, strm_reply *reply)
{
    strm_ask ask = { op, 0, a, b, 0, 0, false, false };
    return strm_end_call(end, &ask, NULL, 0, NULL, 0, reply);
}

/* unlockpt(3C), by an end of the master; close(2) of the end's side, for all of its ends. */
static inline strm_refusal strm_end_unlock(strm_end *end) { strm_reply r; return strm_end_do(end, STRM_OP_UNLOCK, 0, 0, &r); }
static inline strm_refusal strm_end_close(strm_end *end) { strm_reply r; return strm_end_do(end, STRM_OP_CLOSE, 0, 0, &r); }

/* I_PUSH, I_POP, I_FLUSH (I_FLUSHBAND of one band), I_SRDOPT of streamio(7I). */
static inline strm_refusal strm_end_push(strm_end *end, uint32_t module) { strm_reply r; return strm_end_do(end, STRM_OP_PUSH, module, 0, &r); }
static inline strm_refusal strm_end_pop(strm_end *end) { strm_reply r; return strm_end_do(end, STRM_OP_POP, 0, 0, &r); }
static inline strm_refusal strm_end_srdopt(strm_end *end, uint32_t mode) { strm_reply r; return strm_end_do(end, STRM_OP_MODE, mode, 0, &r); }

static inline strm_refusal strm_end_flush(strm_end *end, uint32_t what, uint32_t band)
{
    strm_reply r;
    return strm_end_do(end, STRM_OP_FLUSH, what, band, &r);
}

/* I_LOOK and I_NREAD, as strm_look and strm_nread. */
static inline strm_refusal strm_end_look(strm_end *end, uint32_t *module)
{
    strm_reply r;
    strm_refusal e = strm_end_do(end, STRM_OP_LOOK, 0, 0, &r);
    if (!e) *module = r.value;
    return e;
}

static inline strm_refusal strm_end_nread(strm_end *end, size_t *messages, size_t *bytes)
{
    strm_reply r;
    strm_refusal e = strm_end_do(end, STRM_OP_NREAD, 0, 0, &r);
    if (!e) *messages = r.value, *bytes = r.size;
    return e;
}

/* write(2) and read(2), which don't wait, as strm_write and strm_read. */
static inline strm_refusal strm_end_write(strm_end *end, const void *bytes, size_t n, strm_reply *reply)
{
    strm_ask ask = { STRM_OP_WRITE, 0, 0, 0, 0, 0, false, false };
    return strm_end_call(end, &ask, bytes, n, NULL, 0, reply);
}

static inline strm_refusal strm_end_read(strm_end *end, void *out, size_t room, strm_reply *reply)
{
    strm_ask ask = { STRM_OP_READ, 0, 0, 0, 0, 0, false, false };
    if (room > 4096) room = 4096;
    ask.a = (uint32_t)room;
    return strm_end_call(end, &ask, NULL, 0, out, room, reply);
}

/* read(2) that waits until a byte, the end of input or a message that no read gives is there. EAGAIN: the time is over. */
static inline strm_refusal strm_end_read_wait(strm_end *end, void *out, size_t room, int timeout, strm_reply *reply)
{
    uint32_t ready;
    strm_refusal e = strm_end_read(end, out, room, reply);
    while (e == STRM_EAGAIN) {
        e = strm_end_wait(end, STRM_CAN_READ, timeout, &ready);
        if (e) return e;
        e = strm_end_read(end, out, room, reply);
        if (e == STRM_EAGAIN && !(ready & STRM_CAN_READ)) return STRM_ENXIO; /* hung up, and nothing is to come */
    }
    return e;
}

/* write(2) of all bytes, which waits for room; the time is that of each wait. *taken of them were taken, also where it is refused. EAGAIN: the time
 * is over. ENXIO: hung up, or the side isn't open. EIO: its caller is in the background. */
static inline strm_refusal strm_end_write_all(strm_end *end, const void *bytes, size_t n, int timeout, size_t *taken)
{
    const uint8_t *at = (const uint8_t *)bytes;
    *taken = 0;
    while (*taken < n) {
        strm_reply r;
        uint32_t ready;
        strm_refusal e = strm_end_write(end, at + *taken, n - *taken, &r);
        if (!e && r.kind == STRM_STOPPED) e = STRM_EIO;
        if (!e) *taken += r.value;
        else if (e == STRM_EAGAIN || e == STRM_ENOSR) e = strm_end_wait(end, STRM_CAN_WRITE, timeout, &ready);
        if (e) return e;
    }
    return STRM_OK;
}

/* Takes the signals that came up at the end's side, each once, in order: *n numbers. */
static inline strm_refusal strm_end_signals(strm_end *end, uint8_t out[32], size_t *n)
{
    strm_ask ask = { STRM_OP_SIGNALS, 0, 0, 0, 0, 0, false, false };
    strm_reply r;
    strm_refusal e = strm_end_call(end, &ask, NULL, 0, out, 32, &r);
    *n = e ? 0 : r.bytes;
    return e;
}

/* putpmsg(2) and getpmsg(2), as strm_put and strm_get. */
static inline strm_refusal strm_end_put(strm_end *end, uint32_t prio, const void *control, size_t clen, const void *data, size_t dlen)
{
    strm_ask ask = { STRM_OP_PUT, 0, prio, (control ? 1u : 0u) | (data ? 2u : 0u), 0, 0, false, false };
    uint8_t bytes[320];
    strm_reply r;
    if (!control) clen = 0;
    if (!data) dlen = 0;
    if (clen > 64 || dlen > 256) return STRM_ERANGE;
    if (clen) memcpy(bytes, control, clen);
    if (dlen) memcpy(bytes + clen, data, dlen);
    if (ask.b == STRM_BOTH) ask.c = (uint32_t)clen;
    return strm_end_call(end, &ask, bytes, clen + dlen, NULL, 0, &r);
}

static inline strm_refusal strm_end_get(strm_end *end, uint32_t wanted, uint32_t cmax, uint32_t dmax, void *out, size_t room, strm_reply *reply)
{
    strm_ask ask = { STRM_OP_GET, 0, wanted, cmax, dmax, 0, false, false };
    return strm_end_call(end, &ask, NULL, 0, out, room, reply);
}

/* What answers the pending ioctl of a number, given once, as strm_ioctl_result. */
static inline strm_refusal strm_end_ioctl_result(strm_end *end, uint32_t number, uint8_t out[256], size_t *given)
{
    strm_ask ask = { STRM_OP_IOCTL_RESULT, 0, number, 0, 0, 0, false, false };
    strm_reply r;
    strm_refusal e = strm_end_call(end, &ask, NULL, 0, out, 256, &r);
    *given = 0;
    if (e) return e;
    *given = r.bytes;
    return r.kind == STRM_NAK ? (STRM_NAKED | r.value) : 0u;
}

/* I_STR: an ioctl whose answer is waited for, as workers make the turns; the time is that of each wait. EAGAIN: the time is over, and *number is
 * that of the ioctl, whose answer strm_end_ioctl_result takes later. ENXIO: the side was closed meanwhile. EIO: the caller is in the background. */
static inline strm_refusal strm_end_ioctl(strm_end *end, uint32_t command, const void *body, size_t n, uint8_t out[256], size_t *given, int timeout,
    uint32_t *number)
{
    strm_ask ask = { STRM_OP_IOCTL, 0, command, 0, 0, 0, false, false };
    strm_reply r;
    uint32_t ready;
    strm_refusal e = strm_end_call(end, &ask, body, n, out, 256, &r);
    *given = 0;
    if (!e && r.kind == STRM_STOPPED) e = STRM_EIO;
    if (e) return e;
    if (r.kind != STRM_PENDING) {
        *given = r.bytes;
        return r.kind == STRM_NAK ? (STRM_NAKED | r.value) : 0u;
    }
    *number = r.value;
    while ((e = strm_end_ioctl_result(end, r.value, out, given)) == STRM_EAGAIN) {
        e = strm_end_wait(end, STRM_HAS_ANSWER, timeout, &ready);
        if (e) return e;
        if (!(ready & STRM_HAS_ANSWER)) return STRM_ENXIO; /* hung up, and no answer is to come */
    }
    return e;
}

/* TCGETS, and TCSETS, TCSETSW or TCSETSF, as strm_tcgetattr and strm_tcsetattr; the time as of strm_end_ioctl, whose number they don't tell. */
static inline strm_refusal strm_end_tcgetattr(strm_end *end, strm_termios *t, int timeout)
{
    uint8_t b[256];
    size_t n;
    uint32_t number;
    strm_refusal e = strm_end_ioctl(end, STRM_TCGETS, NULL, 0, b, &n, timeout, &number);
    if (e) return e;
    t->iflag = strm_get_word(b), t->oflag = strm_get_word(b + 4), t->cflag = strm_get_word(b + 8), t->lflag = strm_get_word(b + 12);
    memcpy(t->cc, b + 16, sizeof t->cc);
    return STRM_OK;
}

static inline strm_refusal strm_end_tcsetattr(strm_end *end, uint32_t when, const strm_termios *t, int timeout)
{
    uint8_t b[35], out[256];
    size_t n;
    uint32_t number;
    strm_put_word(b, t->iflag), strm_put_word(b + 4, t->oflag), strm_put_word(b + 8, t->cflag), strm_put_word(b + 12, t->lflag);
    memcpy(b + 16, t->cc, sizeof t->cc);
    return strm_end_ioctl(end, when, b, sizeof b, out, &n, timeout, &number);
}

/* TIOCGWINSZ and TIOCSWINSZ, as strm_get_winsize and strm_set_winsize. */
static inline strm_refusal strm_end_get_winsize(strm_end *end, strm_winsize *w, int timeout)
{
    uint8_t b[256];
    size_t n;
    uint32_t number;
    strm_refusal e = strm_end_ioctl(end, STRM_TIOCGWINSZ, NULL, 0, b, &n, timeout, &number);
    if (e) return e;
    w->rows = (uint16_t)(b[0] << 8 | b[1]), w->columns = (uint16_t)(b[2] << 8 | b[3]);
    w->width = (uint16_t)(b[4] << 8 | b[5]), w->height = (uint16_t)(b[6] << 8 | b[7]);
    return STRM_OK;
}

static inline strm_refusal strm_end_set_winsize(strm_end *end, const strm_winsize *w, int timeout)
{
    uint8_t b[8], out[256];
    size_t n;
    uint32_t number;
    strm_put_word(b, (uint32_t)w->rows << 16 | w->columns), strm_put_word(b + 4, (uint32_t)w->width << 16 | w->height);
    return strm_end_ioctl(end, STRM_TIOCSWINSZ, b, sizeof b, out, &n, timeout, &number);
}

/* TIOCGPGRP and TIOCSPGRP, as strm_tcgetpgrp and strm_tcsetpgrp. */
static inline strm_refusal strm_end_tcgetpgrp(strm_end *end, uint32_t *group, int timeout)
{
    uint8_t b[256];
    size_t n;
    uint32_t number;
    strm_refusal e = strm_end_ioctl(end, STRM_TIOCGPGRP, NULL, 0, b, &n, timeout, &number);
    if (!e) *group = strm_get_word(b);
    return e;
}

static inline strm_refusal strm_end_tcsetpgrp(strm_end *end, uint32_t group, int timeout)
{
    uint8_t b[4], out[256];
    size_t n;
    uint32_t number;
    strm_put_word(b, group);
    return strm_end_ioctl(end, STRM_TIOCSPGRP, b, sizeof b, out, &n, timeout, &number);
}

#ifdef __cplusplus
}
#endif
#endif
