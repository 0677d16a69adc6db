/* strm.h - the pseudoterminal stack of System V Release 4 STREAMS, as a library
 *
 * NAME
 *   strm - pairs of a master and a slave with the modules ldterm, ptem and pckt. No device, no thread, no clock, no signal handler.
 *
 * SYNOPSIS
 *   #include <strm.h>                                  cc prog.c -lstrm       (or: cc prog.c libstrm.a)
 *
 *   strm_pair p = STRM_CLOSED;
 *   strm_reply r;
 *   strm_new(&p, STRM_TERMINAL_BLOCKS, 1024, 65536);   blocks of each kind; a journal of 1024 entries and 64 KiB
 *   strm_open_terminal(&p);                            both sides open, ptem and ldterm on the slave
 *   strm_write(&p, STRM_MASTER, "ls\r", 3, &r);        r.value is 3: so many bytes were taken
 *   strm_run(&p);                                      turns until no queue is enabled
 *   strm_read(&p, STRM_SLAVE, buf, sizeof buf, &r);    r.bytes is 3, buf holds "ls\n"
 *   strm_read(&p, STRM_MASTER, buf, sizeof buf, &r);   r.bytes is 4, buf holds "ls\r\n"
 *   strm_free(&p);
 *
 * DESCRIPTION
 *   Each call returns at once: where a call of a system would sleep it is refused with STRM_EAGAIN. Bytes go from side to side by
 *   turns alone (strm_turn, strm_run). A pair is at rest where no queue is enabled: then nothing happens until somebody calls. So a
 *   test needs no time-out, and the same calls give the same bytes on every machine.
 *
 * ERRORS
 *   A function that returns strm_refusal gives 0 (STRM_OK), or the number of its refusal; these are the numbers below, and not those
 *   of errno.h (strm_host_errno). A refused call has changed nothing: neither the pair nor what the caller's pointers lead to; strm_runqueues
 *   has made the turns in front of the refused one, strm_next_entry and strm_image tell how much doesn't fit, and a journal that begins anew where it
 *   is full (strm_choices) has begun so also where the call was then refused for something else.
 *   STRM_EINVAL comes first, for a closed handle, a number that names nothing, and a buffer that is too small for the greatest answer
 *   of the call, so that no byte is lost at this interface; then STRM_EAGAIN where the reserve holds the call back (strm_choices); then what the pair
 *   refuses, in the order of the README's section Refusals.
 *
 * UNITS
 *   Lengths are bytes. A message block holds up to 256. The wire forms of termios and winsize are strm_termios and strm_winsize.
 *
 * OWNERSHIP
 *   The library keeps no pointer of the caller's behind a call, calls nothing back, and has no state of its own beside the handles.
 *   strm_new, strm_restore and those of chosen pairs, strm_new_with and strm_restore_with, take all memory that a pair will use, by malloc, and
 *   strm_free gives it back; strm_cut takes that of a trace, and strm_trace_free gives it back; no other function takes any. What a pair has taken isn't
 *   touched before it is used: a pair costs what stands in it, however many blocks it has.
 *   A handle is closed when its bytes are all 0 (STRM_CLOSED). An open one isn't copied and then used or freed twice, as with a FILE.
 *
 * SECRETS
 *   What was typed stands in the blocks of its messages, in ldterm's unfinished line, and in the journal: in the bytes of its entries, and in the
 *   image at which it begins. Zeros are written over a block when the last message that has it goes (read, flushed, closed upon, popped), over what
 *   an erase or a kill takes from a line and over a line that is handed up, over the journal's bytes when it begins anew (strm_restart), whose
 *   entries are written over too, and over all of them when the pair is freed (strm_free): a password that was read is gone at the next
 *   strm_restart. A trace has the journal's bytes and that image until it is freed (strm_trace_free), and zeros are written over both. What stood
 *   there at the time is in the caller's buffers, images and recordings, which are the caller's to clear, and may be on the stack of a thread that
 *   called.
 *
 * THREADS AND SIGNALS
 *   A handle is used by one thread at a time, and may be handed from one to another behind a lock, a thread's start or its join. Two
 *   handles are independent. No function is called in the forked child of a process with threads.
 *   A handle is closed while a call is made at it. So a signal handler may call, on the thread that it interrupts, all but what takes or gives back
 *   memory (strm_new, strm_restore, those of chosen pairs, strm_cut, strm_free and strm_trace_free), as malloc isn't called there. On the handle of the
 *   call that it interrupts its call is STRM_EINVAL and changes nothing (strm_enabled tells NO_QUEUE, strm_ready 0), or is made whole in front of that
 *   call or behind it; on any other it is a call like another. This is tried (bench/hostile.c), and not proved.
 *
 * WHAT A CALLER OWES (nothing checks it)
 *   Two threads don't call on one handle at once: that isn't told, and may corrupt the pair or end the process. Pointers lead to as much memory as
 *   their length says, and don't overlap where one is written to; one beside a length of 0 may be NULL, no other. A bool is 0 or 1. A handle is
 *   closed, or was made by these functions and only handed to them since. A cursor was zeroed when the journal began, and only moved by
 *   strm_next_entry since, or is a trace's, and only strm_trace_next moved it: another one corrupts nothing, but may tell other bytes.
 *
 * WHAT STAYS
 *   STRM_VERSION is 65536 times a major number and a minor one. Within a major number names, numbers, layouts and meanings stay; a larger
 *   minor number has more calls. The shared object's soname carries the major number. A program that loads it compares strm_version().
 *   1.1 has strm_restart, strm_runqueues, strm_next_entry, strm_image and strm_restore beside the calls of 1.0; 1.2 has strm_ready and
 *   strm_room, and brings at most STRM_WRITE_MOST bytes by one write, where 1.1 entered all in the journal and refused what was longer
 *   than its blocks. A program of 1.0 or 1.1 runs with it as it is: what is taken of a write was never more than that. 1.3 has strm_new_with and
 *   strm_restore_with: what they choose holds for pairs that they made, and for no other. 1.4 has strm_cut and the three functions of its trace.
 *
 * PROVED: each function that libstrm exports, by its contract in crates/strm_ffi, whose words are those of crates/strm_handle. NOT PROVED: the inline
 * functions of this file, and malloc.
 */
#ifndef STRM_H
#define STRM_H

#include <stdbool.h>
#include <stddef.h>
#include <stdint.h>
#include <string.h>

#ifdef __cplusplus
extern "C" {
#endif

#define STRM_VERSION 65540u /* 1.4 */

/* A pair, in place. Nothing behind `at` is the caller's. */
typedef struct strm_pair {
    void *at;
    bool is_open;
} strm_pair;

#define STRM_CLOSED { NULL, false }

/* Why a call is refused; 0 where it is done. */
typedef uint32_t strm_refusal;

enum {
    STRM_OK = 0,
    STRM_EINVAL = 1,       /* an argument is out of range, or the call doesn't fit what is there */
    STRM_EAGAIN = 2,       /* the call would have to wait: nothing to read, no room to write */
    STRM_ENXIO = 3,        /* that side isn't open, or was hung up */
    STRM_EBADMSG = 4,      /* the first message isn't one that a read gives: a get takes it */
    STRM_ENOSR = 5,        /* fewer blocks are free than the call may need: make turns, read, or take a larger pair */
    STRM_ERANGE = 6,       /* a size or a number is beyond its limit */
    STRM_JOURNAL_FULL = 7, /* the journal has no room for the call and its longest answer */
    STRM_NO_MINOR = 8,     /* not of this interface */
    STRM_NO_MEMORY = 9,    /* malloc gave none */
    STRM_STILL_SHARED = 10, /* not of this interface */
    STRM_EIO = 11          /* the caller is in the background, and may not be stopped */
};

/* A side, and the direction of what it writes. */
enum { STRM_MASTER = 0, STRM_SLAVE = 1 };

/* A module. */
enum { STRM_LDTERM = 1, STRM_PTEM = 2, STRM_PCKT = 3 };

/* A queue, by its side (M, S), place (HEAD, LDTERM, DRV) and way (R up to the reader, W down). Three places of a side have queues. */
enum {
    STRM_M_HEAD_R = 0, STRM_M_LDTERM_R = 2, STRM_M_LDTERM_W = 3, STRM_M_DRV_W = 5,
    STRM_S_HEAD_R = 6, STRM_S_LDTERM_R = 8, STRM_S_LDTERM_W = 9, STRM_S_DRV_W = 11,
    STRM_NO_QUEUE = 12
};

/* Which queues a flush empties (I_FLUSH), and the modes of a head (I_SRDOPT). */
enum { STRM_FLUSHR = 1, STRM_FLUSHW = 2, STRM_FLUSHRW = 3 };
enum { STRM_RNORM, STRM_RMSGN, STRM_RMSGD, STRM_RPROTNORM, STRM_RPROTDAT, STRM_RPROTDIS };

/* Beside a band from 0 to 255: high priority; any message, or all bands. */
enum { STRM_HIPRI = 256, STRM_ANY = 257 };

/* Which parts a message has. */
enum { STRM_NO_PART = 0, STRM_CONTROL = 1, STRM_DATA = 2, STRM_BOTH = 3 };

/* Signals, by System V's numbers: WINCH and TSTP have others on Linux and BSD (strm_host_signal). */
enum { STRM_SIGHUP = 1, STRM_SIGINT = 2, STRM_SIGQUIT = 3, STRM_SIGWINCH = 20, STRM_SIGTSTP = 24, STRM_SIGTTIN = 26, STRM_SIGTTOU = 27 };

/* ------------------------------------------------------------------------------------------------------------- pairs */

/* The version of the library that is linked. */
uint32_t strm_version(void);

/* Makes a pair that nobody opened in a closed handle: 1 to 65536 blocks of each kind, of which a write wants 32 free and one for each
 * begun 256 bytes, and a journal of so many entries and so many bytes. EINVAL, NO_MEMORY; the handle stays then. */
strm_refusal strm_new(strm_pair *p, size_t blocks, size_t entries, size_t bytes);

/* So many blocks of each kind that bytes typed and written on a terminal are stopped by the marks of its queues, and never by its blocks, whatever
 * is read or isn't. Each byte may be a message, so that a queue holds as many as its high-water mark says: two heads 5120, and the two queues of
 * ldterm and the two of the drivers 512, together 12,288. A turn that found room makes 256 lines of a message of 256 bytes, and their
 * echo, 512 beyond these; a write asks for 36 at most, and a turn for 32. */
#define STRM_TERMINAL_BLOCKS 12900

/* Of STRM_TERMINAL_BLOCKS so many in reserve: what a turn of ldterm makes of two writes of lines, and their echo, finds room in them. */
#define STRM_TERMINAL_RESERVE 4096

/* What is chosen for a pair: blocks, entries and bytes as strm_new has them, and
 *   reserve   so many blocks of each kind that neither side takes from the other: a write, a put or an ioctl is EAGAIN, and isn't entered, where
 *             fewer of a kind are free than the reserve and what it asks for (a write and a put 32 and one for each begun 256 bytes or part,
 *             an ioctl 34), and 64 messages that its side sent, or that came of them, wait on one queue. Nothing else asks for it: turns, reads,
 *             signals, a flush and a close go on, and so does what the other side sends, as long as it is read. 0 is none; EINVAL: more than blocks
 *   anew      a journal that is full for a call or a turn begins anew, as by strm_restart, and the call or turn is made then: none is
 *             JOURNAL_FULL. It begins anew for nothing else. EINVAL: no entry, or fewer than the 8192 bytes that the longest call enters. A
 *             recorder takes the entries first, and so wants false */
typedef struct strm_choices {
    size_t blocks, entries, bytes, reserve;
    bool anew;
} strm_choices;

/* As strm_new, of what is chosen. With STRM_TERMINAL_BLOCKS, STRM_TERMINAL_RESERVE, 64 entries, 16,384 bytes and anew a terminal goes on, whatever
 * one end writes and whether the other one reads (tried, not proved): turns are refused for nothing, writes and reads with nothing but EAGAIN. */
strm_refusal strm_new_with(strm_pair *p, const strm_choices *choices);

/* Frees a pair and closes its handle. A closed one stays so. */
void strm_free(strm_pair *p);

/* ------------------------------------------------------------------------------------------------------------- calls */

/* A call: `op` says which one, `side` on which stream, and a, b, c are its numbers:
 *   PUSH a: a module, another number is EINVAL      FLUSH a: FLUSHR.., b: a band or ANY     READ a: how many bytes at most
 *   PUT a: a band or HIPRI, b: which parts, c: how many bytes in front are the control part, where there are both
 *   GET a: a band, HIPRI or ANY, b, c: the most bytes of the control part and of the data part
 *   MODE a: RNORM..   IOCTL a: the command   IOCTL_RESULT a: the number that a pending one was given
 * and the others have none. `group` is the caller's process group, or 0, and the two bools are what job control asks of the caller:
 * whether SIGTTIN and SIGTTOU are ignored or blocked, and whether its group is orphaned. */
typedef struct strm_ask {
    uint32_t op, side, a, b, c;
    uint32_t group;
    bool ignores, orphaned;
} strm_ask;

enum {
    STRM_OP_OPEN_MASTER, STRM_OP_UNLOCK, STRM_OP_OPEN_SLAVE, STRM_OP_CLOSE, STRM_OP_PUSH, STRM_OP_POP, STRM_OP_LOOK, STRM_OP_FLUSH,
    STRM_OP_WRITE, STRM_OP_READ, STRM_OP_PUT, STRM_OP_GET, STRM_OP_MODE, STRM_OP_NREAD, STRM_OP_IOCTL, STRM_OP_IOCTL_RESULT,
    STRM_OP_SIGNALS
};

/* An answer. `bytes` of it stand at the front of the caller's buffer, those of a control part before those of a data part. `value` is
 * a module, a count of bytes or messages, the number of an ioctl, a refusal, or a signal. Of a message `prio` is its band or HIPRI,
 * `parts` which parts it has, `size` how long its control part is where it has both; more_* say that more of a part waits (MORECTL, MOREDATA). Of
 * SIZES `size` is how many bytes of data the first message has. */
typedef struct strm_reply {
    size_t bytes;
    uint32_t kind, value, prio, parts, size;
    bool more_control, more_data;
} strm_reply;

enum {
    STRM_DONE, STRM_NAME, STRM_COUNT, STRM_BYTES, STRM_MESSAGE, STRM_SIZES, STRM_PENDING, STRM_NAK, STRM_SIGNALS, STRM_STOPPED
};

/* The most bytes that one write brings. */
enum { STRM_WRITE_MOST = 1024 };

/* Makes any call. `bytes` are what a write (its first WRITE_MOST), a put (control part first) or an ioctl brings, `out` takes what the call gives:
 * a read and each part of a get as much as it asks for, up to 4096; an ioctl 256; signals 32; others none. reply->bytes is how many it gave, of
 * any kind of answer, and never more than `room`. */
strm_refusal strm_call(strm_pair *p, const strm_ask *ask, const void *bytes, size_t n, void *out, size_t room, strm_reply *reply);

/* write(2) of the first WRITE_MOST bytes: reply->value of them were taken, and fewer where flow control takes no more (a queue with its first marks
 * 512 of them at most): make turns, let the other side read, and go on behind them. EAGAIN where none were taken. Only a write of no byte takes
 * none: it sends an empty message. */
strm_refusal strm_write(strm_pair *p, uint32_t side, const void *bytes, size_t n, strm_reply *reply);

/* read(2) of at most `room` bytes, and 4096: reply->bytes came. 0 is the end of input: a hang-up, or an EOF key where ldterm stands. A line
 * of ldterm under ICANON is one read. */
strm_refusal strm_read(strm_pair *p, uint32_t side, void *out, size_t room, strm_reply *reply);

/* ------------------------------------------------------------------------------------------------------------- turns */

/* What a turn did: nothing on an empty queue (IDLE), nothing on a blocked one, or `moved` bytes of the first message went on. */
typedef struct strm_went {
    uint32_t kind, moved;
} strm_went;

enum { STRM_IDLE, STRM_BLOCKED, STRM_MOVED };

/* Makes a turn of a queue's service procedure. EINVAL: the queue isn't enabled. ERANGE, JOURNAL_FULL, ENOSR. */
strm_refusal strm_turn(strm_pair *p, uint32_t queue, strm_went *went);

/* Makes turns, each of the queue that was enabled first, until no queue is enabled (OK) or the next turn is refused: ERANGE, JOURNAL_FULL,
 * ENOSR. *turns is how many were made, also where one was refused; what stopped goes on where it was once there is room. Each turn takes an
 * entry of the journal, so it ends; of a pair whose journal begins anew it makes RUN_MOST turns at most, and is EAGAIN where a queue is enabled behind
 * them: more are to be made, or, where two ldterm echo each other's echo, they never end. EINVAL is a closed handle alone, and *turns stays then. */
enum { STRM_RUN_MOST = 65536 };

strm_refusal strm_runqueues(strm_pair *p, size_t *turns);

/* ------------------------------------------------------------------------------------------------------------- the journal */

/* Every call that wasn't refused and every turn is an entry, in order, with the bytes that the call brought and those that it was answered. A
 * recorder takes the entries one by one through a cursor of its own, and then empties the journal, which takes no memory; of a pair whose journal begins
 * anew by itself (strm_choices) entries that it hasn't taken are gone.
 * Two pairs of one journal give the same answers only with ample blocks: near the end of a pool one that has fewer, or was made of an image, which
 * doesn't say which blocks messages take, may refuse by ENOSR what the other grants. */

/* How many entries and how many of their bytes were taken. Zeroed, it stands at the first entry since strm_new or strm_restart. */
typedef struct strm_cursor {
    size_t entry, byte;
} strm_cursor;

/* An entry. CALLED: the numbers `ask` ask for the call, whose bytes are the first `brings` of the buffer, and the reply.bytes behind them are those
 * of the answer `reply`; queue and went mean nothing. TURNED: the turn of `queue` did what `went` says; ask and reply mean nothing, and there
 * are no bytes. */
typedef struct strm_entry {
    size_t brings;
    uint32_t kind, queue;
    strm_ask ask;
    strm_reply reply;
    strm_went went;
} strm_entry;

enum { STRM_CALLED, STRM_TURNED };

/* Takes the entry at a cursor, which moves behind it. The buffer takes brings + reply.bytes, and stays behind them: for an answer 8192 do, and
 * what a write brought is as long as its caller made it. EAGAIN: all entries were taken. EINVAL: `room` is less than the entry's bytes,
 * and then the entry is told, so that the caller may come back with more, and cursor and buffer stay; or the handle is closed. The pair stays. */
strm_refusal strm_next_entry(strm_pair *p, strm_cursor *at, strm_entry *entry, void *bytes, size_t room);

/* Begins the journal anew, in place: it is empty, and begins at the state that the pair has. All else stays, so a pair whose journal is full
 * goes on. A cursor is zeroed then. It takes no memory. EINVAL is a closed handle alone. */
strm_refusal strm_restart(strm_pair *p);

/* A trace, in place, as a pair is: a closed one is STRM_CLOSED. It has the base at which a journal began, and all that was entered since. */
typedef struct strm_trace {
    void *at;
    bool is_open;
} strm_trace;

/* Cuts the pair: its journal goes into a trace, and begins anew as by strm_restart. The trace stays as it is while the pair goes on. EINVAL: the
 * pair is closed, or the trace open. NO_MEMORY: malloc gave none for the copies. Both stay then. */
strm_refusal strm_cut(strm_pair *p, strm_trace *t);

/* Takes the entry at a cursor of a trace, which moves behind it, as strm_next_entry does; a cursor begins zeroed. The pair of the base (strm_restore)
 * comes to the state of the one that was cut as these calls and turns are made again, with ample blocks. */
strm_refusal strm_trace_next(strm_trace *t, strm_cursor *at, strm_entry *entry, void *bytes, size_t room);

/* Puts the image of a trace's base into a buffer, as strm_image does that of a pair. */
strm_refusal strm_trace_base(strm_trace *t, void *out, size_t room, size_t *length);

/* Gives the memory of a trace back and closes it. A closed one stays so. */
void strm_trace_free(strm_trace *t);

/* ------------------------------------------------------------------------------------------------------------- looks: no call is made */

/* The queue at a place of the enabled list, from 0 in the order in which they were enabled; NO_QUEUE behind the last, and of a closed pair. */
uint32_t strm_enabled(strm_pair *p, size_t place);

/* How many messages stand on a queue, and how many bytes they have: 0 and 0 for a queue that isn't there. */
typedef struct strm_standing {
    size_t messages, bytes;
} strm_standing;

strm_refusal strm_sizes(strm_pair *p, uint32_t queue, strm_standing *told);

/* How many bytes the first message of a queue has: 0 where none stands there. */
strm_refusal strm_first_size(strm_pair *p, uint32_t queue, size_t *told);

/* Where the bytes of a direction are: written + made = queued + inlined + the sum of gone[], which counts by the rules below. */
enum {
    STRM_RULE_READ, STRM_RULE_IGNCR, STRM_RULE_ERASE_KEY, STRM_RULE_ERASED, STRM_RULE_KILLED, STRM_RULE_EOF_KEY, STRM_RULE_SIGNAL_KEY,
    STRM_RULE_FLOW_KEY, STRM_RULE_LNEXT_KEY, STRM_RULE_REPRINT_KEY, STRM_RULE_LINE_FULL, STRM_RULE_LINE_OVER, STRM_RULE_FLUSHED,
    STRM_RULE_REST_DISCARDED, STRM_RULE_CONTROL_DROPPED, STRM_RULE_DOUBLED, STRM_RULE_MODULE_POPPED, STRM_RULE_END_CLOSED,
    STRM_RULE_REPLACED, STRM_RULE_ONOCR, STRM_RULE_ECHO_FULL, STRM_RULES
};

typedef struct strm_books {
    uint64_t written, made, queued, inlined, gone[STRM_RULES];
} strm_books;

strm_refusal strm_ledger(strm_pair *p, uint32_t side, strm_books *told);

/* What a side is ready for, as bits, for an event loop: no call is made, and turns come first (strm_run), as only they bring anything.
 *   CAN_READ      a read of a byte or more isn't EAGAIN: it gives bytes, the end of input, or EBADMSG
 *   CAN_GET       a get of any message isn't EAGAIN. Under RPROTDIS it may be set where CAN_READ isn't
 *   CAN_WRITE     a write is taken, however long it is: the side isn't hung up, the first queue below isn't full in band 0, of each kind 36
 *                 blocks are free, and the reserve doesn't hold it back. Where it isn't set, a write of WRITE_MOST bytes is EAGAIN, ENOSR or ENXIO
 *   HAS_SIGNALS   signals wait (strm_signals)
 *   HAS_ANSWER    an ioctl was answered, and its answer not taken: an IOCTL_RESULT of its number isn't EAGAIN
 *   HUNG_UP       the other end is gone
 * 0 of a side that isn't open, of a number that is no side's, and of a closed handle. Job control is of a caller, and isn't looked at. It costs a
 * step for each module, and under RPROTDIS for each message in front that a read passes over. */
enum { STRM_CAN_READ = 1, STRM_CAN_GET = 2, STRM_CAN_WRITE = 4, STRM_HAS_SIGNALS = 8, STRM_HAS_ANSWER = 16, STRM_HUNG_UP = 32 };

uint32_t strm_ready(strm_pair *p, uint32_t side);

/* What is left of a pair: how many blocks are free, of the kind of which fewer are, and how many entries and bytes its journal takes yet. A call
 * enters 8192 bytes at most: who needs no journal begins it anew (strm_restart) where less is left, and no call is JOURNAL_FULL; or chooses a journal
 * that does so itself (strm_choices). */
typedef struct strm_left {
    size_t blocks, entries, bytes;
} strm_left;

strm_refusal strm_room(strm_pair *p, strm_left *told);

/* ------------------------------------------------------------------------------------------------------------- images */

/* Puts the image of the pair into a buffer: its state and ledgers as docs/IMAGES.md spells them, the same bytes on every machine. *length is how many
 * they are. EINVAL: `room` is less than *length, which is told also then, or the handle is closed, and *length stays. No memory is taken. The
 * buffer stays where refused, and behind the image; the pair stays always. */
strm_refusal strm_image(strm_pair *p, void *out, size_t room, size_t *length);

/* Makes the pair of an image in a closed handle, over so many blocks of each kind and so large a journal as strm_new has: it goes on where the
 * image was made, and its journal is empty and begins there. EINVAL: the handle is open, the number of blocks is none of 1 to 65536, or the n
 * bytes are no image; ENOSR: the messages of the image take more blocks; NO_MEMORY. The handle stays then. */
strm_refusal strm_restore(strm_pair *p, size_t blocks, size_t entries, size_t bytes, const void *image, size_t n);

/* As strm_restore, of what is chosen: an image has no choices. EINVAL as of strm_new_with, too. */
strm_refusal strm_restore_with(strm_pair *p, const strm_choices *choices, const void *image, size_t n);

/* ------------------------------------------------------------------------------------------------------------- helpers, not proved */

/* A call without bytes. */
static inline strm_refusal strm_do(strm_pair *p, uint32_t op, uint32_t side, uint32_t a, uint32_t b, strm_reply *reply)
{
    strm_ask ask = { op, side, a, b, 0, 0, false, false };
    uint8_t none[1] = { 0 };
    return strm_call(p, &ask, none, 0, none, 0, reply);
}

/* open(2) of the master, once in a pair's life; unlockpt(3C); open(2) of the slave, EAGAIN before the unlock; close(2) of a side. */
static inline strm_refusal strm_open_master(strm_pair *p) { strm_reply r; return strm_do(p, STRM_OP_OPEN_MASTER, STRM_MASTER, 0, 0, &r); }
static inline strm_refusal strm_unlock(strm_pair *p) { strm_reply r; return strm_do(p, STRM_OP_UNLOCK, STRM_MASTER, 0, 0, &r); }
static inline strm_refusal strm_open_slave(strm_pair *p) { strm_reply r; return strm_do(p, STRM_OP_OPEN_SLAVE, STRM_SLAVE, 0, 0, &r); }
static inline strm_refusal strm_close(strm_pair *p, uint32_t side) { strm_reply r; return strm_do(p, STRM_OP_CLOSE, side, 0, 0, &r); }

/* I_PUSH, I_POP, I_FLUSH (I_FLUSHBAND of one band), I_SRDOPT of streamio(7I). */
static inline strm_refusal strm_push(strm_pair *p, uint32_t side, uint32_t module) { strm_reply r; return strm_do(p, STRM_OP_PUSH, side, module, 0, &r); }
static inline strm_refusal strm_pop(strm_pair *p, uint32_t side) { strm_reply r; return strm_do(p, STRM_OP_POP, side, 0, 0, &r); }
static inline strm_refusal strm_flush(strm_pair *p, uint32_t side, uint32_t what, uint32_t band) { strm_reply r; return strm_do(p, STRM_OP_FLUSH, side, what, band, &r); }
static inline strm_refusal strm_srdopt(strm_pair *p, uint32_t side, uint32_t mode) { strm_reply r; return strm_do(p, STRM_OP_MODE, side, mode, 0, &r); }

/* I_LOOK: the module on top; EINVAL where there is none. I_NREAD: how many messages stand at the head, and how many bytes of data the first has. */
static inline strm_refusal strm_look(strm_pair *p, uint32_t side, uint32_t *module)
{
    strm_reply r;
    strm_refusal e = strm_do(p, STRM_OP_LOOK, side, 0, 0, &r);
    if (!e) *module = r.value;
    return e;
}

static inline strm_refusal strm_nread(strm_pair *p, uint32_t side, size_t *messages, size_t *bytes)
{
    strm_reply r;
    strm_refusal e = strm_do(p, STRM_OP_NREAD, side, 0, 0, &r);
    if (!e) *messages = r.value, *bytes = r.size;
    return e;
}

/* A terminal as a shell expects it: both sides open, ptem and ldterm on the slave. */
static inline strm_refusal strm_open_terminal(strm_pair *p)
{
    strm_refusal e = strm_open_master(p);
    if (!e) e = strm_unlock(p);
    if (!e) e = strm_open_slave(p);
    if (!e) e = strm_push(p, STRM_SLAVE, STRM_PTEM);
    if (!e) e = strm_push(p, STRM_SLAVE, STRM_LDTERM);
    return e;
}

/* Turns until none is enabled or one is refused: strm_runqueues. */
static inline strm_refusal strm_run(strm_pair *p) { size_t turns; return strm_runqueues(p, &turns); }

/* Takes the signals that came up, each once, in order: *n numbers. */
static inline strm_refusal strm_signals(strm_pair *p, uint32_t side, uint8_t out[32], size_t *n)
{
    strm_ask ask = { STRM_OP_SIGNALS, side, 0, 0, 0, 0, false, false };
    strm_reply r;
    uint8_t none[1] = { 0 };
    strm_refusal e = strm_call(p, &ask, none, 0, out, 32, &r);
    *n = e ? 0 : r.bytes;
    return e;
}

/* putpmsg(2): a part that is NULL is absent. At most 64 bytes of control, else ERANGE, and 256 of data. */
static inline strm_refusal strm_put(strm_pair *p, uint32_t side, uint32_t prio, const void *control, size_t clen, const void *data, size_t dlen)
{
    strm_ask ask = { STRM_OP_PUT, side, prio, (control ? 1u : 0u) | (data ? 2u : 0u), 0, 0, false, false };
    uint8_t bytes[320], none[1] = { 0 };
    strm_reply r;
    if (!control) clen = 0;
    if (!data) dlen = 0;
    if (clen > 64 || dlen > 256) return STRM_ERANGE;
    if (clen) memcpy(bytes, control, clen);
    if (dlen) memcpy(bytes + clen, data, dlen);
    if (ask.b == STRM_BOTH) ask.c = (uint32_t)clen;
    return strm_call(p, &ask, bytes, clen + dlen, none, 0, &r);
}

/* getpmsg(2) of the first message, or its front, if it is the wanted one: at most cmax and dmax bytes, whose sum `out` has room for. */
static inline strm_refusal strm_get(strm_pair *p, uint32_t side, uint32_t wanted, uint32_t cmax, uint32_t dmax, void *out, size_t room, strm_reply *reply)
{
    strm_ask ask = { STRM_OP_GET, side, wanted, cmax, dmax, 0, false, false };
    uint8_t none[1] = { 0 };
    return strm_call(p, &ask, none, 0, out, room, reply);
}

/* Commands of strm_ioctl, as ptem and the slave's head know them. */
enum {
    STRM_TCGETS = 1, STRM_TCSETS = 2, STRM_TCSETSW = 3, STRM_TCSETSF = 4, STRM_TIOCGWINSZ = 5, STRM_TIOCSWINSZ = 6, STRM_TIOCSIGNAL = 7,
    STRM_TIOCGPGRP = 8, STRM_TIOCSPGRP = 9
};

/* Beside a refusal's number: the ioctl was answered with M_IOCNAK for that reason. */
#define STRM_NAKED 0x100u

/* What answers the pending ioctl of a number, given once: *given bytes of it stand in out. EAGAIN: it isn't answered. */
static inline strm_refusal strm_ioctl_result(strm_pair *p, uint32_t side, uint32_t number, uint8_t out[256], size_t *given)
{
    strm_ask ask = { STRM_OP_IOCTL_RESULT, side, number, 0, 0, 0, false, false };
    uint8_t none[1] = { 0 };
    strm_reply r;
    strm_refusal e = strm_call(p, &ask, none, 0, out, 256, &r);
    *given = 0;
    if (e) return e;
    *given = r.bytes;
    return r.kind == STRM_NAK ? (STRM_NAKED | r.value) : 0u;
}

/* I_STR: an ioctl that is waited for by turns. *given bytes of its answer stand in out. */
static inline strm_refusal strm_ioctl(strm_pair *p, uint32_t side, uint32_t command, const void *body, size_t n, uint8_t out[256], size_t *given)
{
    strm_ask ask = { STRM_OP_IOCTL, side, command, 0, 0, 0, false, false };
    uint8_t none[1] = { 0 };
    strm_reply r;
    strm_refusal e = strm_call(p, &ask, n ? body : none, n, out, 256, &r);
    *given = 0;
    if (!e && r.kind == STRM_PENDING) {
        e = strm_run(p);
        return e ? e : strm_ioctl_result(p, side, r.value, out, given);
    }
    if (e) return e;
    *given = r.bytes;
    return r.kind == STRM_NAK ? (STRM_NAKED | r.value) : 0u;
}

/* termio(7I): the wire has 35 bytes, the words most significant byte first. */
typedef struct strm_termios {
    uint32_t iflag, oflag, cflag, lflag;
    uint8_t cc[19];
} strm_termios;

typedef struct strm_winsize {
    uint16_t rows, columns, width, height;
} strm_winsize;

/* Bits of iflag, oflag and lflag, and places of cc, by System V's numbers. */
enum {
    STRM_ISTRIP = 0x20, STRM_INLCR = 0x40, STRM_IGNCR = 0x80, STRM_ICRNL = 0x100, STRM_IUCLC = 0x200, STRM_IXON = 0x400,
    STRM_IXANY = 0x800, STRM_IMAXBEL = 0x2000
};
enum { STRM_OPOST = 1, STRM_OLCUC = 2, STRM_ONLCR = 4, STRM_OCRNL = 8, STRM_ONOCR = 0x10, STRM_ONLRET = 0x20, STRM_XTABS = 0x1800 };
enum {
    STRM_ISIG = 1, STRM_ICANON = 2, STRM_ECHO = 8, STRM_ECHOE = 0x10, STRM_ECHOK = 0x20, STRM_ECHONL = 0x40, STRM_NOFLSH = 0x80,
    STRM_TOSTOP = 0x100, STRM_ECHOCTL = 0x200, STRM_ECHOKE = 0x800, STRM_IEXTEN = 0x8000
};
enum {
    STRM_VINTR = 0, STRM_VQUIT = 1, STRM_VERASE = 2, STRM_VKILL = 3, STRM_VEOF = 4, STRM_VEOL = 5, STRM_VEOL2 = 6, STRM_VSTART = 8,
    STRM_VSTOP = 9, STRM_VSUSP = 10, STRM_VREPRINT = 12, STRM_VWERASE = 14, STRM_VLNEXT = 15
};

static inline void strm_put_word(uint8_t *at, uint32_t word)
{
    at[0] = (uint8_t)(word >> 24), at[1] = (uint8_t)(word >> 16), at[2] = (uint8_t)(word >> 8), at[3] = (uint8_t)word;
}

static inline uint32_t strm_get_word(const uint8_t *at)
{
    return (uint32_t)at[0] << 24 | (uint32_t)at[1] << 16 | (uint32_t)at[2] << 8 | (uint32_t)at[3];
}

/* TCGETS. NAK EINVAL where no ptem stands. */
static inline strm_refusal strm_tcgetattr(strm_pair *p, uint32_t side, strm_termios *t)
{
    uint8_t b[256] = { 0 };
    size_t n;
    strm_refusal e = strm_ioctl(p, side, STRM_TCGETS, b, 0, b, &n);
    if (e) return e;
    t->iflag = strm_get_word(b), t->oflag = strm_get_word(b + 4), t->cflag = strm_get_word(b + 8), t->lflag = strm_get_word(b + 12);
    memcpy(t->cc, b + 16, sizeof t->cc);
    return STRM_OK;
}

/* `when` is TCSETS at once, TCSETSW behind the output, or TCSETSF with the input flushed too. */
static inline strm_refusal strm_tcsetattr(strm_pair *p, uint32_t side, uint32_t when, const strm_termios *t)
{
    uint8_t b[35], out[256];
    size_t n;
    strm_put_word(b, t->iflag), strm_put_word(b + 4, t->oflag), strm_put_word(b + 8, t->cflag), strm_put_word(b + 12, t->lflag);
    memcpy(b + 16, t->cc, sizeof t->cc);
    return strm_ioctl(p, side, when, b, sizeof b, out, &n);
}

/* TIOCGWINSZ and TIOCSWINSZ: where the size changes the slave's head gets SIGWINCH. */
static inline strm_refusal strm_get_winsize(strm_pair *p, uint32_t side, strm_winsize *w)
{
    uint8_t b[256] = { 0 };
    size_t n;
    strm_refusal e = strm_ioctl(p, side, STRM_TIOCGWINSZ, b, 0, b, &n);
    if (e) return e;
    w->rows = (uint16_t)(b[0] << 8 | b[1]), w->columns = (uint16_t)(b[2] << 8 | b[3]);
    w->width = (uint16_t)(b[4] << 8 | b[5]), w->height = (uint16_t)(b[6] << 8 | b[7]);
    return STRM_OK;
}

static inline strm_refusal strm_set_winsize(strm_pair *p, uint32_t side, const strm_winsize *w)
{
    uint8_t b[8], out[256];
    size_t n;
    strm_put_word(b, (uint32_t)w->rows << 16 | w->columns), strm_put_word(b + 4, (uint32_t)w->width << 16 | w->height);
    return strm_ioctl(p, side, STRM_TIOCSWINSZ, b, sizeof b, out, &n);
}

/* TIOCGPGRP and TIOCSPGRP of tcgetpgrp(3C): the foreground group of the slave, 0 where there is none. */
static inline strm_refusal strm_tcgetpgrp(strm_pair *p, uint32_t side, uint32_t *group)
{
    uint8_t b[256] = { 0 };
    size_t n;
    strm_refusal e = strm_ioctl(p, side, STRM_TIOCGPGRP, b, 0, b, &n);
    if (!e) *group = strm_get_word(b);
    return e;
}

static inline strm_refusal strm_tcsetpgrp(strm_pair *p, uint32_t side, uint32_t group)
{
    uint8_t b[4], out[256];
    size_t n;
    strm_put_word(b, group);
    return strm_ioctl(p, side, STRM_TIOCSPGRP, b, sizeof b, out, &n);
}

/* Names, as scripts and the README have them; "?" for a number that has none. */
static inline const char *strm_refusal_name(strm_refusal refusal)
{
    static const char *const names[] = { "ok", "EINVAL", "EAGAIN", "ENXIO", "EBADMSG", "ENOSR", "ERANGE", "JournalFull", "NoMinor", "NoMemory", "StillShared", "EIO" };
    refusal &= ~STRM_NAKED;
    return refusal < sizeof names / sizeof *names ? names[refusal] : "?";
}

static inline const char *strm_rule_name(uint32_t rule)
{
    static const char *const names[] = { "read", "igncr", "erase-key", "erased", "killed", "eof-key", "signal-key", "flow-key", "lnext-key", "reprint-key",
        "line-full", "line-over", "flushed", "rest-discarded", "control-dropped", "doubled", "module-popped", "end-closed", "replaced", "onocr", "echo-full" };
    return rule < STRM_RULES ? names[rule] : "?";
}

static inline const char *strm_signal_name(uint32_t number)
{
    switch (number) {
    case STRM_SIGHUP: return "HUP";
    case STRM_SIGINT: return "INT";
    case STRM_SIGQUIT: return "QUIT";
    case STRM_SIGWINCH: return "WINCH";
    case STRM_SIGTSTP: return "TSTP";
    case STRM_SIGTTIN: return "TTIN";
    case STRM_SIGTTOU: return "TTOU";
    default: return "?";
    }
}

/* This host's numbers, where <signal.h> and <errno.h> stand before this file; 0 where the host has none. */
#ifdef SIGINT
static inline int strm_host_signal(uint32_t number)
{
    switch (number) {
#ifdef SIGHUP
    case STRM_SIGHUP: return SIGHUP;
#endif
    case STRM_SIGINT: return SIGINT;
#ifdef SIGQUIT
    case STRM_SIGQUIT: return SIGQUIT;
#endif
#ifdef SIGWINCH
    case STRM_SIGWINCH: return SIGWINCH;
#endif
#ifdef SIGTSTP
    case STRM_SIGTSTP: return SIGTSTP;
#endif
#ifdef SIGTTIN
    case STRM_SIGTTIN: return SIGTTIN;
#endif
#ifdef SIGTTOU
    case STRM_SIGTTOU: return SIGTTOU;
#endif
    default: return 0;
    }
}
#endif
#ifdef EAGAIN
static inline int strm_host_errno(strm_refusal refusal)
{
    switch (refusal & ~STRM_NAKED) {
    case STRM_OK: return 0;
    case STRM_EINVAL: return EINVAL;
    case STRM_EAGAIN: return EAGAIN;
    case STRM_ENXIO: return ENXIO;
    case STRM_EBADMSG: return EBADMSG;
#ifdef ENOSR
    case STRM_ENOSR: return ENOSR;
#endif
    case STRM_ERANGE: return ERANGE;
    case STRM_JOURNAL_FULL: return ENOSPC;
    case STRM_NO_MEMORY: return ENOMEM;
    case STRM_EIO: return EIO;
    default: return EBUSY;
    }
}
#endif

#ifdef __cplusplus
}
#endif
#endif
