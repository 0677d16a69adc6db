/* Calls of libstrm with any numbers, lengths and buffers: no crash, no byte written that isn't told, and refusals by name alone.
 *
 *     cc -O2 -Iinclude bench/hostile.c libstrm.a -o hostile && ./hostile [CALLS [SEED]]
 *
 * What strm.h says that a caller owes is kept: a buffer is as long as its length says, and no bool is anything but 0 or 1. Behind each call it is
 * compared: a refused one changed neither buffer nor reply, another wrote as many bytes as it says, and what lies behind the room stays. Before a
 * read, a get and a write it is asked what the side is ready for, and the call is EAGAIN where it says so and nowhere else. A pair whose journal
 * begins anew is never JOURNAL_FULL. Then each end of a terminal with a reserve makes 100,000 calls that nobody answers: it is told EAGAIN, the
 * other end and all turns go on, and ^C is delivered, at once or behind the reads of the slave. At last a signal handler calls on the handle of the
 * calls that it interrupts: each of its calls is EINVAL, or finds no call under way and is made, and the books have all that was written. */
#include <signal.h>
#include <stdio.h>
#include <stdlib.h>
#include <strm.h>
#include <sys/time.h>

enum { MOST = 10000, BEHIND = 64 };

static const uint8_t keys[] = { 'a', 'b', ' ', '\r', '\n', '\t', 0x7f, 0x15, 0x17, 0x03, 0x04, 0x11, 0x13, 0x12, 0x16, 0x1a, 0xc3, 0xff };

static uint64_t state;
static uint8_t bytes[MOST], out[MOST + BEHIND], before[MOST + BEHIND];
static unsigned long seen[16], stopped_at;
static bool anew;

static uint32_t chance(uint32_t n)
{
    state = state * 6364136223846793005u + 1442695040888963407u;
    return (uint32_t)(state >> 33) % n;
}

static uint32_t number(uint32_t usual)
{
    static const uint32_t edges[] = { 0, 1, 2, 3, 11, 12, 16, 17, 64, 65, 255, 256, 257, 258, 4095, 4096, 4097, 8192, 65535, 65536, 0x7fffffff,
        0xfffffffe, 0xffffffff };
    switch (chance(12)) {
    case 0: return edges[chance(sizeof edges / sizeof *edges)];
    case 1: return chance(0x7fffffff) * 2 + chance(2);
    default: return chance(usual);
    }
}

static size_t length(void)
{
    return chance(3) ? chance(40) : chance(MOST);
}

static void fail(const char *what)
{
    printf("call %lu: %s\n", stopped_at, what);
    exit(1);
}

/* Whether what a call did to the buffer and to what it tells is what its refusal says. */
static void judge(strm_refusal e, size_t room, size_t given, int told_stays)
{
    if (e > STRM_EIO || e == STRM_NO_MINOR || e == STRM_STILL_SHARED) fail("a refusal without a name");
    if (e == STRM_JOURNAL_FULL && anew) fail("a journal that begins anew was full");
    seen[e]++;
    if (e && !told_stays) fail("a refused call told something");
    if (!e && given > room) fail("more bytes than there is room for");
    if (memcmp(out + (e ? 0 : given), before + (e ? 0 : given), sizeof out - (e ? 0 : given)) != 0) fail("bytes were written that aren't told");
    memcpy(before, out, sizeof out);
}

static void ask_any(strm_pair *p)
{
    strm_ask ask = { 0, 0, 0, 0, 0, 0, false, false };
    strm_reply reply, same;
    size_t room = length(), n = length();
    strm_refusal e;
    ask.op = number(17), ask.side = number(2), ask.a = number(10), ask.b = number(5), ask.c = number(300);
    ask.group = chance(3) ? 0 : number(3), ask.ignores = chance(2) != 0, ask.orphaned = chance(2) != 0;
    if (chance(2)) room = 8192;
    if (ask.op == STRM_OP_CLOSE && chance(20)) ask.op = STRM_OP_READ; /* sides stay open for a while */
    memset(&reply, 0x5a, sizeof reply);
    same = reply;
    if (n == 0 && room == 0) e = strm_call(p, &ask, NULL, 0, NULL, 0, &reply);
    else e = strm_call(p, &ask, bytes + chance((uint32_t)(MOST - n)), n, out, room, &reply);
    judge(e, room, reply.bytes, memcmp(&reply, &same, sizeof reply) == 0);
}

/* Whether an answer is EAGAIN just where the side wasn't ready for the call; a full journal comes before, and so do a full pool and a full book. */
static void agrees(uint32_t ready, uint32_t bit, strm_refusal e)
{
    if (e == STRM_JOURNAL_FULL || e == STRM_ENXIO || e == STRM_EINVAL) return;
    if (!(ready & bit) != (e == STRM_EAGAIN)) fail("a side was ready, or wasn't, for another call");
}

static void look_and_get(strm_pair *p)
{
    strm_reply reply;
    uint32_t side = chance(2), ready = strm_ready(p, side);
    agrees(ready, STRM_CAN_GET, strm_get(p, side, STRM_ANY, chance(64), chance(256), out, sizeof out, &reply));
    memcpy(before, out, sizeof out);
}

static void write_or_read(strm_pair *p)
{
    strm_reply reply, same;
    size_t n = length();
    uint32_t side = number(2), ready = strm_ready(p, side);
    strm_refusal e;
    memset(&reply, 0x5a, sizeof reply);
    same = reply;
    if (chance(2)) {
        e = strm_write(p, side, bytes + chance((uint32_t)(MOST - n)), n, &reply);
        judge(e, 0, e ? 0 : reply.bytes, memcmp(&reply, &same, sizeof reply) == 0);
        if (!e && reply.value > (n < STRM_WRITE_MOST ? n : STRM_WRITE_MOST)) fail("more was taken than was brought");
        if (!e && n && !reply.value) fail("nothing was taken");
        if ((ready & STRM_CAN_WRITE) && (e == STRM_EAGAIN || e == STRM_ENOSR || e == STRM_ENXIO)) fail("a side that was ready took no write");
        if (!(ready & STRM_CAN_WRITE) && !e && n >= 769) fail("a side took a write, and wasn't ready");
    } else {
        e = strm_read(p, side, out, n, &reply);
        judge(e, n, reply.bytes, memcmp(&reply, &same, sizeof reply) == 0);
        if (n) agrees(ready, STRM_CAN_READ, e);
    }
}

static void look_or_turn(strm_pair *p)
{
    strm_went went = { 77, 77 };
    strm_standing standing = { 77, 77 };
    strm_left left = { 77, 77, 77 };
    strm_books books;
    size_t told = 77;
    uint32_t queue = number(14);
    strm_refusal e;
    switch (chance(10)) {
    case 9: if (strm_ready(p, number(2)) > 63) fail("a bit without a name"); break;
    case 8:
        e = strm_room(p, &left);
        judge(e, 0, 0, left.blocks == 77 && left.entries == 77 && left.bytes == 77);
        if (!e && left.blocks > 65536) fail("more blocks than a pair has");
        break;
    case 0: judge(e = strm_turn(p, queue, &went), 0, 0, went.kind == 77 && went.moved == 77); break;
    case 1: judge(e = strm_sizes(p, queue, &standing), 0, 0, standing.messages == 77 && standing.bytes == 77); break;
    case 2: judge(e = strm_first_size(p, queue, &told), 0, 0, told == 77); break;
    case 3:
        e = strm_ledger(p, number(2), &books);
        judge(e, 0, 0, 1);
        if (!e) {
            uint64_t gone = books.queued + books.inlined;
            for (queue = 0; queue < STRM_RULES; queue++) gone += books.gone[queue];
            if (books.written + books.made != gone) fail("the books don't balance");
        }
        break;
    case 4: if (strm_enabled(p, (size_t)number(9) * number(9)) > STRM_NO_QUEUE) fail("a queue without a name"); break;
    default: judge(strm_runqueues(p, &told), 0, 0, 1); break;
    }
}

static void take_entry(strm_pair *p)
{
    static strm_cursor at = { 0, 0 };
    strm_entry entry;
    size_t room = chance(2) ? MOST : length();
    strm_refusal e;
    memset(&entry, 0, sizeof entry);
    if (chance(20) == 0) at.entry = number(100), at.byte = number(1000);
    e = strm_next_entry(p, &at, &entry, out, room);
    judge(e, room, entry.kind == STRM_TURNED ? 0 : entry.brings + entry.reply.bytes, 1);
    if (e == STRM_EAGAIN) at.entry = at.byte = 0;
}

static void make(strm_pair *p)
{
    static const size_t blocks[] = { 0, 1, 40, 64, 256, 65536, 65537, 300 };
    bool was_open = p->is_open, begins = chance(2) != 0;
    strm_choices chosen = { blocks[chance(8)], 0, 0, chance(3) ? 0 : number(300), begins };
    size_t entries = chance(20) ? number(500) % 5000 : (size_t)-1 >> chance(24);
    size_t most = chance(20) ? number(20000) % 100000 : (size_t)-1 >> chance(24);
    strm_refusal e;
    chosen.entries = entries, chosen.bytes = most;
    if (begins || chosen.reserve) e = strm_new_with(p, &chosen);
    else e = strm_new(p, chosen.blocks, entries, most);
    judge(e, 0, 0, p->is_open == was_open);
    if (was_open && !e) fail("an open handle was made anew");
    if (!e && (chosen.reserve > chosen.blocks || (begins && (!entries || most < 8192)))) fail("choices that don't fit were taken");
    if (!e) anew = begins;
    if (!e && chance(8)) judge(strm_open_terminal(p), 0, 0, 1);
}

/* ------------------------------------------------------------------------------------------------- one end and the other */

enum { FLOOD = 100000 };

typedef struct flood {
    const char *name;
    uint32_t side, op, prio;
    const char *bytes;
    size_t n;
    bool waits; /* it is told to wait, as what it sends stands somewhere */
} flood;

static const flood floods[] = {
    { "EOF keys", STRM_MASTER, STRM_OP_WRITE, 0, "\4", 1, true },
    { "EOF keys by the 1024", STRM_MASTER, STRM_OP_WRITE, 0, NULL, 1024, true },
    { "Enter keys", STRM_MASTER, STRM_OP_WRITE, 0, "\r", 1, true },
    { "Enter keys by the 1024", STRM_MASTER, STRM_OP_WRITE, 0, "", 1024, true },
    { "empty writes of the master", STRM_MASTER, STRM_OP_WRITE, 0, "", 0, false },
    { "empty writes of the slave", STRM_SLAVE, STRM_OP_WRITE, 0, "", 0, true },
    { "output that nobody reads", STRM_SLAVE, STRM_OP_WRITE, 0, "y\n", 2, true },
    { "puts of high priority of the master", STRM_MASTER, STRM_OP_PUT, STRM_HIPRI, "c", 1, false },
    { "puts of high priority of the slave", STRM_SLAVE, STRM_OP_PUT, STRM_HIPRI, "c", 1, false },
};

static strm_refusal floods_once(strm_pair *p, const flood *f)
{
    static uint8_t many[1024];
    strm_reply reply;
    memset(many, f->bytes ? '\r' : 4, sizeof many);
    if (f->op == STRM_OP_PUT) return strm_put(p, f->side, f->prio, f->bytes, f->n, NULL, 0);
    return strm_write(p, f->side, f->n > 2 ? many : (const uint8_t *)f->bytes, f->n, &reply);
}

static void wants(const flood *f, const char *what, strm_refusal e)
{
    if (!e) return;
    printf("%s: %s: %s\n", f->name, what, strm_refusal_name(e));
    exit(1);
}

/* Whether ^C is taken; then it is delivered. */
static bool interrupts(strm_pair *p, const flood *f)
{
    strm_reply reply;
    uint8_t signals[32];
    size_t n;
    strm_refusal e = strm_write(p, STRM_MASTER, "\3", 1, &reply);
    if (e == STRM_EAGAIN) return false;
    wants(f, "^C", e);
    wants(f, "turns behind ^C", strm_run(p));
    wants(f, "signals", strm_signals(p, STRM_SLAVE, signals, &n));
    if (n == 0 || signals[0] != STRM_SIGINT) fail("^C isn't delivered");
    return true;
}

/* The end that floods reads what comes to it, and is told EAGAIN. The other one writes, and the slave asks for its window. */
static void withstands(const flood *f)
{
    strm_choices terminal = { STRM_TERMINAL_BLOCKS, 64, 16384, STRM_TERMINAL_RESERVE, true };
    strm_pair p = STRM_CLOSED;
    strm_winsize size;
    strm_reply reply;
    strm_left left;
    unsigned long taken = 0, i, reads = 0;
    wants(f, "a terminal", strm_new_with(&p, &terminal));
    wants(f, "a terminal", strm_open_terminal(&p));
    for (i = 0; i < FLOOD; i++) {
        strm_refusal e = floods_once(&p, f);
        if (e && e != STRM_EAGAIN) wants(f, "a call", e);
        if (!e) taken++;
        wants(f, "turns", strm_run(&p));
        if (f->waits && (strm_ready(&p, f->side) & STRM_CAN_READ)) wants(f, "a read", strm_read(&p, f->side, out, 4096, &reply));
    }
    wants(f, "what is left", strm_room(&p, &left));
    if (f->waits ? taken == FLOOD : taken < FLOOD) fail("a flood is told to wait just where what it sends stands somewhere");
    if (f->waits && (strm_ready(&p, f->side) & STRM_CAN_WRITE)) fail("who floods is told that it may write");
    if (!(strm_ready(&p, !f->side) & STRM_CAN_WRITE)) fail("the other end is told that it may not write");
    wants(f, "the other end's write", strm_write(&p, !f->side, "x", 1, &reply));
    wants(f, "turns", strm_run(&p));
    if (f->side == STRM_MASTER) wants(f, "the slave's window", strm_get_winsize(&p, STRM_SLAVE, &size));
    while (!interrupts(&p, f)) {
        if (f->side == STRM_SLAVE || ++reads > 8192) fail("^C isn't taken");
        if (strm_read(&p, STRM_SLAVE, out, 4096, &reply) == STRM_EBADMSG)
            wants(f, "a get", strm_get(&p, STRM_SLAVE, STRM_ANY, 64, 256, out, sizeof out, &reply));
        if (strm_ready(&p, STRM_MASTER) & STRM_CAN_READ) wants(f, "the master's read", strm_read(&p, STRM_MASTER, out, 4096, &reply));
        wants(f, "turns", strm_run(&p));
    }
    wants(f, "a close", strm_close(&p, f->side));
    wants(f, "turns behind a close", strm_run(&p));
    printf("%s: %lu of %d taken, %zu blocks are left; ^C behind %lu reads\n", f->name, taken, FLOOD, left.blocks, reads);
    strm_free(&p);
}

/* ------------------------------------------------------------------------------------------------- a handle in use */

enum { STORM = 20000, ROUNDS = 4000000 };

static strm_pair stormed = STRM_CLOSED;
static volatile unsigned long signalled, in_use, wrote;

/* A call of each kind that takes no memory, one a signal. With these arguments an open handle is EINVAL for none. */
static void interrupt(int number)
{
    static uint8_t room[4096];
    strm_refusal e;
    strm_reply reply;
    strm_books books;
    strm_left left;
    size_t told;
    (void)number;
    switch (signalled++ % 6) {
    case 0:
        e = strm_write(&stormed, STRM_MASTER, "s", 1, &reply);
        if (!e) wrote += reply.value;
        break;
    case 1: e = strm_read(&stormed, STRM_SLAVE, room, sizeof room, &reply); break;
    case 2: e = strm_runqueues(&stormed, &told); break;
    case 3: e = strm_ledger(&stormed, STRM_MASTER, &books); break;
    case 4: e = strm_room(&stormed, &left); break;
    default: e = strm_restart(&stormed); break;
    }
    if (e == STRM_EINVAL) in_use++;
}

static void every(suseconds_t microseconds)
{
    struct itimerval timer = { { 0, microseconds }, { 0, microseconds } };
    if (setitimer(ITIMER_REAL, &timer, NULL)) fail("no timer");
}

/* A call that isn't the handler's meets an open handle: whatever the handler did is done. */
static void goes(strm_refusal e)
{
    if (e == STRM_EINVAL) fail("a handle that a handler called on is closed");
}

static void storms(void)
{
    strm_choices terminal = { STRM_TERMINAL_BLOCKS, 64, 16384, STRM_TERMINAL_RESERVE, true };
    struct sigaction action = { 0 };
    unsigned long written = 0, i;
    uint64_t gone;
    strm_reply reply;
    strm_books books;
    size_t turns;
    if (strm_new_with(&stormed, &terminal) || strm_open_terminal(&stormed)) fail("no terminal");
    action.sa_handler = interrupt;
    action.sa_flags = SA_RESTART;
    if (sigaction(SIGALRM, &action, NULL)) fail("no handler");
    every(20);
    for (i = 0; i < ROUNDS && signalled < STORM; i++) {
        strm_refusal e = strm_write(&stormed, STRM_MASTER, i % 20 ? "k" : "\r", 1, &reply);
        goes(e);
        if (!e) written += reply.value;
        goes(strm_runqueues(&stormed, &turns));
        goes(strm_read(&stormed, STRM_SLAVE, out, 4096, &reply));
        goes(strm_read(&stormed, STRM_MASTER, out, 4096, &reply));
        goes(strm_ledger(&stormed, STRM_MASTER, &books));
    }
    every(0);
    if (!in_use || in_use == signalled) fail("no signal met a handle in use, or none met one that isn't");
    if (strm_ledger(&stormed, STRM_MASTER, &books)) fail("no ledger");
    if (books.written != written + wrote) fail("the books don't have what was written");
    gone = books.queued + books.inlined;
    for (i = 0; i < STRM_RULES; i++) gone += books.gone[i];
    if (books.written + books.made != gone) fail("the books don't balance");
    printf("a signal handler: %lu calls, %lu of them on a handle in use, EINVAL\n", signalled, in_use);
    strm_free(&stormed);
}

int main(int count, char **words)
{
    unsigned long calls = count > 1 ? strtoul(words[1], NULL, 10) : 1000000;
    strm_pair p = STRM_CLOSED;
    size_t i;
    state = count > 2 ? strtoul(words[2], NULL, 10) : 1;
    for (i = 0; i < MOST; i++) bytes[i] = chance(3) ? keys[chance(sizeof keys)] : (uint8_t)chance(256);
    for (stopped_at = 0; stopped_at < calls; stopped_at++) {
        uint32_t which = chance(1000);
        if (which < 2) strm_free(&p);
        else if (which < 20 || (!p.is_open && which < 500)) make(&p);
        else if (which < 500) ask_any(&p);
        else if (which < 650) write_or_read(&p);
        else if (which < 700) look_and_get(&p);
        else if (which < 950) look_or_turn(&p);
        else if (which < 990) take_entry(&p);
        else judge(strm_restart(&p), 0, 0, 1);
    }
    strm_free(&p);
    for (i = 0; i < sizeof floods / sizeof *floods; i++) withstands(&floods[i]);
    storms();
    printf("%lu calls", calls);
    for (i = 0; i <= STRM_EIO; i++)
        if (seen[i]) printf(", %s %lu", strm_refusal_name((strm_refusal)i), seen[i]);
    printf("\n");
    return 0;
}
