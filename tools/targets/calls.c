/* All calls of strm.h as a target: an input is a pair's size and then calls, with any numbers, lengths and buffers. Behind each it is compared:
 * a refused call changed neither the image nor the reply nor the buffer, another wrote no byte but those that it tells, ledgers balance. The image
 * of a pair restores to a pair of that image; and the journal, made again on a pair of its first image, gives the same answers and the same image.
 *
 *     calls SEED COUNT      so many inputs at random, for a run without a fuzzer */
#include <string.h>
#include <strm.h>

#include "target.h"

enum { IMAGE = 1 << 20, ROOM = 8192 + 70000, AMPLE = 20000, CALLS = 400 };

static uint8_t input[1 << 16], base[IMAGE], before[IMAGE], after[IMAGE];
static size_t input_size, input_at, base_size, before_size, pair_blocks;
static unsigned passed;
static int large, base_known; /* whether the journal keeps all since `base` */
static strm_pair p = STRM_CLOSED;

static uint8_t byte(void)
{
    return input_at < input_size ? input[input_at++] : 0;
}

static uint32_t below(uint32_t n)
{
    return byte() % n;
}

static uint32_t word(void)
{
    uint32_t high = (uint32_t)byte() << 24 | (uint32_t)byte() << 16;
    return high | (uint32_t)byte() << 8 | byte();
}

static uint32_t number(void)
{
    static const uint32_t edges[] = { 12, 16, 17, 63, 64, 65, 255, 256, 257, 258, 4095, 4096, 4097, 8192, 65535, 65536, 0x7fffffff, 0xffffffff };
    uint32_t kind = byte();
    return kind < 160 ? kind % 18 : kind < 248 ? edges[kind % (sizeof edges / sizeof *edges)] : word();
}

static size_t length(void)
{
    uint32_t kind = byte();
    return kind < 140 ? kind % 9 : kind < 200 ? kind : kind < 240 ? kind * 8 : byte() * 40;
}

/* So many bytes in memory of just that size. */
static uint8_t *filled(size_t n)
{
    uint8_t *made = malloc(n ? n : 1), begins = n > 64 ? byte() : 0, step = n > 64 ? byte() : 0;
    MUST(made, "no memory");
    for (size_t at = 0; at < n; at++) made[at] = n > 64 ? (uint8_t)(begins + at * step) : byte();
    return made;
}

static size_t imaged(strm_pair *of, uint8_t *into)
{
    size_t n = 0;
    return of->is_open && !strm_image(of, into, IMAGE, &n) ? n : 0;
}

static void balances(strm_pair *of)
{
    for (uint32_t side = 0; side < 2 && of->is_open; side++) {
        strm_books books;
        MUST(!strm_ledger(of, side, &books), "a ledger is refused");
        uint64_t sum = books.queued + books.inlined;
        for (int rule = 0; rule < STRM_RULES; rule++) sum += books.gone[rule];
        MUST(sum == books.written + books.made, "a ledger that doesn't balance");
    }
}

/* The pair's journal begins here. */
static void based(void)
{
    base_size = imaged(&p, base);
    base_known = base_size > 0;
}

/* Keeps the image before a call. One of many messages costs much more than a call: then it is kept before one call in sixteen alone. */
static void starts(void)
{
    before_size = 0;
    if (large && ++passed % 16) return;
    before_size = imaged(&p, before);
    large = before_size > 4096;
}

/* What a refusal may be, and what it leaves. */
static void ends(strm_refusal e)
{
    MUST(e <= STRM_EIO && e != STRM_NO_MINOR && e != STRM_STILL_SHARED, "a refusal without a name");
    if (e && before_size) MUST(imaged(&p, after) == before_size && !memcmp(before, after, before_size), "a refused call changed the image");
    balances(&p);
}

/* Makes the call of an entry again; whether it was told what the entry says. */
static int is_again(strm_pair *q, const strm_entry *entry, const uint8_t *bytes)
{
    static uint8_t out[8192];
    strm_reply r;
    strm_went went;
    if (entry->kind == STRM_TURNED) {
        strm_refusal e = strm_turn(q, entry->queue, &went);
        return !e && went.kind == entry->went.kind && went.moved == entry->went.moved;
    }
    const strm_reply *told = &entry->reply;
    strm_refusal e = strm_call(q, &entry->ask, bytes, entry->brings, out, sizeof out, &r);
    if (e || r.kind != told->kind || r.bytes != told->bytes || r.value != told->value || r.prio != told->prio || r.parts != told->parts) return 0;
    if (r.size != told->size || r.more_control != told->more_control || r.more_data != told->more_data) return 0;
    return !memcmp(out, bytes + entry->brings, r.bytes);
}

/* Replays the journal, where blocks are ample: an image has no layout of blocks, so near exhaustion a restored pair may answer otherwise. */
static void replays(void)
{
    static uint8_t bytes[ROOM];
    strm_pair q = STRM_CLOSED;
    strm_cursor at = { 0, 0 };
    strm_entry entry;
    if (!base_known || !p.is_open || pair_blocks < AMPLE) return;
    size_t size = imaged(&p, before);
    if (strm_restore(&q, 2 * AMPLE, 4096, 1 << 20, base, base_size)) return;
    for (strm_refusal e; (e = strm_next_entry(&p, &at, &entry, bytes, sizeof bytes)) != STRM_EAGAIN;) {
        MUST(!e, "an entry is refused");
        MUST(is_again(&q, &entry, bytes), "an entry that is made again is told otherwise");
    }
    MUST(imaged(&q, after) == size && !memcmp(before, after, size), "the image of the replay is another one");
    strm_free(&q);
}

static void anew(void)
{
    replays();
    MUST(strm_restart(&p) == (p.is_open ? STRM_OK : STRM_EINVAL), "restart");
    based();
}

/* The numbers that fit a call, most of the time. */
static size_t fits(strm_ask *ask)
{
    size_t n = length();
    switch (ask->op) {
    case STRM_OP_IOCTL:
        ask->a = below(12);
        return below(4) == 0 ? n % 300 : ask->a == STRM_TIOCSWINSZ ? 8 : ask->a == STRM_TIOCSPGRP ? 4 : ask->a >= 2 && ask->a <= 4 ? 35 : n % 300;
    case STRM_OP_IOCTL_RESULT: ask->a = below(6); return 0;
    case STRM_OP_PUSH: ask->a = 1 + below(3); return 0;
    case STRM_OP_MODE: ask->a = below(6); return 0;
    case STRM_OP_FLUSH: ask->a = 1 + below(3), ask->b = below(2) ? STRM_ANY : below(9); return 0;
    case STRM_OP_READ: ask->a = byte() * 17; return 0;
    case STRM_OP_GET: ask->a = below(3) ? STRM_ANY : below(2) ? STRM_HIPRI : below(9), ask->b = below(65), ask->c = byte() * 2u; return 0;
    case STRM_OP_PUT:
        n %= 321;
        ask->a = below(8) ? below(9) : STRM_HIPRI, ask->b = 1 + below(3), ask->c = n ? byte() % (uint32_t)(n + 1) : 0;
        return n;
    default: return n;
    }
}

static void calls(uint32_t op)
{
    strm_ask ask = { op, below(16) ? below(2) : number(), number(), number(), number(), 0, false, false };
    uint8_t who = byte();
    size_t n = below(4) ? fits(&ask) : length(), room = below(4) ? 8192 : length();
    ask.group = who < 128 ? 0 : who < 250 ? who % 4 : word(), ask.ignores = who & 1, ask.orphaned = who >> 1 & 1;
    if (op == STRM_OP_CLOSE && below(8)) ask.op = STRM_OP_NREAD; /* sides stay open for a while */
    uint8_t *bytes = filled(n), *out = malloc(room ? room : 1);
    strm_reply reply, same;
    MUST(out, "no memory");
    memset(out, 0x5a, room ? room : 1);
    memset(&reply, 0x5a, sizeof reply);
    same = reply;
    starts();
    strm_refusal e = strm_call(&p, &ask, bytes, n, out, room, &reply);
    MUST(!e || !memcmp(&reply, &same, sizeof reply), "a refused call told something");
    MUST(e || (reply.bytes <= room && reply.kind <= STRM_STOPPED), "more bytes than room, or no kind");
    for (size_t at = e ? 0 : reply.bytes; at < room; at++) MUST(out[at] == 0x5a, "a byte that isn't told");
    ends(e);
    free(bytes);
    free(out);
    if (e == STRM_JOURNAL_FULL) anew();
}

static void writes(void)
{
    size_t n = length();
    uint8_t *bytes = filled(n);
    strm_reply r;
    starts();
    strm_refusal e = strm_write(&p, below(4) == 0, bytes, n, &r);
    if (!e) MUST(r.value <= n && (r.value || !n), "a write took more than it brought, or none");
    ends(e);
    free(bytes);
    if (e == STRM_JOURNAL_FULL) anew();
}

static void reads(void)
{
    size_t room = length();
    uint8_t *out = malloc(room ? room : 1);
    strm_reply r;
    MUST(out, "no memory");
    memset(out, 0x5a, room ? room : 1);
    starts();
    strm_refusal e = strm_read(&p, below(2), out, room, &r);
    for (size_t at = e ? 0 : r.bytes; at < room; at++) MUST(out[at] == 0x5a, "a byte that isn't told");
    ends(e);
    free(out);
}

static void turns(void)
{
    strm_went went = { 77, 77 };
    size_t made = 77;
    starts();
    if (below(3)) {
        strm_refusal e = strm_turn(&p, below(8) ? below(12) : number(), &went);
        MUST(e ? went.kind == 77 && went.moved == 77 : went.kind <= STRM_MOVED, "what a turn told");
        ends(e);
        return;
    }
    before_size = 0; /* of turns that are refused the ones before were made */
    strm_refusal e = strm_runqueues(&p, &made);
    MUST(e || strm_enabled(&p, 0) == STRM_NO_QUEUE, "a queue is enabled behind a run");
    MUST(e != STRM_EINVAL || (!p.is_open && made == 77), "a run of an open pair is EINVAL");
    ends(e);
    if (e == STRM_JOURNAL_FULL) anew();
}

static void looks(void)
{
    strm_standing standing = { 7, 7 };
    strm_cursor cursor = { below(2) ? number() : 0, below(2) ? number() : 0 };
    strm_entry entry;
    size_t first = 7, room = below(2) ? 70000 : length();
    uint32_t queue = number();
    uint8_t *out = malloc(room ? room : 1);
    MUST(out, "no memory");
    starts();
    strm_refusal e = strm_sizes(&p, queue, &standing);
    MUST(e == strm_first_size(&p, queue, &first), "two looks at one queue");
    if (!e) MUST(first <= standing.bytes && (standing.messages || !standing.bytes), "more bytes than stand there");
    MUST(strm_enabled(&p, word()) <= STRM_NO_QUEUE, "a queue that isn't one");
    memset(out, 0x5a, room ? room : 1);
    e = strm_next_entry(&p, &cursor, &entry, out, room);
    size_t told = e ? 0 : entry.kind == STRM_TURNED ? 0 : entry.brings + entry.reply.bytes;
    MUST(told <= room, "more bytes than room");
    for (size_t at = told; at < room; at++) MUST(out[at] == 0x5a, "a byte that isn't told");
    ends(STRM_EINVAL);
    free(out);
}

/* A new pair, or one of this one's image, with bits turned over or not. */
static void makes(void)
{
    static const size_t sizes[] = { 0, 1, 33, 35, 40, 48, 64, 96, 256, 300, AMPLE, AMPLE, AMPLE, 65536, 65537, 2 * AMPLE };
    size_t blocks = sizes[below(16)], n = imaged(&p, after), marred = n && below(2) ? 1 + below(4) : 0;
    strm_pair q = STRM_CLOSED;
    if (!n) {
        int was = p.is_open;
        strm_refusal e = strm_new(&p, blocks, below(8) ? 4000 : number() % 200000, below(8) ? 200000 : number());
        MUST(e ? e == STRM_EINVAL || e == STRM_NO_MEMORY : !was && blocks && blocks <= 65536, "a pair is made of nothing, or refused");
        if (!e) pair_blocks = blocks, based();
        if (!e && below(8)) strm_open_terminal(&p);
        return;
    }
    for (size_t at = 0; at < marred; at++) after[word() % n] ^= (uint8_t)(1 << below(8));
    strm_refusal e = strm_restore(&q, blocks, 4000, 200000, after, n);
    MUST(!e ? q.is_open : !q.is_open && !q.at, "a refused image opened the handle");
    MUST(e != STRM_EINVAL || marred || !blocks || blocks > 65536, "a pair's own image is refused");
    if (!e) {
        size_t same = imaged(&q, before);
        MUST(marred || (same == n && !memcmp(before, after, n)), "the image of an image is another one");
        balances(&q);
        strm_free(&p);
        p = q, pair_blocks = blocks;
        based();
    }
}

#if STRM_VERSION >= 65538
/* What the pair is ready for, and what is left of it. */
static void readiness(void)
{
    strm_left left;
    starts();
    for (uint32_t side = 0; side < 3; side++) {
        uint32_t ready = strm_ready(&p, side);
        MUST(ready < 64 && (p.is_open || !ready), "a bit without a name");
    }
    strm_refusal e = strm_room(&p, &left);
    MUST(e == (p.is_open ? STRM_OK : STRM_EINVAL), "what is left of a pair");
    if (p.is_open) MUST(left.blocks <= pair_blocks, "more blocks than the pair has");
    ends(STRM_EINVAL);
}
#endif

static void one(void)
{
    uint32_t kind = below(32);
    if (!p.is_open && kind < 28) makes();
    if (kind < 5) calls(below(18) == 17 ? number() : below(17));
    else if (kind < 8) calls(STRM_OP_PUT);
    else if (kind < 10) calls(STRM_OP_GET);
    else if (kind < 12) calls(below(2) ? STRM_OP_IOCTL : STRM_OP_IOCTL_RESULT);
    else if (kind < 13) calls(below(2) ? STRM_OP_PUSH : STRM_OP_POP);
    else if (kind < 18) writes();
    else if (kind < 21) reads();
    else if (kind < 26) turns();
    else if (kind < 28) looks();
    else if (kind < 29) makes();
    else if (kind < 30) anew();
#if STRM_VERSION >= 65538
    else if (kind < 31) readiness();
#endif
    else if (!below(8)) strm_free(&p);
}

static void tries(void)
{
    MUST(strm_version() == STRM_VERSION, "another version than the header's");
    passed = 0, large = 0;
    for (int at = 0; at < CALLS && input_at < input_size; at++) one();
    replays();
    strm_free(&p);
    MUST(!p.is_open && !p.at, "a freed handle is open");
    base_known = 0;
}

int main(int count, char **words)
{
    if (count == 3) {
        srand((unsigned)atoi(words[1]));
        for (int left = atoi(words[2]); left > 0; left--) {
            for (input_size = 0; input_size < 4000; input_size++) input[input_size] = (uint8_t)(rand() >> 8);
            input_at = 0;
            tries();
        }
        return 0;
    }
    target_begins();
    while (target_goes_on()) {
        input_at = 0, input_size = target_reads(input, sizeof input);
        tries();
    }
    return 0;
}
