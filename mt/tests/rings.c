/* What calls make ready, on which mt/ends.c relies where it wakes nobody: on a pair of strm.h, by calls at random.
 *
 *     rings CALLS [SEED]
 *
 * A write or a put makes no side ready for anything that it wasn't ready for before; a read for nothing but a write; and what only looks or
 * takes what stood at the head (I_LOOK, I_NREAD, signals, the answer of an ioctl) for nothing, and enables no queue. */
#include <stdio.h>
#include <stdlib.h>
#include <strm.h>

static uint64_t state;

static uint32_t chance(uint32_t n)
{
    state = state * 6364136223846793005u + 1442695040888963407u;
    return (uint32_t)(state >> 33) % n;
}

static void opens(strm_pair *p)
{
    static const size_t blocks[] = { 40, 64, 80, 128, 300, 12900 };
    strm_reply r;
    strm_free(p);
    if (strm_new(p, blocks[chance(6)], 100000, 10000000)) exit(1);
    if (chance(8) == 0) strm_open_master(p), strm_unlock(p), strm_open_slave(p);
    else strm_open_terminal(p);
    if (chance(2)) strm_do(p, STRM_OP_PUSH, chance(2), 1 + chance(3), 0, &r);
}

/* A call whose numbers fit mostly; how many bytes it brings. */
static size_t picks(strm_ask *ask)
{
    static const uint32_t usual[] = { STRM_OP_WRITE, STRM_OP_WRITE, STRM_OP_WRITE, STRM_OP_READ, STRM_OP_READ, STRM_OP_READ, STRM_OP_PUT,
        STRM_OP_PUT, STRM_OP_GET, STRM_OP_GET, STRM_OP_IOCTL, STRM_OP_IOCTL_RESULT, STRM_OP_SIGNALS, STRM_OP_NREAD, STRM_OP_LOOK, STRM_OP_FLUSH,
        STRM_OP_PUSH, STRM_OP_POP, STRM_OP_MODE, STRM_OP_UNLOCK };
    ask->op = usual[chance(sizeof usual / sizeof *usual)];
    ask->side = chance(2), ask->a = chance(8), ask->b = chance(6), ask->c = chance(20);
    ask->group = chance(4) ? 0 : chance(3), ask->ignores = chance(2) != 0, ask->orphaned = chance(2) != 0;
    switch (ask->op) {
    case STRM_OP_READ: ask->a = chance(2) ? chance(20) : chance(4096); return 0;
    case STRM_OP_GET: ask->a = chance(3) ? (uint32_t)STRM_ANY : chance(257), ask->b = chance(64), ask->c = chance(256); return 0;
    case STRM_OP_PUT: ask->a = chance(2) ? (uint32_t)STRM_HIPRI : chance(256); return ask->c + chance(40);
    case STRM_OP_IOCTL: return ask->a == STRM_TIOCSWINSZ ? 8 : ask->a >= STRM_TCSETS && ask->a <= STRM_TCSETSF ? 35 : chance(36);
    case STRM_OP_FLUSH: ask->b = chance(2) ? (uint32_t)STRM_ANY : ask->b; return 0;
    default: return chance(3) ? chance(20) : chance(1200);
    }
}

/* The bits that a call of this kind may set. */
static uint32_t may_set(uint32_t op)
{
    switch (op) {
    case STRM_OP_LOOK: case STRM_OP_NREAD: case STRM_OP_SIGNALS: case STRM_OP_IOCTL_RESULT: case STRM_OP_WRITE: case STRM_OP_PUT: return 0;
    case STRM_OP_READ: return STRM_CAN_WRITE;
    default: return ~0u;
    }
}

static bool is_quiet(uint32_t op)
{
    return may_set(op) == 0 && op != STRM_OP_WRITE && op != STRM_OP_PUT;
}

/* How many queues are enabled. */
static size_t enabled(strm_pair *p)
{
    size_t n = 0;
    while (strm_enabled(p, n) != STRM_NO_QUEUE) n++;
    return n;
}

static unsigned long calls(strm_pair *p)
{
    static const uint8_t keys[] = "ab \r\n\t\x7f\x15\x03\x04\x11\x13\x12\x16\x1a\xc3\xff";
    uint8_t bytes[1200], out[8192];
    uint32_t before[2], after;
    strm_ask ask;
    strm_reply r;
    size_t n = picks(&ask), i, queues = enabled(p);
    for (i = 0; i < n; i++) bytes[i] = chance(16) || ask.op != STRM_OP_IOCTL ? keys[chance(sizeof keys - 1)] : (uint8_t)chance(256);
    before[0] = strm_ready(p, STRM_MASTER), before[1] = strm_ready(p, STRM_SLAVE);
    if (strm_call(p, &ask, bytes, n, out, sizeof out, &r)) return 0;
    after = (strm_ready(p, STRM_MASTER) & ~before[0]) | (strm_ready(p, STRM_SLAVE) & ~before[1]);
    if (!(after & ~may_set(ask.op)) && !(is_quiet(ask.op) && enabled(p) != queues)) return 1;
    printf("call %u of side %u: ready for %x more\n", ask.op, ask.side, after);
    exit(1);
}

int main(int count, char **words)
{
    unsigned long all = count > 1 ? strtoul(words[1], NULL, 10) : 1000000, granted = 0, left = 0, i;
    strm_pair p = STRM_CLOSED;
    state = count > 2 ? strtoul(words[2], NULL, 10) : 1;
    for (i = 0; i < all; i++, left--) {
        strm_went went;
        strm_left room;
        if (left == 0) opens(&p), left = 1 + chance(4000);
        if (!strm_room(&p, &room) && (room.bytes < 20000 || room.entries < 10)) strm_restart(&p);
        if (left < 10 && chance(8) == 0) strm_close(&p, chance(2));
        if (chance(3) == 0) strm_turn(&p, strm_enabled(&p, 0), &went);
        else granted += calls(&p);
    }
    strm_free(&p);
    printf("%lu calls made nothing ready that isn't told\n", granted);
    return 0;
}
