/* What goes through a small pair, and what one end can take from the other.
 *
 *     cc -O2 -Iinclude bench/ends.c libstrm.a -o ends && ./ends [BYTES [CALLS [PAIRS]]]
 *
 * So many bytes go through a pair of 64 blocks and a journal of 16 KiB, in loops of writes, turns and reads that know EAGAIN alone. Then one end of a
 * terminal makes so many calls that nobody answers; where bytes count in the marks of queues it is told EAGAIN and never ENOSR, and ^C is delivered.
 * At last so many terminals are made and typed at, and what a pair takes of memory is their mean. The first thing that isn't as it should be ends it
 * with status 1. */
#include <stdio.h>
#include <stdlib.h>
#include <strm.h>

static uint8_t text[4096], out[4096];
static strm_reply r;

static void fail(const char *what, const char *why)
{
    printf("%s: %s\n", what, why);
    exit(1);
}

static void wants(const char *what, strm_refusal e)
{
    if (e) fail(what, strm_refusal_name(e));
}

/* Makes the turns, and begins the journal anew where it could be full for the next call. */
static strm_refusal runs(strm_pair *p)
{
    strm_left left;
    strm_refusal e = strm_run(p);
    while (e == STRM_JOURNAL_FULL) {
        wants("a restart", strm_restart(p));
        e = strm_run(p);
    }
    wants("what is left", strm_room(p, &left));
    if (left.entries < 8 || left.bytes < 8192) wants("a restart", strm_restart(p));
    return e;
}

/* ------------------------------------------------------------------------------------------------- loops of writes and turns */

/* Reads all that came to a side, and adds it to a sum. */
static void drain(strm_pair *p, uint32_t side, unsigned long *got, uint32_t *sum)
{
    size_t i;
    while (strm_ready(p, side) & STRM_CAN_READ) {
        wants("a read", strm_read(p, side, out, sizeof out, &r));
        wants("turns", runs(p));
        for (i = 0; i < r.bytes; i++) *sum = *sum * 31 + out[i];
        *got += r.bytes;
        if (!r.bytes) return;
    }
}

/* Sends n bytes from a side, and gives how many came to the other one. */
static unsigned long carry(strm_pair *p, uint32_t side, unsigned long n, uint32_t *sent, uint32_t *came)
{
    unsigned long left = n, got = 0, echoed = 0;
    uint32_t unused = 0;
    size_t i;
    while (left) {
        size_t at = (size_t)((n - left) % 1024), most = sizeof text - at;
        strm_refusal e = strm_write(p, side, text + at, left < most ? (size_t)left : most, &r);
        if (e && e != STRM_EAGAIN) wants("a write", e);
        if (!e) {
            for (i = 0; i < r.value; i++) *sent = *sent * 31 + text[at + i];
            left -= r.value;
        }
        wants("turns", runs(p));
        drain(p, !side, &got, came);
        drain(p, side, &echoed, &unused);
    }
    return got;
}

static void carries(unsigned long n)
{
    static const char *const names[] = { "typed, no module", "written, no module", "typed at a terminal", "written at a terminal" };
    int way;
    for (way = 0; way < 4; way++) {
        strm_pair p = STRM_CLOSED;
        uint32_t sent = 0, came = 0;
        unsigned long got;
        wants("a pair", strm_new(&p, 64, 64, 16384));
        if (way < 2) {
            wants("an open", strm_open_master(&p));
            wants("an unlock", strm_unlock(&p));
            wants("an open", strm_open_slave(&p));
        } else {
            wants("a terminal", strm_open_terminal(&p));
        }
        got = carry(&p, way & 1 ? STRM_SLAVE : STRM_MASTER, n, &sent, &came);
        if (way < 2 && (got != n || sent != came)) fail(names[way], "other bytes came");
        if (way == 2 && got != n - n % 64) fail(names[way], "lines are missing");
        if (way == 3 && got != n + n / 64) fail(names[way], "ONLCR made another number");
        printf("%lu bytes %s, 64 blocks: %lu came\n", n, names[way], got);
        strm_free(&p);
    }
}

/* ------------------------------------------------------------------------------------------------- what one end can take */

typedef struct flood {
    const char *name;
    uint32_t side;
    int kind; /* 0 a write, 1 a put of high priority, 2 an ioctl, 3 a put in band 7 */
    const char *bytes;
    size_t n;
    bool reads_own, at_once, counts; /* counts: its bytes count in the marks of queues */
} flood;

static strm_refusal call_of(strm_pair *p, const flood *f)
{
    strm_ask ask = { STRM_OP_IOCTL, f->side, 99, 0, 0, 0, false, false };
    if (f->kind == 0) return strm_write(p, f->side, f->bytes, f->n, &r);
    if (f->kind == 1) return strm_put(p, f->side, STRM_HIPRI, "", 0, NULL, 0);
    if (f->kind == 3) return strm_put(p, f->side, 7, NULL, 0, "", 0);
    return strm_call(p, &ask, NULL, 0, out, 256, &r);
}

/* Whether ^C is taken now; then it has to be delivered. */
static bool interrupts(strm_pair *p, const char *name)
{
    uint8_t signals[32];
    size_t n;
    strm_refusal e = strm_write(p, STRM_MASTER, "\x03", 1, &r);
    if (e == STRM_EAGAIN || e == STRM_ENOSR) return false;
    wants(name, e);
    wants(name, runs(p));
    wants(name, strm_signals(p, STRM_SLAVE, signals, &n));
    if (n != 1 || signals[0] != STRM_SIGINT) fail(name, "^C isn't delivered");
    return true;
}

/* The other end goes on: its write isn't ENOSR; ^C is delivered at once, or once it has read what came; and the first end is closed. */
static void goes_on(strm_pair *p, const flood *f)
{
    unsigned long unused = 0;
    uint32_t sum = 0;
    strm_refusal e = strm_write(p, !f->side, "x", 1, &r);
    if (e && (e != STRM_ENOSR || f->counts) && e != STRM_EAGAIN) wants(f->name, e);
    printf("the other end writes: %s; ^C: ", strm_refusal_name(e));
    e = runs(p);
    if (e && (e != STRM_ENOSR || f->counts)) wants(f->name, e);
    if (interrupts(p, f->name)) {
        printf("at once\n");
    } else {
        if (f->at_once) fail(f->name, "^C isn't taken");
        do drain(p, !f->side, &unused, &sum), drain(p, f->side, &unused, &sum), wants(f->name, runs(p));
        while ((strm_ready(p, STRM_MASTER) | strm_ready(p, STRM_SLAVE)) & STRM_CAN_READ);
        if (!interrupts(p, f->name)) fail(f->name, "^C isn't taken behind reads");
        printf("behind reads\n");
    }
    wants(f->name, strm_close(p, f->side));
    wants(f->name, runs(p));
    if (!(strm_ready(p, !f->side) & (STRM_HUNG_UP | STRM_CAN_READ))) fail(f->name, "the close isn't told");
}

static void takes(const flood *f, unsigned long calls)
{
    strm_pair p = STRM_CLOSED;
    strm_left left;
    unsigned long made = 0, waited = 0, short_of = 0, i, unused = 0;
    uint32_t sum = 0;
    size_t least = STRM_TERMINAL_BLOCKS;
    wants(f->name, strm_new(&p, STRM_TERMINAL_BLOCKS, 64, 16384));
    wants(f->name, strm_open_terminal(&p));
    for (i = 0; i < calls; i++) {
        strm_refusal e = call_of(&p, f);
        if (e && (e != STRM_ENOSR || f->counts) && e != STRM_EAGAIN) wants(f->name, e);
        if (e == STRM_ENOSR) short_of++;
        else if (e) waited++;
        else made++;
        e = runs(&p);
        if (e && (e != STRM_ENOSR || f->counts)) wants(f->name, e);
        if (f->reads_own) drain(&p, f->side, &unused, &sum);
        wants(f->name, strm_room(&p, &left));
        if (left.blocks < least) least = left.blocks;
    }
    printf("%s: %lu made, %lu EAGAIN, %lu ENOSR, %u blocks left; ", f->name, made, waited, short_of, (unsigned)least);
    goes_on(&p, f);
    strm_free(&p);
}

static void takes_all(unsigned long calls)
{
    static const flood floods[] = {
        { "Enter keys, the echo read", STRM_MASTER, 0, "\r", 1, true, false, true },
        { "Enter keys", STRM_MASTER, 0, "\r", 1, false, false, true },
        { "a line without end", STRM_MASTER, 0, "k", 1, true, true, true },
        { "EOF keys", STRM_MASTER, 0, "\x04", 1, false, false, false },
        { "output", STRM_SLAVE, 0, "y", 1, false, true, true },
        { "empty output", STRM_SLAVE, 0, "", 0, false, false, false },
        { "empty messages in band 7", STRM_SLAVE, 3, "", 0, false, false, false },
        { "messages of high priority", STRM_SLAVE, 1, "", 0, false, true, true },
        { "ioctls whose answers nobody takes", STRM_SLAVE, 2, "", 0, false, true, true },
    };
    size_t i;
    for (i = 0; i < sizeof floods / sizeof *floods; i++) takes(&floods[i], calls);
}

/* ------------------------------------------------------------------------------------------------- memory */

/* How many bytes of memory the process holds, where the system tells; 0 elsewhere. */
static unsigned long resident(void)
{
    unsigned long all = 0, held = 0;
    FILE *f = fopen("/proc/self/statm", "r");
    if (!f) return 0;
    if (fscanf(f, "%lu %lu", &all, &held) != 2) held = 0;
    fclose(f);
    return held * 4096;
}

static void type_lines(strm_pair *p, int keys)
{
    unsigned long unused = 0;
    uint32_t sum = 0;
    int i;
    for (i = 0; i < keys; i++) {
        wants("a key", strm_write(p, STRM_MASTER, i % 10 == 9 ? "\r" : "k", 1, &r));
        wants("turns", runs(p));
        drain(p, STRM_MASTER, &unused, &sum);
        drain(p, STRM_SLAVE, &unused, &sum);
    }
}

static void weighs(const char *name, size_t blocks, bool anew, unsigned long pairs, int keys, unsigned long most)
{
    strm_choices chosen = { blocks, 64, 16384, STRM_TERMINAL_RESERVE, true };
    strm_pair *all = (strm_pair *)calloc(pairs, sizeof *all);
    unsigned long i, before, mean;
    if (!all) fail(name, "no memory");
    before = resident();
    for (i = 0; i < pairs; i++) {
        wants(name, anew ? strm_new_with(&all[i], &chosen) : strm_new(&all[i], blocks, 64, 16384));
        wants(name, strm_open_terminal(&all[i]));
        type_lines(&all[i], keys);
    }
    mean = (resident() - before) / pairs;
    printf("%s, %lu of them, %d keys: %lu bytes each\n", name, pairs, keys, mean);
    if (mean > most) fail(name, "more memory than it should");
    for (i = 0; i < pairs; i++) strm_free(&all[i]);
    free(all);
}

int main(int argc, char **argv)
{
    unsigned long bytes = argc > 1 ? strtoul(argv[1], NULL, 10) : 10000000, calls = argc > 2 ? strtoul(argv[2], NULL, 10) : 100000;
    unsigned long pairs = argc > 3 ? strtoul(argv[3], NULL, 10) : 1000;
    size_t i;
    for (i = 0; i < sizeof text; i++) text[i] = i % 64 == 63 ? '\n' : (uint8_t)('a' + i % 26);
    carries(bytes);
    takes_all(calls);
    weighs("pairs of 256 blocks", 256, false, pairs, 0, 122880);
    weighs("terminals", STRM_TERMINAL_BLOCKS, false, pairs, 0, 122880);
    weighs("pairs of 256 blocks", 256, false, pairs, 100, 153600);
    weighs("terminals", STRM_TERMINAL_BLOCKS, false, pairs, 100, 153600);
    weighs("terminals whose journal begins anew", STRM_TERMINAL_BLOCKS, true, pairs, 100, 153600);
    return 0;
}
