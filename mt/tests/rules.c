/* What each function of strm_mt.h says: refusals, what stays, and what is told. One thread calls, but for the workers.
 *
 *     rules
 *
 * The last line is 'N things hold'. */
#define _GNU_SOURCE
#include <poll.h>
#include <stdio.h>
#include <stdlib.h>
#include <strm_mt.h>
#include <time.h>

static int held;

static void holds(bool it, int line, const char *what)
{
    if (!it) {
        printf("line %d: %s\n", line, what);
        exit(1);
    }
    held++;
}

#define HOLDS(what) holds((what), __LINE__, #what)

static const strm_choices plain = { 128, 4096, 262144, 0, false }, anew = { 128, 64, 16384, 0, true };

static strm_system *system_of(size_t pairs, const strm_choices *sizes)
{
    strm_system *of = NULL;
    HOLDS(strm_system_new(&of, pairs, sizes) == STRM_OK);
    HOLDS(strm_system_pairs(of) == pairs);
    return of;
}

static void terminal(strm_system *of, strm_end **master, strm_end **slave)
{
    HOLDS(strm_system_terminal(of, master, slave) == STRM_OK);
}

static void ends(strm_end *first, strm_end *second)
{
    strm_account all;
    HOLDS(strm_end_join(first, second) == STRM_OK);
    HOLDS(strm_end_settle(first, &all) == STRM_OK);
    HOLDS(all.told.written.from_master == all.ms.written && all.told.read.from_slave == all.sm.gone[STRM_RULE_READ]);
}

static void systems(void)
{
    strm_choices odd = plain;
    strm_system *of = NULL;
    HOLDS(strm_system_new(&of, 0, &plain) == STRM_EINVAL && strm_system_new(&of, 65537, &plain) == STRM_EINVAL);
    odd.blocks = 0;
    HOLDS(strm_system_new(&of, 1, &odd) == STRM_EINVAL);
    odd = plain, odd.reserve = 1;
    HOLDS(strm_system_new(&of, 1, &odd) == STRM_EINVAL);
    odd = anew, odd.entries = 0;
    HOLDS(strm_system_new(&of, 1, &odd) == STRM_EINVAL);
    odd = anew, odd.bytes = 8191;
    HOLDS(strm_system_new(&of, 1, &odd) == STRM_EINVAL && of == NULL);
}

static void claims(void)
{
    strm_system *of = system_of(70, &plain);
    strm_end *master, *other;
    strm_account all;
    uint32_t pair, last = 0, i;
    for (i = 0; i < 70; i++) HOLDS(strm_system_claim(of, &last) == STRM_OK && last == i);
    HOLDS(strm_system_claim(of, &pair) == STRM_NO_MINOR);
    HOLDS(strm_system_release(of, 70) == STRM_EINVAL && strm_system_open(of, 70, &master) == STRM_EINVAL);
    HOLDS(strm_system_release(of, 65) == STRM_OK && strm_system_release(of, 65) == STRM_EINVAL);
    HOLDS(strm_system_open(of, 65, &master) == STRM_EINVAL);
    HOLDS(strm_system_claim(of, &pair) == STRM_OK && pair == 65);
    HOLDS(strm_system_open(of, 65, &master) == STRM_OK && strm_system_open(of, 65, &other) == STRM_EINVAL);
    HOLDS(strm_system_release(of, 65) == STRM_EINVAL && strm_system_free(of) == STRM_STILL_SHARED);
    HOLDS(strm_end_settle(master, &all) == STRM_OK && all.told.calls == 1);
    HOLDS(strm_system_open(of, 65, &master) == STRM_OK);
    strm_end_free(master);
    HOLDS(strm_system_open(of, 65, &master) == STRM_EINVAL && strm_system_release(of, 65) == STRM_EINVAL);
    HOLDS(strm_system_free(of) == STRM_OK);
}

/* A pair is cut into as many ends as there are parts, each half of the one before, and joined again. */
static void parts(void)
{
    strm_system *of = system_of(2, &plain), *another = system_of(1, &plain);
    strm_end *master, *slave, *second, *third, *many[70];
    strm_share share;
    strm_account all;
    strm_reply r;
    uint32_t ready;
    size_t made;
    int n = 0, i;
    terminal(of, &master, &slave);
    terminal(of, &second, &third);
    HOLDS(strm_end_join(master, second) == STRM_EINVAL && strm_end_join(master, master) == STRM_EINVAL);
    ends(third, second);
    terminal(another, &second, &third);
    HOLDS(strm_end_join(master, third) == STRM_EINVAL && strm_end_join(third, master) == STRM_EINVAL);
    ends(second, third);
    HOLDS(strm_end_settle(slave, &all) == STRM_STILL_SHARED && strm_end_settle(master, &all) == STRM_STILL_SHARED);
    strm_end_told(slave, &share);
    HOLDS(share.side == STRM_SLAVE && share.pair == 0 && share.parts == (uint64_t)1 << 62 && share.told.calls == 2);
    while (n < 70 && strm_end_split(slave, &many[n]) == STRM_OK) n++;
    HOLDS(n == 62 && strm_end_split(slave, &many[n]) == STRM_ERANGE && strm_end_open_slave(slave, &many[n]) == STRM_ERANGE);
    HOLDS(strm_end_settle(master, &all) == STRM_STILL_SHARED);
    for (i = 0; i < n; i++) HOLDS(strm_end_join(many[i], slave) == STRM_OK), slave = many[i];
    HOLDS(strm_end_join(slave, master) == STRM_OK);
    strm_end_told(slave, &share);
    HOLDS(share.side == STRM_MASTER && share.parts == (uint64_t)1 << 63 && share.told.calls == 5);
    /* it waits as the master, which has the echo of a line that isn't finished */
    HOLDS(strm_end_write(slave, "x", 1, &r) == STRM_OK && strm_end_run(slave, &made) == STRM_OK);
    HOLDS(strm_end_ready(slave, &ready) == STRM_OK && (ready & STRM_CAN_READ));
    strm_end_told(slave, &share);
    HOLDS(strm_end_settle(slave, &all) == STRM_OK && memcmp(&all.told, &share.told, sizeof all.told) == 0);
    HOLDS(strm_system_free(of) == STRM_OK && strm_system_free(another) == STRM_OK);
}

static void calls(void)
{
    strm_system *of = system_of(1, &plain);
    strm_ask open_slave = { STRM_OP_OPEN_SLAVE, 0, 0, 0, 0, 0, false, false }, odd = { 99, 0, 0, 0, 0, 0, false, false };
    strm_end *master, *slave, *other;
    strm_visit visit;
    strm_reply r, before;
    strm_account all;
    strm_termios modes = { 0, 0, 0, 0, { 0 } };
    strm_winsize window = { 25, 80, 0, 0 };
    uint8_t out[256], signals[32];
    size_t n;
    terminal(of, &master, &slave);
    HOLDS(strm_end_call(master, &open_slave, NULL, 0, NULL, 0, &r) == STRM_EINVAL);
    HOLDS(strm_end_call(master, &odd, NULL, 0, NULL, 0, &r) == STRM_EINVAL);
    HOLDS(strm_end_open_slave(master, &other) == STRM_EINVAL);
    memset(&r, 0x5a, sizeof r), before = r;
    HOLDS(strm_end_read(slave, out, sizeof out, &r) == STRM_EAGAIN && memcmp(&r, &before, sizeof r) == 0);
    HOLDS(strm_end_write(master, "ls\r", 3, &r) == STRM_OK && r.value == 3);
    HOLDS(strm_system_turn(of, 0, &visit) == STRM_OK && visit.queue == STRM_M_DRV_W && visit.refusal == STRM_OK && visit.went.moved == 3);
    HOLDS(strm_system_turn(of, 1, &visit) == STRM_EINVAL && strm_system_run(of, 1, &n) == STRM_EINVAL && n == 0);
    HOLDS(strm_system_run(of, 0, &n) == STRM_OK && n > 0 && strm_end_run(slave, &n) == STRM_OK && n == 0);
    HOLDS(strm_system_turn(of, 0, &visit) == STRM_OK && visit.queue == STRM_NO_QUEUE);
    HOLDS(strm_end_read(slave, out, sizeof out, &r) == STRM_OK && r.bytes == 3 && memcmp(out, "ls\n", 3) == 0);
    HOLDS(strm_system_audit(of, 0, &all) == STRM_OK && all.told.written.from_master == 3 && all.told.read.from_master == 3);
    HOLDS(all.ms.written == 3 && all.sm.made == 4 && strm_system_audit(of, 1, &all) == STRM_EINVAL);
    HOLDS(strm_end_tcgetattr(slave, &modes, 0) == STRM_OK && (modes.lflag & STRM_ECHO));
    modes.lflag |= STRM_TOSTOP;
    HOLDS(strm_end_tcsetattr(slave, STRM_TCSETS, &modes, 0) == STRM_OK && strm_end_tcsetpgrp(slave, 7, 0) == STRM_OK);
    strm_end_set_group(slave, 8, false, false);
    HOLDS(strm_end_write(slave, "x", 1, &r) == STRM_OK && r.kind == STRM_STOPPED && strm_end_write_all(slave, "x", 1, 0, &n) == STRM_EIO && n == 0);
    strm_end_set_group(slave, 0, false, false);
    HOLDS(strm_end_set_winsize(slave, &window, 0) == STRM_OK && strm_end_run(slave, &n) == STRM_OK);
    HOLDS(strm_end_signals(slave, signals, &n) == STRM_OK);
    HOLDS(strm_end_restart(slave) == STRM_OK && strm_end_nread(master, &n, &n) == STRM_OK);
    ends(master, slave);
    HOLDS(strm_system_free(of) == STRM_OK);
}

/* Journals of eight entries: one that begins anew, and one that doesn't. */
static void journals(void)
{
    strm_choices sizes = { 128, 8, 16384, 0, false };
    strm_system *of = system_of(1, &sizes), *on;
    strm_end *master, *slave;
    strm_reply r;
    uint32_t ready;
    size_t n, i;
    terminal(of, &master, &slave);
    for (i = 0; i < 3; i++) HOLDS(strm_end_write(master, "a\r", 2, &r) == STRM_OK);
    HOLDS(strm_end_write(master, "a\r", 2, &r) == STRM_JOURNAL_FULL && strm_end_run(master, &n) == STRM_JOURNAL_FULL && n == 0);
    HOLDS(strm_end_restart(master) == STRM_OK && strm_end_run(master, &n) == STRM_JOURNAL_FULL && n == 8);
    while (strm_end_run(master, &n)) HOLDS(strm_end_restart(master) == STRM_OK);
    ends(master, slave);
    HOLDS(strm_system_free(of) == STRM_OK);
    sizes.anew = true;
    on = system_of(1, &sizes);
    terminal(on, &master, &slave);
    for (i = 0; i < 20; i++) HOLDS(strm_end_write(master, "a\r", 2, &r) == STRM_OK && strm_end_run(master, &n) == STRM_OK);
    for (i = 0; i < 8; i++) strm_end_nread(master, &n, &n);
    HOLDS(strm_end_write(master, "b\r", 2, &r) == STRM_OK);
    while (strm_system_run(on, 0, &n) != STRM_JOURNAL_FULL) strm_end_write(master, "b\r", 2, &r);
    HOLDS(strm_end_ready(slave, &ready) == STRM_OK && strm_system_run(on, 0, &n) != STRM_EINVAL && n > 0);
    ends(master, slave);
    HOLDS(strm_system_free(on) == STRM_OK);
}

/* ------------------------------------------------------------------------------------------------------------- cuts */

/* A trace, and what was taken of it: how many calls, how many turns, and the last entry with what it brought. */
typedef struct tale {
    strm_trace trace;
    strm_cursor at;
    strm_entry entry;
    size_t calls, turns;
    uint8_t bytes[STRM_WRITE_MOST + 8192];
} tale;

static tale *cut(strm_end *end)
{
    tale *made = (tale *)calloc(1, sizeof *made);
    HOLDS(made && strm_end_cut(end, &made->trace) == STRM_OK && made->trace.is_open);
    return made;
}

/* Takes the next entry, which is a call. */
static bool tells(tale *t, uint32_t op, uint32_t side, const void *brought, size_t n)
{
    strm_refusal e = strm_end_trace_next(&t->trace, &t->at, &t->entry, t->bytes, sizeof t->bytes);
    t->calls++;
    return e == STRM_OK && t->entry.kind == STRM_CALLED && t->entry.ask.op == op && t->entry.ask.side == side && t->entry.brings == n
        && (n == 0 || memcmp(t->bytes, brought, n) == 0);
}

/* Takes all that is left. */
static void told(tale *t)
{
    strm_refusal e;
    while ((e = strm_end_trace_next(&t->trace, &t->at, &t->entry, t->bytes, sizeof t->bytes)) == STRM_OK)
        *(t->entry.kind == STRM_CALLED ? &t->calls : &t->turns) += 1;
    HOLDS(e == STRM_EAGAIN);
}

static void gone(tale *t)
{
    strm_end_trace_free(&t->trace);
    strm_end_trace_free(&t->trace);
    HOLDS(!t->trace.is_open && strm_end_trace_next(&t->trace, &t->at, &t->entry, t->bytes, sizeof t->bytes) == STRM_EINVAL);
    free(t);
}

/* Whether two traces begin at one state: their bases are the same bytes. */
static bool begin_alike(tale *one, tale *other)
{
    static uint8_t first[65536], second[65536];
    size_t n = 0, m = 0;
    memset(first, 0x5a, sizeof first);
    HOLDS(strm_end_trace_base(&one->trace, first, 0, &n) == STRM_EINVAL && n > 0 && n <= sizeof first && first[0] == 0x5a);
    HOLDS(strm_end_trace_base(&one->trace, first, n, &m) == STRM_OK && n == m);
    HOLDS(strm_end_trace_base(&other->trace, second, sizeof second, &m) == STRM_OK && m > 0);
    return n == m && memcmp(first, second, n) == 0;
}

/* What a cut hands out is what was entered, by either end and by turns, and the trace stays as the pair goes on, and goes. */
static void cuts(void)
{
    strm_system *of = system_of(1, &plain);
    strm_end *master, *slave;
    strm_share before, behind;
    strm_trace open;
    strm_reply r;
    size_t made;
    tale *opened, *none, *typed, *more;
    terminal(of, &master, &slave);
    strm_end_told(slave, &before);
    opened = cut(slave), none = cut(master), open = none->trace;
    strm_end_told(slave, &behind);
    HOLDS(memcmp(&before, &behind, sizeof before) == 0);
    HOLDS(strm_end_write(master, "ab\r", 3, &r) == STRM_OK && strm_end_write(slave, "c", 1, &r) == STRM_OK);
    HOLDS(strm_end_cut(slave, &none->trace) == STRM_EINVAL && memcmp(&open, &none->trace, sizeof open) == 0);
    HOLDS(strm_end_run(slave, &made) == STRM_OK && made > 0);
    typed = cut(slave), more = cut(slave);
    HOLDS(begin_alike(none, typed) && !begin_alike(opened, none) && !begin_alike(typed, more));
    ends(master, slave);
    HOLDS(strm_system_free(of) == STRM_OK);
    HOLDS(tells(opened, STRM_OP_OPEN_MASTER, 0, NULL, 0) && tells(opened, STRM_OP_UNLOCK, STRM_MASTER, NULL, 0));
    HOLDS(tells(opened, STRM_OP_OPEN_SLAVE, 0, NULL, 0) && tells(opened, STRM_OP_PUSH, STRM_SLAVE, NULL, 0) && opened->entry.ask.a == STRM_PTEM);
    HOLDS(tells(opened, STRM_OP_PUSH, STRM_SLAVE, NULL, 0) && opened->entry.ask.a == STRM_LDTERM);
    HOLDS(strm_end_trace_next(&typed->trace, &typed->at, &typed->entry, NULL, 0) == STRM_EINVAL && typed->entry.brings == 3);
    HOLDS(typed->at.entry == 0 && typed->at.byte == 0);
    HOLDS(tells(typed, STRM_OP_WRITE, STRM_MASTER, "ab\r", 3) && typed->entry.reply.value == 3 && tells(typed, STRM_OP_WRITE, STRM_SLAVE, "c", 1));
    told(opened), told(none), told(typed), told(more);
    HOLDS(opened->calls == 5 && opened->turns == 0 && none->calls + none->turns == 0);
    HOLDS(typed->calls == 2 && typed->turns == made && more->calls + more->turns == 0);
    gone(opened), gone(none), gone(typed), gone(more);
}

/* Cuts let go on what a full journal held back, and lose no entry of one that doesn't begin anew. Of one that does a look behind a cut drops none. */
static void cuts_of_full(void)
{
    strm_choices sizes = { 128, 8, 16384, 0, false };
    strm_system *of = system_of(1, &sizes);
    strm_end *master, *slave;
    strm_account all;
    strm_reply r;
    uint32_t ready;
    uint64_t calls = 0;
    size_t made, cut_off = 0;
    tale *t;
    terminal(of, &master, &slave);
    while (strm_end_write(master, "a\r", 2, &r) == STRM_OK) continue;
    HOLDS(strm_workers_start(of, 1) == STRM_OK && strm_end_wait(slave, STRM_CAN_READ, 50, &ready) == STRM_EAGAIN);
    do {
        t = cut(master), told(t), calls += t->calls;
        HOLDS(t->calls + t->turns == 8 && ++cut_off < 100);
        gone(t);
    } while (strm_end_wait(slave, STRM_CAN_READ, 1000, &ready) == STRM_EAGAIN);
    HOLDS(strm_workers_stop(of) == STRM_OK);
    t = cut(slave), told(t), calls += t->calls, gone(t);
    HOLDS(strm_system_audit(of, 0, &all) == STRM_OK && all.told.calls == calls);
    ends(master, slave);
    HOLDS(strm_system_free(of) == STRM_OK);
    sizes.anew = true, of = system_of(1, &sizes);
    terminal(of, &master, &slave);
    for (made = 0; strm_system_run(of, 0, &made) != STRM_JOURNAL_FULL;) HOLDS(strm_end_write(master, "a\r", 2, &r) == STRM_OK);
    t = cut(slave), gone(t);
    HOLDS(strm_end_write(master, "b\r", 2, &r) == STRM_OK && strm_end_ready(slave, &ready) == STRM_OK);
    t = cut(slave);
    HOLDS(tells(t, STRM_OP_WRITE, STRM_MASTER, "b\r", 2));
    while (strm_system_run(of, 0, &made) != STRM_JOURNAL_FULL) HOLDS(strm_end_write(master, "a\r", 2, &r) == STRM_OK);
    /* (a cut that is refused leaves it to who looks) */
    HOLDS(strm_end_cut(slave, &t->trace) == STRM_EINVAL && strm_end_ready(slave, &ready) == STRM_OK);
    HOLDS(strm_system_run(of, 0, &made) != STRM_EINVAL && made > 0);
    gone(t), ends(master, slave);
    HOLDS(strm_system_free(of) == STRM_OK);
}

static double seconds(void)
{
    struct timespec t;
    clock_gettime(CLOCK_MONOTONIC, &t);
    return (double)t.tv_sec + (double)t.tv_nsec / 1e9;
}

static void waits(void)
{
    strm_system *of = system_of(2, &anew);
    strm_end *master, *slave;
    struct pollfd fd;
    strm_visit visit;
    strm_reply r;
    uint32_t ready = 77;
    uint8_t out[16];
    double from;
    HOLDS(strm_workers_stop(of) == STRM_EINVAL && strm_workers_start(of, 0) == STRM_EINVAL && strm_workers_start(of, 257) == STRM_EINVAL);
    terminal(of, &master, &slave);
    fd.fd = strm_end_fd(slave), fd.events = POLLIN;
    HOLDS(fd.fd >= 0 && strm_end_fd(slave) == fd.fd && poll(&fd, 1, 0) == 1);
    HOLDS(strm_end_wait(slave, STRM_CAN_READ, 0, &ready) == STRM_EAGAIN && ready == STRM_CAN_WRITE && poll(&fd, 1, 0) == 0);
    from = seconds();
    HOLDS(strm_end_wait(slave, STRM_CAN_READ, 1100, &ready) == STRM_EAGAIN && seconds() - from >= 1.09 && seconds() - from < 30);
    HOLDS(strm_end_read_wait(slave, out, sizeof out, 1, &r) == STRM_EAGAIN);
    HOLDS(strm_end_wait(slave, STRM_CAN_WRITE, -1, &ready) == STRM_OK && strm_end_wait(master, STRM_CAN_WRITE, 0, &ready) == STRM_OK);
    HOLDS(strm_end_write(master, "a\r", 2, &r) == STRM_OK && poll(&fd, 1, 0) == 0);
    HOLDS(strm_system_turn(of, 0, &visit) == STRM_OK && visit.went.moved == 2 && poll(&fd, 1, 0) == 1);
    HOLDS(strm_end_ready(slave, &ready) == STRM_OK && ready == STRM_CAN_WRITE && poll(&fd, 1, 0) == 0);
    HOLDS(strm_workers_start(of, 3) == STRM_OK && strm_workers_start(of, 1) == STRM_EINVAL);
    HOLDS(poll(&fd, 1, 60000) == 1 && strm_end_wait(slave, STRM_CAN_READ, 60000, &ready) == STRM_OK && (ready & STRM_CAN_READ));
    HOLDS(strm_end_read(slave, out, sizeof out, &r) == STRM_OK && r.bytes == 2);
    HOLDS(strm_workers_stop(of) == STRM_OK && strm_workers_start(of, 1) == STRM_OK);
    HOLDS(strm_end_close(slave) == STRM_OK && strm_end_ready(slave, &ready) == STRM_ENXIO && ready == 0);
    HOLDS(strm_end_wait(slave, STRM_CAN_READ, -1, &ready) == STRM_ENXIO && strm_end_read_wait(slave, out, sizeof out, -1, &r) == STRM_ENXIO);
    ends(master, slave);
    terminal(of, &master, &slave);
    HOLDS(strm_end_close(master) == STRM_OK && strm_end_wait(slave, STRM_HAS_SIGNALS, -1, &ready) == STRM_OK && (ready & STRM_HUNG_UP));
    HOLDS(strm_end_read_wait(slave, out, sizeof out, -1, &r) == STRM_OK && r.bytes == 0);
    ends(slave, master);
    HOLDS(strm_system_free(of) == STRM_OK);
}

/* More turns than a worker makes at a pair at a time. */
static void turns(void)
{
    strm_choices sizes = { 600, 4096, 262144, 0, false };
    strm_system *of = system_of(1, &sizes);
    strm_end *master = NULL, *slave;
    uint8_t out[256];
    strm_reply r;
    uint32_t pair;
    size_t came = 0, i;
    HOLDS(strm_system_claim(of, &pair) == STRM_OK && strm_system_open(of, pair, &master) == STRM_OK && strm_end_unlock(master) == STRM_OK);
    HOLDS(strm_end_open_slave(master, &slave) == STRM_OK);
    for (i = 0; i < 200; i++) HOLDS(strm_end_write(master, "x", 1, &r) == STRM_OK);
    HOLDS(strm_workers_start(of, 1) == STRM_OK);
    for (; came < 200; came += r.bytes) HOLDS(strm_end_read_wait(slave, out, sizeof out, 60000, &r) == STRM_OK);
    ends(master, slave);
    HOLDS(strm_system_free(of) == STRM_OK);
}

int main(void)
{
    systems();
    claims();
    parts();
    calls();
    journals();
    cuts();
    cuts_of_full();
    turns();
    waits();
    printf("%d things hold\n", held);
    return 0;
}
