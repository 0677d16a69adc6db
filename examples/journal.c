/* A recorder: entries of a journal through a cursor, a buffer that is too small, a full journal that is emptied in place, an image, and a cut. */
#include <stdio.h>
#include <strm.h>

static uint8_t room[8192];

static const char *const calls[] = {
    "open-master", "unlock", "open-slave", "close", "push", "pop", "look", "flush", "write", "read", "put", "get", "mode", "nread",
    "ioctl", "ioctl-result", "signals"
};

static void show_bytes(const uint8_t *bytes, size_t n)
{
    size_t i;
    printf(" \"");
    for (i = 0; i < n; i++) {
        if (bytes[i] < 32 || bytes[i] > 126) printf("\\x%02x", (unsigned)bytes[i]);
        else putchar(bytes[i]);
    }
    printf("\"");
}

static void show(const strm_entry *entry)
{
    if (entry->kind == STRM_TURNED) {
        printf("  turn of %u: %u %u\n", (unsigned)entry->queue, (unsigned)entry->went.kind, (unsigned)entry->went.moved);
        return;
    }
    printf("  %s %s", entry->ask.side == STRM_MASTER ? "master" : "slave", calls[entry->ask.op]);
    show_bytes(room, entry->brings);
    printf(": %u %u", (unsigned)entry->reply.kind, (unsigned)entry->reply.value);
    show_bytes(room + entry->brings, entry->reply.bytes);
    printf("\n");
}

/* Takes all entries behind a cursor, and shows them. */
static strm_refusal take_all(strm_pair *p, strm_cursor *at)
{
    strm_entry entry;
    strm_refusal e;
    while (!(e = strm_next_entry(p, at, &entry, room, sizeof room))) show(&entry);
    printf("%s behind entry %u, byte %u\n", strm_refusal_name(e), (unsigned)at->entry, (unsigned)at->byte);
    return e;
}

/* A session's entries, taken once it is over. */
static int session(strm_pair *p)
{
    strm_cursor at = { 0, 0 };
    uint8_t buf[256];
    strm_reply r;
    if (strm_open_terminal(p) || strm_write(p, STRM_MASTER, "ls\r", 3, &r) || strm_run(p)) return 1;
    if (strm_read(p, STRM_SLAVE, buf, sizeof buf, &r) || strm_read(p, STRM_MASTER, buf, sizeof buf, &r)) return 1;
    return take_all(p, &at) != STRM_EAGAIN;
}

/* An entry whose bytes don't fit is told, and stays for a larger buffer. */
static int small_buffer(strm_pair *p)
{
    strm_cursor at = { 0, 0 };
    strm_entry entry;
    strm_reply r;
    if (strm_restart(p) || strm_write(p, STRM_MASTER, "abcd", 4, &r)) return 1;
    printf("%s", strm_refusal_name(strm_next_entry(p, &at, &entry, room, 3)));
    printf(": %u bytes\n", (unsigned)(entry.brings + entry.reply.bytes));
    return take_all(p, &at) != STRM_EAGAIN;
}

/* Turns stop where the journal is full, and go on once it is emptied. */
static int full_journal(strm_pair *p)
{
    strm_refusal e;
    strm_reply r;
    size_t turns;
    if (strm_restart(p)) return 1;
    while (!strm_write(p, STRM_MASTER, "x", 1, &r)) continue;
    do {
        e = strm_runqueues(p, &turns);
        printf("%s after %u turns\n", strm_refusal_name(e), (unsigned)turns);
        if (strm_restart(p)) return 1;
    } while (e == STRM_JOURNAL_FULL);
    return e || strm_enabled(p, 0) != STRM_NO_QUEUE;
}

/* An image: its length is told where the buffer is too small. It has no journal, so one begun anew has the same. */
static int image(strm_pair *p)
{
    static uint8_t first[8192], again[8192];
    size_t wanted = 0, length = 0;
    strm_refusal e = strm_image(p, first, 4, &wanted);
    printf("%s: %d\n", strm_refusal_name(e), wanted > 4);
    if (strm_image(p, first, wanted, &length) || length != wanted) return 1;
    printf("mark");
    show_bytes(first, 4);
    printf(" version %u\n", (unsigned)first[4]);
    if (strm_restart(p) || strm_image(p, again, sizeof again, &length) || length != wanted) return 1;
    printf("the same image: %d\n", memcmp(first, again, length) == 0);
    return 0;
}

/* Makes a call or a turn again: whether it is answered the same. */
static int same_again(strm_pair *p, const strm_entry *entry)
{
    static uint8_t out[8192];
    strm_went went;
    strm_reply r;
    if (entry->kind == STRM_TURNED)
        return !strm_turn(p, entry->queue, &went) && went.kind == entry->went.kind && went.moved == entry->went.moved;
    if (strm_call(p, &entry->ask, room, entry->brings, out, sizeof out, &r)) return 0;
    return r.kind == entry->reply.kind && r.value == entry->reply.value && r.bytes == entry->reply.bytes
        && memcmp(out, room + entry->brings, r.bytes) == 0;
}

/* A trace's entries, made again at the pair of its base, lead to the state of the pair that was cut. */
static int plays(strm_trace *t, strm_pair *again)
{
    static uint8_t base[8192];
    strm_cursor at = { 0, 0 };
    strm_entry entry;
    strm_refusal e;
    size_t wanted = 0, length = 0;
    printf("%s", strm_refusal_name(strm_trace_base(t, base, 4, &wanted)));
    printf(": %d\n", wanted > 4);
    if (strm_trace_base(t, base, sizeof base, &length) || length != wanted) return 1;
    if (strm_restore(again, 256, 24, 4096, base, length)) return 1;
    while (!(e = strm_trace_next(t, &at, &entry, room, sizeof room))) {
        show(&entry);
        if (!same_again(again, &entry)) return 1;
    }
    return e != STRM_EAGAIN;
}

/* A cut: the journal goes into a trace, and is empty; all else of the pair stays. */
static int cut(strm_pair *p)
{
    static uint8_t image[8192], other[8192];
    strm_pair again = STRM_CLOSED;
    strm_trace t = STRM_CLOSED;
    strm_cursor at = { 0, 0 };
    strm_entry entry;
    strm_reply r;
    size_t length = 0, others = 0;
    if (strm_write(p, STRM_SLAVE, "$ ", 2, &r) || strm_run(p)) return 1;
    if (strm_read(p, STRM_MASTER, room, 256, &r) || strm_image(p, image, sizeof image, &length)) return 1;
    printf("%s", strm_refusal_name(strm_cut(p, &t)));
    printf(" %s", strm_refusal_name(strm_cut(p, &t)));
    printf(" %s\n", strm_refusal_name(strm_next_entry(p, &at, &entry, room, sizeof room)));
    if (plays(&t, &again)) return 1;
    if (strm_image(p, other, sizeof other, &others) || others != length || memcmp(image, other, length) != 0) return 1;
    if (strm_image(&again, other, sizeof other, &others) || others != length || memcmp(image, other, length) != 0) return 1;
    printf("the same images\n");
    strm_trace_free(&t);
    strm_free(&again);
    printf("%s", strm_refusal_name(strm_trace_next(&t, &at, &entry, room, sizeof room)));
    printf(" %s\n", strm_refusal_name(strm_trace_base(&t, other, sizeof other, &others)));
    return t.is_open;
}

int main(void)
{
    strm_pair p = STRM_CLOSED;
    strm_cursor at = { 0, 0 };
    strm_entry entry;
    size_t turns = 7;
    printf("%s", strm_refusal_name(strm_next_entry(&p, &at, &entry, room, sizeof room)));
    printf(" %s", strm_refusal_name(strm_restart(&p)));
    printf(" %s", strm_refusal_name(strm_runqueues(&p, &turns)));
    printf(" %u\n", (unsigned)turns);
    if (strm_new(&p, 256, 24, 4096)) return 1;
    if (session(&p) || small_buffer(&p) || full_journal(&p) || image(&p) || cut(&p)) return 1;
    strm_free(&p);
    return 0;
}
