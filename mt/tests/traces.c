/* What strm_end_cut hands out is what was made, and goes on where the cut before it ended: threads type and read at a terminal, and workers make its
 * turns, while another thread cuts. Then libstrm makes a pair of the first base, and each call and turn again: the answers are those of the entries,
 * and behind each trace the pair is the base of the next. It takes the traces by its own functions and by those of libstrm_mt.
 *
 *     traces CUTS
 *
 * Linked with libstrm_mt and libstrm. The last line is 'N entries of M traces are made again'. */
#define _GNU_SOURCE
#include <pthread.h>
#include <sched.h>
#include <stdio.h>
#include <stdlib.h>
#include <strm_mt.h>

enum { TEXT = 1 << 20 };

static const strm_choices plain = { STRM_TERMINAL_BLOCKS, 64, 65536, 0, false }, anew = { STRM_TERMINAL_BLOCKS, 64, 65536, 0, true };
static uint8_t base[TEXT], image[TEXT], bytes[STRM_WRITE_MOST + 8192], answer[8192];
static int over;

static void must(bool it, const char *what)
{
    if (it) return;
    printf("%s\n", what);
    exit(1);
}

/* Types and shows words until it is over; a journal that is full waits for a cut. */
static void *writes(void *at)
{
    strm_end *end = (strm_end *)at;
    strm_reply r;
    while (!__atomic_load_n(&over, __ATOMIC_SEQ_CST)) {
        strm_refusal e = strm_end_write(end, "word\r", 5, &r);
        must(e == STRM_OK || e == STRM_EAGAIN || e == STRM_JOURNAL_FULL, "a write");
        if (e) sched_yield();
    }
    return NULL;
}

static void *reads(void *at)
{
    strm_end *end = (strm_end *)at;
    uint8_t out[256];
    strm_reply r;
    while (!__atomic_load_n(&over, __ATOMIC_SEQ_CST)) {
        strm_refusal e = strm_end_read_wait(end, out, sizeof out, 10, &r);
        must(e == STRM_OK || e == STRM_EAGAIN || e == STRM_JOURNAL_FULL, "a read");
    }
    return NULL;
}

/* Cuts a terminal so often while threads are at it, and once behind them. */
static void cuts(strm_trace *traces, size_t count)
{
    strm_system *of = NULL;
    strm_end *end[4];
    pthread_t thread[4];
    strm_account all;
    size_t i;
    must(!strm_system_new(&of, 1, &plain) && !strm_system_terminal(of, &end[0], &end[1]), "a terminal");
    must(!strm_end_split(end[0], &end[2]) && !strm_end_split(end[1], &end[3]) && !strm_workers_start(of, 2), "ends and workers");
    must(!strm_end_cut(end[0], &traces[0]), "the first cut");
    for (i = 1; i < 4; i++) must(!pthread_create(&thread[i], NULL, i == 1 ? writes : reads, end[i]), "a thread");
    for (i = 1; i < count; i++) {
        must(!strm_end_cut(end[0], &traces[i]), "a cut");
        if (i % 4) sched_yield();
    }
    __atomic_store_n(&over, 1, __ATOMIC_SEQ_CST);
    for (i = 1; i < 4; i++) pthread_join(thread[i], NULL);
    must(!strm_workers_stop(of) && !strm_end_cut(end[0], &traces[count]), "the last cut");
    for (i = 1; i < 4; i++) must(!strm_end_join(end[0], end[i]), "a join");
    must(!strm_end_settle(end[0], &all) && !strm_system_free(of), "the end");
}

/* Makes an entry again, which stands in `bytes`. */
static void repeats(strm_pair *p, const strm_entry *entry)
{
    strm_reply r;
    strm_went went;
    if (entry->kind == STRM_TURNED) {
        must(!strm_turn(p, entry->queue, &went) && went.kind == entry->went.kind && went.moved == entry->went.moved, "a turn does something else");
        return;
    }
    must(!strm_call(p, &entry->ask, bytes, entry->brings, answer, sizeof answer, &r), "a call is refused");
    must(r.kind == entry->reply.kind && r.value == entry->reply.value && r.bytes == entry->reply.bytes, "a call is answered otherwise");
    must(r.bytes == 0 || memcmp(answer, bytes + entry->brings, r.bytes) == 0, "a call is answered other bytes");
}

int main(int words, char **word)
{
    size_t count = words == 2 ? strtoul(word[1], NULL, 10) : 0, made = 0, n = 0, m = 0, i;
    strm_trace *traces = (strm_trace *)calloc(count + 1, sizeof *traces);
    strm_pair again = STRM_CLOSED;
    strm_entry entry;
    must(count > 0 && traces, "traces CUTS");
    cuts(traces, count);
    must(!strm_end_trace_base(&traces[0], base, TEXT, &n) && !strm_restore_with(&again, &anew, base, n), "a pair of the first base");
    for (i = 0; i <= count; i++) {
        strm_cursor at = { 0, 0 };
        strm_refusal e;
        must(!(i % 2 ? strm_trace_base : strm_end_trace_base)(&traces[i], base, TEXT, &n) && !strm_image(&again, image, TEXT, &m), "a base");
        must(n == m && memcmp(base, image, n) == 0, "a trace doesn't begin where the one before it ended");
        while (!(e = (i % 2 ? strm_trace_next : strm_end_trace_next)(&traces[i], &at, &entry, bytes, sizeof bytes))) repeats(&again, &entry), made++;
        must(e == STRM_EAGAIN, "an entry");
        (i % 2 ? strm_trace_free : strm_end_trace_free)(&traces[i]);
    }
    strm_free(&again);
    free(traces);
    printf("%zu entries of %zu traces are made again\n", made, count + 1);
    return 0;
}
