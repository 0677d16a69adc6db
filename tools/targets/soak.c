/* One pair at work for long, in eight parts of equal work: after each a line tells what memory is resident and what a call cost of the processor.
 *
 *     soak bytes COUNT      output of the slave, so many bytes, read by the master
 *     soak keys COUNT       keystrokes with echo, lines read; at each 10,000th the pair is saved, freed and made again of its image
 *
 * A line is 'PART RESIDENT_KB CALLS NANOSECONDS_A_CALL'. Status 1 where a byte was lost. */
#include <stdio.h>
#include <stdlib.h>
#include <strm.h>
#include <time.h>

enum { PARTS = 8, EVENTS = 8192, EVENT_BYTES = 262144, BLOCKS = 256 };

static strm_pair p = STRM_CLOSED;
static uint8_t out[4096], line[4096], image[1 << 18];
static unsigned long calls;

static void must(int holds, const char *what)
{
    if (holds) return;
    fprintf(stderr, "soak: %s\n", what);
    exit(1);
}

/* Whether a call is made again, as the journal was full. */
static int again(strm_refusal e)
{
    calls++;
    return e == STRM_JOURNAL_FULL && !strm_restart(&p);
}

static strm_refusal reads(uint32_t side, size_t *n)
{
    strm_reply r = { 0, 0, 0, 0, 0, 0, false, false };
    strm_refusal e;
    do e = strm_read(&p, side, out, sizeof out, &r);
    while (again(e));
    *n = e ? 0 : r.bytes;
    must(!e || e == STRM_EAGAIN, "a read is refused");
    return e;
}

static size_t writes(uint32_t side, const uint8_t *bytes, size_t n)
{
    strm_reply r = { 0, 0, 0, 0, 0, 0, false, false };
    strm_refusal e;
    do e = strm_write(&p, side, bytes, n, &r);
    while (again(e));
    must(!e || e == STRM_EAGAIN, "a write is refused");
    return e ? 0 : r.value;
}

static void runs(void)
{
    size_t turns;
    strm_refusal e;
    do e = strm_runqueues(&p, &turns);
    while (again(e));
    must(!e, "turns are refused");
}

/* So many bytes of output: what came is what was written, with a CR before each NL. */
static void bytes_pass(unsigned long count)
{
    unsigned long sent = 0, came = 0, ends = 0;
    size_t n;
    while (sent < count) {
        size_t taken = writes(STRM_SLAVE, line, sizeof line);
        for (size_t at = 0; at < taken; at++) ends += line[at] == '\n';
        sent += taken;
        for (runs(); !reads(STRM_MASTER, &n); runs()) came += n;
    }
    must(came == sent + ends, "bytes of output were lost");
}

static void saves(void)
{
    size_t n;
    must(!strm_image(&p, image, sizeof image, &n), "an image is refused");
    strm_free(&p);
    must(!strm_restore(&p, BLOCKS, EVENTS, EVENT_BYTES, image, n), "an image isn't restored");
}

static void keys_pass(unsigned long count)
{
    static unsigned long typed;
    unsigned long read = 0, wanted = 0, in_line = typed % 40;
    size_t n;
    for (unsigned long at = 0; at < count; at++, typed++) {
        uint8_t key = typed % 40 == 39 ? '\r' : (uint8_t)('a' + typed % 26);
        must(writes(STRM_MASTER, &key, 1) == 1, "a key isn't taken");
        runs();
        reads(STRM_MASTER, &n);
        if (key == '\r') {
            reads(STRM_SLAVE, &n);
            read += n, wanted += at + 1 >= 40 ? 40 : in_line + at + 1;
        }
        if (typed % 10000 == 9999) saves();
    }
    must(read == wanted, "typed bytes were lost");
}

static long resident(void)
{
    FILE *file = fopen("/proc/self/statm", "r");
    long size, pages = 0;
    must(file && fscanf(file, "%ld %ld", &size, &pages) == 2, "/proc/self/statm");
    fclose(file);
    return pages * 4;
}

static double used(void)
{
    struct timespec at;
    clock_gettime(CLOCK_PROCESS_CPUTIME_ID, &at);
    return (double)at.tv_sec * 1e9 + (double)at.tv_nsec;
}

int main(int count, char **words)
{
    must(count == 3, "soak bytes|keys COUNT");
    unsigned long part = strtoul(words[2], NULL, 10) / PARTS / 40 * 40;
    for (size_t at = 0; at < sizeof line; at++) line[at] = at % 64 == 63 ? '\n' : (uint8_t)('a' + at % 26);
    must(!strm_new(&p, BLOCKS, EVENTS, EVENT_BYTES) && !strm_open_terminal(&p), "no pair");
    for (int at = 1; at <= PARTS; at++) {
        double began = used();
        calls = 0;
        if (words[1][0] == 'b') bytes_pass(part);
        else keys_pass(part);
        printf("%d %ld %lu %.1f\n", at, resident(), calls, (used() - began) / (double)calls);
        fflush(stdout);
    }
    strm_free(&p);
    return 0;
}
