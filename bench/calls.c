/* What a round costs through libstrm, and through a pseudoterminal of this system in the same process: CPU and clock, nanoseconds.
 *
 *     cc -O2 -Iinclude bench/calls.c libstrm.a -o calls && ./calls      (./calls ROW ROUNDS: rounds of a row, from 0, on the pair alone)
 *     ./calls bands BANDS ROUNDS                                        (rounds of a message in each of so many bands)
 *
 * Behind the table it tells what an entry of the journal costs by a cursor, and an image.
 *
 * A round writes, and reads all that comes of it; the pair's queues are run in between. Each figure is the least of seven runs. A pseudoterminal of
 * Linux has no messages with a control part, and no bands, so these rows have no figure for it. */
#define _GNU_SOURCE
#include <fcntl.h>
#include <stdio.h>
#include <stdlib.h>
#include <string.h>
#include <strm.h>
#include <sys/ioctl.h>
#include <termios.h>
#include <time.h>
#include <unistd.h>

enum { RUNS = 7, PART = 512 };

/* What stands on the slave's stream: nothing, a line discipline in its first modes, or one in raw mode. */
enum stack { NOTHING, LINES, RAW };

/* What a round does: the master types, and the slave reads, or the master its echo too, or the echo alone; the slave writes, and the master reads;
 * a message with a control part; TIOCGWINSZ; a new pair, and its end. */
enum act { TYPES, TYPES_ECHOED, KEYS, SHOWS, MESSAGES, WINSIZE, NEW };

/* A round: its text over and over, with a newline at the end of each of its lines, where it has lines; and the band of its messages. */
typedef struct row {
    const char *name;
    enum act act;
    enum stack stack;
    const char *unit;
    size_t line, size, rounds;
    uint32_t band;
} row;

#define COLOURS "\x1b[01;34msrc\x1b[0m  "

static const row rows[] = {
    { "1 byte, no modules", TYPES, NOTHING, "z", 0, 1, 40000, 0 },
    { "1 byte, raw mode", TYPES, RAW, "z", 0, 1, 20000, 0 },
    { "256 bytes, raw mode", TYPES, RAW, "z", 0, 256, 20000, 0 },
    { "256 bytes of ESC, raw mode", TYPES, RAW, "\x1b", 0, 256, 20000, 0 },
    { "a keystroke, and its echo read", KEYS, LINES, "z", 0, 1, 4000, 0 },
    { "a line of 40 characters, and its echo read", TYPES_ECHOED, LINES, "z", 40, 40, 10000, 0 },
    { "a paste of 4096 bytes in lines of 64, and its echo read", TYPES_ECHOED, LINES, "z", 64, 4096, 400, 0 },
    { "output of 4096 bytes with a newline each 80", SHOWS, LINES, "z", 80, 4096, 1000, 0 },
    { "output of 10 bytes", SHOWS, LINES, "z", 0, 10, 20000, 0 },
    { "coloured output of 256 bytes", SHOWS, LINES, COLOURS, 64, 256, 10000, 0 },
    { "putmsg and getmsg of 4 and 256 bytes", MESSAGES, NOTHING, "z", 0, 256, 20000, 0 },
    { "the same in band 200", MESSAGES, NOTHING, "z", 0, 256, 20000, 200 },
    { "TIOCGWINSZ", WINSIZE, LINES, "z", 0, 0, 20000, 0 },
    { "a new pair of 1024 blocks, and its end", NEW, LINES, "z", 0, 0, 400, 0 },
};

enum { ROWS = sizeof rows / sizeof *rows };

static uint8_t out[8192], text[4096];
static strm_pair pair;
static int master, slave;

static void die(const char *what)
{
    fprintf(stderr, "calls: %s\n", what);
    exit(1);
}

static double now(clockid_t clock)
{
    struct timespec t;
    clock_gettime(clock, &t);
    return (double)t.tv_sec * 1e9 + (double)t.tv_nsec;
}

static size_t least_of(size_t a, size_t b)
{
    return a < b ? a : b;
}

/* Of so many bytes of a round's text from a place on: how many newlines stand among them, and how many bytes behind the last. Without lines each byte
 * is to be read at once. */
static size_t newlines(const row *is, size_t at, size_t n, size_t *rest)
{
    size_t found = 0;
    *rest = is->line ? n : 0;
    if (is->line) found = (at + n) / is->line - at / is->line;
    if (found) *rest = (at + n) % is->line;
    return found;
}

/* ------------------------------------------------------------------------------------------------------- the pair */

static void done(strm_refusal e)
{
    if (e) die(strm_refusal_name(e));
}

/* Whether a call is to be made once more: its journal was full, and began anew. */
static bool again(strm_refusal e)
{
    if (e == STRM_JOURNAL_FULL) done(strm_restart(&pair));
    return e == STRM_JOURNAL_FULL;
}

static size_t pair_write(uint32_t side, const uint8_t *bytes, size_t n)
{
    strm_reply r;
    strm_refusal e;
    do e = strm_write(&pair, side, bytes, least_of(n, PART), &r);
    while (again(e));
    done(e);
    return r.value;
}

static void pair_run(void)
{
    size_t turns;
    strm_refusal e;
    do e = strm_runqueues(&pair, &turns);
    while (again(e));
    done(e);
}

/* Reads so many bytes, which stand there. */
static void pair_reads(uint32_t side, size_t wanted)
{
    strm_reply r;
    while (wanted > 0) {
        strm_refusal e;
        do e = strm_read(&pair, side, out, 4096, &r);
        while (again(e));
        done(e);
        if (r.bytes > wanted) die("other bytes came");
        wanted -= r.bytes;
    }
}

/* Writes the text, and reads what comes of it. */
static void pair_moves(const row *is)
{
    size_t at = 0, line = 0;
    while (at < is->size) {
        size_t n = pair_write(is->act == SHOWS ? STRM_SLAVE : STRM_MASTER, text + at, is->size - at), rest, more = newlines(is, at, n, &rest);
        at += n, line += n;
        pair_run();
        if (is->act != TYPES) pair_reads(STRM_MASTER, n + more);
        if (is->act == TYPES || (is->act == TYPES_ECHOED && rest < n)) pair_reads(STRM_SLAVE, line - rest), line = rest;
        pair_run();
    }
}

static void pair_puts(uint32_t band, size_t n)
{
    strm_refusal e;
    do e = strm_put(&pair, STRM_MASTER, band, "head", 4, text, n);
    while (again(e));
    done(e);
    pair_run();
}

static void pair_gets(size_t n)
{
    strm_reply r;
    strm_refusal e;
    do e = strm_get(&pair, STRM_SLAVE, STRM_ANY, 64, 256, out, sizeof out, &r);
    while (again(e));
    done(e);
    if (r.bytes != 4 + n) die("bytes are missing");
}

static void pair_opens(enum stack stack)
{
    strm_termios t;
    strm_free(&pair);
    done(strm_new(&pair, 1024, 8192, 262144));
    if (stack == NOTHING) {
        done(strm_open_master(&pair));
        done(strm_unlock(&pair));
        done(strm_open_slave(&pair));
        return;
    }
    done(strm_open_terminal(&pair));
    if (stack == LINES) return;
    done(strm_tcgetattr(&pair, STRM_SLAVE, &t));
    t.iflag = t.oflag = t.lflag = 0;
    done(strm_tcsetattr(&pair, STRM_SLAVE, STRM_TCSETS, &t));
}

static void pair_round(const row *is)
{
    size_t given;
    strm_refusal e;
    switch (is->act) {
    case NEW: pair_opens(is->stack); return;
    case MESSAGES: pair_puts(is->band, is->size), pair_gets(is->size); return;
    case WINSIZE:
        do e = strm_ioctl(&pair, STRM_SLAVE, STRM_TIOCGWINSZ, NULL, 0, out, &given);
        while (again(e));
        done(e);
        return;
    default: pair_moves(is);
    }
}

/* ------------------------------------------------------------------------------------------------------- the system */

static void system_opens(enum stack stack)
{
    struct termios t;
    if (master > 0) close(slave), close(master);
    master = posix_openpt(O_RDWR | O_NOCTTY);
    if (master < 0 || grantpt(master) || unlockpt(master)) die("no pseudoterminal");
    slave = open(ptsname(master), O_RDWR | O_NOCTTY);
    if (slave < 0 || tcgetattr(slave, &t)) die("no pseudoterminal");
    if (stack == LINES) return;
    cfmakeraw(&t);
    if (tcsetattr(slave, TCSANOW, &t)) die("tcsetattr");
}

/* Reads so many bytes, which are to come. */
static void system_reads(int from, size_t wanted)
{
    while (wanted > 0) {
        ssize_t got = read(from, out, sizeof out);
        if (got <= 0 || (size_t)got > wanted) die("other bytes came");
        wanted -= (size_t)got;
    }
}

static void system_moves(const row *is)
{
    size_t at, line = 0;
    for (at = 0; at < is->size; at += PART) {
        size_t n = least_of(is->size - at, PART), rest, more = newlines(is, at, n, &rest);
        if (write(is->act == SHOWS ? slave : master, text + at, n) != (ssize_t)n) die("not all was taken");
        if (is->act != TYPES) system_reads(master, n + more);
        line += n;
        if (is->act == SHOWS || is->act == KEYS || rest == n) continue;
        system_reads(slave, line - rest);
        line = rest;
    }
}

static void system_round(const row *is)
{
    struct winsize size;
    switch (is->act) {
    case NEW: system_opens(is->stack); return;
    case WINSIZE:
        if (ioctl(slave, TIOCGWINSZ, &size)) die("TIOCGWINSZ");
        return;
    default: system_moves(is);
    }
}

/* ------------------------------------------------------------------------------------------------------- rounds */

static void fill(const row *is)
{
    size_t i, n = strlen(is->unit);
    for (i = 0; i < sizeof text; i++) text[i] = is->line && i % is->line == is->line - 1 ? '\n' : (uint8_t)is->unit[i % n];
}

/* A line has 255 characters at most: behind so many keystrokes the pair, or the pseudoterminal, is made anew, which isn't timed. */
static void rounds_of(const row *is, size_t rounds, void (*round)(const row *), void (*opens)(enum stack), double told[2])
{
    size_t most = is->act == KEYS ? least_of(200, rounds) : rounds, made = 0, i;
    double cpu = 0, wall = 0;
    while (made < rounds) {
        double cpu_then, wall_then;
        opens(is->stack);
        cpu_then = now(CLOCK_PROCESS_CPUTIME_ID), wall_then = now(CLOCK_MONOTONIC);
        for (i = 0; i < most; i++) round(is);
        cpu += now(CLOCK_PROCESS_CPUTIME_ID) - cpu_then, wall += now(CLOCK_MONOTONIC) - wall_then;
        made += most;
    }
    told[0] = cpu / (double)made, told[1] = wall / (double)made;
}

static void least(const row *is, void (*round)(const row *), void (*opens)(enum stack), double told[2])
{
    int run;
    told[0] = told[1] = 1e18;
    for (run = 0; run < RUNS; run++) {
        double took[2];
        rounds_of(is, is->rounds, round, opens, took);
        if (took[0] < told[0]) told[0] = took[0];
        if (took[1] < told[1]) told[1] = took[1];
    }
}

/* What the entries of a journal cost, taken one by one behind so many lines, and the image of a terminal. */
static void journal_and_image(void)
{
    static uint8_t room[65536];
    strm_cursor at = { 0, 0 };
    strm_entry entry;
    size_t i, length = 0;
    double began, taken;
    fill(&rows[5]);
    pair_opens(LINES);
    done(strm_restart(&pair));
    for (i = 0; i < 1000; i++) pair_round(&rows[5]);
    began = now(CLOCK_MONOTONIC);
    while (!strm_next_entry(&pair, &at, &entry, room, sizeof room)) continue;
    taken = now(CLOCK_MONOTONIC) - began;
    began = now(CLOCK_MONOTONIC);
    for (i = 0; i < 1000; i++) done(strm_image(&pair, room, sizeof room, &length));
    printf("\nAn entry of %u: %.0f ns. An image of %u bytes: %.0f ns.\n", (unsigned)at.entry, taken / (double)at.entry, (unsigned)length,
        (now(CLOCK_MONOTONIC) - began) / 1000);
}

/* Rounds of a message in each of so many bands, put from the lowest on, each of which is to stand in front of those before, and then taken. */
static void bands(uint32_t count, size_t rounds)
{
    static const row is = { "", MESSAGES, NOTHING, "z", 0, 16, 0, 0 };
    uint32_t band;
    fill(&is);
    pair_opens(NOTHING);
    while (rounds-- > 0) {
        for (band = 1; band <= count; band++) pair_puts(band, is.size);
        for (band = 1; band <= count; band++) pair_gets(is.size);
    }
}

int main(int count, char **words)
{
    size_t i;
    double told[2];
    if (count == 4) return bands((uint32_t)strtoul(words[2], NULL, 10) % 256, strtoul(words[3], NULL, 10)), 0;
    if (count == 3) {
        const row *is = &rows[strtoul(words[1], NULL, 10) % ROWS];
        fill(is);
        return rounds_of(is, strtoul(words[2], NULL, 10), pair_round, pair_opens, told), 0;
    }
    printf("| A round of | pair, CPU ns | clock ns | Linux pty, CPU ns | clock ns |\n|---|---|---|---|---|\n");
    for (i = 0; i < ROWS; i++) {
        fill(&rows[i]);
        least(&rows[i], pair_round, pair_opens, told);
        printf("| %s | %.0f | %.0f | ", rows[i].name, told[0], told[1]);
        if (rows[i].act == MESSAGES) {
            printf("| |\n");
            continue;
        }
        least(&rows[i], system_round, system_opens, told);
        printf("%.0f | %.0f |\n", told[0], told[1]);
    }
    journal_and_image();
    strm_free(&pair);
    return 0;
}
