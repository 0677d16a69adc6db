/* How long what was typed stays in memory.
 *
 *     cc -O2 -Iinclude bench/secrets.c libstrm.a -o secrets && ./secrets
 *
 * A password is typed at a terminal without ECHO, and all memory of this process that can be written to, its stack left out, is searched for it by
 * /proc/self/mem: it is found before it is read, and once it is read the journal alone holds it, twice, until that begins anew. It is killed,
 * flushed, popped, closed upon and freed with the pair too. The program holds it under a mask, types it through a buffer that it clears, and
 * compares under the mask. The first place too many or too few ends it with status 1; without /proc/self/mem it ends with status 77. */
#define _POSIX_C_SOURCE 200809L
#include <fcntl.h>
#include <stdio.h>
#include <stdlib.h>
#include <strm.h>
#include <unistd.h>

enum { LENGTH = 12, MASK = 0x5a, STRIDE = 1 << 16 };

/* "correct.hors", each byte under the mask. */
static const uint8_t masked[LENGTH] = {
    'c' ^ MASK, 'o' ^ MASK, 'r' ^ MASK, 'r' ^ MASK, 'e' ^ MASK, 'c' ^ MASK, 't' ^ MASK, '.' ^ MASK, 'h' ^ MASK, 'o' ^ MASK, 'r' ^ MASK, 's' ^ MASK
};
static strm_pair p = STRM_CLOSED;
static strm_reply r;
static uint8_t keys[16], out[256], seen[STRIDE + LENGTH - 1];

static void fail(const char *what, const char *why)
{
    printf("%s: %s\n", what, why);
    exit(1);
}

static void wants(const char *what, strm_refusal e)
{
    if (e) fail(what, strm_refusal_name(e));
}

/* Zeros, by writes that a compiler keeps. */
static void clear(volatile uint8_t *bytes, size_t n)
{
    while (n) bytes[--n] = 0;
}

/* ------------------------------------------------------------------------------------------------------------------- the search */

/* How often the password stands in n bytes, all of which the mask is put on and taken off again. */
static unsigned found(const uint8_t *bytes, size_t n)
{
    unsigned times = 0;
    size_t i, j;
    for (i = 0; i + LENGTH <= n; i++) {
        for (j = 0; j < LENGTH && (bytes[i + j] ^ MASK) == masked[j]; j++) {}
        times += j == LENGTH;
    }
    return times;
}

/* The same in memory from one address up to another, which is read piece by piece. What was read is cleared. */
static unsigned found_between(int memory, unsigned long from, unsigned long to)
{
    unsigned times = 0;
    for (; from < to; from += STRIDE) {
        size_t n = to - from < sizeof seen ? to - from : sizeof seen;
        ssize_t got = pread(memory, seen, n, (off_t)from);
        if (got > 0) times += found(seen, (size_t)got);
        clear(seen, sizeof seen);
    }
    return times;
}

/* How often the password stands in this process. */
static unsigned places(void)
{
    char line[512], may[8], name[256];
    unsigned long from, to;
    unsigned times = 0;
    FILE *maps = fopen("/proc/self/maps", "r");
    int memory = open("/proc/self/mem", O_RDONLY);
    if (!maps || memory < 0) {
        printf("secrets: /proc/self/mem can't be read\n");
        exit(77);
    }
    while (fgets(line, sizeof line, maps)) {
        name[0] = 0;
        if (sscanf(line, "%lx-%lx %7s %*s %*s %*s %255s", &from, &to, may, name) < 3 || may[0] != 'r' || may[1] != 'w') continue;
        if (!strcmp(name, "[stack]")) continue;
        times += found_between(memory, from, to);
    }
    fclose(maps);
    close(memory);
    return times;
}

static void stands(const char *when, unsigned least, unsigned most)
{
    unsigned times = places();
    printf("%-60s %u\n", when, times);
    if (times < least || times > most) fail(when, "the password stands in more or fewer places");
}

/* --------------------------------------------------------------------------------------------------------------------- the calls */

static void without_echo(void)
{
    strm_termios t;
    wants("its modes", strm_tcgetattr(&p, STRM_SLAVE, &t));
    t.lflag &= ~(uint32_t)STRM_ECHO;
    wants("no echo", strm_tcsetattr(&p, STRM_SLAVE, STRM_TCSETS, &t));
}

static void opened(void)
{
    wants("a pair", strm_new(&p, 256, 8192, 262144));
    wants("a terminal", strm_open_terminal(&p));
    without_echo();
}

/* Types the password and another key, if any, and makes the turns. */
static void typed(char last)
{
    size_t i, n = LENGTH;
    for (i = 0; i < LENGTH; i++) keys[i] = masked[i] ^ MASK;
    if (last) keys[n++] = (uint8_t)last;
    wants("a write", strm_write(&p, STRM_MASTER, keys, n, &r));
    clear(keys, sizeof keys);
    if (last) stands("typed", 1, 9);
    wants("turns", strm_run(&p));
}

/* Reads the line that was typed. */
static void taken(void)
{
    wants("a read", strm_read(&p, STRM_SLAVE, out, sizeof out, &r));
    if (r.bytes != LENGTH + 1 || found(out, r.bytes) != 1) fail("a read", "another line");
    clear(out, sizeof out);
}

static void restarted(void)
{
    wants("a restart", strm_restart(&p));
}

int main(void)
{
    stands("before", 0, 0);
    opened();
    typed('\r');
    stands("its turns are made", 1, 9);
    taken();
    stands("read: the journal's write and read", 2, 2);
    restarted();
    stands("the journal began anew", 0, 0);

    typed('\r');
    restarted();
    stands("it begins with the line on a queue", 2, 9);
    taken();
    restarted();
    stands("read since, and it began anew", 0, 0);

    typed(0);
    restarted();
    stands("an unfinished line", 1, 9);
    typed(0x15);
    restarted();
    stands("killed", 0, 0);

    typed(0);
    typed(0x03);
    restarted();
    stands("flushed by ^C", 0, 0);

    typed(0);
    wants("a push", strm_push(&p, STRM_SLAVE, STRM_PCKT));
    wants("a pop", strm_pop(&p, STRM_SLAVE));
    wants("a pop of ldterm", strm_pop(&p, STRM_SLAVE));
    restarted();
    stands("ldterm was popped", 0, 0);
    wants("a push of ldterm", strm_push(&p, STRM_SLAVE, STRM_LDTERM));
    without_echo();

    typed('\r');
    typed(0);
    wants("the slave's close", strm_close(&p, STRM_SLAVE));
    restarted();
    stands("the slave closed", 0, 0);
    strm_free(&p);

    opened();
    typed('\r');
    typed(0);
    stands("a line and an unfinished one", 2, 19);
    strm_free(&p);
    stands("the pair was freed", 0, 0);
    return 0;
}
