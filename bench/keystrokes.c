/* So many keystrokes on one terminal, each with its echo read, each line read too, and a journal that begins anew when it is full; and what memory
 * that took of the system: the same for any number.
 *
 *     cc -O2 -Iinclude bench/keystrokes.c libstrm.a -o keystrokes && ./keystrokes [KEYSTROKES] */
#include <stdio.h>
#include <stdlib.h>
#include <strm.h>
#include <sys/resource.h>

static long peak(void)
{
    struct rusage used;
    getrusage(RUSAGE_SELF, &used);
    return used.ru_maxrss;
}

static unsigned long restarts;

/* Whether a refused call is made again: the journal was full. */
static int again(strm_pair *p, strm_refusal e)
{
    if (e != STRM_JOURNAL_FULL) return 0;
    restarts++;
    return strm_restart(p) == STRM_OK;
}

int main(int count, char **words)
{
    unsigned long keystrokes = count > 1 ? strtoul(words[1], NULL, 10) : 10000000, typed, seen = 0, read = 0;
    strm_pair p = STRM_CLOSED;
    static uint8_t out[4096];
    strm_reply r;
    strm_books books;
    strm_refusal e;
    size_t turns;
    long first = 0;
    if (strm_new(&p, 256, 8192, 262144) || strm_open_terminal(&p)) return 1;
    for (typed = 0; typed < keystrokes; typed++) {
        uint8_t key = typed % 40 == 39 ? '\r' : (uint8_t)('a' + typed % 26);
        e = strm_write(&p, STRM_MASTER, &key, 1, &r);
        if (again(&p, e)) e = strm_write(&p, STRM_MASTER, &key, 1, &r);
        if (e || r.value != 1) return 2;
        e = strm_runqueues(&p, &turns);
        if (again(&p, e)) e = strm_runqueues(&p, &turns);
        if (e) return 3;
        e = strm_read(&p, STRM_MASTER, out, sizeof out, &r);
        if (again(&p, e)) e = strm_read(&p, STRM_MASTER, out, sizeof out, &r);
        if (e) return 4;
        seen += r.bytes;
        if (key == '\r') {
            e = strm_read(&p, STRM_SLAVE, out, sizeof out, &r);
            if (again(&p, e)) e = strm_read(&p, STRM_SLAVE, out, sizeof out, &r);
            if (e) return 5;
            read += r.bytes;
        }
        if (typed == 20000) first = peak();
    }
    if (strm_ledger(&p, STRM_MASTER, &books)) return 6;
    printf("%lu keystrokes: %lu bytes of echo seen, %lu read, %lu in a line; ", keystrokes, seen, read, (unsigned long)books.inlined);
    printf("the journal began anew %lu times\n", restarts);
    printf("memory: %ld kB behind 20,000 keystrokes, %ld kB at the end\n", first, peak());
    strm_free(&p);
    return read + books.inlined != keystrokes || (keystrokes > 20000 && peak() > first + 512);
}
