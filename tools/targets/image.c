/* Images as a target: an input is restored, its pair is looked at, called and closed. The image of its pair must be a fixed point, ledgers balance,
 * and what is refused leaves the handle closed.
 *
 *     image FILE..      tells of each file: its refusal's number and `-`, or 0 and the image of its pair in hexadecimal */
#include <string.h>
#include <strm.h>

#include "target.h"

enum { BLOCKS = 4096, MOST = 1 << 20 };

static uint8_t input[1 << 18], first[MOST], again[MOST], out[8192];

static void balances(strm_pair *p)
{
    for (uint32_t side = 0; side < 2; side++) {
        strm_books books;
        MUST(!strm_ledger(p, side, &books), "a ledger is refused");
        uint64_t sum = books.queued + books.inlined;
        for (int rule = 0; rule < STRM_RULES; rule++) sum += books.gone[rule];
        MUST(sum == books.written + books.made, "a ledger that doesn't balance");
    }
}

/* Calls on a pair in any state. */
static void goes_on(strm_pair *p)
{
    static const uint8_t keys[] = { 'a', 0x7f, '\t', 0x12, 0x03, '\r' };
    strm_reply reply;
    strm_termios termios;
    uint8_t signals[32];
    size_t n;
    for (int round = 0; round < 3; round++) {
        strm_runqueues(p, &n);
        balances(p);
        for (uint32_t side = 0; side < 2; side++) {
            strm_do(p, STRM_OP_NREAD, side, 0, 0, &reply);
            strm_get(p, side, STRM_ANY, 64, 256, out, 320, &reply);
            strm_read(p, side, out, 4096, &reply);
            strm_signals(p, side, signals, &n);
            strm_write(p, side, keys, sizeof keys, &reply);
        }
    }
    strm_tcgetattr(p, STRM_SLAVE, &termios);
    strm_flush(p, STRM_SLAVE, STRM_FLUSHRW, STRM_ANY);
    for (uint32_t side = 0; side < 2; side++) {
        strm_pop(p, side);
        strm_close(p, side);
        strm_runqueues(p, &n);
        balances(p);
    }
}

/* Restores a text; its refusal. The image of its pair stands in `first`, as long as `length` says. */
static strm_refusal restores(strm_pair *p, const uint8_t *text, size_t n, size_t *length)
{
    uint8_t *exact = malloc(n ? n : 1); /* a sanitizer sees what is read behind it */
    MUST(exact, "no memory");
    memcpy(exact, text, n);
    strm_refusal e = strm_restore(p, BLOCKS, 300, 60000, exact, n);
    free(exact);
    if (e) {
        MUST(!p->is_open && !p->at, "a refused image opened the handle");
        MUST(e == STRM_EINVAL || e == STRM_ENOSR, "another refusal");
    } else {
        MUST(!strm_image(p, first, MOST, length), "an image is refused");
    }
    return e;
}

static void tries(const uint8_t *text, size_t n)
{
    strm_pair p = STRM_CLOSED, q = STRM_CLOSED;
    size_t length = 0, same = 0;
    if (restores(&p, text, n, &length)) return;
    balances(&p);
    MUST(!strm_restore(&q, BLOCKS, 1, 1, first, length), "a pair's own image is refused");
    MUST(!strm_image(&q, again, MOST, &same) && same == length && !memcmp(first, again, length), "the image of an image is another one");
    strm_free(&q);
    goes_on(&p);
    strm_free(&p);
}

static void tells(const char *path)
{
    FILE *file = fopen(path, "rb");
    MUST(file, "a file that can't be read");
    size_t n = fread(input, 1, sizeof input, file), length = 0;
    fclose(file);
    strm_pair p = STRM_CLOSED;
    printf("%u ", restores(&p, input, n, &length));
    for (size_t at = 0; at < length; at++) printf("%02x", first[at]);
    puts(length ? "" : "-");
    strm_free(&p);
}

int main(int count, char **words)
{
    for (int at = 1; at < count; at++) tells(words[at]);
    if (count > 1) return 0;
    target_begins();
    while (target_goes_on()) tries(input, target_reads(input, sizeof input));
    return 0;
}
