/* Two terminals are kept as images in the middle of a line, freed, made again, and gone on with: as a terminal server does that is restarted. */
#include <stdio.h>
#include <string.h>
#include <strm.h>

enum { TERMINALS = 2, ROOM = 65536 };

static const char *const users[TERMINALS] = { "anna", "bert" };
static uint8_t buf[4096], images[TERMINALS][ROOM];
static size_t lengths[TERMINALS];

static void show(const char *user, const char *what, size_t n)
{
    size_t i;
    printf("%-6s%-20s%u \"", user, what, (unsigned)n);
    for (i = 0; i < n; i++) {
        if (buf[i] < 32 || buf[i] > 126) printf("\\x%02x", (unsigned)buf[i]);
        else putchar(buf[i]);
    }
    printf("\"\n");
}

static strm_refusal types(strm_pair *p, const char *keys)
{
    strm_reply r;
    strm_refusal e = strm_write(p, STRM_MASTER, keys, strlen(keys), &r);
    return e ? e : strm_run(p);
}

/* What the user sees, and what the program reads. */
static strm_refusal reads(strm_pair *p, const char *user, uint32_t side)
{
    strm_reply r;
    strm_refusal e = strm_read(p, side, buf, sizeof buf, &r);
    if (e) printf("%-6s%-20s%s\n", user, side == STRM_MASTER ? "sees" : "reads", strm_refusal_name(e));
    else show(user, side == STRM_MASTER ? "sees" : "reads", r.bytes);
    if (e == STRM_EAGAIN) e = STRM_OK;
    return e;
}

/* Both type a part of a line, and one of them has a window of another size. */
static strm_refusal begins(strm_pair p[TERMINALS])
{
    strm_winsize small = { 10, 40, 0, 0 };
    strm_refusal e = STRM_OK;
    int i;
    for (i = 0; !e && i < TERMINALS; i++) {
        e = strm_new(&p[i], 256, 8192, 262144);
        if (!e) e = strm_open_terminal(&p[i]);
        if (!e) e = types(&p[i], i ? "date\x15who" : "echo hellp");
        if (!e) e = reads(&p[i], users[i], STRM_MASTER);
        if (!e) e = reads(&p[i], users[i], STRM_SLAVE);
    }
    return e ? e : strm_set_winsize(&p[1], STRM_MASTER, &small);
}

/* Takes the image of each, and frees it. */
static strm_refusal keeps(strm_pair p[TERMINALS])
{
    int i;
    for (i = 0; i < TERMINALS; i++) {
        strm_refusal e = strm_image(&p[i], images[i], sizeof images[i], &lengths[i]);
        if (e) return e;
        strm_free(&p[i]);
    }
    return STRM_OK;
}

/* Makes each again of its image, and goes on in the line. */
static strm_refusal goes_on(strm_pair p[TERMINALS])
{
    int i;
    for (i = 0; i < TERMINALS; i++) {
        strm_winsize told;
        strm_books books;
        strm_refusal e = strm_restore(&p[i], 256, 8192, 262144, images[i], lengths[i]);
        if (!e) e = types(&p[i], i ? " am i\r" : "\x7fo\r");
        if (!e) e = reads(&p[i], users[i], STRM_MASTER);
        if (!e) e = reads(&p[i], users[i], STRM_SLAVE);
        if (!e) e = strm_get_winsize(&p[i], STRM_SLAVE, &told);
        if (!e) e = strm_ledger(&p[i], STRM_MASTER, &books);
        if (e) return e;
        printf("%-6s%-20s%u x %u, %u bytes typed\n", users[i], "window", (unsigned)told.rows, (unsigned)told.columns, (unsigned)books.written);
    }
    return STRM_OK;
}

int main(void)
{
    strm_pair p[TERMINALS] = { STRM_CLOSED, STRM_CLOSED };
    strm_refusal e = begins(p);
    int i;
    if (!e) e = keeps(p);
    if (!e) {
        images[1][0] ^= 1;
        printf("%-26s%s\n", "a text that is no image", strm_refusal_name(strm_restore(&p[1], 256, 8192, 262144, images[1], lengths[1])));
        images[1][0] ^= 1;
        e = goes_on(p);
    }
    for (i = 0; i < TERMINALS; i++) strm_free(&p[i]);
    if (e) printf("%s\n", strm_refusal_name(e));
    return e != STRM_OK;
}
