/* A first session on a terminal: a line is typed, edited, echoed and read; a resize; ^C; what the books tell of it. */
#include <errno.h>
#include <signal.h>
#include <stdio.h>
#include <strm.h>

static uint8_t buf[4096];

static void show(const char *what, strm_refusal refused, const strm_reply *reply)
{
    size_t i;
    printf("%-20s", what);
    if (refused) {
        printf("%s\n", strm_refusal_name(refused));
        return;
    }
    printf("%u \"", (unsigned)reply->bytes);
    for (i = 0; i < reply->bytes; i++) {
        if (buf[i] < 32 || buf[i] > 126) printf("\\x%02x", (unsigned)buf[i]);
        else putchar(buf[i]);
    }
    printf("\"\n");
}

/* The README's session. */
static int session(strm_pair *p)
{
    strm_reply r;
    strm_refusal e = strm_write(p, STRM_MASTER, "lx\x7fs\r", 5, &r);
    if (e) return 1;
    printf("%-20s%u\n", "the user types", (unsigned)r.value);
    if (strm_run(p)) return 1;
    e = strm_read(p, STRM_SLAVE, buf, sizeof buf, &r);
    show("the program reads", e, &r);
    e = strm_read(p, STRM_MASTER, buf, sizeof buf, &r);
    show("the user sees", e, &r);
    e = strm_read(p, STRM_SLAVE, buf, sizeof buf, &r);
    show("nothing more", e, &r);
    return 0;
}

/* A resize and an interrupt, as signals of the slave. */
static int signals(strm_pair *p)
{
    strm_winsize small = { 24, 80, 0, 0 }, told = { 0, 0, 0, 0 };
    uint8_t numbers[32];
    size_t n, i;
    strm_reply r;
    if (strm_set_winsize(p, STRM_MASTER, &small) || strm_get_winsize(p, STRM_SLAVE, &told)) return 1;
    printf("%-20s%u x %u\n", "window", (unsigned)told.rows, (unsigned)told.columns);
    if (strm_write(p, STRM_MASTER, "abc\x03", 4, &r) || strm_run(p) || strm_signals(p, STRM_SLAVE, numbers, &n)) return 1;
    printf("%-20s", "signals");
    for (i = 0; i < n; i++) printf("%s%s", strm_signal_name(numbers[i]), strm_host_signal(numbers[i]) ? " " : "? ");
    printf("\n");
    return 0;
}

/* Every byte that the master wrote has one place. */
static int books(strm_pair *p)
{
    strm_books told;
    uint64_t gone = 0;
    uint32_t rule;
    if (strm_ledger(p, STRM_MASTER, &told)) return 1;
    for (rule = 0; rule < STRM_RULES; rule++) {
        gone += told.gone[rule];
        if (told.gone[rule]) printf("  %-18s%u\n", strm_rule_name(rule), (unsigned)told.gone[rule]);
    }
    printf("%-20s%u\n", "balance", (unsigned)(told.written + told.made == told.queued + told.inlined + gone));
    return 0;
}

int main(void)
{
    strm_pair p = STRM_CLOSED;
    strm_reply r;
    if (strm_version() != STRM_VERSION) return 2;
    show("closed", strm_read(&p, STRM_SLAVE, buf, sizeof buf, &r), &r);
    printf("%-20s%s\n", "no blocks", strm_refusal_name(strm_new(&p, 0, 1, 1)));
    if (strm_new(&p, 256, 8192, 262144) || strm_open_terminal(&p)) return 1;
    printf("%-20s%d\n", "would have to wait", strm_host_errno(strm_read(&p, STRM_SLAVE, buf, sizeof buf, &r)) == EAGAIN);
    if (session(&p) || signals(&p) || books(&p)) return 1;
    strm_free(&p);
    printf("%-20s%d\n", "open", (int)p.is_open);
    return 0;
}
