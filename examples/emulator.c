/* What an emulator does with a pair: keys go in, what is to be shown comes out, and the window changes its size. In place of a program of the
 * system a function reads and writes at the slave (libstrm_host runs real ones). */
#include <signal.h>
#include <stdio.h>
#include <string.h>
#include <strm.h>

/* Makes the turns, and leaves room in the journal for the calls behind them: nobody keeps it, so it begins anew. */
static bool run(strm_pair *p)
{
    strm_left left;
    strm_refusal e;
    while ((e = strm_run(p)) == STRM_JOURNAL_FULL) strm_restart(p);
    if (e || strm_room(p, &left)) return false;
    return (left.entries >= 32 && left.bytes >= 3 * 8192) || strm_restart(p) == STRM_OK;
}

/* Writes all of the bytes at a side: a write takes what fits, and turns make room. False where nobody makes any. */
static bool write_all(strm_pair *p, uint32_t side, const char *bytes, size_t n)
{
    strm_reply r;
    while (n) {
        strm_refusal e = strm_write(p, side, bytes, n, &r);
        if (e && e != STRM_EAGAIN) return false;
        if (!e) bytes += r.value, n -= r.value;
        if (!run(p) || (e && !(strm_ready(p, side) & STRM_CAN_WRITE))) return false;
    }
    return run(p);
}

/* The screen: all that the master has to show. */
static void show(strm_pair *p)
{
    uint8_t shown[4096];
    strm_reply r;
    while (strm_ready(p, STRM_MASTER) & STRM_CAN_READ) {
        if (strm_read(p, STRM_MASTER, shown, sizeof shown, &r) || !r.bytes) return;
        for (size_t at = 0; at < r.bytes; at++) {
            if (shown[at] == '\r') printf("\\r");
            else if (shown[at] == '\b') printf("\\b");
            else putchar(shown[at]);
        }
        if (!run(p)) return;
    }
}

/* The program: it answers each line, and tells of the window where SIGWINCH comes. */
static void program(strm_pair *p)
{
    uint8_t line[256], numbers[32];
    char said[300];
    strm_winsize w;
    strm_reply r;
    size_t n;
    if (!strm_signals(p, STRM_SLAVE, numbers, &n) && n && numbers[0] == STRM_SIGWINCH && !strm_get_winsize(p, STRM_SLAVE, &w)) {
        snprintf(said, sizeof said, "[%u rows, %u columns]\n", w.rows, w.columns);
        write_all(p, STRM_SLAVE, said, strlen(said));
    }
    while (!strm_read(p, STRM_SLAVE, line, sizeof line, &r) && r.bytes) {
        snprintf(said, sizeof said, "you typed %.*s", (int)r.bytes, (const char *)line);
        write_all(p, STRM_SLAVE, said, strlen(said));
    }
}

int main(void)
{
    static const char *const typed[] = { "helxx\x7f\x7flo\r", "two\rlines\r", "\x15" "gone\x17\r" };
    strm_pair p = STRM_CLOSED;
    strm_winsize size = { 50, 132, 0, 0 };
    if (strm_new(&p, STRM_TERMINAL_BLOCKS, 1024, 65536) || strm_open_terminal(&p)) return 1;
    if (strm_set_winsize(&p, STRM_MASTER, &size)) return 1;
    program(&p);
    show(&p);
    for (size_t at = 0; at < sizeof typed / sizeof *typed; at++) {
        if (!write_all(&p, STRM_MASTER, typed[at], strlen(typed[at]))) return 1;
        program(&p);
        show(&p);
    }
    strm_free(&p);
    return 0;
}
