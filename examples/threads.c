/* A server with threads: at each terminal one types, one is the shell, and one shows what the master is given. None waits in a loop: each sleeps
 * until its end may go on, and two workers make the turns. At the end the terminals are settled: what their ends were told is what the books say. */
#include <pthread.h>
#include <stdio.h>
#include <stdlib.h>
#include <strm_mt.h>

enum { TERMINALS = 30, LINES = 40 };

typedef struct terminal {
    strm_end *types, *shows, *shell; /* two ends of the master and one of the slave */
    pthread_t thread[3];
    size_t lines, shown;
} terminal;

static void must(strm_refusal e, const char *what)
{
    if (!e) return;
    printf("%s: %s\n", what, strm_refusal_name(e));
    exit(1);
}

/* Types lines, and an EOF key behind the last. */
static void *types(void *at)
{
    terminal *t = (terminal *)at;
    size_t taken;
    int i;
    for (i = 0; i < LINES; i++) must(strm_end_write_all(t->types, "make tests\x7f\r", 12, -1, &taken), "type");
    must(strm_end_write_all(t->types, "\4", 1, -1, &taken), "type EOF");
    return NULL;
}

/* Reads lines and answers each, until the end of input. */
static void *shell(void *at)
{
    terminal *t = (terminal *)at;
    uint8_t line[256];
    strm_reply r;
    size_t taken;
    for (;;) {
        must(strm_end_read_wait(t->shell, line, sizeof line, -1, &r), "read a line");
        if (r.bytes == 0) break;
        if (r.bytes == 10 && memcmp(line, "make test\n", 10) == 0) t->lines++;
        must(strm_end_write_all(t->shell, "ok\n", 3, -1, &taken), "answer");
    }
    must(strm_end_write_all(t->shell, "bye!", 4, -1, &taken), "say goodbye");
    return NULL;
}

/* Takes the echo and the answers, until the shell has said goodbye. */
static void *shows(void *at)
{
    terminal *t = (terminal *)at;
    uint8_t text[4096];
    strm_reply r;
    do {
        must(strm_end_read_wait(t->shows, text, sizeof text, -1, &r), "show");
        t->shown += r.bytes;
    } while (text[r.bytes - 1] != '!');
    return NULL;
}

int main(void)
{
    static terminal all[TERMINALS];
    void *(*const does[3])(void *) = { types, shell, shows };
    strm_choices sizes = { STRM_TERMINAL_BLOCKS, 64, 16384, 0, true };
    strm_system *system;
    strm_account sum;
    size_t lines = 0, shown = 0, agree = 0;
    int i, k;
    must(strm_system_new(&system, TERMINALS, &sizes), "a system");
    must(strm_workers_start(system, 2), "workers");
    for (i = 0; i < TERMINALS; i++) {
        terminal *t = &all[i];
        must(strm_system_terminal(system, &t->types, &t->shell), "a terminal");
        must(strm_end_split(t->types, &t->shows), "two ends of the master");
        for (k = 0; k < 3; k++)
            if (pthread_create(&t->thread[k], NULL, does[k], t)) must(STRM_NO_MEMORY, "a thread");
    }
    for (i = 0; i < TERMINALS; i++) {
        terminal *t = &all[i];
        for (k = 0; k < 3; k++) pthread_join(t->thread[k], NULL);
        must(strm_end_join(t->types, t->shows), "join");
        must(strm_end_join(t->types, t->shell), "join");
        must(strm_end_settle(t->types, &sum), "settle");
        lines += t->lines, shown += t->shown;
        agree += sum.told.written.from_master == sum.ms.written && sum.told.read.from_master == sum.ms.gone[STRM_RULE_READ]
            && sum.told.written.from_slave == sum.sm.written && sum.told.read.from_slave == sum.sm.gone[STRM_RULE_READ];
    }
    printf("%d terminals: the shells read %zu lines, %zu bytes were shown\n", TERMINALS, lines, shown);
    printf("%zu pairs settled, as their books say\n", agree);
    must(strm_workers_stop(system), "stop the workers");
    must(strm_system_free(system), "free the system");
    return 0;
}
