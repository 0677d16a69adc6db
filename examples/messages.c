/* Messages, modules and job control: bands and priorities by putpmsg and getpmsg, what stands at a head, an ioctl that waits, a reader in the
 * background. */
#include <stdio.h>
#include <strm.h>

static uint8_t buf[4096];

static void show_part(const char *name, const uint8_t *bytes, size_t n, bool more)
{
    printf(" %s \"%.*s\"%s", name, (int)n, (const char *)bytes, more ? " and more" : "");
}

/* Takes the first message that is wanted, at most eight bytes of each part. */
static strm_refusal take(strm_pair *p, uint32_t wanted)
{
    strm_reply r;
    strm_refusal e = strm_get(p, STRM_SLAVE, wanted, 8, 8, buf, sizeof buf, &r);
    printf("  ");
    if (e) {
        printf("%s\n", strm_refusal_name(e));
        return e;
    }
    if (r.prio == STRM_HIPRI) printf("high priority:");
    else printf("band %u:", (unsigned)r.prio);
    if (r.parts & STRM_CONTROL) show_part("control", buf, r.parts == STRM_BOTH ? r.size : r.bytes, r.more_control);
    if (r.parts == STRM_BOTH) show_part("data", buf + r.size, r.bytes - r.size, r.more_data);
    if (r.parts == STRM_DATA) show_part("data", buf, r.bytes, r.more_data);
    printf("\n");
    return e;
}

/* High priority is read first, then the bands from above, and in each what came first. */
static strm_refusal messages(strm_pair *p)
{
    size_t count = 0, bytes = 0;
    strm_reply r;
    strm_refusal e = strm_put(p, STRM_MASTER, 0, NULL, 0, "plain", 5);
    if (!e) e = strm_put(p, STRM_MASTER, 3, "c", 1, "urgent", 6);
    if (!e) e = strm_put(p, STRM_MASTER, 3, NULL, 0, "urgent, and long", 16);
    if (!e) e = strm_put(p, STRM_MASTER, STRM_HIPRI, "now", 3, NULL, 0);
    if (!e) e = strm_run(p);
    if (!e) e = strm_nread(p, STRM_SLAVE, &count, &bytes);
    if (e) return e;
    printf("%u messages, the first with %u bytes of data; a read is %s\n", (unsigned)count, (unsigned)bytes,
           strm_refusal_name(strm_read(p, STRM_SLAVE, buf, sizeof buf, &r)));
    if (take(p, STRM_ANY) || take(p, STRM_ANY) || take(p, 3) || take(p, 3)) return STRM_EINVAL;
    if (take(p, 3) != STRM_EAGAIN) return STRM_EINVAL;
    return take(p, 0);
}

/* Modules stand one on the other; the top one is looked at, and taken off. */
static strm_refusal modules(strm_pair *p)
{
    static const char *const names[] = { "none", "ldterm", "ptem", "pckt" };
    uint32_t module = 0;
    strm_refusal e = strm_push(p, STRM_SLAVE, STRM_PTEM);
    if (!e) e = strm_push(p, STRM_SLAVE, STRM_LDTERM);
    printf("modules:");
    while (!e && !(e = strm_look(p, STRM_SLAVE, &module))) {
        printf(" %s", names[module]);
        if (module == STRM_PTEM) break;
        e = strm_pop(p, STRM_SLAVE);
    }
    printf("\n");
    return e;
}

/* The master's ioctl waits until turns have brought it to ptem and its answer back. */
static strm_refusal ioctls(strm_pair *p)
{
    static const uint8_t size[8] = { 0, 24, 0, 80, 0, 0, 0, 0 };
    strm_ask ask = { STRM_OP_IOCTL, STRM_MASTER, STRM_TIOCSWINSZ, 0, 0, 0, false, false };
    strm_winsize told = { 0, 0, 0, 0 };
    strm_reply r;
    size_t given;
    strm_refusal e = strm_call(p, &ask, size, sizeof size, buf, sizeof buf, &r);
    if (!e && r.kind != STRM_PENDING) return STRM_EINVAL;
    if (e) return e;
    printf("ioctl %u: %s", (unsigned)r.value, strm_refusal_name(strm_ioctl_result(p, STRM_MASTER, r.value, buf, &given)));
    e = strm_run(p);
    if (!e) printf(", behind turns %s", strm_refusal_name(strm_ioctl_result(p, STRM_MASTER, r.value, buf, &given)));
    if (!e) e = strm_get_winsize(p, STRM_SLAVE, &told);
    printf(", and the window is %u x %u\n", (unsigned)told.rows, (unsigned)told.columns);
    return e;
}

/* A reader of another group than the foreground's is stopped, or refused where it ignores the signal. */
static strm_refusal job_control(strm_pair *p)
{
    strm_ask ask = { STRM_OP_READ, STRM_SLAVE, 100, 0, 0, 8, false, false };
    strm_reply r;
    uint32_t group = 0;
    strm_refusal e = strm_tcsetpgrp(p, STRM_SLAVE, 7);
    if (!e) e = strm_tcgetpgrp(p, STRM_SLAVE, &group);
    if (!e) e = strm_call(p, &ask, NULL, 0, buf, sizeof buf, &r);
    if (e) return e;
    printf("the foreground is group %u; a reader of group 8 is %s by %s", (unsigned)group, r.kind == STRM_STOPPED ? "stopped" : "not stopped",
           strm_signal_name(r.value));
    ask.ignores = true;
    printf(", or refused by %s\n", strm_refusal_name(strm_call(p, &ask, NULL, 0, buf, sizeof buf, &r)));
    return STRM_OK;
}

int main(void)
{
    strm_pair p = STRM_CLOSED;
    strm_refusal e = strm_new(&p, STRM_TERMINAL_BLOCKS, 1024, 65536);
    if (!e) e = strm_open_master(&p);
    if (!e) e = strm_unlock(&p);
    if (!e) e = strm_open_slave(&p);
    if (!e) e = messages(&p);
    if (!e) e = modules(&p);
    if (!e) e = ioctls(&p);
    if (!e) e = job_control(&p);
    strm_free(&p);
    if (e) printf("%s\n", strm_refusal_name(e));
    return e != STRM_OK;
}
