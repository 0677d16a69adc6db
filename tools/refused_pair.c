/* Makes a pair by the library for C where one request for memory may be refused: the handle stays closed, and a second call makes the pair.
 * tools/refusals --library runs it. */
#include <stdio.h>
#include <strm.h>

static const strm_pair CLOSED = STRM_CLOSED;

/* Whether a handle is closed. */
static int is_closed(const strm_pair *p)
{
    return p->at == CLOSED.at && p->is_open == CLOSED.is_open;
}

int main(void)
{
    strm_pair p = STRM_CLOSED;
    strm_reply r;
    char in[16], out[16];
    strm_refusal made = strm_new(&p, 256, 8192, 262144);
    if (made == STRM_NO_MEMORY && is_closed(&p))
        made = strm_new(&p, 256, 8192, 262144);
    if (made != STRM_OK || strm_open_terminal(&p) != STRM_OK)
        return 1;
    if (strm_write(&p, STRM_MASTER, "ls\r", 3, &r) != STRM_OK || strm_run(&p) != STRM_OK)
        return 2;
    if (strm_read(&p, STRM_SLAVE, in, sizeof in, &r) != STRM_OK || r.bytes != 3 || memcmp(in, "ls\n", 3) != 0)
        return 3;
    if (strm_read(&p, STRM_MASTER, out, sizeof out, &r) != STRM_OK || r.bytes != 4 || memcmp(out, "ls\r\n", 4) != 0)
        return 4;
    strm_free(&p);
    return is_closed(&p) ? 0 : 5;
}
