/* The modes of a terminal as Linux has them, as the pair has them, and as the kernel is told: the words of both have the same bits, as Linux took
 * System V's; of the control bytes EOL and EOL2 have other places, where System V has MIN and TIME. */
#define _GNU_SOURCE
#include <string.h>
#include <sys/ioctl.h>
#include <termios.h>

#include "inner.h"

enum { LINUX_TIME = 5, LINUX_MIN = 6, LINUX_EOL = 11, LINUX_EOL2 = 16 };

/* What is the same is so on this machine. */
typedef char same_bits[(ICRNL == STRM_ICRNL && IXON == STRM_IXON && OPOST == STRM_OPOST && ONLCR == STRM_ONLCR && ISIG == STRM_ISIG
                        && ICANON == STRM_ICANON && TOSTOP == STRM_TOSTOP && IEXTEN == STRM_IEXTEN && VEOF == STRM_VEOF && VSUSP == STRM_VSUSP
                        && VEOL == LINUX_EOL && VEOL2 == LINUX_EOL2 && VMIN == LINUX_MIN && VTIME == LINUX_TIME) ? 1 : -1];
typedef char same_size[sizeof(host_modes) == 36 && sizeof(same_bits) ? 1 : -1];

host_modes host_shown(const strm_host *h)
{
    host_modes told = { h->modes.iflag, h->modes.oflag, h->modes.cflag, h->modes.lflag, 0, { 0 } };
    memcpy(told.cc, h->modes.cc, sizeof told.cc);
    told.cc[LINUX_EOL] = h->modes.cc[STRM_VEOL];
    told.cc[LINUX_EOL2] = h->modes.cc[STRM_VEOL2];
    told.cc[LINUX_TIME] = h->vtime;
    told.cc[LINUX_MIN] = h->vmin;
    return told;
}

strm_termios host_termios(const host_modes *modes)
{
    /* A pty has eight bits and no parity, whatever is set. */
    uint32_t cflag = (modes->cflag & ~(uint32_t)(CSIZE | PARENB)) | CS8 | CREAD;
    strm_termios t = { modes->iflag, modes->oflag, cflag, modes->lflag & ~HOST_EXTPROC, { 0 } };
    memcpy(t.cc, modes->cc, sizeof t.cc);
    t.cc[STRM_VEOL] = modes->cc[LINUX_EOL];
    t.cc[STRM_VEOL2] = modes->cc[LINUX_EOL2];
    t.cc[LINUX_EOL] = t.cc[LINUX_EOL2] = 0;
    return t;
}

void host_takes(strm_host *h, const host_modes *modes)
{
    h->modes = host_termios(modes);
    h->vtime = modes->cc[LINUX_TIME];
    h->vmin = modes->cc[LINUX_MIN];
}

int host_mirrors(strm_host *h)
{
    host_modes kernel = host_shown(h);
    kernel.oflag &= ~(uint32_t)HOST_OUTPUT;
    if (h->bulk) kernel.oflag &= ~(uint32_t)STRM_OPOST;
    kernel.lflag |= HOST_EXTPROC;
    if (kernel.lflag & STRM_ICANON) kernel.cc[LINUX_MIN] = 1, kernel.cc[LINUX_TIME] = 0; /* under EXTPROC poll(2) looks at them */
    if (ioctl(h->slave, TCSETS, &kernel) || ioctl(h->slave, TCGETS, &h->kernel)) return -1;
    return 0;
}

/* A word in which only those bits are other ones that somebody changed at the kernel. */
static uint32_t changed(uint32_t ours, uint32_t put, uint32_t found) { return (ours & ~(put ^ found)) | (found & (put ^ found)); }

bool host_unseen(strm_host *h, host_modes *modes)
{
    host_modes found, put = h->kernel;
    size_t k;
    if (ioctl(h->slave, TCGETS, &found)) return false;
    if (!memcmp(&found, &put, sizeof put)) return false;
    *modes = host_shown(h);
    modes->iflag = changed(modes->iflag, put.iflag, found.iflag);
    modes->oflag = changed(modes->oflag, put.oflag, found.oflag);
    modes->cflag = changed(modes->cflag, put.cflag, found.cflag);
    modes->lflag = changed(modes->lflag, put.lflag, found.lflag);
    for (k = 0; k < sizeof put.cc; k++)
        if (found.cc[k] != put.cc[k]) modes->cc[k] = found.cc[k];
    h->doubt = h->bulk && !(found.lflag & STRM_ICANON);
    h->kernel = found;
    return true;
}
