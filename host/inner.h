/* The host from within. */
#ifndef STRM_HOST_INNER_H
#define STRM_HOST_INNER_H

#include "asks.h"
#include "strm_host.h"
#include <time.h>

/* How many programs may ask at once; others wait in the socket's queue. */
#define HOST_ASKERS 16
/* More than a pty of Linux holds: what was written before is read when so many bytes were. */
#define HOST_BEHIND 65536u
#define HOST_EXTPROC 0x10000u
/* Output modes at which the kernel would change bytes. */
#define HOST_OUTPUT (STRM_OLCUC | STRM_ONLCR | STRM_OCRNL | STRM_ONOCR | STRM_ONLRET | STRM_XTABS)

/* A program that asks, in the order of arrival; or with fd -1 a change of modes by who isn't reached. */
typedef struct host_asker {
    int fd;
    bool asked;      /* its ask is here */
    uint32_t ioctl;  /* the number of its pending ioctl, 0 where none is */
    uint64_t behind; /* how many bytes were read when it asked */
    host_ask ask;
} host_asker;

struct strm_host {
    strm_pair *pair;
    int master, slave, taken, listens, ready, ends, timer; /* taken: the master again, for edges; ends: a pidfd; -1 for none */
    unsigned device;
    pid_t child, group;
    uint32_t sizing, setting; /* numbers of pending ioctls of the caller, 0 where none is */
    int status;
    bool reaped, drained, silent; /* the program has ended; its output was read; nobody has the terminal open */
    bool told, signalled;      /* the kernel told of modes; signals may have come up */
    bool holds, armed;         /* input waits till the program takes some, and its edge is watched */
    bool blocked, deaf;        /* output waits till the master is read, and isn't watched */
    bool bulk, doubt;          /* the kernel isn't told of OPOST; nor is it till ICANON is set, as somebody took its modes over */
    bool eof;                  /* what the kernel was given last is an EOF key */
    strm_termios modes;
    strm_winsize window; /* that was set here, or by the program */
    uint8_t vmin, vtime;
    host_modes kernel;
    uint64_t read, signal_keys; /* bytes of output, and signal keys of which the signals were handed on */
    uint64_t weighed; /* what was read when it was last looked how much comes, and the time */
    struct timespec weighed_at;
    size_t askers;
    host_asker asker[HOST_ASKERS];
    size_t down_at, down_n, up_at, up_n;
    uint8_t down[4097], up[4096];
};

/* What is refused till others have moved: it is tried again. */
static inline bool host_waited(strm_refusal e) { return e == STRM_EAGAIN || e == STRM_ENOSR; }

/* modes.c */
host_modes host_shown(const strm_host *h);                  /* what a program is told */
int host_mirrors(strm_host *h);                             /* puts the modes at the kernel */
void host_takes(strm_host *h, const host_modes *modes);     /* what a program sets becomes the modes */
strm_termios host_termios(const host_modes *modes);         /* the pair's words of them */
bool host_unseen(strm_host *h, host_modes *modes);          /* whether the kernel has other modes than the host put there, and which are meant */

/* asks.c */
void host_hears(strm_host *h);                              /* takes in who asks */
strm_refusal host_answers(strm_host *h, bool *moved);
strm_refusal host_sets(strm_host *h, uint32_t when, const strm_termios *t, uint32_t *pending); /* EAGAIN while it is pending */
strm_refusal host_sizes(strm_host *h, uint32_t side, const strm_winsize *w, uint32_t *pending);
strm_refusal host_ioctl(strm_host *h, uint32_t side, uint32_t command, const uint8_t *body, size_t n, uint32_t *pending);

/* pump.c */
bool host_output_waits(const strm_host *h);
size_t host_unread(strm_host *h);                           /* bytes that the kernel has for the program */
strm_refusal host_signals(strm_host *h);
void host_watches(strm_host *h, int fd, uint32_t events, bool anew);

/* bulk.c */
void host_weighs(strm_host *h);                             /* whether much is put out */
void host_ticks(strm_host *h);                              /* whether it still is */
void host_beats(strm_host *h);                              /* a tick now and then, where no descriptor tells of the program's end */

/* host.c */
void host_reopens(strm_host *h);                            /* the terminal, which a vhangup(2) took from all who had it, as login(1) makes one */

/* environment.c */
int host_shim(char *path, size_t room);
char **host_environment(char *const old[], const char *shim, unsigned device, const char *name);

#endif
