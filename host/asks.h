/* What the shim in a program and its host say to each other: one message of each over a socket of SOCK_SEQPACKET, the first with the terminal's
 * descriptor. */
#ifndef STRM_HOST_ASKS_H
#define STRM_HOST_ASKS_H

#include <stdint.h>

/* The kernel's struct termios of TCGETS, 36 bytes. */
typedef struct host_modes {
    uint32_t iflag, oflag, cflag, lflag;
    uint8_t line, cc[19];
} host_modes;

enum { HOST_GET, HOST_SET, HOST_SET_BEHIND, HOST_SET_FLUSHING, HOST_FLUSH, HOST_DRAIN, HOST_SIZE, HOST_COUNT };

typedef struct host_ask {
    uint32_t op, value; /* of a flush: TCIFLUSH, TCOFLUSH or TCIOFLUSH */
    host_modes modes;
    uint16_t size[4];
} host_ask;

typedef struct host_told {
    uint32_t error, value; /* of errno.h; of a count: bytes */
    host_modes modes;
} host_told;

/* The environment's name of a terminal: its device, as TIOCGDEV tells it, and the abstract name of its host's socket. */
#define HOST_TTY "STRM_TTY"
#define HOST_NAME_MAX 64

#endif
