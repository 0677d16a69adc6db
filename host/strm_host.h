/* strm_host.h - programs of Linux on a pair of strm.h
 *
 * NAME
 *   strm_host - a shell, an editor or any other program of the system, whose terminal is a pair: editing, echo, signals, flow control and
 *   output modes are those of ldterm, the window is ptem's, and the pair's journal has all that went on.
 *
 * SYNOPSIS
 *   #include <strm_host.h>                         cc prog.c -lstrm_host -lstrm       (pkg-config strm_host)
 *
 *   strm_pair p = STRM_CLOSED;
 *   strm_host *h;
 *   strm_winsize size = { 24, 80, 0, 0 };
 *   char *words[] = { "bash", NULL };
 *   strm_new(&p, 256, 8192, 262144);
 *   strm_open_terminal(&p);
 *   if (strm_host_spawn(&h, &p, words, NULL, &size)) return 1;
 *   while (!strm_host_ended(h)) {                  strm_host_fd(h) is readable where there is something to pump
 *       poll(..);
 *       strm_write(&p, STRM_MASTER, ..);           what is typed
 *       do {
 *           while (strm_host_pump(h, &what) == STRM_JOURNAL_FULL) strm_restart(&p);
 *           while (!strm_read(&p, STRM_MASTER, ..)) ..  what is shown
 *       } while (what & (STRM_HOST_SHOWS | STRM_HOST_MOVED));
 *   }
 *   strm_host_close(h);
 *   strm_free(&p);
 *
 * DESCRIPTION
 *   The program has a pseudoterminal of Linux, which stays raw: its kernel carries bytes, and has no echo, no editing and no signal keys.
 *
 *       strm_write m -> ldterm -> strm_host_pump -> kernel -> program
 *       strm_read m  <- ldterm <- strm_host_pump <- kernel <- program
 *
 *   The program is started with libstrm_shim.so in LD_PRELOAD, which hands tcgetattr, tcsetattr, tcflush, tcdrain and the ioctls of that one
 *   terminal to the host: TCGETS, TCSETS, TCSETSW, TCSETSF, TCFLSH, TCSBRK, TIOCSWINSZ, FIONREAD. All that was written before goes down
 *   first, so modes come in their place among the bytes. What the program reads back is what the pair has.
 *
 *   A line goes to the program when it has taken the one before, so each is a read of its own, also where many were typed ahead; an EOF key
 *   is a read of no bytes. Without ICANON bytes go as they come, and VMIN and VTIME are the kernel's.
 *
 *   Signals that come up at the slave go to the foreground process group. INTR and QUIT without NOFLSH take also what the kernel has, both
 *   ways, and SUSP what the program hasn't read. The foreground group and TOSTOP are the same at the kernel and at the pair, and the
 *   kernel stops who reads or writes from the background, and who sets modes there.
 *
 *   Programs that no preloaded object reaches (static ones, those that call the system by themselves, those with set-user-ID for another user,
 *   glibc's getpass) see and set the kernel's modes. It keeps EXTPROC, by which it tells of each change, and the host takes up what was
 *   changed. To them OLCUC, ONLCR, OCRNL, ONOCR, ONLRET and XTABS are always off, and so is OPOST while much is put out; and bytes may pass a change
 *   of modes that is taken back at once.
 *   A program that forbids socket(2) to itself by seccomp(2) is one of these.
 *
 * ERRORS
 *   A function that returns int gives 0, or a number of errno.h. strm_host_pump gives a refusal of strm.h.
 *
 * UNITS
 *   Sizes of windows are strm_winsize; a status is that of waitpid(2).
 *
 * OWNERSHIP
 *   The pair is the caller's, has both sides open with ptem and ldterm on the slave (strm_open_terminal), stays where it is, and outlives its
 *   host. The caller reads, writes and restarts it as it likes, but closes no side, leaves the slave's reads, writes and signals to the host, and
 *   changes modes and windows by strm_host_tcsetattr and strm_host_resize. The environment and the words are copied.
 *
 * THREADS
 *   A host and its pair are used by one thread at a time. Nothing is called back, no thread is made, no signal handler set, and no call waits,
 *   but strm_host_spawn for exec(2), and strm_host_close up to a tenth of a second for a program that takes SIGHUP. The one who pumps
 *   is asked by the program: while nobody does, its tcgetattr waits, as its reads do.
 *
 * FILES
 *   libstrm_shim.so stands beside libstrm_host.so, or in the library folder for which the archive was built; STRM_SHIM names another one. STRM_TTY
 *   in the program's environment says which terminal is meant, and where its host is asked: a socket in the abstract namespace. Who asks hands
 *   over the descriptor of the terminal, and so proves that it has it open.
 */
#ifndef STRM_HOST_H
#define STRM_HOST_H

#include <strm.h>
#include <sys/types.h>

#ifdef __cplusplus
extern "C" {
#endif

typedef struct strm_host strm_host;

/* Starts the program words[0], found as by execvp(3), as the leader of a new session on the pair, with the environment given, or the caller's where
 * it is NULL, and a window of that size, where it isn't NULL. What execve(2) says where it can't be run; EINVAL: the pair is no terminal;
 * ELIBACC: the shim isn't there; ENOMEM, EMFILE, ENOSPC and others: what the system, or the pair (strm_host_errno), has no room for: a
 * journal that was begun anew has room for 64 entries at least. *made stays then. */
int strm_host_spawn(strm_host **made, strm_pair *pair, char *const words[], char *const environment[], const strm_winsize *size);

/* What a pump has seen. SHOWS: bytes wait at the master's head, and a read takes them. MOVED: something went on, in either direction. ENDED: the
 * program has ended, and all that it wrote stands at the master's head, or was read. */
enum { STRM_HOST_SHOWS = 1, STRM_HOST_MOVED = 2, STRM_HOST_ENDED = 4 };

/* Carries what is there, both ways, makes the turns, hands signals on and answers the program's ioctls, and doesn't wait. It is called where
 * strm_host_fd is readable, and behind writes and reads of the master. JOURNAL_FULL: nothing was lost, and the next pump goes on where it was when
 * the journal has begun anew (strm_restart); make it at once, as strm_host_fd doesn't tell of it. ERANGE: a book is full. ENOSR and EAGAIN aren't
 * told: they end where the master is read. */
strm_refusal strm_host_pump(strm_host *h, uint32_t *what);

/* Pumps and reads the master, again and again, until nothing goes on or less than 4096 of the room are left: *n bytes are what was shown, also where
 * it is refused, as a pump is. SHOWS: more waits. EINVAL: the room is less than 4096. */
strm_refusal strm_host_take(strm_host *h, void *out, size_t room, size_t *n, uint32_t *what);

/* A descriptor for poll(2), POLLIN: it is readable where strm_host_pump has something to do. */
int strm_host_fd(const strm_host *h);

/* Whether all is at rest: nothing is under way, and a process of the foreground asks the terminal for input, without a time-out (read, poll, select,
 * epoll, by /proc/PID/syscall); or the program has ended. So nothing more is shown till somebody types, but for what processes show that don't
 * read. A process of another user counts as asking where it sleeps. Call it when a pump has moved nothing. */
bool strm_host_waits(strm_host *h);

/* The same of the foreground of any pseudoterminal by its master, and nothing else: whether a process there asks it for input. */
bool strm_host_asks(int master);

/* Whether the program has ended, and its output was carried to the master's head: output that a STOP key holds isn't. Others that have the terminal
 * open may go on and write, and a pump carries that too. */
bool strm_host_ended(const strm_host *h);

/* The process that was started, and the foreground process group of its terminal, 0 where there is none. */
pid_t strm_host_pid(const strm_host *h);
pid_t strm_host_group(const strm_host *h);

/* Sends a signal (of signal.h) to the foreground process group. ESRCH: there is none. EINVAL, EPERM as kill(2). */
int strm_host_kill(strm_host *h, int signal);

/* The status of the program's end, 0 where the caller ignores SIGCHLD or somebody else waited for the process. EAGAIN: it runs. */
int strm_host_wait(strm_host *h, int *status);

/* The window has another size: SIGWINCH comes to the foreground. EAGAIN: an ioctl is under way; ENOSPC: the journal is full. */
int strm_host_resize(strm_host *h, const strm_winsize *size);

/* The modes of the terminal, and others in their place, as if the program had set them at once (TCSETS). Refusals as strm_host_resize. */
void strm_host_tcgetattr(const strm_host *h, strm_termios *t);
int strm_host_tcsetattr(strm_host *h, const strm_termios *t);

/* Hangs up: the session gets SIGHUP, and who doesn't end by it within a tenth of a second is killed. All memory and descriptors are given back;
 * the pair stays. It gives the status of the program's end. NULL is taken too. */
int strm_host_close(strm_host *h);

/* ------------------------------------------------------------------------------------------------------------- journals */

/* A journal's file, as python/strm_record.py reads it and makes it again: a line of JSON for each entry. */
typedef struct strm_recorder strm_recorder;

/* Begins a file before the first call of a pair that strm_new made with these sizes. What open(2) says; ENOMEM. */
int strm_recorder_open(strm_recorder **made, const char *path, strm_pair *pair, size_t blocks, size_t entries, size_t bytes);

/* Writes the entries that came since the last time to the file, and they are there when it returns. Call it before strm_restart, and tell it
 * by `restarts` that the journal begins anew. What write(2) says. */
int strm_recorder_drain(strm_recorder *r, bool restarts);

/* Writes the last entries, and closes the file. NULL is taken too. */
int strm_recorder_close(strm_recorder *r);

#ifdef __cplusplus
}
#endif
#endif
