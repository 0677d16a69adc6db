/* Refuses one request for memory of the program that it is loaded into, and counts what it doesn't give back. For glibc.
 *
 *     cc -O2 -shared -fPIC -o refuse_malloc.so tools/refuse_malloc.c
 *     REFUSE=5 REFUSE_TELLS=told LD_PRELOAD=$PWD/refuse_malloc.so PROGRAM
 *
 * Requests are counted from 1: each malloc, calloc, realloc and aligned_alloc. With no REFUSE none is refused. At the program's exit the file
 * of REFUSE_TELLS has a line 'requests=9 refused=1 outstanding=0'; where a signal ends the program there is none.
 */
#define _GNU_SOURCE
#include <errno.h>
#include <fcntl.h>
#include <stdatomic.h>
#include <stdio.h>
#include <stdlib.h>
#include <sys/syscall.h>
#include <unistd.h>

void *__libc_malloc(size_t size);
void *__libc_calloc(size_t count, size_t size);
void *__libc_realloc(void *at, size_t size);
void *__libc_memalign(size_t alignment, size_t size);
void __libc_free(void *at);

static atomic_long requests, refused, outstanding;

/* Which request is refused. */
static long chosen(void)
{
    static long number = -1;
    if (number < 0) {
        const char *text = getenv("REFUSE");
        number = text ? atol(text) : 0;
    }
    return number;
}

static int refuses(void)
{
    if (++requests != chosen())
        return 0;
    refused++;
    errno = ENOMEM;
    return 1;
}

static void *counted(void *at)
{
    if (at)
        outstanding++;
    return at;
}

void *malloc(size_t size)
{
    return refuses() ? NULL : counted(__libc_malloc(size));
}

void *calloc(size_t count, size_t size)
{
    return refuses() ? NULL : counted(__libc_calloc(count, size));
}

void *aligned_alloc(size_t alignment, size_t size)
{
    return refuses() ? NULL : counted(__libc_memalign(alignment, size));
}

int posix_memalign(void **at, size_t alignment, size_t size)
{
    void *made = refuses() ? NULL : counted(__libc_memalign(alignment, size));
    if (!made)
        return ENOMEM;
    *at = made;
    return 0;
}

void *realloc(void *at, size_t size)
{
    if (refuses())
        return NULL;
    void *made = __libc_realloc(at, size);
    return at ? made : counted(made);
}

void free(void *at)
{
    if (at)
        outstanding--;
    __libc_free(at);
}

__attribute__((destructor)) static void tells(void)
{
    const char *path = getenv("REFUSE_TELLS");
    char line[100];
    int size = snprintf(line, sizeof line, "requests=%ld refused=%ld outstanding=%ld\n", (long)requests, (long)refused, (long)outstanding);
    int file = path ? open(path, O_WRONLY | O_CREAT | O_TRUNC, 0600) : -1;
    if (file >= 0 && write(file, line, (size_t)size) == size)
        close(file);
}

/* A program with threads may end by this call, which runs no destructor. */
void _exit(int status)
{
    tells();
    syscall(SYS_exit_group, status);
    __builtin_unreachable();
}
