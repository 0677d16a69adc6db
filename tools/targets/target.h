/* What a target of a fuzzer has in common: inputs one after the other in one process, as AFL++ gives them on standard input, or one where no
 * fuzzer stands. */
#ifndef TARGET_H
#define TARGET_H

#include <stdint.h>
#include <stdio.h>
#include <stdlib.h>
#include <unistd.h>

/* Of AFL++'s runtime; a target that is linked without it takes one input. */
int __afl_persistent_loop(unsigned count) __attribute__((weak));
void __afl_manual_init(void) __attribute__((weak));

/* By these AFL++ sees in a program what it can do. */
__attribute__((used)) static const char target_is_persistent[] = "##SIG_AFL_PERSISTENT##";
__attribute__((used)) static const char target_is_deferred[] = "##SIG_AFL_DEFER_FORKSRV##";

static void target_begins(void)
{
    if (__afl_manual_init) __afl_manual_init();
}

/* Whether there is a further input. */
static int target_goes_on(void)
{
    static int first = 1;
    int was = first;
    first = 0;
    return __afl_persistent_loop ? __afl_persistent_loop(1000) : was;
}

/* Reads standard input to its end, or as much as there is room for. */
static inline size_t target_reads(uint8_t *into, size_t room)
{
    size_t n = 0;
    ssize_t more;
    while (n < room && (more = read(0, into + n, room - n)) > 0) n += (size_t)more;
    return n;
}

/* What must not be: the fuzzer sees a crash. */
#define MUST(holds, what) do { if (!(holds)) { fprintf(stderr, "%s:%d: %s\n", __FILE__, __LINE__, what); abort(); } } while (0)

#endif
