/* Names that compilers newer than ThreadSanitizer's run-time library give to what it takes over of the C library. */
#include <string.h>

void *__tsan_memset(void *at, int value, size_t n);
void *__tsan_memcpy(void *to, const void *from, size_t n);
void *__tsan_memmove(void *to, const void *from, size_t n);

void *__tsan_memset(void *at, int value, size_t n)
{
    return memset(at, value, n);
}

void *__tsan_memcpy(void *to, const void *from, size_t n)
{
    return memcpy(to, from, n);
}

void *__tsan_memmove(void *to, const void *from, size_t n)
{
    return memmove(to, from, n);
}
