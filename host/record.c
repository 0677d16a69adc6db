/* A journal's file: a line of JSON for each entry, as python/strm_record.py has it. */
#define _GNU_SOURCE
#include <errno.h>
#include <stdio.h>
#include <stdlib.h>
#include <time.h>

#include "inner.h"

struct strm_recorder {
    FILE *file;
    strm_pair *pair;
    strm_cursor at;
    struct timespec began;
    uint8_t *room;
    size_t size;
};

static const char *const calls[] = { "open_master", "unlock", "open_slave", "close", "push", "pop", "look", "flush", "write", "read", "put", "get",
    "mode", "nread", "ioctl", "ioctl_result", "signals" };
static const char *const answers[] = { "done", "name", "count", "bytes", "message", "sizes", "pending", "nak", "signals", "stopped" };
static const char *const queues[] = { "m.head.r", NULL, "m.ldterm.r", "m.ldterm.w", NULL, "m.drv.w", "s.head.r", NULL, "s.ldterm.r", "s.ldterm.w",
    NULL, "s.drv.w" };
static const char *const turns[] = { "idle", "blocked", "moved" };

#define COUNT(of) (sizeof(of) / sizeof *(of))

static const char *name_in(const char *const names[], size_t n, uint32_t number) { return number < n && names[number] ? names[number] : "?"; }

/* A text of which each character is a byte. */
static void says_bytes(FILE *f, const char *name, const uint8_t *bytes, size_t n)
{
    size_t k;
    if (!n) return;
    fprintf(f, ", \"%s\": \"", name);
    for (k = 0; k < n; k++)
        if (bytes[k] < ' ' || bytes[k] > '~') fprintf(f, "\\u%04x", bytes[k]);
        else fprintf(f, bytes[k] == '"' || bytes[k] == '\\' ? "\\%c" : "%c", bytes[k]);
    fputc('"', f);
}

static void says_number(FILE *f, const char *name, uint32_t number)
{
    if (number) fprintf(f, ", \"%s\": %u", name, number);
}

static void says_call(FILE *f, const strm_entry *e, const uint8_t *bytes)
{
    const strm_ask *ask = &e->ask;
    const strm_reply *r = &e->reply;
    fprintf(f, "\"call\": \"%s\", \"side\": \"%c\"", name_in(calls, COUNT(calls), ask->op), ask->side == STRM_MASTER ? 'm' : 's');
    if (ask->a || ask->b || ask->c) fprintf(f, ", \"numbers\": [%u, %u, %u]", ask->a, ask->b, ask->c);
    if (ask->group || ask->ignores || ask->orphaned)
        fprintf(f, ", \"caller\": [%u, %s, %s]", ask->group, ask->ignores ? "true" : "false", ask->orphaned ? "true" : "false");
    says_bytes(f, "bytes", bytes, e->brings);
    fprintf(f, ", \"answer\": {\"kind\": \"%s\"", name_in(answers, COUNT(answers), r->kind));
    says_number(f, "value", r->value), says_number(f, "prio", r->prio), says_number(f, "parts", r->parts), says_number(f, "size", r->size);
    if (r->more_control) fputs(", \"more_control\": true", f);
    if (r->more_data) fputs(", \"more_data\": true", f);
    says_bytes(f, "bytes", bytes + e->brings, r->bytes);
    fputc('}', f);
}

static double since(const struct timespec *began)
{
    struct timespec now;
    clock_gettime(CLOCK_MONOTONIC, &now);
    return (double)(now.tv_sec - began->tv_sec) + (double)(now.tv_nsec - began->tv_nsec) / 1e9;
}

int strm_recorder_open(strm_recorder **made, const char *path, strm_pair *pair, size_t blocks, size_t entries, size_t bytes)
{
    strm_recorder *r = calloc(1, sizeof *r);
    int why = ENOMEM;
    if (!r) return ENOMEM;
    r->pair = pair, r->size = 16384, r->room = malloc(r->size);
    if (r->room && !(r->file = fopen(path, "we"))) why = errno;
    if (!r->file) {
        free(r->room), free(r);
        return why;
    }
    clock_gettime(CLOCK_MONOTONIC, &r->began);
    fprintf(r->file, "{\"format\": \"strm journal\", \"version\": 1, \"library\": \"%u.%u\", \"blocks\": %zu, \"entries\": %zu, \"bytes\": %zu, "
            "\"timestamp\": %lld}\n", strm_version() >> 16, strm_version() & 0xffff, blocks, entries, bytes, (long long)time(NULL));
    *made = r;
    return 0;
}

int strm_recorder_drain(strm_recorder *r, bool restarts)
{
    strm_entry e;
    double at = since(&r->began);
    strm_refusal why;
    while ((why = strm_next_entry(r->pair, &r->at, &e, r->room, r->size)) != STRM_EAGAIN) {
        if (why == STRM_EINVAL && e.brings + e.reply.bytes > r->size) {
            uint8_t *more = realloc(r->room, e.brings + e.reply.bytes);
            if (!more) return ENOMEM;
            r->room = more, r->size = e.brings + e.reply.bytes;
            continue;
        }
        if (why) return strm_host_errno(why);
        fprintf(r->file, "{\"at\": %.6f, ", at);
        if (e.kind == STRM_CALLED) says_call(r->file, &e, r->room);
        else fprintf(r->file, "\"turn\": \"%s\", \"kind\": \"%s\", \"moved\": %u", name_in(queues, COUNT(queues), e.queue),
                     name_in(turns, COUNT(turns), e.went.kind), e.went.moved);
        fputs("}\n", r->file);
    }
    if (restarts) r->at.entry = r->at.byte = 0;
    return fflush(r->file) ? errno : 0;
}

int strm_recorder_close(strm_recorder *r)
{
    int why;
    if (!r) return 0;
    why = strm_recorder_drain(r, false);
    if (fclose(r->file) && !why) why = errno;
    free(r->room), free(r);
    return why;
}
