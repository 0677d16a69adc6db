/* Where the shim is, and the environment that names it to a program. */
#define _GNU_SOURCE
#include <dlfcn.h>
#include <errno.h>
#include <stdio.h>
#include <stdlib.h>
#include <string.h>
#include <unistd.h>

#include "inner.h"

#ifndef STRM_LIBDIR
#define STRM_LIBDIR "/usr/local/lib"
#endif
#define SHIM "libstrm_shim.so"

int host_shim(char *path, size_t room)
{
    const char *named = getenv("STRM_SHIM");
    Dl_info self;
    const char *slash;
    int n;
    if (named && *named) {
        n = snprintf(path, room, "%s", named);
        return n < 0 || (size_t)n >= room || access(path, R_OK) ? ELIBACC : 0;
    }
    if (dladdr((const void *)STRM_LIBDIR, &self) && self.dli_fname && (slash = strrchr(self.dli_fname, '/')) != NULL) {
        n = snprintf(path, room, "%.*s/" SHIM, (int)(slash - self.dli_fname), self.dli_fname);
        if (n > 0 && (size_t)n < room && *path == '/' && !access(path, R_OK)) return 0;
    }
    n = snprintf(path, room, "%s/" SHIM, STRM_LIBDIR);
    return n < 0 || (size_t)n >= room || access(path, R_OK) ? ELIBACC : 0;
}

static bool is_of(const char *word, const char *name)
{
    size_t n = strlen(name);
    return !strncmp(word, name, n) && word[n] == '=';
}

/* The words of an environment with the two of the host in front, in one piece of memory. */
char **host_environment(char *const old[], const char *shim, unsigned device, const char *name)
{
    size_t words = 0, k, at = 0, room;
    const char *preloaded = "";
    char **made, *text;
    for (k = 0; old[k]; k++) {
        words++;
        if (is_of(old[k], "LD_PRELOAD")) preloaded = old[k] + strlen("LD_PRELOAD=");
    }
    room = strlen(shim) + strlen(preloaded) + strlen(name) + 64;
    made = malloc((words + 3) * sizeof *made + room);
    if (!made) return NULL;
    text = (char *)(made + words + 3);
    made[at++] = text;
    text += snprintf(text, room, "LD_PRELOAD=%s%s%s", shim, *preloaded ? ":" : "", preloaded) + 1;
    made[at++] = text;
    snprintf(text, strlen(name) + 32, HOST_TTY "=%u %s", device, name);
    for (k = 0; k < words; k++)
        if (!is_of(old[k], "LD_PRELOAD") && !is_of(old[k], HOST_TTY)) made[at++] = old[k];
    made[at] = NULL;
    return made;
}
