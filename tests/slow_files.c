/* Stands between a program and the C library: a file whose name ends in `.slow` is opened only once a file of its name with
 * `.go` behind it is there, or after thirty seconds, as a disk would that doesn't answer.
 *
 *     gcc -O2 -shared -fPIC -o slow_files.so slow_files.c -ldl
 *     LD_PRELOAD=./slow_files.so PROGRAM
 */
#define _GNU_SOURCE
#include <dlfcn.h>
#include <fcntl.h>
#include <stdarg.h>
#include <stdio.h>
#include <string.h>
#include <sys/types.h>
#include <unistd.h>

static void rest(const char *path)
{
    char go[4096];
    size_t length = strlen(path);
    if (length < 5 || length > 4000 || strcmp(path + length - 5, ".slow") != 0)
        return;
    snprintf(go, sizeof go, "%s.go", path);
    for (int tries = 0; tries < 3000 && access(go, F_OK) != 0; tries++)
        usleep(10000);
}

static mode_t mode_in(int flags, va_list rest)
{
    return flags & (O_CREAT | O_TMPFILE) ? va_arg(rest, mode_t) : 0;
}

/* A call that opens a file, with the words that it takes and those that it hands on. */
#define OPENS(name, takes, gives)                                       \
    int name takes                                                      \
    {                                                                   \
        va_list words;                                                  \
        va_start(words, flags);                                         \
        mode_t mode = mode_in(flags, words);                            \
        va_end(words);                                                  \
        rest(path);                                                     \
        int (*next) takes = (int (*) takes)dlsym(RTLD_NEXT, #name);     \
        return next gives;                                              \
    }

OPENS(open, (const char *path, int flags, ...), (path, flags, mode))
OPENS(open64, (const char *path, int flags, ...), (path, flags, mode))
OPENS(openat, (int folder, const char *path, int flags, ...), (folder, path, flags, mode))
OPENS(openat64, (int folder, const char *path, int flags, ...), (folder, path, flags, mode))
