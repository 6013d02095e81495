/* Stands between a program and the C library, and writes down what the program asks of the disk and sends as datagrams, one call a
 * line, in the order in which the calls end:
 *
 *     create PATH, empty PATH, folder PATH, write PATH HEX, flush PATH, rename PATH PATH, link PATH PATH, remove PATH, send HEX
 *
 *     gcc -O2 -shared -fPIC -o disk_calls.so disk_calls.c -ldl
 *     CALLS=calls LD_PRELOAD=./disk_calls.so PROGRAM
 *
 * `create` is a file that wasn't there, `empty` one that was opened without its octets. Calls that failed are left out; paths are as the program gave them, without spaces.
 */
#define _GNU_SOURCE
#include <dlfcn.h>
#include <fcntl.h>
#include <pthread.h>
#include <stdarg.h>
#include <stdio.h>
#include <stdlib.h>
#include <string.h>
#include <sys/socket.h>
#include <sys/stat.h>
#include <sys/types.h>
#include <unistd.h>

#define FILES 1024
#define NEXT(name) ((__typeof__(&name))dlsym(RTLD_NEXT, #name))

static pthread_mutex_t lock = PTHREAD_MUTEX_INITIALIZER;
static char *paths[FILES];
static FILE *calls;

__attribute__((constructor)) static void begin(void)
{
    const char *path = getenv("CALLS");
    calls = path != NULL ? fopen(path, "w") : NULL;
}

/* Writes down a call; the lock is held. */
static void note(const char *call, const char *path, const char *more, const unsigned char *octets, size_t count)
{
    if (calls == NULL)
        return;
    fprintf(calls, "%s %s%s%s ", call, path, more == NULL ? "" : " ", more == NULL ? "" : more);
    for (size_t place = 0; place < count; place++)
        fprintf(calls, "%02x", octets[place]);
    fputc('\n', calls);
    fflush(calls);
}

/* Notes under which path a file is open, and the call that made or emptied it. */
static int opened(int file, const char *path, const char *call)
{
    if (file < 0 || file >= FILES)
        return file;
    pthread_mutex_lock(&lock);
    free(paths[file]);
    paths[file] = strdup(path);
    if (call != NULL)
        note(call, path, NULL, NULL, 0);
    pthread_mutex_unlock(&lock);
    return file;
}

static mode_t mode_in(int flags, va_list rest)
{
    return flags & (O_CREAT | O_TMPFILE) ? va_arg(rest, mode_t) : 0;
}

/* A call that opens a file, with the words that it takes and those that it hands on. */
#define OPENS(name, takes, gives)                                                  \
    int name takes                                                                 \
    {                                                                              \
        va_list words;                                                             \
        va_start(words, flags);                                                    \
        mode_t mode = mode_in(flags, words);                                       \
        va_end(words);                                                             \
        const char *call = (flags & O_TRUNC) != 0 ? "empty" : NULL;                \
        if ((flags & O_CREAT) != 0 && access(path, F_OK) != 0)                     \
            call = "create";                                                       \
        int (*next) takes = (int (*) takes)dlsym(RTLD_NEXT, #name);                \
        return opened(next gives, path, call);                                     \
    }

OPENS(open, (const char *path, int flags, ...), (path, flags, mode))
OPENS(open64, (const char *path, int flags, ...), (path, flags, mode))
OPENS(openat, (int folder, const char *path, int flags, ...), (folder, path, flags, mode))
OPENS(openat64, (int folder, const char *path, int flags, ...), (folder, path, flags, mode))

int close(int file)
{
    pthread_mutex_lock(&lock);
    if (file >= 0 && file < FILES) {
        free(paths[file]);
        paths[file] = NULL;
    }
    pthread_mutex_unlock(&lock);
    return NEXT(close)(file);
}

ssize_t write(int file, const void *octets, size_t count)
{
    ssize_t written = NEXT(write)(file, octets, count);
    pthread_mutex_lock(&lock);
    if (written > 0 && file >= 0 && file < FILES && paths[file] != NULL)
        note("write", paths[file], NULL, octets, (size_t)written);
    pthread_mutex_unlock(&lock);
    return written;
}

static int flushed(int file, int status)
{
    pthread_mutex_lock(&lock);
    if (status == 0 && file >= 0 && file < FILES && paths[file] != NULL)
        note("flush", paths[file], NULL, NULL, 0);
    pthread_mutex_unlock(&lock);
    return status;
}

int fsync(int file)
{
    return flushed(file, NEXT(fsync)(file));
}

int fdatasync(int file)
{
    return flushed(file, NEXT(fdatasync)(file));
}

/* Writes down a call that ended well. */
static int noted(int status, const char *call, const char *path, const char *more)
{
    if (status == 0) {
        pthread_mutex_lock(&lock);
        note(call, path, more, NULL, 0);
        pthread_mutex_unlock(&lock);
    }
    return status;
}

/* Writes down a rename that ended well; a file that is open under the old path has the new one from then on. */
static int renamed(int status, const char *from, const char *to)
{
    if (status == 0) {
        pthread_mutex_lock(&lock);
        note("rename", from, to, NULL, 0);
        for (int file = 0; file < FILES; file++) {
            if (paths[file] != NULL && strcmp(paths[file], from) == 0) {
                free(paths[file]);
                paths[file] = strdup(to);
            }
        }
        pthread_mutex_unlock(&lock);
    }
    return status;
}

int rename(const char *from, const char *to)
{
    return renamed(NEXT(rename)(from, to), from, to);
}

int renameat(int from_folder, const char *from, int to_folder, const char *to)
{
    return renamed(NEXT(renameat)(from_folder, from, to_folder, to), from, to);
}

int link(const char *from, const char *to)
{
    return noted(NEXT(link)(from, to), "link", from, to);
}

int linkat(int from_folder, const char *from, int to_folder, const char *to, int flags)
{
    return noted(NEXT(linkat)(from_folder, from, to_folder, to, flags), "link", from, to);
}

int unlink(const char *path)
{
    return noted(NEXT(unlink)(path), "remove", path, NULL);
}

int unlinkat(int folder, const char *path, int flags)
{
    return noted(NEXT(unlinkat)(folder, path, flags), "remove", path, NULL);
}

int mkdir(const char *path, mode_t mode)
{
    return noted(NEXT(mkdir)(path, mode), "folder", path, NULL);
}

int mkdirat(int folder, const char *path, mode_t mode)
{
    return noted(NEXT(mkdirat)(folder, path, mode), "folder", path, NULL);
}

/* A datagram is written down before it leaves. */
ssize_t sendto(int socket, const void *octets, size_t count, int flags, const struct sockaddr *address, socklen_t length)
{
    if (address != NULL && address->sa_family == AF_INET) {
        pthread_mutex_lock(&lock);
        note("send", "-", NULL, octets, count);
        pthread_mutex_unlock(&lock);
    }
    return NEXT(sendto)(socket, octets, count, flags, address, length);
}
