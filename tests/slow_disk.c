/* Stands between a program and the C library: each flush of a file or folder takes so many milliseconds longer.
 *
 *     gcc -O2 -shared -fPIC -o slow_disk.so slow_disk.c -ldl
 *     FLUSH_MS=1000 LD_PRELOAD=./slow_disk.so PROGRAM
 */
#define _GNU_SOURCE
#include <dlfcn.h>
#include <stdlib.h>
#include <time.h>

static void rest(void)
{
    const char *words = getenv("FLUSH_MS");
    long milliseconds = words != NULL ? atol(words) : 0;
    struct timespec length = {milliseconds / 1000, milliseconds % 1000 * 1000000};
    while (nanosleep(&length, &length) != 0)
        ;
}

int fsync(int file)
{
    int (*next)(int) = (int (*)(int))dlsym(RTLD_NEXT, "fsync");
    rest();
    return next(file);
}

int fdatasync(int file)
{
    int (*next)(int) = (int (*)(int))dlsym(RTLD_NEXT, "fdatasync");
    rest();
    return next(file);
}
