/* Stands between a program and the C library: while a file exists, each read of a socket's datagrams fails with an input or output
 * error, and is noted as a line in another file.
 *
 *     gcc -O2 -shared -fPIC -o failing_reads.so failing_reads.c -ldl
 *     LD_PRELOAD=./failing_reads.so FAILING=PATH FAILED=PATH PROGRAM
 */
#define _GNU_SOURCE
#include <dlfcn.h>
#include <errno.h>
#include <fcntl.h>
#include <stdlib.h>
#include <sys/socket.h>
#include <unistd.h>

static int fails(void)
{
    const char *path = getenv("FAILING");
    if (path == NULL || access(path, F_OK) != 0) {
        return 0;
    }
    int file = open(getenv("FAILED"), O_WRONLY | O_CREAT | O_APPEND, 0600);
    if (file >= 0) {
        ssize_t written = write(file, "\n", 1);
        (void)written;
        close(file);
    }
    return 1;
}

ssize_t recvfrom(int socket, void *octets, size_t room, int flags, struct sockaddr *address, socklen_t *length)
{
    typedef ssize_t call(int, void *, size_t, int, struct sockaddr *, socklen_t *);
    call *next = (call *)dlsym(RTLD_NEXT, "recvfrom");
    if (fails()) {
        errno = EIO;
        return -1;
    }
    return next(socket, octets, room, flags, address, length);
}
