/* Stands between a program and the C library: a datagram without octets is lost, as behind a firewall.
 *
 *     gcc -O2 -shared -fPIC -o lost_wakes.so lost_wakes.c -ldl
 *     LD_PRELOAD=./lost_wakes.so PROGRAM
 */
#define _GNU_SOURCE
#include <dlfcn.h>
#include <sys/socket.h>
#include <sys/types.h>

ssize_t sendto(int socket, const void *octets, size_t count, int flags, const struct sockaddr *address, socklen_t length)
{
    typedef ssize_t call(int, const void *, size_t, int, const struct sockaddr *, socklen_t);
    call *next = (call *)dlsym(RTLD_NEXT, "sendto");
    return count == 0 ? 0 : next(socket, octets, count, flags, address, length);
}
