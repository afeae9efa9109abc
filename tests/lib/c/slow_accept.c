/* Loaded before the C library: a worker that has accepted a client from the address SLOW_CLIENT stands still for SLOW_FOR milliseconds,
   as one does that waits for a lock. */
#define _GNU_SOURCE
#include <arpa/inet.h>
#include <dlfcn.h>
#include <errno.h>
#include <stdlib.h>
#include <sys/socket.h>
#include <time.h>

typedef int accepter(int, struct sockaddr *, socklen_t *, int);

int accept4(int listener, struct sockaddr *address, socklen_t *size, int flags)
{
    const char *slow = getenv("SLOW_CLIENT"), *wait = getenv("SLOW_FOR");
    int client = ((accepter *)dlsym(RTLD_NEXT, "accept4"))(listener, address, size, flags), was = errno;
    if (client >= 0 && slow != NULL && wait != NULL && address != NULL && address->sa_family == AF_INET
        && ((struct sockaddr_in *)address)->sin_addr.s_addr == inet_addr(slow)) {
        struct timespec rest = {atol(wait) / 1000, atol(wait) % 1000 * 1000000};
        nanosleep(&rest, NULL);
    }
    errno = was;
    return client;
}
