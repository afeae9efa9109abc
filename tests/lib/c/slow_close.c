/* Loaded before the C library: whoever closes a socket of TCP stands still for SLOW_CLOSE milliseconds afterwards. So what is done after
   the peer has heard of the end comes late. */
#define _GNU_SOURCE
#include <dlfcn.h>
#include <stdlib.h>
#include <sys/socket.h>
#include <time.h>

typedef int closer(int);

int close(int number)
{
    const char *wait = getenv("SLOW_CLOSE");
    struct sockaddr_storage here = {0};
    socklen_t size = sizeof here;
    int is_tcp = getsockname(number, (struct sockaddr *)&here, &size) == 0 && here.ss_family != AF_UNIX;
    int done = ((closer *)dlsym(RTLD_NEXT, "close"))(number);
    if (is_tcp && wait != NULL) {
        struct timespec rest = {atol(wait) / 1000, atol(wait) % 1000 * 1000000};
        nanosleep(&rest, NULL);
    }
    return done;
}
