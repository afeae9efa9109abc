/* Loaded before the C library: accepting a client of a TCP listener fails first, once for each client, with the errors whose numbers
   REFUSED_ACCEPTS lists, one after the other, as where the network fails under a connection that waits (accept(2)). */
#define _GNU_SOURCE
#include <dlfcn.h>
#include <errno.h>
#include <poll.h>
#include <stdlib.h>
#include <sys/socket.h>

typedef int accepter(int, struct sockaddr *, socklen_t *, int);

/* What is left of the list, and whether the client that comes next has met its error. */
static const char *left;
static int has_failed;

static int is_tcp_with_client(int listener)
{
    int domain = 0;
    socklen_t size = sizeof domain;
    struct pollfd asked = {listener, POLLIN, 0};
    return getsockopt(listener, SOL_SOCKET, SO_DOMAIN, &domain, &size) == 0 && domain == AF_INET && poll(&asked, 1, 0) == 1;
}

int accept4(int listener, struct sockaddr *address, socklen_t *size, int flags)
{
    int was = errno, client;
    if (left == NULL && (left = getenv("REFUSED_ACCEPTS")) == NULL)
        left = "";
    if (*left != '\0' && !has_failed && is_tcp_with_client(listener)) {
        char *end;
        errno = (int)strtol(left, &end, 10);
        left = *end == ',' ? end + 1 : end;
        has_failed = 1;
        return -1;
    }
    errno = was;
    client = ((accepter *)dlsym(RTLD_NEXT, "accept4"))(listener, address, size, flags);
    if (client >= 0)
        has_failed = 0;
    return client;
}
