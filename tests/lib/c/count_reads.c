/* Loaded before the C library: the most bytes that the program has read from one TCP connection between two looks at what is
   ready, by epoll_wait, are kept as 8 bytes in the file that COUNTED_READS names. The program has to have one thread that reads. */
#define _GNU_SOURCE
#include <dlfcn.h>
#include <fcntl.h>
#include <stdint.h>
#include <stdlib.h>
#include <string.h>
#include <sys/epoll.h>
#include <sys/socket.h>
#include <unistd.h>

#define CONNECTIONS 4096

typedef ssize_t receiver(int, void *, size_t, int, struct sockaddr *, socklen_t *);
typedef int waiter(int, struct epoll_event *, int, int);

static uint64_t read_since[CONNECTIONS], most;

static void note(int socket, ssize_t size)
{
    const char *path = getenv("COUNTED_READS");
    if (size <= 0 || socket < 0 || socket >= CONNECTIONS || path == NULL)
        return;
    read_since[socket] += (uint64_t)size;
    if (read_since[socket] > most) {
        int file = open(path, O_WRONLY);
        most = read_since[socket];
        if (file >= 0 && pwrite(file, &most, sizeof most, 0) < 0)
            abort();
        close(file);
    }
}

ssize_t recvfrom(int socket, void *place, size_t room, int flags, struct sockaddr *address, socklen_t *length)
{
    ssize_t size = ((receiver *)dlsym(RTLD_NEXT, "recvfrom"))(socket, place, room, flags, address, length);
    note(socket, size);
    return size;
}

ssize_t recv(int socket, void *place, size_t room, int flags)
{
    return recvfrom(socket, place, room, flags, NULL, NULL);
}

int epoll_wait(int poll, struct epoll_event *events, int room, int timeout)
{
    memset(read_since, 0, sizeof read_since);
    return ((waiter *)dlsym(RTLD_NEXT, "epoll_wait"))(poll, events, room, timeout);
}
