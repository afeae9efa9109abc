/* echo PORT: a server of one thread that sends back what its clients say. */
#include <arpa/inet.h>
#include <netinet/tcp.h>
#include <signal.h>
#include <stdlib.h>
#include <sys/epoll.h>
#include <sys/socket.h>
#include <unistd.h>

int main(int count, char **words)
{
    int listener = socket(AF_INET, SOCK_STREAM, 0), one = 1, all = epoll_create1(0);
    struct sockaddr_in here = {.sin_family = AF_INET, .sin_port = htons(count > 1 ? atoi(words[1]) : 0),
                               .sin_addr.s_addr = htonl(INADDR_LOOPBACK)};
    struct epoll_event ready[64], comes = {.events = EPOLLIN, .data.fd = listener};
    static char bytes[65536];

    signal(SIGPIPE, SIG_IGN);
    setsockopt(listener, SOL_SOCKET, SO_REUSEADDR, &one, sizeof one);
    if (bind(listener, (struct sockaddr *)&here, sizeof here) || listen(listener, 1024))
        return 1;
    epoll_ctl(all, EPOLL_CTL_ADD, listener, &comes);
    for (;;) {
        int few = epoll_wait(all, ready, 64, -1);
        for (int i = 0; i < few; i++) {
            int stream = ready[i].data.fd;
            if (stream == listener) {
                struct epoll_event speaks = {.events = EPOLLIN, .data.fd = accept(listener, NULL, NULL)};
                setsockopt(speaks.data.fd, IPPROTO_TCP, TCP_NODELAY, &one, sizeof one);
                epoll_ctl(all, EPOLL_CTL_ADD, speaks.data.fd, &speaks);
                continue;
            }
            ssize_t size = read(stream, bytes, sizeof bytes);
            if (size <= 0 || write(stream, bytes, size) != size)
                close(stream);
        }
    }
}
