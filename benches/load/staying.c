/* staying PORT CLIENTS EXCHANGES: so many clients that come at once and stay. Each sends 64 bytes, waits until they are back, and sends
   them again, until so many exchanges were made by all together. It says how many a second that were. */
#include <arpa/inet.h>
#include <netinet/tcp.h>
#include <stdio.h>
#include <stdlib.h>
#include <sys/epoll.h>
#include <sys/socket.h>
#include <time.h>
#include <unistd.h>

enum { SIZE = 64 };

static double now(void)
{
    struct timespec time;
    clock_gettime(CLOCK_MONOTONIC, &time);
    return time.tv_sec + time.tv_nsec / 1e9;
}

int main(int count, char **words)
{
    if (count < 4)
        return 2;
    struct sockaddr_in there = {.sin_family = AF_INET, .sin_port = htons(atoi(words[1])), .sin_addr.s_addr = htonl(INADDR_LOOPBACK)};
    int clients = atoi(words[2]), one = 1, all = epoll_create1(0);
    long wanted = atol(words[3]), made = 0, *back = calloc(1 << 16, sizeof *back);
    static char bytes[4096];

    for (int i = 0; i < clients; i++) {
        int client = socket(AF_INET, SOCK_STREAM, 0);
        struct epoll_event hears = {.events = EPOLLIN, .data.fd = client};
        if (client < 0 || connect(client, (struct sockaddr *)&there, sizeof there))
            return perror("connect"), 1;
        setsockopt(client, IPPROTO_TCP, TCP_NODELAY, &one, sizeof one);
        epoll_ctl(all, EPOLL_CTL_ADD, client, &hears);
        if (write(client, bytes, SIZE) != SIZE)
            return perror("write"), 1;
    }
    double began = now();
    while (made < wanted) {
        struct epoll_event ready[64];
        int few = epoll_wait(all, ready, 64, 10000);
        if (few <= 0)
            return fputs("nothing comes back\n", stderr), 1;
        for (int i = 0; i < few; i++) {
            int client = ready[i].data.fd;
            ssize_t size = read(client, bytes, sizeof bytes);
            if (size <= 0)
                return fputs("a connection has ended\n", stderr), 1;
            for (back[client] += size; back[client] >= SIZE; back[client] -= SIZE, made++)
                if (write(client, bytes, SIZE) != SIZE)
                    return perror("write"), 1;
        }
    }
    printf("%.0f\n", made / (now() - began));
    return 0;
}
