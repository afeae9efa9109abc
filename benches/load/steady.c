/* steady: a server of which each connection has a thread of its own, so that none waits here for another.
 *   steady PORT                     (binds 127.0.0.1:PORT)
 * The first byte of a connection chooses what it does:
 *   'E'  echo everything until the client's end
 *   'G'  send bytes until the client's end
 */
#include <arpa/inet.h>
#include <netinet/tcp.h>
#include <pthread.h>
#include <signal.h>
#include <stdint.h>
#include <stdio.h>
#include <stdlib.h>
#include <sys/socket.h>
#include <unistd.h>

#define PIECE 65536

static const char zeros[PIECE];

static void echo(int client, char first)
{
    char piece[4096] = {first};
    ssize_t size = 1;
    while (size > 0 && send(client, piece, size, MSG_NOSIGNAL) == size)
        size = recv(client, piece, sizeof piece, 0);
}

static void *serve(void *given)
{
    int client = (int)(intptr_t)given, one = 1;
    char first;
    setsockopt(client, IPPROTO_TCP, TCP_NODELAY, &one, sizeof one);
    if (recv(client, &first, 1, 0) == 1) {
        if (first == 'G')
            while (send(client, zeros, PIECE, MSG_NOSIGNAL) > 0) {
            }
        else
            echo(client, first);
    }
    close(client);
    return NULL;
}

int main(int count, char **words)
{
    struct sockaddr_in at = {.sin_family = AF_INET, .sin_addr.s_addr = htonl(INADDR_LOOPBACK)};
    int one = 1, listener = socket(AF_INET, SOCK_STREAM, 0);
    at.sin_port = htons(count > 1 ? atoi(words[1]) : 0);
    setsockopt(listener, SOL_SOCKET, SO_REUSEADDR, &one, sizeof one);
    if (bind(listener, (void *)&at, sizeof at) || listen(listener, 4096)) {
        perror("bind/listen");
        return 1;
    }
    for (;;) {
        pthread_t thread;
        int client = accept(listener, NULL, NULL);
        if (client >= 0 && pthread_create(&thread, NULL, serve, (void *)(intptr_t)client) == 0)
            pthread_detach(thread);
        else if (client >= 0)
            close(client);
    }
}
