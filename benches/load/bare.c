/* bare PORT [THREADS]: a server that does no more than accept each client and reset it. What a proxy's refusal takes beyond this
 * is its own; this is what the system takes. Its threads share one listener. Linux, no dependency beyond libc.
 */
#define _GNU_SOURCE
#include <netinet/in.h>
#include <pthread.h>
#include <stdio.h>
#include <stdlib.h>
#include <sys/epoll.h>
#include <sys/socket.h>
#include <unistd.h>

static int listener;

static void *serve(void *unused)
{
	struct sockaddr_storage nowhere = { .ss_family = AF_UNSPEC };
	struct epoll_event event = { .events = EPOLLIN | EPOLLEXCLUSIVE };
	int watch = epoll_create1(0);
	if (epoll_ctl(watch, EPOLL_CTL_ADD, listener, &event))
		return unused;
	while (epoll_wait(watch, &event, 1, -1) >= 0) {
		struct sockaddr_in peer;
		socklen_t size = sizeof peer;
		int client;
		while ((client = accept4(listener, (void *)&peer, &size, SOCK_CLOEXEC)) >= 0) {
			/* A connection to no address ends this one by a reset. */
			connect(client, (void *)&nowhere, sizeof peer);
			close(client);
		}
	}
	return unused;
}

int main(int count, char **words)
{
	struct sockaddr_in at = { .sin_family = AF_INET, .sin_addr.s_addr = htonl(INADDR_LOOPBACK),
	                          .sin_port = htons(count > 1 ? atoi(words[1]) : 0) };
	int one = 1, threads = count > 2 ? atoi(words[2]) : 1;
	listener = socket(AF_INET, SOCK_STREAM | SOCK_NONBLOCK, 0);
	setsockopt(listener, SOL_SOCKET, SO_REUSEADDR, &one, sizeof one);
	if (bind(listener, (void *)&at, sizeof at) || listen(listener, 4096)) {
		perror("bare");
		return 1;
	}
	while (--threads > 0) {
		pthread_t thread;
		if (pthread_create(&thread, NULL, serve, NULL)) {
			fputs("bare: no thread\n", stderr);
			return 1;
		}
	}
	serve(NULL);
	return 1;
}
