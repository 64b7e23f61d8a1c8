/* The loop over TCP that the programs of one message after the other share: two processes on loopback, with sockets, pieces and
 * bounds as in examples/gateway. */
#ifndef LOOP_H
#define LOOP_H
#include "timer.h"

#include <arpa/inet.h>
#include <netinet/in.h>
#include <netinet/tcp.h>
#include <poll.h>
#include <stdint.h>
#include <stdlib.h>
#include <sys/socket.h>
#include <sys/time.h>
#include <sys/wait.h>
#include <unistd.h>

#define PIECE 65536
#define MOST_WAITING 262144u

/* How many messages of how many octets, and the window: 0 for none. */
struct task {
    unsigned long count, window;
    size_t octets;
};

static void must(int holds, const char *what)
{
    if (holds)
        return;
    perror(what);
    exit(1);
}

static short wait_for(int socket, short events)
{
    struct pollfd waits = {socket, events, 0};
    must(poll(&waits, 1, 10000) == 1, "poll");
    return waits.revents;
}

static int settled(int socket)
{
    const int yes = 1;
    const struct timeval patience = {10, 0};
    must(socket >= 0, "socket");
    setsockopt(socket, IPPROTO_TCP, TCP_NODELAY, &yes, sizeof yes);
    setsockopt(socket, SOL_SOCKET, SO_RCVTIMEO, &patience, sizeof patience);
    return socket;
}

/* The seconds in which one process sends everything to another over loopback. */
static double seconds_of(const struct task *t, void send_all(int, const struct task *), void take_all(int, const struct task *))
{
    struct sockaddr_in own = {.sin_family = AF_INET, .sin_addr.s_addr = htonl(INADDR_LOOPBACK)};
    socklen_t size = sizeof own;
    int status;
    const int listener = socket(AF_INET, SOCK_STREAM, 0), made = socket(AF_INET, SOCK_STREAM, 0);
    must(bind(listener, (struct sockaddr *)&own, size) == 0 && listen(listener, 1) == 0, "listen");
    getsockname(listener, (struct sockaddr *)&own, &size);
    const pid_t taker = fork();
    must(taker >= 0, "fork");
    if (taker == 0) {
        take_all(settled(accept(listener, NULL, NULL)), t);
        _exit(0);
    }
    must(connect(made, (struct sockaddr *)&own, size) == 0, "connect");
    const double began = now();
    send_all(settled(made), t);
    const double took = now() - began;
    must(waitpid(taker, &status, 0) == taker && status == 0, "the side that takes");
    return took;
}

static void tell(const struct task *t, double took)
{
    printf("%lu messages of %zu octets: %.0f messages/s, %.0f MB/s\n", t->count, t->octets, (double)t->count / took,
           (double)t->count * (double)t->octets / took / 1e6);
}
#endif
