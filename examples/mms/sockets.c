/* Sockets that listen or connect, by IPv6 and IPv4. */
#define _GNU_SOURCE
#include "link.h"

#include <errno.h>
#include <fcntl.h>
#include <netdb.h>
#include <netinet/in.h>
#include <netinet/tcp.h>
#include <poll.h>
#include <string.h>
#include <sys/socket.h>
#include <unistd.h>

/* The addresses of a host; NULL if there are none, after a line that says why. */
static struct addrinfo *addresses(const char *program, const char *host, unsigned long port, int flags)
{
    struct addrinfo hints, *found = NULL;
    char number[24];
    memset(&hints, 0, sizeof hints);
    hints.ai_family = AF_UNSPEC;
    hints.ai_socktype = SOCK_STREAM;
    hints.ai_flags = flags | AI_NUMERICSERV;
    snprintf(number, sizeof number, "%lu", port);
    const int code = getaddrinfo(host, number, &hints, &found);
    if (code != 0)
        fprintf(stderr, "%s: %s: %s\n", program, host == NULL ? number : host, gai_strerror(code));
    return code == 0 ? found : NULL;
}

static int listens_on(const struct addrinfo *address, bool share)
{
    int yes = 1, no = 0;
    const int made = socket(address->ai_family, SOCK_STREAM | SOCK_CLOEXEC | SOCK_NONBLOCK, 0);
    if (made < 0)
        return -1;
    setsockopt(made, SOL_SOCKET, SO_REUSEADDR, &yes, sizeof yes);
    if (share)
        setsockopt(made, SOL_SOCKET, SO_REUSEPORT, &yes, sizeof yes);
    if (address->ai_family == AF_INET6)
        setsockopt(made, IPPROTO_IPV6, IPV6_V6ONLY, &no, sizeof no);
    if (bind(made, address->ai_addr, address->ai_addrlen) == 0 && listen(made, SOMAXCONN) == 0)
        return made;
    const int why = errno;
    close(made);
    errno = why;
    return -1;
}

int link_listen(const char *program, const char *host, unsigned long port, bool share)
{
    struct addrinfo *all = addresses(program, host, port, AI_PASSIVE);
    int made = -1;
    /* (the address "any" of IPv6 accepts IPv4 too, so it is tried first) */
    for (int family = AF_INET6; made < 0 && all != NULL; family = AF_INET) {
        for (struct addrinfo *each = all; each != NULL && made < 0; each = each->ai_next)
            made = each->ai_family == family ? listens_on(each, share) : -1;
        if (family == AF_INET)
            break;
    }
    if (made < 0 && all != NULL)
        fprintf(stderr, "%s: port %lu: %s\n", program, port, strerror(errno));
    if (all != NULL)
        freeaddrinfo(all);
    return made;
}

int link_port(int listener)
{
    struct sockaddr_storage own;
    socklen_t size = sizeof own;
    memset(&own, 0, sizeof own);
    getsockname(listener, (struct sockaddr *)&own, &size);
    return ntohs(own.ss_family == AF_INET6 ? ((struct sockaddr_in6 *)&own)->sin6_port : ((struct sockaddr_in *)&own)->sin_port);
}

/* Connects within this many seconds. If it fails, -1, and `errno` says why. */
static int connects_to(const struct addrinfo *address, double wait)
{
    int yes = 1, why = 0;
    socklen_t size = sizeof why;
    const int made = socket(address->ai_family, SOCK_STREAM | SOCK_CLOEXEC | SOCK_NONBLOCK, 0);
    if (made < 0)
        return -1;
    setsockopt(made, IPPROTO_TCP, TCP_NODELAY, &yes, sizeof yes);
    if (connect(made, address->ai_addr, address->ai_addrlen) != 0) {
        struct pollfd waits = {made, POLLOUT, 0};
        why = errno;
        if (why == EINPROGRESS && poll(&waits, 1, (int)(wait * 1000)) == 0)
            why = ETIMEDOUT;
        else if (why == EINPROGRESS)
            getsockopt(made, SOL_SOCKET, SO_ERROR, &why, &size);
    }
    if (why == 0)
        return made;
    close(made);
    errno = why;
    return -1;
}

int link_connect(const char *program, const char *host, unsigned long port, double wait)
{
    struct addrinfo *all = addresses(program, host, port, 0);
    int made = -1;
    for (struct addrinfo *each = all; each != NULL && made < 0; each = each->ai_next)
        made = connects_to(each, wait);
    if (made < 0 && all != NULL)
        fprintf(stderr, "%s: %s port %lu: %s\n", program, host, port, strerror(errno));
    if (all != NULL)
        freeaddrinfo(all);
    return made;
}
