/* A duplex server to copy: `server [PORT [SELECTOR]]` answers data with the same data. Callers have to name the session selector
 * if there is one. Your application goes into `answer`. docs/TUTORIAL.md and docs/GUIDE.md (Bounds) explain the rest. */
#define _GNU_SOURCE
#include <errno.h>
#include <netinet/in.h>
#include <netinet/tcp.h>
#include <osi.h>
#include <poll.h>
#include <stdio.h>
#include <stdlib.h>
#include <string.h>
#include <time.h>
#include <unistd.h>

enum { WAIT = 10, MOST_PEERS = 256 };         /* seconds that a peer may owe something; places */
enum { MOST_READ = 8192, MOST_KEPT = 65536 }; /* octets of a peer: that a turn reads; that are not whole yet */
enum { MOST_OUTGOING = 262144 };              /* octets that wait for the socket; and of a connection, those that wait for credit */

static struct peer {
    osi_end end;
    int socket;            /* 0 if this place is free */
    bool has_session;      /* its user received an indication */
    time_t shown;          /* when the last one came; before the first, when the peer connected */
    time_t whole, written; /* when it last owed no session and no rest of data; when it last owed no reading */
} peers[MOST_PEERS];
static const char *selector = "";
static struct timespec now; /* the begin of this turn */

/* Your application. Data is lent until the next call with this end, so it is copied first. */
static uint32_t answer(osi_end *end, const osi_indication *i)
{
    static uint8_t octets[MOST_KEPT + MOST_READ]; /* (no data has more) */
    const size_t length = i->user_data.length;
    memcpy(octets, i->user_data.at, length);
    if (osi_unsent(end, i->reference) > MOST_OUTGOING) /* it asks, and takes no answers */
        return osi_disconnect(end, i->reference);
    return osi_data(end, i->reference, octets, length);
}

static uint32_t accept_or_refuse(osi_end *end, const osi_indication *i)
{
    osi_addressing a;
    osi_addresses(end, i->reference, &a);
    const size_t length = strlen(selector);
    const bool is_it = a.called_selector.length == length && memcmp(a.called_selector.octets, selector, length) == 0;
    if ((is_it || length == 0) && i->requirements & OSI_DUPLEX)
        return osi_accept(end, i->reference, OSI_DUPLEX, 0, &(osi_sides){OSI_ASKER}, OSI_NO_DATA);
    return osi_refuse(end, i->reference, OSI_NO_DATA);
}

static void show_all(struct peer *p)
{
    for (osi_indication i; osi_next(&p->end, &i);) {
        const uint32_t code = i.tag == OSI_CONNECT   ? accept_or_refuse(&p->end, &i)
                              : i.tag == OSI_DATA    ? answer(&p->end, &i)
                              : i.tag == OSI_RELEASE ? osi_release_accept(&p->end, i.reference, OSI_NO_DATA)
                                                     : OSI_OK;
        p->has_session = true;
        p->shown = p->whole = now.tv_sec;
        if (i.tag != OSI_DATA || code != OSI_OK) /* (a refused call changes nothing) */
            fprintf(stderr, "%d: %s %s\n", p->socket, osi_indication_name(i.tag), osi_code_name(code));
    }
}

/* Closes. (Before osi_broken, osi_ended would answer OSI_END_NONE for a peer that was lost.) */
static void lose(struct peer *p, const char *why)
{
    uint64_t detail;
    osi_broken(&p->end);
    show_all(p);
    fprintf(stderr, "%d: %s, %s\n", p->socket, why, osi_end_name(osi_ended(&p->end, &detail)));
    osi_free(&p->end);
    close(p->socket);
    p->socket = 0;
}

/* Reads once and writes once. Whether the byte connection goes on. */
static bool carry(struct peer *p, short found)
{
    static uint8_t piece[MOST_READ];
    osi_octets octets;
    const ssize_t came = found & ~POLLOUT ? recv(p->socket, piece, sizeof piece, 0) : 0;
    if (found & ~POLLOUT && (came == 0 || (came < 0 && errno != EAGAIN)))
        return false;
    for (ssize_t used = 0; used < came; show_all(p)) {
        osi_fed fed;
        osi_feed(&p->end, piece + used, (size_t)(came - used), &fed);
        used += (ssize_t)fed.used;
    }
    osi_outgoing(&p->end, &octets);
    const ssize_t sent = octets.length > 0 ? send(p->socket, octets.at, octets.length, MSG_NOSIGNAL) : 0;
    if (sent < 0)
        return errno == EAGAIN;
    p->written = now.tv_sec;
    return osi_taken(&p->end, (size_t)sent) == OSI_OK;
}

/* The turn of one peer. It is closed if it is over, or owes something for too long: a session, the rest of data, reading. */
static void turn(struct peer *p, short found)
{
    const bool goes_on = carry(p, found), is_over = osi_is_over(&p->end);
    if (p->has_session && osi_kept(&p->end) == 0)
        p->whole = now.tv_sec;
    if (!goes_on || is_over)
        lose(p, is_over ? "it is over" : "the peer has closed");
    else if (now.tv_sec - p->whole > WAIT || now.tv_sec - p->written > WAIT || osi_kept(&p->end) > MOST_KEPT)
        lose(p, "the peer is too slow, or sends too much");
}

/* Takes a peer. If no place is free, one without a session, or else the one that sent nothing whole for longest, gives way. */
static void take(int socket)
{
    struct peer *place = peers;
    for (struct peer *p = peers; p < peers + MOST_PEERS && place->socket > 0; p++)
        if (p->socket == 0 || (p->has_session == place->has_session ? p->shown < place->shown : place->has_session))
            place = p;
    if (place->socket > 0)
        lose(place, "it gives way to another peer");
    *place = (struct peer){OSI_END, socket, false, now.tv_sec, now.tv_sec, now.tv_sec};
    if (osi_called(&place->end, &(osi_terms){OSI_CLASS_0 | OSI_CLASS_2, 13, 15}) != OSI_OK)
        lose(place, "there is no memory");
}

int main(int count, char **words)
{
    struct sockaddr_in own = {.sin_family = AF_INET, .sin_addr.s_addr = htonl(INADDR_LOOPBACK)};
    struct pollfd waits[MOST_PEERS + 1] = {{0}};
    const int yes = 1, listener = waits[MOST_PEERS].fd = socket(AF_INET, SOCK_STREAM | SOCK_NONBLOCK, 0);
    own.sin_port = htons((uint16_t)(count > 1 ? atoi(words[1]) : 4000));
    selector = count > 2 ? words[2] : "";
    setsockopt(listener, SOL_SOCKET, SO_REUSEADDR, &yes, sizeof yes);
    setsockopt(listener, IPPROTO_TCP, TCP_NODELAY, &yes, sizeof yes); /* the sockets that it accepts have it too */
    if (bind(listener, (struct sockaddr *)&own, sizeof own) != 0 || listen(listener, MOST_PEERS) != 0)
        return perror("server"), 2;
    for (waits[MOST_PEERS].events = POLLIN;;) {
        for (int i = 0; i < MOST_PEERS; i++) {
            osi_octets octets;
            osi_outgoing(&peers[i].end, &octets);
            waits[i].fd = peers[i].socket > 0 ? peers[i].socket : -1;
            waits[i].events = (octets.length <= MOST_OUTGOING ? POLLIN : 0) | (octets.length > 0 ? POLLOUT : 0);
        }
        poll(waits, MOST_PEERS + 1, 1000);
        clock_gettime(CLOCK_MONOTONIC, &now);
        for (int i = 0; i < MOST_PEERS; i++)
            if (peers[i].socket > 0)
                turn(&peers[i], waits[i].revents);
        for (int most = 16, made; most > 0 && (made = accept4(listener, NULL, NULL, SOCK_NONBLOCK)) > 0; most--)
            take(made);
    }
}
