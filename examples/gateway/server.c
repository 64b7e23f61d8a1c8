/* The called side, for many peers at once. It takes byte connections, accepts each connection that a peer asks for, confirms
 * each point, answers after it has received the tokens, and releases the connection.
 *
 *   server [--port 4000] [--peers COUNT] [--classes 0|2|20] [--window 1..15] [--tsdu OCTETS] [--wait SECONDS]
 *          [--log FILE|-] [--capture NAME] [--stall OCTETS]
 *
 * It prints the port that it listens on (0 takes a free one), and after each peer has gone, what that peer sent. With --peers
 * it ends after COUNT peers have come and gone. It gives up a peer that asks for no connection within --wait seconds, that is
 * silent for that long, that has not ended a packet or data by then, or reads nothing; and if all places are taken, the least
 * active one. It logs this. With --tsdu it takes and sends TSDUs of at most this many octets, 64 to 65535, if the
 * client names a size too. With --stall it stops for good once it has sent this many octets to a peer. --capture is for one
 * peer. */
#define _POSIX_C_SOURCE 200809L
#include "gateway.h"

#include <arpa/inet.h>
#include <errno.h>
#include <fcntl.h>
#include <netinet/in.h>
#include <netinet/tcp.h>
#include <poll.h>
#include <stdlib.h>
#include <string.h>
#include <sys/socket.h>
#include <unistd.h>

#define UNITS (OSI_HALF_DUPLEX | OSI_MINOR_SYNC | OSI_NEGOTIATED_RELEASE)
#define MOST_PEERS 256

/* A byte connection, and what it has received. */
struct peer {
    struct gateway gateway;
    unsigned long messages;
    unsigned long octets;
    uint16_t tsdu;
};

struct server {
    int listener;
    FILE *log;
    struct peer *peers[MOST_PEERS];
    int here;             /* how many peers are here */
    unsigned long awaits; /* how many more may come */
    int count;            /* the command line */
    char **words;
};

/* The tokens have come: sends the number of messages, and asks for the release. */
static void answer(struct gateway *g, uint16_t r)
{
    const struct peer *peer = g->user;
    char text[64];
    int length = snprintf(text, sizeof text, "%lu messages", peer->messages);
    gateway_did(g, r, "data", osi_data(&g->end, r, (const uint8_t *)text, (size_t)length));
    gateway_did(g, r, "release", osi_release(&g->end, r, OSI_NO_DATA));
}

static void shown(struct gateway *g, const osi_indication *i)
{
    struct peer *peer = g->user;
    static const osi_sides asker = {OSI_ASKER, OSI_ASKER, OSI_ASKER, OSI_ASKER};
    uint16_t r = i->reference;
    switch (i->tag) {
    case OSI_CONNECT:
        gateway_did(g, r, "accept", osi_accept_sized(&g->end, r, i->requirements & UNITS, 0, &asker, peer->tsdu,
                                                     peer->tsdu, OSI_NO_DATA));
        break;
    case OSI_DATA:
        peer->messages++;
        peer->octets += i->user_data.length;
        break;
    case OSI_MINOR:
        if (i->confirm && gateway_may_answer(g, r))
            gateway_did(g, r, "minorconfirm", osi_minor_confirm(&g->end, r, i->number, OSI_NO_DATA));
        break;
    case OSI_GIVEN:
        if (gateway_may_answer(g, r))
            answer(g, r);
        break;
    default:
        break;
    }
}

static int listens(const char *port, int *listener)
{
    struct sockaddr_in own = {0};
    socklen_t size = sizeof own;
    int yes = 1;
    own.sin_family = AF_INET;
    own.sin_port = htons((uint16_t)atoi(port));
    own.sin_addr.s_addr = htonl(INADDR_LOOPBACK);
    *listener = socket(AF_INET, SOCK_STREAM, 0);
    setsockopt(*listener, SOL_SOCKET, SO_REUSEADDR, &yes, sizeof yes);
    if (bind(*listener, (struct sockaddr *)&own, sizeof own) != 0 || listen(*listener, MOST_PEERS) != 0)
        return -1;
    fcntl(*listener, F_SETFL, O_NONBLOCK);
    getsockname(*listener, (struct sockaddr *)&own, &size);
    return ntohs(own.sin_port);
}

/* Removes the peer at this place; the last one moves there. */
static void forget(struct server *s, int place)
{
    struct peer *peer = s->peers[place];
    printf("took %lu messages, %lu octets\n", peer->messages, peer->octets);
    fflush(stdout);
    gateway_close(&peer->gateway);
    free(peer);
    s->peers[place] = s->peers[--s->here];
}

/* If all places are taken, gives up the least active peer. */
static void make_place(struct server *s)
{
    int least = 0;
    if (s->here < MOST_PEERS)
        return;
    for (int i = 1; i < s->here; i++)
        if (gateway_is_less_active(&s->peers[i]->gateway, &s->peers[least]->gateway))
            least = i;
    gateway_give_up(&s->peers[least]->gateway, "it gives way to another peer");
    forget(s, least);
}

/* Takes a byte connection. If memory runs out, it closes it at once. */
static void take_peer(struct server *s, int socket)
{
    int yes = 1;
    struct peer *peer = calloc(1, sizeof *peer);
    if (peer == NULL) {
        close(socket);
        return;
    }
    setsockopt(socket, IPPROTO_TCP, TCP_NODELAY, &yes, sizeof yes);
    peer->tsdu = (uint16_t)strtoul(option(s->count, s->words, "--tsdu", "0"), NULL, 10);
    peer->gateway = (struct gateway){.end = OSI_END, .log = s->log, .shown = shown, .user = peer};
    peer->gateway.stall_at = (size_t)atol(option(s->count, s->words, "--stall", "0"));
    s->awaits--;
    make_place(s);
    if (gateway_open(&peer->gateway, socket, false, s->count, s->words)) {
        s->peers[s->here++] = peer;
        return;
    }
    gateway_close(&peer->gateway);
    free(peer);
}

/* Accepts the peers that wait, some of them in a turn. */
static void take_peers(struct server *s)
{
    for (int most = 16; most > 0 && s->awaits > 0; most--) {
        const int socket = accept(s->listener, NULL, NULL);
        if (socket < 0)
            return;
        take_peer(s, socket);
    }
}

/* Waits until there is something to do, and does it. */
static void turn(struct server *s)
{
    struct pollfd waits[1 + MOST_PEERS];
    const int here = s->here;
    int timeout = -1;
    waits[0] = (struct pollfd){s->awaits > 0 ? s->listener : -1, POLLIN, 0};
    for (int i = 0; i < here; i++) {
        struct gateway *g = &s->peers[i]->gateway;
        const int own = gateway_timeout(g);
        waits[1 + i] = (struct pollfd){g->socket, gateway_events(g), 0};
        timeout = timeout < 0 || own < timeout ? own : timeout;
    }
    if (poll(waits, (nfds_t)(1 + here), timeout) < 0 && errno != EINTR)
        exit(2);
    for (int i = here - 1; i >= 0; i--)
        if (!gateway_turn(&s->peers[i]->gateway, waits[1 + i].revents))
            forget(s, i);
    if (waits[0].revents != 0)
        take_peers(s);
}

int main(int count, char **words)
{
    struct server s = {.count = count, .words = words, .log = log_file(count, words)};
    const char *peers = option(count, words, "--peers", NULL);
    int port = listens(option(count, words, "--port", "4000"), &s.listener);
    if (port < 0) {
        perror("server");
        return 2;
    }
    printf("port %d\n", port);
    fflush(stdout);
    s.awaits = peers != NULL ? strtoul(peers, NULL, 10) : (unsigned long)-1;
    while (s.awaits > 0 || s.here > 0)
        turn(&s);
    close(s.listener);
    if (s.log != NULL && s.log != stdout)
        fclose(s.log);
    return 0;
}
