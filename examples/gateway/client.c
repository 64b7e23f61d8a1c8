/* The calling side. It asks for a connection, sends messages, sets a minor point after each and waits for
 * its confirmation; then it gives the tokens and accepts the release.
 *
 *   client [--port 4000] [--classes 0|2|20] [--window 1..15] [--tsdu OCTETS] [--wait SECONDS] [--messages 5]
 *          [--log FILE|-] [--capture NAME] [--bulk COUNT] [--size OCTETS] [--points EVERY]
 *
 * With --tsdu it asks for TSDUs of at most this many octets in both directions: 64 to 65535.
 * With --bulk it sends COUNT messages of one size as fast as possible, with one point at the end, and prints messages
 * and megabytes a second. With --points it also sets a point after every EVERY messages, and waits only for the last
 * confirmation. The status is 0 if the connection was released, and 3 if it was lost. */
#define _POSIX_C_SOURCE 200809L
#include "gateway.h"

#include <arpa/inet.h>
#include <netinet/in.h>
#include <netinet/tcp.h>
#include <poll.h>
#include <stdlib.h>
#include <string.h>
#include <sys/socket.h>
#include <time.h>

#define UNITS (OSI_HALF_DUPLEX | OSI_MINOR_SYNC | OSI_NEGOTIATED_RELEASE)
#define TOKENS (OSI_TOKEN_DATA | OSI_TOKEN_MINOR | OSI_TOKEN_RELEASE)

struct plan {
    unsigned long messages, bulk, said, points;
    uint32_t last; /* the number of the point at the end of the bulk */
    size_t size;
    uint8_t *data;
    uint16_t connection, tsdu;
    bool ready, released, lost;
    struct timespec began;
};

/* Sends the next message with a point after it, or gives the tokens after the last message. */
static void go_on(struct gateway *g)
{
    struct plan *plan = g->user;
    uint16_t r = plan->connection;
    char text[64];
    if (plan->said == plan->messages) {
        gateway_did(g, r, "give", osi_give(&g->end, r, TOKENS));
        return;
    }
    int length = snprintf(text, sizeof text, "message %lu", ++plan->said);
    gateway_did(g, r, "data", osi_data(&g->end, r, (const uint8_t *)text, (size_t)length));
    gateway_did(g, r, "minor", osi_minor(&g->end, r, 1, OSI_NO_DATA));
}

static void tell_speed(const struct plan *plan)
{
    struct timespec now;
    clock_gettime(CLOCK_MONOTONIC, &now);
    double seconds = (double)(now.tv_sec - plan->began.tv_sec) + (double)(now.tv_nsec - plan->began.tv_nsec) / 1e9;
    printf("%lu messages of %zu octets: %.0f messages/s, %.0f MB/s\n", plan->bulk, plan->size,
           (double)plan->bulk / seconds, (double)plan->bulk * (double)plan->size / seconds / 1e6);
}

static void shown(struct gateway *g, const osi_indication *i)
{
    struct plan *plan = g->user;
    uint16_t r = i->reference;
    switch (i->tag) {
    case OSI_CONNECTED:
        plan->ready = true;
        clock_gettime(CLOCK_MONOTONIC, &plan->began);
        if (plan->bulk == 0)
            go_on(g);
        break;
    case OSI_MINOR_CONFIRMED:
        if (plan->bulk > 0 && (plan->said < plan->bulk || i->number < plan->last))
            break;
        if (plan->bulk > 0)
            tell_speed(plan);
        go_on(g);
        break;
    case OSI_RELEASE:
        plan->released = gateway_did(g, r, "releaseaccept", osi_release_accept(&g->end, r, OSI_NO_DATA));
        break;
    case OSI_LOST:
    case OSI_ABORTED:
    case OSI_PEER_ABORT:
    case OSI_BAD_UNIT:
        plan->lost = !plan->released;
        break;
    default:
        break;
    }
}

/* Sends messages while only a few octets wait for the socket, and none for the peer's credit. */
static void send_bulk(struct gateway *g)
{
    struct plan *plan = g->user;
    const uint16_t r = plan->connection;
    while (plan->ready && plan->said < plan->bulk && gateway_may_send(g)) {
        if (osi_data(&g->end, r, plan->data, plan->size) != OSI_OK)
            return;
        const bool is_point = ++plan->said == plan->bulk || (plan->points > 0 && plan->said % plan->points == 0);
        if (!is_point)
            continue;
        plan->last = osi_next_serial(&g->end, r);
        if (osi_minor(&g->end, r, 1, OSI_NO_DATA) != OSI_OK)
            return;
    }
    g->has_more = plan->ready && plan->said < plan->bulk;
    if (plan->said == plan->bulk)
        plan->messages = plan->said;
}

static int connects(const char *port)
{
    struct sockaddr_in peer = {0};
    int yes = 1, made = socket(AF_INET, SOCK_STREAM, 0);
    peer.sin_family = AF_INET;
    peer.sin_port = htons((uint16_t)atoi(port));
    peer.sin_addr.s_addr = htonl(INADDR_LOOPBACK);
    if (connect(made, (struct sockaddr *)&peer, sizeof peer) != 0)
        return -1;
    setsockopt(made, IPPROTO_TCP, TCP_NODELAY, &yes, sizeof yes);
    return made;
}

static bool ask(struct gateway *g)
{
    struct plan *plan = g->user;
    osi_opening asked = OSI_OPENING;
    asked.requirements = UNITS;
    asked.user_data.at = (const uint8_t *)"gateway";
    asked.user_data.length = 7;
    asked.size_from_asker = asked.size_from_answerer = plan->tsdu;
    uint32_t code = osi_connect(&g->end, &asked, &plan->connection);
    if (g->log != NULL && code == OSI_OK)
        fprintf(g->log, "left connect ok %u\n", plan->connection);
    else if (g->log != NULL)
        fprintf(g->log, "left connect refused %s\n", code_name(code));
    return code == OSI_OK;
}

/* Waits until there is something to do, and does it. False once everything is done. */
static bool turn(struct gateway *g)
{
    struct pollfd waits = {g->socket, gateway_events(g), 0};
    poll(&waits, 1, gateway_timeout(g));
    return gateway_turn(g, waits.revents);
}

int main(int count, char **words)
{
    struct plan plan = {0};
    struct gateway g = {.end = OSI_END, .socket = -1, .log = log_file(count, words), .shown = shown, .user = &plan};
    int socket = connects(option(count, words, "--port", "4000"));
    if (socket < 0) {
        perror("client");
        return 2;
    }
    plan.messages = strtoul(option(count, words, "--messages", "5"), NULL, 10);
    plan.bulk = strtoul(option(count, words, "--bulk", "0"), NULL, 10);
    plan.points = strtoul(option(count, words, "--points", "0"), NULL, 10);
    plan.size = strtoul(option(count, words, "--size", "1000"), NULL, 10);
    plan.tsdu = (uint16_t)strtoul(option(count, words, "--tsdu", "0"), NULL, 10);
    plan.data = calloc(plan.size + 1, 1);
    if (plan.data == NULL || !gateway_open(&g, socket, true, count, words))
        return 2;
    bool asked = ask(&g);
    if (plan.bulk > 0)
        g.more = send_bulk;
    while (asked && turn(&g)) {}
    gateway_close(&g);
    if (g.log != NULL && g.log != stdout)
        fclose(g.log);
    free(plan.data);
    return plan.lost ? 3 : plan.released ? 0 : 2;
}
