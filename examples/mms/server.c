/* An MMS server: takes associations in class 0 and duplex, and answers Identify, GetNameList, Read,
 * GetVariableAccessAttributes and Conclude for the few variables of plant.c. Many clients at once.
 *
 *   server [--port 102] [--host ADDRESS] [--tsap SELECTOR] [--ssel SELECTOR] [--psel SELECTOR] [--wait 10]
 *          [--idle 300] [--clients 256] [--share] [--proxy] [--log] [--capture NAME]
 *
 * It prints the port that it listens on (0 takes a free one), and serves until SIGTERM or SIGINT: then
 * each client gets an abort. README.md in this folder describes the switches. */
#define _GNU_SOURCE
#include "link.h"
#include "plant.h"
#include "words.h"

#include <arpa/inet.h>
#include <errno.h>
#include <netinet/in.h>
#include <netinet/tcp.h>
#include <poll.h>
#include <signal.h>
#include <stdarg.h>
#include <stdlib.h>
#include <string.h>
#include <sys/resource.h>
#include <sys/socket.h>
#include <unistd.h>

struct client {
    struct link link;
    struct server *server;
    struct upper upper;
    unsigned long number;  /* of the clients since the start */
    uint16_t reference;
    uint32_t longest;      /* octets of a PDU of MMS that is sent */
    double was_associated; /* when it was last associated, or when it connected */
    bool is_associated;
};

struct server {
    struct plant plant;
    struct selector tsap, ssel, psel; /* the selectors that clients have to call; empty: any */
    unsigned long wait, idle, most;
    bool share, proxy, log;
    const char *capture;
    unsigned long count; /* clients since the start */
    struct client **clients;
    struct pollfd *polled;
    size_t live;
};

static volatile sig_atomic_t is_to_end;

static void on_signal(int signal)
{
    (void)signal;
    is_to_end = 1;
}

__attribute__((format(printf, 2, 3))) static void tell(struct client *c, const char *format, ...)
{
    va_list words;
    if (!c->server->log)
        return;
    va_start(words, format);
    printf("%lu ", c->number);
    vprintf(format, words);
    putchar('\n');
    fflush(stdout);
    va_end(words);
}

/* ---- one client: association, requests, release */

static bool is_called(const struct selector *own, const uint8_t *octets, size_t length)
{
    return own->length == 0 || (own->length == length && memcmp(own->octets, octets, length) == 0);
}

/* Whether the CR and the CN call this server. */
static bool is_called_here(struct client *c)
{
    osi_addressing a;
    const struct server *s = c->server;
    osi_addresses(&c->link.end, c->reference, &a);
    return is_called(&s->tsap, a.called_tsap.octets, a.called_tsap.length) &&
           is_called(&s->ssel, a.called_selector.octets, a.called_selector.length);
}

static void refuse(struct client *c, enum upper_problem why)
{
    static const char *const names[] = {"", "presentation or ACSE can't be read", "no contexts of ACSE and MMS",
                                        "another application context", "another selector is called",
                                        "duplex is not asked for"};
    struct room room;
    const uint8_t *at;
    const size_t length = upper_refuse(&c->upper, why, &room, &at);
    tell(c, "refused: %s", names[why]);
    if (osi_refuse(&c->link.end, c->reference, at, length) != OSI_OK)
        link_break(&c->link);
}

static void associate(struct client *c, const osi_indication *i)
{
    static const osi_sides asker = {OSI_ASKER, OSI_ASKER, OSI_ASKER, OSI_ASKER};
    uint8_t octets[256];
    struct ber_writer w = ber_writer_of(octets, sizeof octets);
    struct ber data = ber_of(i->user_data.at, i->user_data.length), mms;
    struct mms_pdu pdu;
    struct room room;
    const uint8_t *at;
    const bool is_duplex = (i->requirements & OSI_DUPLEX) != 0;
    enum upper_problem why = upper_read_asked(&c->upper, data, &c->server->psel, &mms);
    if (why == UPPER_NONE && (!mms_read(mms, &pdu) || pdu.kind != MMS_INITIATE_REQUEST))
        why = UPPER_UNREADABLE;
    c->longest = why == UPPER_NONE ? plant_initiate(pdu.body, &w) : 0;
    if (why == UPPER_NONE && c->longest == 0)
        why = UPPER_UNREADABLE;
    if (why == UPPER_NONE && !is_called_here(c))
        why = UPPER_OTHER_CALLED;
    if (why == UPPER_NONE && !is_duplex)
        why = UPPER_NO_DUPLEX;
    if (why != UPPER_NONE) {
        refuse(c, why);
        return;
    }
    const size_t length = upper_accept(&c->upper, &c->server->psel, octets + w.begin, ber_written(&w), &room, &at);
    c->is_associated = osi_accept(&c->link.end, c->reference, OSI_DUPLEX, 0, &asker, at, length) == OSI_OK;
    tell(c, "associated");
}

/* Aborts. If that fails, for example because memory ran out, breaks the connection. */
static void abort_client(struct client *c, const char *why)
{
    struct room room;
    const uint8_t *at;
    const size_t length = upper_abort(&c->upper, &room, &at);
    c->is_associated = false;
    tell(c, "aborted: %s", why);
    if (osi_abort(&c->link.end, c->reference, at, length) != OSI_OK)
        link_break(&c->link);
}

static const char *service_name(uint32_t service)
{
    return service == MMS_IDENTIFY_REQUEST ? "identify"
           : service == MMS_GET_NAME_LIST  ? "names"
           : service == MMS_READ           ? "read"
           : service == MMS_GET_ATTRIBUTES ? "attributes"
                                           : "a service that is not answered";
}

/* One PDU of MMS was received. */
static void answer(struct client *c, const osi_indication *i)
{
    static uint8_t octets[MMS_LONGEST];
    struct ber_writer w = ber_writer_of(octets, c->longest);
    struct ber mms;
    struct mms_pdu pdu;
    struct room room;
    const uint8_t *at;
    if (!upper_read_data(&c->upper, ber_of(i->user_data.at, i->user_data.length), &mms)) {
        abort_client(c, "data is no PDU of presentation");
        return;
    }
    const bool is_readable = mms_read(mms, &pdu);
    if (is_readable && pdu.kind == MMS_CONFIRMED_REQUEST) {
        plant_answer(&c->server->plant, &pdu, &w);
        tell(c, "%s", service_name(pdu.service));
    } else if (is_readable && pdu.kind == MMS_CONCLUDE_REQUEST) {
        ber_put_header(&w, MMS_CONCLUDE_RESPONSE, 0);
        tell(c, "conclude");
    } else if (is_readable && (pdu.kind == MMS_UNCONFIRMED || pdu.kind == MMS_REJECT)) {
        return;
    } else {
        plant_reject(&pdu, is_readable, &w);
        tell(c, "rejected");
    }
    const size_t length = upper_data(&c->upper, octets + w.begin, ber_written(&w), &room, &at);
    if (osi_data(&c->link.end, c->reference, at, length) != OSI_OK)
        abort_client(c, "no memory");
}

static void shown(struct link *l, const osi_indication *i)
{
    struct client *c = l->user;
    struct room room;
    const uint8_t *at;
    size_t length;
    c->reference = i->reference;
    switch (i->tag) {
    case OSI_CONNECT:
        associate(c, i);
        break;
    case OSI_DATA:
        answer(c, i);
        break;
    case OSI_RELEASE:
        length = upper_accept_release(&c->upper, &room, &at);
        tell(c, "released");
        c->is_associated = false;
        if (osi_release_accept(&l->end, c->reference, at, length) != OSI_OK)
            link_break(l);
        break;
    case OSI_ABORTED:
    case OSI_PEER_ABORT:
    case OSI_BAD_UNIT:
        tell(c, i->tag == OSI_BAD_UNIT ? "aborted: a session unit is bad" : "aborted by the client");
        c->is_associated = false;
        break;
    case OSI_LOST:
        tell(c, "lost");
        c->is_associated = false;
        break;
    default:
        break;
    }
}

/* ---- times and bounds */

/* Gives up a client that keeps this server waiting. */
static void keep_time(struct client *c)
{
    const struct server *s = c->server;
    const double time = now(), wait = (double)s->wait;
    if (c->is_associated)
        c->was_associated = time;
    if (link_is_stuck(&c->link, wait)) {
        tell(c, "given up: it is too slow, or sends too much");
        link_break(&c->link);
    } else if (c->is_associated && time - c->link.heard > (double)s->idle) {
        abort_client(c, "it is silent");
    } else if (time - c->was_associated > wait) {
        tell(c, "given up: no association");
        link_break(&c->link);
    }
}

/* If there is no room, closes the client that has waited longest without an association. */
static void make_room(struct server *s)
{
    struct client *oldest = NULL;
    for (size_t i = 0; i < s->live; i++) {
        struct client *c = s->clients[i];
        if (!c->is_associated && (oldest == NULL || c->number < oldest->number))
            oldest = c;
    }
    if (oldest == NULL)
        return;
    tell(oldest, "given up: it gives way to another client");
    link_break(&oldest->link);
}

static void forget(struct server *s, size_t at)
{
    struct client *c = s->clients[at];
    uint64_t detail;
    const uint32_t why = osi_ended(&c->link.end, &detail);
    if (why >= OSI_END_NO_MEMORY)
        tell(c, "closed: %s", osi_end_name(why));
    else
        tell(c, "closed");
    link_close(&c->link);
    free(c);
    s->clients[at] = s->clients[--s->live];
    s->polled[at + 1] = s->polled[s->live + 1];
}

static void forget_closed(struct server *s)
{
    for (size_t at = s->live; at > 0; at--)
        if (s->clients[at - 1]->link.socket < 0)
            forget(s, at - 1);
}

/* ---- new clients */

static void tell_address(struct client *c, const struct sockaddr_storage *from)
{
    char text[INET6_ADDRSTRLEN] = "";
    const bool is_6 = from->ss_family == AF_INET6;
    const void *at = is_6 ? (const void *)&((const struct sockaddr_in6 *)from)->sin6_addr
                          : (const void *)&((const struct sockaddr_in *)from)->sin_addr;
    inet_ntop(from->ss_family, at, text, sizeof text);
    tell(c, "came from %s", text);
}

static void open_client(struct server *s, int socket, const struct sockaddr_storage *from)
{
    const osi_terms terms = {OSI_CLASS_0, 13, 15};
    char name[500];
    int yes = 1;
    struct client *c = calloc(1, sizeof *c);
    if (c == NULL) {
        close(socket);
        return;
    }
    setsockopt(socket, IPPROTO_TCP, TCP_NODELAY, &yes, sizeof yes);
    c->server = s;
    c->number = ++s->count;
    c->was_associated = now();
    c->link.shown = shown;
    c->link.user = c;
    c->link.awaits_proxy = s->proxy;
    snprintf(name, sizeof name, "%s.%lu", s->capture == NULL ? "" : s->capture, c->number);
    const bool is_open = link_open(&c->link, socket, false, &terms, s->capture == NULL ? NULL : name);
    tell_address(c, from);
    if (!is_open)
        link_break(&c->link);
    s->polled[s->live + 1].fd = socket;
    s->polled[s->live + 1].revents = 0;
    s->clients[s->live++] = c;
}

static void take_clients(struct server *s, int listener)
{
    for (int most = 64; most > 0; most--) {
        struct sockaddr_storage from;
        socklen_t size = sizeof from;
        if (s->live == s->most) {
            make_room(s);
            forget_closed(s);
        }
        if (s->live == s->most)
            return;
        const int socket = accept4(listener, (struct sockaddr *)&from, &size, SOCK_NONBLOCK | SOCK_CLOEXEC);
        if (socket < 0)
            return;
        open_client(s, socket, &from);
    }
}

/* ---- the loop */

static bool has_room(const struct server *s)
{
    for (size_t i = 0; i < s->live; i++)
        if (!s->clients[i]->is_associated)
            return true;
    return s->live < s->most;
}

/* Waits at most a second, and then reads and writes for each client. */
static void turn(struct server *s, int listener)
{
    s->polled[0].fd = listener;
    s->polled[0].events = has_room(s) ? POLLIN : 0;
    for (size_t i = 0; i < s->live; i++) {
        s->polled[i + 1].fd = s->clients[i]->link.socket;
        s->polled[i + 1].events = link_awaits(&s->clients[i]->link);
    }
    if (poll(s->polled, s->live + 1, 1000) < 0)
        return;
    for (size_t i = 0; i < s->live; i++) {
        struct client *c = s->clients[i];
        if (link_turn(&c->link, s->polled[i + 1].revents))
            keep_time(c);
    }
    forget_closed(s);
    if (s->polled[0].revents & POLLIN)
        take_clients(s, listener);
}

/* Aborts each associated client, if its socket takes the octets at once. */
static void end_all(struct server *s)
{
    for (size_t i = 0; i < s->live; i++) {
        if (s->clients[i]->is_associated)
            abort_client(s->clients[i], "the server ends");
        link_turn(&s->clients[i]->link, 0);
        link_break(&s->clients[i]->link);
    }
    forget_closed(s);
}

/* Each client needs one file, and with --capture three. False if this process may not have so many. */
static bool has_files(const struct server *s)
{
    struct rlimit files;
    const rlim_t wanted = s->most * (s->capture == NULL ? 1 : 3) + 16;
    if (getrlimit(RLIMIT_NOFILE, &files) != 0 || files.rlim_cur >= wanted)
        return true;
    files.rlim_cur = wanted;
    if (files.rlim_max >= wanted && setrlimit(RLIMIT_NOFILE, &files) == 0)
        return true;
    fprintf(stderr, "server: --clients %lu: this process may not open so many files\n", s->most);
    return false;
}

/* Whether files for the octets of clients can be written. Each is made when its client connects. */
static bool may_capture(const struct server *s)
{
    char name[500];
    if (s->capture == NULL)
        return true;
    snprintf(name, sizeof name, "%s.0.left", s->capture);
    FILE *file = strlen(s->capture) < 400 ? fopen(name, "w") : NULL;
    if (file == NULL) {
        fprintf(stderr, "server: --capture %s: no such file can be written\n", s->capture);
        return false;
    }
    fclose(file);
    unlink(name);
    return true;
}

static int serve(struct server *s, int listener)
{
    struct sigaction action;
    if (!has_files(s) || !may_capture(s))
        return 2;
    memset(&action, 0, sizeof action);
    action.sa_handler = on_signal;
    sigaction(SIGTERM, &action, NULL);
    sigaction(SIGINT, &action, NULL);
    s->clients = calloc(s->most, sizeof *s->clients);
    s->polled = calloc(s->most + 1, sizeof *s->polled);
    if (s->clients == NULL || s->polled == NULL) {
        fprintf(stderr, "server: no memory for %lu clients\n", s->most);
        return 2;
    }
    printf("port %d\n", link_port(listener));
    fflush(stdout);
    while (!is_to_end)
        turn(s, listener);
    end_all(s);
    printf("%lu clients, %lu reads\n", s->count, (unsigned long)s->plant.reads);
    free(s->clients);
    free(s->polled);
    return 0;
}

int main(int count, char **words)
{
    static struct server s;
    const char *host = NULL;
    unsigned long port = 102;
    const struct word known[] = {
        {.name = "--port", .number = &port, .least = 0, .most = 65535},
        {.name = "--host", .text = &host},
        {.name = "--tsap", .selector = &s.tsap, .most = 32},
        {.name = "--ssel", .selector = &s.ssel, .most = 16},
        {.name = "--psel", .selector = &s.psel, .most = 32},
        {.name = "--wait", .number = &s.wait, .least = 1, .most = 3600},
        {.name = "--idle", .number = &s.idle, .least = 1, .most = 86400},
        {.name = "--clients", .number = &s.most, .least = 1, .most = 65536},
        {.name = "--capture", .text = &s.capture},
        {.name = "--share", .is_there = &s.share},
        {.name = "--proxy", .is_there = &s.proxy},
        {.name = "--log", .is_there = &s.log},
    };
    s.wait = 10;
    s.idle = 300;
    s.most = 256;
    const int rest = words_read("server", count, words, known, sizeof known / sizeof known[0]);
    if (rest < 0)
        return 2;
    if (rest < count) {
        fprintf(stderr, "server: %s: there is no such word\n", words[rest]);
        return 2;
    }
    const int listener = link_listen("server", host, port, s.share);
    return listener < 0 ? 2 : serve(&s, listener);
}
