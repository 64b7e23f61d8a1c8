/* Two ends in one process exchange many messages: nothing is lost, and memory does not grow.
 *
 *   soak MESSAGES in|tcp 0|2 CONNECTIONS data|duplex|points|restarts|parts
 *
 * `in` carries the octets of one end to the other in memory, `tcp` over a loopback connection. Each message has
 * its number and 8 to 200 octets that follow from it (with `parts` up to 1,000, while TSDUs have at most 256).
 * The received messages are compared by number and by a checksum over all octets. With `points`, a minor point
 * follows each tenth message, its confirmation is awaited, and a connection that has set 100,000 points is
 * released and opened again; with `restarts` it goes back to its first number after each 1,000 points. The
 * program prints one line of a table. The status is not 0 if anything is lost, or if the resident memory at the
 * end differs from that after the first hundredth by 1 MiB or more. */
#define _POSIX_C_SOURCE 200809L
#include "osi.h"

#include <arpa/inet.h>
#include <errno.h>
#include <fcntl.h>
#include <netinet/in.h>
#include <netinet/tcp.h>
#include <poll.h>
#include <stdio.h>
#include <stdlib.h>
#include <string.h>
#include <sys/socket.h>
#include <time.h>
#include <unistd.h>

#define MOST_CONNECTIONS 64
#define MOST_WAITING 65536u
#define MOST_DIFFERENCE 1048576
#define POINT_EVERY 10
#define RESTART_AT 1000
#define RELEASE_AT 100000

enum traffic { DATA, DUPLEX, POINTS, RESTARTS, PARTS };
static const char *const traffics[] = {"data", "duplex", "points", "restarts", "parts"};

/* What one side sent or received on a connection. */
struct tally {
    uint64_t count, sum;
};

struct flow {
    uint16_t left, right;           /* its references at both ends */
    bool ready, restarting, ending; /* the calling side may call; or awaits an answer */
    bool answerer_ready;
    struct tally sent, received;    /* from left to right */
    struct tally answered, heard;   /* from right to left, with duplex */
};

static struct {
    uint64_t messages; /* in all, over all connections; with duplex in each direction */
    bool tcp, class_2;
    unsigned connections;
    enum traffic traffic;
    osi_end ends[2]; /* the calling and the called one */
    int sockets[2];
    struct flow flows[MOST_CONNECTIONS];
    uint8_t of_reference[2][65536]; /* the flow of a reference of each end */
    uint64_t sent, received, heard, points, restarts, opened;
} s;

static void stop(const char *why, uint32_t code)
{
    printf("FAILED: %s%s%s after %llu messages\n", why, code == OSI_OK ? "" : ": ", code == OSI_OK ? "" : osi_code_name(code),
           (unsigned long long)s.received);
    exit(1);
}

static void done(const char *what, uint32_t code)
{
    if (code != OSI_OK)
        stop(what, code);
}

static double now(void)
{
    struct timespec t;
    clock_gettime(CLOCK_MONOTONIC, &t);
    return (double)t.tv_sec + (double)t.tv_nsec / 1e9;
}

/* The resident memory of this process, in octets. */
static long resident(void)
{
    long size, pages = 0;
    FILE *file = fopen("/proc/self/statm", "r");
    if (file == NULL || fscanf(file, "%ld %ld", &size, &pages) != 2)
        stop("there is no /proc/self/statm", 0);
    fclose(file);
    return pages * sysconf(_SC_PAGESIZE);
}

/* ---- messages */

/* Adds octets to a checksum (FNV-1a, over 8 octets at once). */
static void add(struct tally *tally, const uint8_t *octets, size_t length)
{
    uint64_t word;
    size_t at = 0;
    for (; at + 8 <= length; at += 8) {
        memcpy(&word, octets + at, 8);
        tally->sum = (tally->sum ^ word) * 1099511628211u;
    }
    for (; at < length; at++)
        tally->sum = (tally->sum ^ octets[at]) * 1099511628211u;
    tally->count++;
}

/* Makes the message with this number of this flow, and returns its length. */
static size_t make(uint8_t *octets, uint64_t flow, uint64_t number)
{
    uint64_t random = (number << 8 | flow) * 6364136223846793005u + 1442695040888963407u;
    const size_t most = s.traffic == PARTS ? 1000 : 200, length = 8 + (size_t)(random >> 40) % (most - 7);
    memcpy(octets, &number, 8);
    for (size_t at = 8; at < length; at += 8) {
        random ^= random >> 27;
        random *= 2685821657736338717u;
        memcpy(octets + at, &random, 8);
    }
    return length;
}

static void say(osi_end *end, uint16_t reference, uint64_t flow, struct tally *tally)
{
    uint8_t octets[1016];
    const size_t length = make(octets, flow, tally->count);
    done("data", osi_data(end, reference, octets, length));
    add(tally, octets, length);
}

static void take(struct tally *tally, osi_octets data)
{
    uint64_t number = 0;
    if (data.length >= 8)
        memcpy(&number, data.at, 8);
    if (data.length < 8 || number != tally->count)
        stop("a message is lost, or comes twice", 0);
    add(tally, data.at, data.length);
}

/* ---- connections */

static const osi_sides asker = {OSI_ASKER, OSI_ASKER, OSI_ASKER, OSI_ASKER};

static void ask(uint8_t flow)
{
    osi_opening asked = OSI_OPENING;
    struct flow *f = &s.flows[flow];
    asked.requirements = s.traffic == DUPLEX   ? OSI_DUPLEX
                         : s.traffic == POINTS ? OSI_HALF_DUPLEX | OSI_MINOR_SYNC
                                               : OSI_HALF_DUPLEX | OSI_MINOR_SYNC | OSI_RESYNCHRONIZE;
    asked.user_data = (osi_octets){&flow, 1};
    if (s.traffic == PARTS)
        asked.size_from_asker = asked.size_from_answerer = 256;
    done("connect", osi_connect(&s.ends[0], &asked, &f->left));
    s.of_reference[0][f->left] = flow;
    f->ready = f->restarting = f->ending = f->answerer_ready = false;
    s.opened++;
}

static void open_sockets(void)
{
    struct sockaddr_in own = {.sin_family = AF_INET};
    socklen_t size = sizeof own;
    int yes = 1;
    const int listener = socket(AF_INET, SOCK_STREAM, 0);
    own.sin_addr.s_addr = htonl(INADDR_LOOPBACK);
    s.sockets[0] = socket(AF_INET, SOCK_STREAM, 0);
    if (bind(listener, (struct sockaddr *)&own, sizeof own) != 0 || listen(listener, 1) != 0 ||
        getsockname(listener, (struct sockaddr *)&own, &size) != 0 ||
        connect(s.sockets[0], (struct sockaddr *)&own, sizeof own) != 0 || (s.sockets[1] = accept(listener, NULL, NULL)) < 0)
        stop(strerror(errno), 0);
    close(listener);
    for (int side = 0; side < 2; side++) {
        setsockopt(s.sockets[side], IPPROTO_TCP, TCP_NODELAY, &yes, sizeof yes);
        fcntl(s.sockets[side], F_SETFL, O_NONBLOCK);
    }
}

/* Both ends, and the byte connection between them. */
static void open_ends(void)
{
    const osi_terms terms = {s.class_2 ? OSI_CLASS_2 : OSI_CLASS_0, 13, 15};
    done("caller", osi_caller(&s.ends[0], &terms));
    done("called", osi_called(&s.ends[1], &terms));
    if (s.tcp)
        open_sockets();
    ask(0);
}

static void close_ends(void)
{
    for (int side = 0; side < 2; side++) {
        osi_free(&s.ends[side]);
        if (s.tcp)
            close(s.sockets[side]);
    }
}

/* ---- indications of both users */

static void shown_left(const osi_indication *i)
{
    const uint8_t flow = s.of_reference[0][i->reference];
    struct flow *f = &s.flows[flow];
    switch (i->tag) {
    case OSI_CONNECTED:
        f->ready = true;
        for (uint8_t next = 1; flow == 0 && next < s.connections; next++)
            if (s.flows[next].left == 0)
                ask(next);
        break;
    case OSI_DATA:
        take(&f->heard, i->user_data);
        s.heard++;
        break;
    case OSI_MINOR_CONFIRMED:
        break;
    case OSI_RESTARTED:
        f->restarting = false;
        break;
    case OSI_RELEASED:
        f->ending = false;
        f->ready = false;
        if (s.class_2)
            ask(flow);
        break;
    default:
        stop(osi_indication_name(i->tag), 0);
    }
}

static void shown_right(const osi_indication *i)
{
    osi_end *end = &s.ends[1];
    struct flow *f = &s.flows[s.of_reference[1][i->reference]];
    switch (i->tag) {
    case OSI_CONNECT:
        s.of_reference[1][i->reference] = i->user_data.at[0];
        f = &s.flows[i->user_data.at[0]];
        f->right = i->reference;
        f->answerer_ready = true;
        done("accept", osi_accept(end, f->right, i->requirements, 0, &asker, OSI_NO_DATA));
        break;
    case OSI_DATA:
        take(&f->received, i->user_data);
        s.received++;
        break;
    case OSI_MINOR:
        s.points++;
        done("confirm", osi_minor_confirm(end, i->reference, i->number, OSI_NO_DATA));
        break;
    case OSI_RESTART:
        s.restarts++;
        done("restart", osi_restart_confirm(end, i->reference, &asker, OSI_NO_DATA));
        break;
    case OSI_RELEASE:
        done("release", osi_release_accept(end, i->reference, OSI_NO_DATA));
        break;
    default:
        stop(osi_indication_name(i->tag), 0);
    }
}

/* ---- carrying */

static void feed(int side, const uint8_t *octets, size_t length)
{
    osi_indication shown;
    while (length > 0) {
        osi_fed fed;
        osi_feed(&s.ends[side], octets, length, &fed);
        octets += fed.used;
        length -= fed.used;
        while (osi_next(&s.ends[side], &shown))
            (side == 0 ? shown_left : shown_right)(&shown);
    }
}

static void carry_by_hand(int side)
{
    static uint8_t copied[2 * MOST_WAITING];
    osi_octets lent;
    osi_outgoing(&s.ends[side], &lent);
    const size_t length = lent.length < sizeof copied ? lent.length : sizeof copied;
    if (length == 0)
        return;
    memcpy(copied, lent.at, length);
    osi_taken(&s.ends[side], length);
    feed(1 - side, copied, length);
}

static void carry_by_tcp(int side)
{
    static uint8_t piece[MOST_WAITING];
    osi_octets lent;
    osi_outgoing(&s.ends[side], &lent);
    ssize_t count = lent.length == 0 ? 0 : send(s.sockets[side], lent.at, lent.length, MSG_NOSIGNAL);
    if (count > 0)
        osi_taken(&s.ends[side], (size_t)count);
    count = recv(s.sockets[1 - side], piece, sizeof piece, 0);
    if (count == 0 || (count < 0 && errno != EAGAIN && errno != EWOULDBLOCK))
        stop("the byte connection broke", 0);
    if (count > 0)
        feed(1 - side, piece, (size_t)count);
}

static void carry(void)
{
    for (int side = 0; side < 2; side++)
        (s.tcp ? carry_by_tcp : carry_by_hand)(side);
}

static size_t waiting(int side)
{
    osi_octets lent;
    osi_outgoing(&s.ends[side], &lent);
    return lent.length + osi_backlog(&s.ends[side]);
}

/* ---- sending */

static bool has_points(void)
{
    return s.traffic == POINTS || s.traffic == RESTARTS;
}

/* After this many points it goes back to the first number, or releases the connection: it sends no more, and
 * makes the call as soon as everything is received and confirmed. */
static bool is_turning(struct flow *f)
{
    const uint32_t next = has_points() ? osi_next_serial(&s.ends[0], f->left) : 0;
    if (next < (s.traffic == RESTARTS ? RESTART_AT : RELEASE_AT))
        return false;
    if (osi_confirmed_below(&s.ends[0], f->left) < next || f->received.count < f->sent.count)
        return true;
    if (s.traffic == RESTARTS) {
        f->restarting = true;
        done("restart", osi_restart(&s.ends[0], f->left, 0, &asker, OSI_NO_DATA));
    } else {
        f->ending = true;
        done("release", osi_release(&s.ends[0], f->left, OSI_NO_DATA));
    }
    return true;
}

static void send_more(void)
{
    for (uint64_t flow = 0; flow < s.connections && s.sent < s.messages && waiting(0) < MOST_WAITING; flow++) {
        struct flow *f = &s.flows[flow];
        if (!f->ready || f->restarting || f->ending || is_turning(f))
            continue;
        say(&s.ends[0], f->left, flow, &f->sent);
        s.sent++;
        if (s.traffic == DUPLEX && f->answerer_ready)
            say(&s.ends[1], f->right, flow, &f->answered);
        if (has_points() && f->sent.count % POINT_EVERY == 0)
            done("point", osi_minor(&s.ends[0], f->left, 1, OSI_NO_DATA));
    }
}

/* In class 0 a released connection is the last one of its ends: two new ends follow. */
static void open_again(void)
{
    if (s.class_2 || s.flows[0].ready || s.opened == 0 || osi_live(&s.ends[0]) > 0)
        return;
    close_ends();
    open_ends();
}

static bool is_all_there(void)
{
    uint64_t answered = 0;
    for (unsigned flow = 0; flow < s.connections; flow++)
        answered += s.flows[flow].answered.count;
    return s.received == s.messages && s.heard == answered;
}

static void compare(void)
{
    for (unsigned flow = 0; flow < s.connections; flow++) {
        const struct flow *f = &s.flows[flow];
        if (f->sent.count != f->received.count || f->sent.sum != f->received.sum || f->answered.count != f->heard.count ||
            f->answered.sum != f->heard.sum)
            stop("other octets came than were sent", 0);
    }
}

int main(int count, char **words)
{
    long first = 0;
    s.messages = count == 6 ? strtoull(words[1], NULL, 10) : 0;
    s.connections = count == 6 ? (unsigned)strtoul(words[4], NULL, 10) : 0;
    for (int traffic = DATA; count == 6 && traffic <= PARTS; traffic++)
        if (strcmp(words[5], traffics[traffic]) == 0)
            s.traffic = (enum traffic)traffic;
    if (s.messages < 100 || s.connections < 1 || s.connections > MOST_CONNECTIONS ||
        strcmp(words[5], traffics[s.traffic]) != 0 || (s.connections > 1 && strcmp(words[3], "2") != 0)) {
        fputs("soak: MESSAGES in|tcp 0|2 CONNECTIONS data|duplex|points|restarts|parts\n", stderr);
        return 2;
    }
    s.tcp = strcmp(words[2], "tcp") == 0;
    s.class_2 = strcmp(words[3], "2") == 0;
    const double began = now();
    for (open_ends(); !is_all_there(); open_again()) {
        for (int more = 0; more < 64 && waiting(0) < MOST_WAITING; more++)
            send_more();
        carry();
        if (first == 0 && s.received >= s.messages / 100)
            first = resident();
    }
    const double seconds = now() - began;
    const long last = resident();
    compare();
    close_ends();
    printf("| %s | %s | %u | %s | %llu | %llu | %llu | %llu | %.1f | %.0f | %ld | %+ld |\n", s.tcp ? "TCP" : "in process", words[3],
           s.connections, words[5], (unsigned long long)s.received, (unsigned long long)s.points,
           (unsigned long long)s.restarts, (unsigned long long)s.opened, seconds, (double)s.received / seconds, last / 1024,
           (last - first) / 1024);
    return last - first < MOST_DIFFERENCE ? 0 : 1;
}
