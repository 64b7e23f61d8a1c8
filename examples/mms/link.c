/* One end over a TCP socket that never blocks. */
#define _POSIX_C_SOURCE 200809L
#include "link.h"

#include <errno.h>
#include <poll.h>
#include <string.h>
#include <sys/socket.h>
#include <time.h>
#include <unistd.h>

#define PIECE 65536

double now(void)
{
    struct timespec t;
    clock_gettime(CLOCK_MONOTONIC, &t);
    return (double)t.tv_sec + (double)t.tv_nsec / 1e9;
}

static void write_octets(FILE *file, const uint8_t *at, size_t length)
{
    static const char digits[] = "0123456789abcdef";
    for (size_t i = 0; file != NULL && i < length; i++) {
        putc(digits[at[i] >> 4], file);
        putc(digits[at[i] & 15], file);
    }
}

static size_t outgoing_length(struct link *l)
{
    osi_octets octets;
    osi_outgoing(&l->end, &octets);
    return octets.length;
}

/* Fetches all pending indications. */
static void show_all(struct link *l)
{
    osi_indication shown;
    while (osi_next(&l->end, &shown)) {
        l->was_whole = now();
        l->shown(l, &shown);
    }
}

void link_break(struct link *l)
{
    osi_broken(&l->end);
    show_all(l);
    if (l->socket >= 0)
        close(l->socket);
    l->socket = -1;
}

static void feed_all(struct link *l, const uint8_t *piece, size_t length)
{
    write_octets(l->came, piece, length);
    while (length > 0) {
        osi_fed fed;
        osi_feed(&l->end, piece, length, &fed);
        piece += fed.used;
        length -= fed.used;
        show_all(l);
    }
}

/* Takes the line of the PROXY protocol, version 1, off the received octets, and answers how many it took.
 * A peer that sends another line, or one that does not end, is given up. */
static size_t take_proxy_line(struct link *l, const uint8_t *piece, size_t length)
{
    size_t used = 0;
    while (used < length && l->awaits_proxy && l->line_length + 1 < sizeof l->line) {
        l->line[l->line_length++] = (char)piece[used++];
        l->awaits_proxy = l->line_length < 2 || memcmp(l->line + l->line_length - 2, "\r\n", 2) != 0;
    }
    const size_t known = l->line_length < 6 ? l->line_length : 6;
    if (memcmp(l->line, "PROXY ", known) != 0 || (l->awaits_proxy && l->line_length + 1 == sizeof l->line)) {
        link_break(l);
        return length;
    }
    if (!l->awaits_proxy)
        l->line[l->line_length - 2] = '\0';
    return used;
}

/* Reads what there is, once. */
static void receive(struct link *l)
{
    static uint8_t piece[PIECE];
    const ssize_t count = recv(l->socket, piece, sizeof piece, MSG_DONTWAIT);
    if (count > 0) {
        const size_t used = l->awaits_proxy ? take_proxy_line(l, piece, (size_t)count) : 0;
        l->heard = now();
        feed_all(l, piece + used, (size_t)count - used);
    } else if (count == 0 || (errno != EAGAIN && errno != EWOULDBLOCK && errno != EINTR)) {
        link_break(l);
    }
}

/* Writes what can be written, once. */
static void transmit(struct link *l)
{
    osi_octets octets;
    osi_outgoing(&l->end, &octets);
    const ssize_t count = send(l->socket, octets.at, octets.length, MSG_NOSIGNAL | MSG_DONTWAIT);
    if (count >= 0) {
        write_octets(l->sent, octets.at, (size_t)count);
        osi_taken(&l->end, (size_t)count);
    } else if (errno != EAGAIN && errno != EWOULDBLOCK && errno != EINTR) {
        link_break(l);
    }
}

/* Whether this side is to close: all is sent, and the end has ended, or its last connection is gone
 * (docs/GUIDE.md, Who closes TCP). */
static bool has_said_all(struct link *l)
{
    uint64_t detail;
    if (outgoing_length(l) > 0)
        return false;
    if (osi_live(&l->end) > 0)
        l->was_live = true;
    return osi_ended(&l->end, &detail) != OSI_END_NONE || (l->was_live && osi_live(&l->end) == 0);
}

short link_awaits(struct link *l)
{
    const size_t left = outgoing_length(l);
    return (short)((left <= MOST_WAITING ? POLLIN : 0) | (left > 0 ? POLLOUT : 0));
}

bool link_turn(struct link *l, short came)
{
    if (l->socket >= 0 && (came & (POLLIN | POLLERR | POLLHUP)))
        receive(l);
    if (l->socket >= 0 && outgoing_length(l) > 0)
        transmit(l);
    if (l->socket >= 0 && has_said_all(l))
        link_break(l);
    if (outgoing_length(l) == 0)
        l->sent_all = now();
    if (osi_kept(&l->end) == 0)
        l->was_whole = now();
    return l->socket >= 0;
}

bool link_is_stuck(struct link *l, double wait)
{
    const double time = now();
    return time - l->sent_all > wait || time - l->was_whole > wait || osi_kept(&l->end) > MOST_KEPT;
}

/* ---- opening and closing */

static FILE *capture_file(const char *capture, const char *side)
{
    char name[512];
    snprintf(name, sizeof name, "%s.%s", capture, side);
    return fopen(name, "w");
}

bool link_open(struct link *l, int socket, bool calls, const osi_terms *terms, const char *capture)
{
    l->socket = socket;
    l->sent_all = l->was_whole = l->heard = now();
    if (capture != NULL) {
        l->sent = capture_file(capture, calls ? "left" : "right");
        l->came = capture_file(capture, calls ? "right" : "left");
        if (l->sent == NULL || l->came == NULL)
            return false;
    }
    return (calls ? osi_caller(&l->end, terms) : osi_called(&l->end, terms)) == OSI_OK;
}

void link_close(struct link *l)
{
    if (l->socket >= 0)
        close(l->socket);
    l->socket = -1;
    osi_free(&l->end);
    if (l->sent != NULL)
        fclose(l->sent);
    if (l->came != NULL)
        fclose(l->came);
    l->sent = l->came = NULL;
}
