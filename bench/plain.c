/* The cost of a loop over TCP by itself: messages of one size, each framed by a TPKT header and copied, from one process to
 * another over loopback, without session and transport units.
 *
 *     plain COUNT OCTETS [WINDOW]
 *
 * prints messages and megabytes a second. Without a window only the last message is answered, as in class 0. With a window
 * each message is answered, by as many octets as the packet of an AK has, and at most WINDOW messages are unanswered, as in
 * class 2. Sockets, pieces and bounds are those of examples/gateway. */
#define _POSIX_C_SOURCE 200809L
#include "loop.h"

#define HEADER 4
#define ANSWER 9

/* ---- the side that sends */

/* Octets to send, from `begin` to `end`. */
struct waiting {
    uint8_t octets[2 * MOST_WAITING + PIECE];
    size_t begin, end;
};

static void frame(struct waiting *w, const uint8_t *message, size_t octets)
{
    const size_t length = octets + HEADER;
    const uint8_t header[HEADER] = {3, 0, (uint8_t)(length >> 8), (uint8_t)length};
    memcpy(w->octets + w->end, header, HEADER);
    memcpy(w->octets + w->end + HEADER, message, octets);
    w->end += length;
}

/* Writes once, as much as the socket takes. The rest is moved to the front if half of the room is used up. */
static void transmit(int socket, struct waiting *w)
{
    const ssize_t count = send(socket, w->octets + w->begin, w->end - w->begin, MSG_NOSIGNAL | MSG_DONTWAIT);
    w->begin += count > 0 ? (size_t)count : 0;
    if (w->begin < MOST_WAITING && w->begin < w->end)
        return;
    memmove(w->octets, w->octets + w->begin, w->end - w->begin);
    w->end -= w->begin;
    w->begin = 0;
}

/* Whether another message may be framed: there is one left, and room for it, and the window is not full. */
static int may_say(const struct task *t, const struct waiting *w, unsigned long said, unsigned long answered)
{
    return said < t->count && w->end - w->begin < MOST_WAITING && (t->window == 0 || said - answered < t->window);
}

static void send_all(int socket, const struct task *t)
{
    static struct waiting waiting;
    static uint8_t message[PIECE], answers[PIECE];
    const unsigned long awaited = (t->window > 0 ? t->count : 1) * ANSWER;
    for (unsigned long said = 0, came = 0; came < awaited;) {
        for (; may_say(t, &waiting, said, came / ANSWER); said++)
            frame(&waiting, message, t->octets);
        if (waiting.end > 0)
            transmit(socket, &waiting);
        const int goes_on = waiting.end > 0 || may_say(t, &waiting, said, came / ANSWER);
        if ((wait_for(socket, (short)(POLLIN | (goes_on ? POLLOUT : 0))) & POLLIN) == 0)
            continue;
        const ssize_t more = recv(socket, answers, sizeof answers, MSG_DONTWAIT);
        must(more > 0, "recv");
        came += (unsigned long)more;
    }
}

/* ---- the side that takes */

/* An incomplete packet, and the user to whom each complete one is lent. */
struct packet {
    uint8_t octets[PIECE];
    size_t length;
    void (*shown)(void *user, const uint8_t *message, size_t octets);
    void *user;
};

/* What the user received. */
struct received {
    unsigned long messages, octets;
};

static void count(void *user, const uint8_t *message, size_t octets)
{
    struct received *received = user;
    (void)message;
    received->messages++;
    received->octets += octets;
}

/* How many octets of the piece belong to the packet: up to its end, if its header says where that is. */
static size_t of_packet(const struct packet *p, size_t left)
{
    const size_t whole = p->length < HEADER ? HEADER : (size_t)p->octets[2] << 8 | p->octets[3];
    return left < whole - p->length ? left : whole - p->length;
}

/* Copies the piece, packet by packet, and lends each message that it completes to the user. */
static void gather(struct packet *p, const uint8_t *piece, size_t length)
{
    while (length > 0) {
        const size_t part = of_packet(p, length);
        memcpy(p->octets + p->length, piece, part);
        p->length += part;
        piece += part;
        length -= part;
        if (p->length > HEADER && of_packet(p, PIECE) == 0) {
            p->shown(p->user, p->octets + HEADER, p->length - HEADER);
            p->length = 0;
        }
    }
}

static void take_all(int socket, const struct task *t)
{
    static uint8_t piece[PIECE], answers[PIECE];
    static struct packet packet;
    struct received received = {0, 0};
    packet.shown = count;
    packet.user = &received;
    while (received.messages < t->count) {
        const unsigned long before = received.messages;
        wait_for(socket, POLLIN);
        const ssize_t came = recv(socket, piece, sizeof piece, MSG_DONTWAIT);
        must(came > 0, "recv");
        gather(&packet, piece, (size_t)came);
        const size_t due = ANSWER * (t->window > 0 ? received.messages - before : received.messages == t->count);
        must(due == 0 || send(socket, answers, due, MSG_NOSIGNAL) == (ssize_t)due, "send");
    }
    must(received.octets == t->count * t->octets, "other octets");
}

int main(int words, char **word)
{
    if (words != 3 && words != 4)
        return 2;
    const struct task t = {strtoul(word[1], NULL, 10), words == 4 ? strtoul(word[3], NULL, 10) : 0, strtoul(word[2], NULL, 10)};
    if (t.count == 0 || t.octets == 0 || t.octets > PIECE - 1 - HEADER)
        return 2;
    tell(&t, seconds_of(&t, send_all, take_all));
    return 0;
}
