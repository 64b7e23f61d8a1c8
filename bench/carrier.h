/* A carrier written by hand: many connections on one byte connection, with the transport units that they take and send. */
#ifndef CARRIER_H
#define CARRIER_H
#include <stdbool.h>
#include <stdint.h>
#include <stdlib.h>
#include <string.h>

#define LARGEST 8192
#define LONGEST 1048576
#define WINDOW 15
#define NUMBERS 128
#define MOST_LIVE 64
#define HEADER 4
#define LEAST_ROOM 1024

/* Octets on the heap and their capacity. Those before `first` have been taken. */
struct octets {
    uint8_t *at;
    size_t first;
    size_t length;
    size_t room;
};

/* The state of a connection: only an open one carries TSDUs and units. */
enum stage { ASKED, OPEN, CLOSING };

struct link {
    unsigned reference, peer;
    enum stage stage;
    /* TSDUs that wait for credit: their octets, and where each ends. */
    struct octets unsent;
    size_t ends[WINDOW];
    size_t count;
    /* The TSDU that is being joined from parts. */
    struct octets begun;
    unsigned next, unacknowledged, credit, expected;
};

/* A received TSDU. `memory` is the block in which it was joined, which the receiver frees. It is NULL if the whole TSDU is in
   one unit: then its octets are lent until the carrier is fed again. */
struct tsdu {
    const uint8_t *at;
    size_t length;
    uint8_t *memory;
};

/* The one pending TSDU: no other is read before it is taken. */
struct event {
    bool waits;
    unsigned reference;
    struct tsdu tsdu;
};

struct carrier {
    bool class_two, ended;
    struct link live[MOST_LIVE];
    size_t connections;
    struct octets held, outgoing;
    struct event event;
};

/* Copies octets by the C library. Their number is hidden from gcc: otherwise, for at most 8,192 octets, it would use an
   instruction that is counted once for each eight octets. */
static void copy(uint8_t *to, const uint8_t *from, size_t n)
{
    __asm__("" : "+r"(n));
    memcpy(to, from, n);
}

/* Makes room for this many more octets at the end. If memory runs out, nothing has changed. */
static bool reserve(struct octets *o, size_t n)
{
    if (n <= o->room - o->length)
        return true;
    if (o->first == 0 || n > o->room - (o->length - o->first)) {
        size_t room = 2 * o->room > o->length + n ? 2 * o->room : o->length + n;
        uint8_t *at;
        if (room < LEAST_ROOM)
            room = LEAST_ROOM;
        at = realloc(o->at, room);
        if (at == NULL)
            return false;
        o->at = at;
        o->room = room;
    }
    if (o->first > 0)
        memmove(o->at, o->at + o->first, o->length - o->first);
    o->length -= o->first;
    o->first = 0;
    return true;
}

static bool append(struct octets *o, const uint8_t *more, size_t n)
{
    if (n == 0)
        return true;
    if (!reserve(o, n))
        return false;
    copy(o->at + o->length, more, n);
    o->length += n;
    return true;
}

static void drop(struct octets *o, size_t n)
{
    o->first += n;
    if (o->first == o->length)
        o->first = o->length = 0;
}

/* The live connection of a reference. It is as far after the first one as its reference is above the first one's, unless a
   connection between them is gone. */
static struct link *find(struct carrier *c, unsigned reference)
{
    size_t place = reference - c->live[0].reference;
    if (place < c->connections && c->live[place].reference == reference)
        return &c->live[place];
    for (size_t i = 0; i < c->connections; i++)
        if (c->live[i].reference == reference)
            return &c->live[i];
    return NULL;
}

/* ---- sending */

/* Writes the header of a packet, for which there is room, and returns the place of its unit. */
static uint8_t *put_header(struct carrier *c, size_t unit)
{
    uint8_t *at = c->outgoing.at + c->outgoing.length;
    c->outgoing.length += HEADER + unit;
    at[0] = 3;
    at[1] = 0;
    at[2] = (uint8_t)((HEADER + unit) >> 8);
    at[3] = (uint8_t)(HEADER + unit);
    return at + HEADER;
}

/* The octets of a DT before its user data. */
static size_t data_header(const struct carrier *c)
{
    return c->class_two ? 5 : 3;
}

/* Writes a DT. Its user data begins with `front` octets that are left free; then come these octets. */
static bool put_data(struct carrier *c, struct link *l, size_t front, const uint8_t *user, size_t n, bool end)
{
    size_t header = data_header(c) + front;
    uint8_t *at;
    if (!reserve(&c->outgoing, HEADER + header + n))
        return false;
    at = put_header(c, header + n);
    if (n > 0)
        copy(at + header, user, n);
    if (!c->class_two) {
        at[0] = 2;
        at[1] = 0xF0;
        at[2] = end ? 0x80 : 0;
        return true;
    }
    at[0] = 4;
    at[1] = 0xF0;
    at[2] = (uint8_t)(l->peer >> 8);
    at[3] = (uint8_t)l->peer;
    at[4] = (uint8_t)((end ? 0x80 : 0) | l->next);
    l->next = (l->next + 1) % NUMBERS;
    l->unacknowledged += 1;
    l->credit -= 1;
    return true;
}

/* There is room for it. */
static void put_ack(struct carrier *c, struct link *l)
{
    uint8_t *at = put_header(c, 5);
    at[0] = 4;
    at[1] = 0x60 | WINDOW;
    at[2] = (uint8_t)(l->peer >> 8);
    at[3] = (uint8_t)l->peer;
    at[4] = (uint8_t)l->expected;
}

/* How much of a TSDU was written. */
struct written {
    size_t octets;
    unsigned units;
    bool all;
};

/* Removes the octets that were written last. */
static void take_back(struct carrier *c, struct link *l, size_t octets, unsigned units)
{
    c->outgoing.length -= octets + units * (HEADER + data_header(c));
    if (c->class_two) {
        l->next = (l->next + NUMBERS - units) % NUMBERS;
        l->unacknowledged -= units;
        l->credit += units;
    }
}

/* Writes as much of a TSDU as the credit allows: `front` octets, which are left free in the first unit, and then the `n` of the
   body. If there is no memory, nothing has changed. */
static bool put_parts(struct carrier *c, struct link *l, size_t front, const uint8_t *body, size_t n, struct written *w)
{
    size_t limit = LARGEST - data_header(c), all = front + n, done = 0;
    unsigned units = 0;
    bool ends = false;
    while (!ends && (!c->class_two || l->credit > 0)) {
        size_t part = all - done > limit ? limit : all - done, space = done == 0 ? front : 0;
        ends = done + part == all;
        if (!put_data(c, l, space, body, part - space, ends)) {
            take_back(c, l, done, units);
            return false;
        }
        body += part - space;
        done += part;
        units += 1;
    }
    *w = (struct written){done, units, ends};
    return true;
}

/* Writes unsent TSDUs, as far as the credit allows. */
static bool pump(struct carrier *c, struct link *l)
{
    while (l->count > 0 && l->credit > 0) {
        struct written w;
        if (!put_parts(c, l, 0, l->unsent.at + l->unsent.first, l->ends[0], &w))
            return false;
        drop(&l->unsent, w.octets);
        l->ends[0] -= w.octets;
        if (!w.all)
            return true;
        l->count -= 1;
        memmove(l->ends, l->ends + 1, l->count * sizeof l->ends[0]);
    }
    return true;
}

/* Keeps the rest of a TSDU: `front` octets, which are left free, and a copy of these. Returns the place of the first octet, or
   NULL if memory runs out. */
static uint8_t *keep_rest(struct link *l, size_t front, const uint8_t *body, size_t n)
{
    uint8_t *at;
    if (!reserve(&l->unsent, front + n))
        return NULL;
    at = l->unsent.at + l->unsent.length;
    if (n > 0)
        copy(at + front, body, n);
    l->unsent.length += front + n;
    l->ends[l->count++] = front + n;
    return at;
}

/* Sends a TSDU of `front` octets and a body. The body is copied straight into the octets to be sent, as far as the credit
   allows, and the rest is kept. Answers the place of the front, which the caller then writes; or NULL if the TSDU is refused or
   there is no memory: then nothing has changed. The front fits into one unit. */
static uint8_t *send_tsdu(struct carrier *c, unsigned reference, size_t front, const uint8_t *body, size_t n)
{
    struct link *l = find(c, reference);
    struct written w = {0, 0, false};
    uint8_t *kept = NULL;
    size_t start;
    if (l == NULL || l->stage != OPEN || c->ended || n > LONGEST - front || l->count == WINDOW)
        return NULL;
    start = c->outgoing.length - c->outgoing.first;
    if (l->count == 0 && !put_parts(c, l, front, body, n, &w))
        return NULL;
    if (!w.all) {
        size_t space = w.units == 0 ? front : 0, done = w.units == 0 ? 0 : w.octets - front;
        kept = keep_rest(l, space, body + done, n - done);
        if (kept == NULL) {
            take_back(c, l, w.octets, w.units);
            return NULL;
        }
    }
    return w.units == 0 ? kept : c->outgoing.at + c->outgoing.first + start + HEADER + data_header(c);
}

/* ---- receiving */

/* Takes a part of a TSDU. A whole TSDU stays where it is; parts are joined. */
static bool join(struct carrier *c, struct link *l, const uint8_t *user, size_t n, bool end)
{
    static const struct octets none = {NULL, 0, 0, 0};
    if (n > LONGEST - l->begun.length)
        return false;
    if (end && l->begun.length == 0) {
        c->event = (struct event){true, l->reference, {user, n, NULL}};
        return true;
    }
    if (!append(&l->begun, user, n))
        return false;
    if (!end)
        return true;
    c->event = (struct event){true, l->reference, {l->begun.at, l->begun.length, l->begun.at}};
    l->begun = none;
    return true;
}

static bool acknowledge(struct carrier *c, struct link *l, unsigned number, unsigned credit)
{
    unsigned left = (l->next + NUMBERS - number) % NUMBERS;
    if (left > l->unacknowledged || credit < l->credit + left)
        return false;
    l->unacknowledged = left;
    l->credit = credit - left;
    return pump(c, l);
}

/* Takes the unit at the front. Returns how many octets it has, or 0 if it is refused or memory runs out. */
static size_t take_tpdu(struct carrier *c, const uint8_t *unit, size_t n)
{
    struct link *l;
    size_t header = (size_t)unit[0] + 1;
    if (header > n || header < 3)
        return 0;
    if (!c->class_two) {
        l = &c->live[0];
        if (c->connections == 0 || l->stage != OPEN)
            return 0;
        return unit[1] == 0xF0 && header == 3 && (unit[2] & 0x7F) == 0 && join(c, l, unit + 3, n - 3, unit[2] == 0x80) ? n : 0;
    }
    if (header != 5 || (l = find(c, (unsigned)unit[2] << 8 | unit[3])) == NULL || l->stage != OPEN)
        return 0;
    if ((unit[1] & 0xF0) == 0x60)
        return unit[4] < NUMBERS && acknowledge(c, l, unit[4], unit[1] & 0x0F) ? header : 0;
    if (unit[1] != 0xF0 || (unit[4] & 0x7F) != l->expected || !reserve(&c->outgoing, HEADER + 5)
        || !join(c, l, unit + 5, n - 5, unit[4] >= 0x80))
        return 0;
    l->expected = (l->expected + 1) % NUMBERS;
    put_ack(c, l);
    return n;
}

static void take_packet(struct carrier *c, const uint8_t *unit, size_t n)
{
    while (n > 0 && !c->ended) {
        size_t used = take_tpdu(c, unit, n);
        c->ended = used == 0;
        unit += used;
        n -= used;
    }
}

/* The length of the packet at the front, from its header; 0 if it is refused. */
static size_t packet_length(const uint8_t *at)
{
    size_t n = (size_t)at[2] << 8 | at[3];
    return at[0] == 3 && n >= 7 ? n : 0;
}

/* Completes the packet that is held in part, as far as the piece reaches, and returns the octets used. */
static size_t complete(struct carrier *c, const uint8_t *piece, size_t n)
{
    size_t used = 0, length;
    if (c->held.length < HEADER) {
        used = n < HEADER - c->held.length ? n : HEADER - c->held.length;
        c->ended = !append(&c->held, piece, used);
        if (c->ended || c->held.length < HEADER)
            return used;
    }
    length = packet_length(c->held.at);
    c->ended = length == 0;
    if (c->ended)
        return used;
    size_t more = length - c->held.length < n - used ? length - c->held.length : n - used;
    c->ended = !append(&c->held, piece + used, more);
    if (!c->ended && c->held.length == length) {
        take_packet(c, c->held.at + HEADER, length - HEADER);
        c->held.length = 0;
    }
    return used + more;
}

/* Takes the packets of a piece in place, up to one that completes a TSDU. Returns the octets used. */
static size_t feed(struct carrier *c, const uint8_t *piece, size_t n)
{
    size_t used = 0;
    if (c->event.waits)
        return 0;
    while (used < n && !c->ended && !c->event.waits) {
        size_t left = n - used, length;
        if (c->held.length > 0 || left < HEADER) {
            used += complete(c, piece + used, left);
            continue;
        }
        length = packet_length(piece + used);
        c->ended = length == 0;
        if (length > left) {
            c->ended = !append(&c->held, piece + used, left);
            return n;
        }
        take_packet(c, piece + used + HEADER, length > 0 ? length - HEADER : 0);
        used += length;
    }
    return c->ended ? n : used;
}

static struct carrier *carrier_of(size_t connections, bool class_two)
{
    struct carrier *c = calloc(1, sizeof *c);
    if (c == NULL)
        abort();
    c->class_two = class_two;
    c->connections = connections;
    for (size_t i = 0; i < connections; i++)
        c->live[i] = (struct link){.reference = (unsigned)i + 1, .peer = (unsigned)i + 1, .stage = OPEN, .credit = WINDOW};
    return c;
}

static void close_carrier(struct carrier *c)
{
    for (size_t i = 0; i < c->connections; i++) {
        free(c->live[i].unsent.at);
        free(c->live[i].begun.at);
    }
    free(c->held.at);
    free(c->outgoing.at);
    free(c);
}
#endif
