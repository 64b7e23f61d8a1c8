/* A stack written by hand: a carrier, and a session for each of its connections. */
#ifndef STACK_H
#define STACK_H
#include "carrier.h"
#include "session.h"

/* The one pending indication: no later input is read before it is fetched. */
struct stack {
    struct carrier *carrier;
    struct session sessions[MOST_LIVE];
    bool waits;
    unsigned reference;
    struct indication shown;
};

/* The session of a reference, which is that of its link. */
static struct session *session_of(struct stack *s, unsigned reference)
{
    struct link *l = find(s->carrier, reference);
    return l == NULL ? NULL : &s->sessions[l - s->carrier->live];
}

/* Sends data, and writes the octets before it in place. */
static bool stack_data(struct stack *s, unsigned reference, struct slice data)
{
    struct session *session = session_of(s, reference);
    uint8_t *at;
    if (session == NULL || may_data(session, data) != OK)
        return false;
    at = send_tsdu(s->carrier, reference, DATA_FRONT, data.at, data.length);
    if (at == NULL)
        return false;
    write_data_front(at);
    return true;
}

/* Sends a point or a confirmation, in the same way. */
static bool sent(struct stack *s, const struct session *session, unsigned reference, const struct front *front, struct slice data)
{
    uint8_t *at;
    if (!fits(session, front->octets + data.length))
        return false;
    at = send_tsdu(s->carrier, reference, front->octets, data.at, data.length);
    if (at == NULL)
        return false;
    write_front(at, front);
    return true;
}

static const struct slice none = {(const uint8_t *)"", 0};

static bool stack_minor(struct stack *s, unsigned reference)
{
    struct session *session = session_of(s, reference);
    struct front front;
    if (session == NULL || may_minor(session, none) != OK)
        return false;
    minor_front(session, 1, none, &front);
    if (!sent(s, session, reference, &front, none))
        return false;
    minor_sent(session);
    return true;
}

static bool stack_confirm(struct stack *s, unsigned reference, uint32_t number)
{
    struct session *session = session_of(s, reference);
    struct front front;
    if (session == NULL || may_confirm(session, number, none) != OK)
        return false;
    confirm_front(number, none, &front);
    if (!sent(s, session, reference, &front, none))
        return false;
    confirm_sent(session, number);
    return true;
}

/* Sends an AB, if there is memory for it. */
static void send_abort(struct stack *s, unsigned reference)
{
    uint8_t *at = send_tsdu(s->carrier, reference, ABORT_FRONT, none.at, none.length);
    if (at != NULL)
        write_abort(at);
}

/* The session of a received TSDU takes it: its indication is pending, and its AB is sent. */
static void hear(struct stack *s)
{
    struct event event = s->carrier->event;
    struct session *session = session_of(s, event.reference);
    struct taken t;
    s->carrier->event.waits = false;
    if (session == NULL || take(session, event.tsdu.at, event.tsdu.length, &event.tsdu.memory, &t) != OK)
        abort();
    free(event.tsdu.memory);
    if (t.aborts)
        send_abort(s, event.reference);
    s->waits = t.first.kind != SHOWN_NONE;
    s->reference = event.reference;
    s->shown = t.first;
}

/* Takes the packets of a piece, up to one that causes an indication. Returns the octets used. */
static size_t feed_stack(struct stack *s, const uint8_t *piece, size_t n)
{
    size_t used = 0;
    while (used < n && !s->waits && !s->carrier->ended) {
        used += feed(s->carrier, piece + used, n - used);
        if (s->carrier->event.waits)
            hear(s);
    }
    return used;
}

/* Half-duplex and minor synchronize on each connection, base 0; the caller holds both tokens. */
static void open_stack(struct stack *s, size_t connections, bool class_two, bool is_caller)
{
    memset(s, 0, sizeof *s);
    s->carrier = carrier_of(connections, class_two);
    for (size_t i = 0; i < connections; i++) {
        struct session *session = &s->sessions[i];
        session->is_caller = is_caller;
        session->phase = READY;
        session->units = 0x0009;
        session->available = DATA_TOKEN | MINOR_TOKEN;
        session->held = is_caller ? DATA_TOKEN | MINOR_TOKEN : 0;
        count_room(session);
    }
}
#endif
