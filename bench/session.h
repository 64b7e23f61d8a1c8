/* One side of a session written by hand: data, minor points and their confirmations, in Ready. */
#ifndef SESSION_H
#define SESSION_H
#include <stdlib.h>
#include "tsdu.h"

enum phase { WAIT_TRANSPORT, WAIT_CN, CONNECTING, ANSWERING, READY, MAJOR_ASKED, MAJOR_DUE, RELEASING, RELEASE_DUE,
             RESTARTING, RESTART_DUE, ABORTING, ENDED };
enum error { OK, CALL_ENDED, BAD_STATE, NOT_SELECTED, TOKEN_NOT_HELD, BAD_NUMBER, USED_UP, EMPTY, TOO_LONG, NO_MEMORY };
enum { DATA_TOKEN = 0x01, MINOR_TOKEN = 0x04 };
enum { MOST_DATA = 1048572, MOST_USER_DATA = 10240, LAST_NUMBER = 999999 };

struct session {
    enum phase phase;
    int is_caller;
    uint16_t units;
    uint8_t available, held, wishes;
    uint32_t proposed, base, next, confirmed, lowest;
    int answers;
    /* The most octets of a TSDU that this side sends; 0 for no limit. */
    uint16_t limit;
    /* How much data one TSDU has room for: 0 while no data may be sent. */
    size_t room;
};

/* User data of an indication, and the block that holds it, which the user frees. */
struct user_data {
    uint8_t *memory;
    const uint8_t *at;
    size_t length;
};

enum shown { SHOWN_NONE, SHOWN_DATA, SHOWN_MINOR, SHOWN_CONFIRMED, SHOWN_GIVEN, SHOWN_ABORT };

struct indication {
    enum shown kind;
    uint32_t number;
    int confirm;
    uint8_t tokens;
    enum fault fault;
    uint8_t si;
    struct user_data data;
};

/* The effect of a TSDU; `aborts`: an AB has to be sent. */
struct taken {
    struct indication first;
    int aborts, closes;
};

static int has_right(const struct session *s, uint8_t tokens)
{
    return (s->available & ~s->held & tokens) == 0;
}

static unsigned digits_of(uint32_t n, uint8_t digits[6])
{
    uint8_t turned[6];
    unsigned count = 0;
    do {
        turned[count++] = (uint8_t)('0' + n % 10);
        n /= 10;
    } while (n);
    for (unsigned i = 0; i < count; i++)
        digits[i] = turned[count - 1 - i];
    return count;
}

static uint8_t *put_length(uint8_t *at, size_t length)
{
    if (length > 254) {
        *at++ = 255;
        *at++ = (uint8_t)(length >> 8);
    }
    *at++ = (uint8_t)length;
    return at;
}

static size_t item_length(size_t length)
{
    return (length > 254 ? 4 : 2) + length;
}

/* The octets before data: a GT that names no token, and the SI and LI of a DT. */
enum { DATA_FRONT = 4 };

static void write_data_front(uint8_t *at)
{
    memcpy(at, "\1\0\1", DATA_FRONT);
}

/* The octets before the user data of a point or a confirmation: a GT that names no token, and the beginning of the unit.
   `octets` is its length. `open` leaves the confirmation open. */
struct front {
    uint8_t si;
    int open;
    uint8_t digits[6];
    unsigned count;
    size_t user_data, body, octets;
};

static void make_front(struct front *f, uint8_t si, int open, uint32_t number, size_t user_data)
{
    f->si = si;
    f->open = open;
    f->user_data = user_data;
    f->count = digits_of(number, f->digits);
    f->body = (open ? 3u : 0u) + 2 + f->count + (user_data ? item_length(user_data) : 0);
    f->octets = 2 + item_length(f->body) - user_data;
}

static void write_front(uint8_t *at, const struct front *f)
{
    *at++ = 1;
    *at++ = 0;
    *at++ = f->si;
    at = put_length(at, f->body);
    if (f->open) {
        *at++ = 15;
        *at++ = 1;
        *at++ = 1;
    }
    *at++ = 42;
    *at++ = (uint8_t)f->count;
    memcpy(at, f->digits, f->count);
    at += f->count;
    if (f->user_data) {
        *at++ = 193;
        put_length(at, f->user_data);
    }
}

/* The octets of an AB. */
enum { ABORT_FRONT = 5 };

static inline void write_abort(uint8_t *at)
{
    memcpy(at, "\x19\3\x11\1\5", ABORT_FRONT);
}

/* ---- calls: the first error of each, and its effect after it is sent */

/* Whether a TSDU of so many octets may be sent. */
static int fits(const struct session *s, size_t octets)
{
    return s->limit == 0 || octets <= s->limit;
}

/* Counts how much data one TSDU has room for, when the phase, the tokens or the limit have changed. */
static void count_room(struct session *s)
{
    const size_t most = s->limit == 0 ? MOST_DATA : s->limit < DATA_FRONT ? 0 : s->limit - DATA_FRONT;
    s->room = s->phase == READY && has_right(s, DATA_TOKEN) ? most : 0;
}

/* The error of a call for data that has no room. */
static __attribute__((noinline)) enum error no_data(const struct session *s, struct slice data)
{
    if (s->phase == ABORTING || s->phase == ENDED)
        return CALL_ENDED;
    if (s->phase != READY)
        return BAD_STATE;
    if (!has_right(s, DATA_TOKEN))
        return TOKEN_NOT_HELD;
    return data.length == 0 ? EMPTY : TOO_LONG;
}

/* Data beyond the limit is refused: these sessions don't send it in parts. */
static inline enum error may_data(const struct session *s, struct slice data)
{
    return data.length != 0 && data.length <= s->room ? OK : no_data(s, data);
}

static inline enum error may_minor(const struct session *s, struct slice data)
{
    if (s->phase == ABORTING || s->phase == ENDED)
        return CALL_ENDED;
    if (s->phase != READY)
        return BAD_STATE;
    if (!(s->units & 0x08))
        return NOT_SELECTED;
    if (!has_right(s, DATA_TOKEN | MINOR_TOKEN))
        return TOKEN_NOT_HELD;
    if (s->next > LAST_NUMBER)
        return USED_UP;
    return data.length > MOST_USER_DATA ? TOO_LONG : OK;
}

static void minor_front(const struct session *s, int confirm, struct slice data, struct front *front)
{
    make_front(front, 49, !confirm, s->next, data.length);
}

static void minor_sent(struct session *s)
{
    if (s->answers)
        s->confirmed = s->next;
    s->next += 1;
    s->answers = 0;
}

static inline enum error may_confirm(const struct session *s, uint32_t number, struct slice data)
{
    if (s->phase == ABORTING || s->phase == ENDED)
        return CALL_ENDED;
    if (s->phase != READY && s->phase != RELEASE_DUE)
        return BAD_STATE;
    if (!(s->units & 0x08))
        return NOT_SELECTED;
    if (!(s->answers && s->confirmed <= number && number < s->next))
        return BAD_NUMBER;
    return data.length > MOST_USER_DATA ? TOO_LONG : OK;
}

static void confirm_front(uint32_t number, struct slice data, struct front *front)
{
    make_front(front, 50, 0, number, data.length);
}

static void confirm_sent(struct session *s, uint32_t number)
{
    s->confirmed = number + 1;
}

/* ---- receiving */

/* A bad unit: sends AB, and indicates why. */
static enum error abort_by(struct session *s, enum fault fault, uint8_t si, struct taken *t)
{
    t->aborts = 1;
    t->first.kind = SHOWN_ABORT;
    t->first.fault = fault;
    t->first.si = si;
    s->phase = ABORTING;
    s->held = 0;
    count_room(s);
    return OK;
}

/* Shows user data. If it came in a block, the indication gets the block; else the data is copied into a block of its own. */
static enum error show(struct indication *i, enum shown kind, struct slice data, uint8_t **memory)
{
    uint8_t *at;
    i->kind = kind;
    if (data.length == 0)
        return OK;
    if (*memory) {
        i->data = (struct user_data){*memory, data.at, data.length};
        *memory = NULL;
        return OK;
    }
    at = malloc(data.length);
    if (!at)
        return NO_MEMORY;
    memcpy(at, data.at, data.length);
    i->data = (struct user_data){at, at, data.length};
    return OK;
}

static enum error take_data(struct session *s, struct slice data, uint8_t **memory, struct taken *t)
{
    if ((s->phase != READY && s->phase != RELEASING) || s->held & DATA_TOKEN)
        return abort_by(s, NONE, 1, t);
    return show(&t->first, SHOWN_DATA, data, memory);
}

static enum error take_minor(struct session *s, uint32_t number, int confirm, struct slice data, uint8_t **memory, struct taken *t)
{
    enum error e;
    if (s->phase != READY || !(s->units & 0x08) || s->held & (DATA_TOKEN | MINOR_TOKEN) || number != s->next)
        return abort_by(s, NONE, 49, t);
    e = show(&t->first, SHOWN_MINOR, data, memory);
    if (e)
        return e;
    t->first.number = number;
    t->first.confirm = confirm;
    if (!s->answers)
        s->confirmed = s->next;
    s->next += 1;
    s->answers = 1;
    return OK;
}

static enum error take_confirmation(struct session *s, uint32_t number, struct slice data, uint8_t **memory, struct taken *t)
{
    enum error e;
    if ((s->phase != READY && s->phase != MAJOR_ASKED && s->phase != RELEASING) || !(s->units & 0x08))
        return abort_by(s, NONE, 50, t);
    if (s->answers || s->confirmed > number || number + (s->phase == MAJOR_ASKED) >= s->next)
        return abort_by(s, NONE, 50, t);
    e = show(&t->first, SHOWN_CONFIRMED, data, memory);
    if (e)
        return e;
    t->first.number = number;
    s->confirmed = number + 1;
    return OK;
}

static enum error take_unit(struct session *s, const struct unit *u, uint8_t **memory, struct taken *t)
{
    switch (u->si) {
    case 1: return take_data(s, u->information, memory, t);
    case 49: return take_minor(s, u->number, !(u->there & BIT(SYNC) && u->sync), u->data, memory, t);
    case 50: return take_confirmation(s, u->number, u->data, memory, t);
    default: return abort_by(s, NONE, u->si, t);
    }
}

/* The token item in front, which acts after the other units. */
static enum error take_tokens(struct session *s, const struct unit *u, struct taken *t)
{
    if (u->category != 0 || !(u->there & BIT(TOKENS)) || u->tokens == 0)
        return OK;
    if (u->tokens & ~s->available || u->tokens & s->held)
        return abort_by(s, NONE, u->si, t);
    t->first.tokens = u->tokens;
    s->held |= u->tokens;
    count_room(s);
    return OK;
}

/* Reads any TSDU and takes its units. It stands apart, since its units need much room on the stack. */
static __attribute__((noinline)) enum error take_units(struct session *s, const uint8_t *octets, size_t length, uint8_t **memory,
                                                       struct taken *t)
{
    struct unit units[MOST_UNITS];
    size_t count;
    enum error e;
    struct failed f = read_units(units, &count, octets, length);
    if (f.fault)
        return abort_by(s, f.fault, 0, t);
    if (s->phase == ABORTING || s->phase == ENDED)
        return OK;
    for (size_t i = 1; i < count; i++) {
        if (s->phase == RESTARTING && units[i].si != 53 && units[i].si != 34)
            continue;
        e = take_unit(s, &units[i], memory, t);
        if (e || t->first.kind == SHOWN_ABORT)
            return e;
    }
    e = take_tokens(s, &units[0], t);
    return e == OK && units[0].category == 1 ? take_unit(s, &units[0], memory, t) : e;
}

/* The number of a MIP or an MIA that has no other parameter, after a GT that names no token. */
static int plain_number(const uint8_t *octets, size_t length, uint32_t *number)
{
    const size_t digits = length - 6;
    const struct slice value = {octets + 6, digits};
    if (length < 7 || length > 12 || octets[0] != 1 || octets[1] != 0)
        return 0;
    return octets[3] == digits + 2 && octets[4] == 42 && octets[5] == digits && number_in(value, number);
}

/* Takes a TSDU. Whole data, points and confirmations that have only a number are read by their first octets, and any other TSDU
   by its units. `memory` is the block in which the TSDU lies, or NULL if its octets are lent. If an indication got the block, it
   is NULL afterwards. */
static enum error take(struct session *s, const uint8_t *octets, size_t length, uint8_t **memory, struct taken *t)
{
    static const struct slice nothing = {(const uint8_t *)"", 0};
    uint32_t number;
    memset(t, 0, sizeof *t);
    /* The phases from Restarting on take none of these. */
    if (s->phase >= RESTARTING || length < DATA_FRONT)
        return take_units(s, octets, length, memory, t);
    if (memcmp(octets, "\1\0\1", DATA_FRONT) == 0)
        return take_data(s, (struct slice){octets + DATA_FRONT, length - DATA_FRONT}, memory, t);
    if (octets[2] == 49 && plain_number(octets, length, &number))
        return take_minor(s, number, 1, nothing, memory, t);
    if (octets[2] == 50 && plain_number(octets, length, &number))
        return take_confirmation(s, number, nothing, memory, t);
    return take_units(s, octets, length, memory, t);
}
#endif
