/* What a hostile peer may send, and what users may call at random. */
#include "hostile.h"

#include <stdlib.h>
#include <string.h>

static uint64_t state;

void any_begin(uint64_t seed, uint64_t round)
{
    state = (seed + 1) * 0x9e3779b97f4a7c15u + round * 0xbf58476d1ce4e5b9u;
    state = state == 0 ? 1 : state;
    text_clear(&place);
    text_put(&place, "seed %llu, round %llu", (unsigned long long)seed, (unsigned long long)round);
}

struct rounds rounds_of(int count, char **words, uint64_t runs)
{
    struct rounds rounds = {runs, 1, 0};
    for (int i = 1; i + 1 < count; i += 2) {
        uint64_t number = strtoull(words[i + 1], NULL, 10);
        if (strcmp(words[i], "--runs") == 0)
            rounds.runs = number;
        if (strcmp(words[i], "--seed") == 0)
            rounds.seed = number;
        if (strcmp(words[i], "--round") == 0)
            rounds.first = number;
    }
    return rounds;
}

uint32_t any(uint32_t below)
{
    state ^= state << 13;
    state ^= state >> 7;
    state ^= state << 17;
    return (uint32_t)((state >> 11) % below);
}

/* Changes some of them, or cuts them, or puts an octet between them. */
static size_t changed(uint8_t *octets, size_t length)
{
    for (uint32_t times = any(3) + 1; times > 0 && length > 0; times--) {
        size_t at = any((uint32_t)length);
        uint32_t way = any(6);
        if (way < 4) {
            octets[at] = way == 0 ? (uint8_t)(octets[at] ^ (1u << any(8))) : (uint8_t)any(256);
        } else if (way == 4) {
            length = at;
        } else if (length < PIECE) {
            memmove(octets + at + 1, octets + at, length - at);
            octets[at] = (uint8_t)any(256);
            length += 1;
        }
    }
    return length;
}

static size_t at_random(uint8_t *octets, size_t length)
{
    for (size_t i = 0; i < length; i++)
        octets[i] = (uint8_t)any(256);
    return length;
}

/* A packet around a data unit of either class, with a session unit of some sort. */
static size_t packet_at_random(uint8_t *octets)
{
    static const uint8_t si[] = {1, 2, 8, 9, 10, 12, 13, 14, 25, 26, 34, 41, 42, 49, 50, 53};
    uint8_t class_0[] = {2, 0xf0, 0x80}, class_2[] = {4, 0xf0, 0, (uint8_t)(1 + any(3)), (uint8_t)(0x80 | any(8))};
    bool two = any(2) == 1;
    size_t header = two ? sizeof class_2 : sizeof class_0, length = 4 + header;
    memcpy(octets + 4, two ? class_2 : class_0, header);
    if (any(2) == 0) {
        octets[length++] = 1;
        octets[length++] = 0;
    }
    octets[length++] = si[any(sizeof si)];
    uint8_t parameters = (uint8_t)any(12);
    octets[length++] = parameters;
    length += at_random(octets + length, parameters);
    octets[0] = 3;
    octets[1] = (uint8_t)any(2);
    octets[2] = (uint8_t)(length >> 8);
    octets[3] = (uint8_t)length;
    return length;
}

/* A packet around a unit of transport, with references that connections may have. */
static size_t transport_at_random(uint8_t *octets)
{
    static const uint8_t codes[] = {0xe0, 0xd0, 0x80, 0xc0, 0x60, 0x70};
    uint8_t code = codes[any(sizeof codes)];
    uint8_t class_or_reason = code >= 0xd0 ? (uint8_t)(any(2) * 0x20) : (uint8_t)(0x80 * any(2));
    uint8_t unit[] = {0, (uint8_t)(code == 0x60 ? code | any(4) : code), 0, (uint8_t)any(4), 0, (uint8_t)any(4), class_or_reason};
    size_t length = code == 0x60 || code == 0x70 ? 5 : code == 0xc0 ? 6 : 7;
    unit[0] = (uint8_t)(length - 1);
    octets[0] = 3;
    octets[1] = octets[2] = 0;
    octets[3] = (uint8_t)(4 + length);
    memcpy(octets + 4, unit, length);
    return 4 + length;
}

static size_t from_the_peer(osi_end *peer, uint8_t *octets)
{
    osi_octets there;
    osi_outgoing(peer, &there);
    size_t length = there.length < PIECE / 2 ? there.length : PIECE / 2;
    memcpy(octets, there.at, length);
    osi_taken(peer, length);
    return length;
}

/* What the peer has to send, twice; or it is lost, and what it has to send next is not. */
static size_t twice_or_not(osi_end *peer, uint8_t *octets)
{
    size_t length = from_the_peer(peer, octets);
    if (any(2) == 0)
        return from_the_peer(peer, octets);
    memcpy(octets + length, octets, length);
    return 2 * length;
}

/* All that the peer has to send, with an octet changed after the headers of its first packet. */
static size_t with_another_unit(osi_end *peer, uint8_t *octets)
{
    size_t length = from_the_peer(peer, octets);
    size_t packet = length < 4 ? 0 : (size_t)octets[2] * 256 + octets[3];
    size_t header = length < 5 ? 0 : 5 + (size_t)octets[4];
    if (header > 0 && header < packet && packet <= length)
        octets[header + any((uint32_t)(packet - header))] = (uint8_t)any(256);
    return length;
}

size_t some_octets(osi_end *peer, uint8_t *octets, enum life life)
{
    uint32_t way = life == HONEST ? 99 : any(40);
    if (way == 0)
        return packet_at_random(octets);
    if (way < 3)
        return with_another_unit(peer, octets);
    if (way == 6)
        return transport_at_random(octets);
    if (way < 9 && way > 6)
        return twice_or_not(peer, octets);
    if (life == HOSTILE && way == 3)
        return changed(octets, from_the_peer(peer, octets));
    if (life == HOSTILE && way == 4)
        return changed(octets, packet_at_random(octets));
    if (life == HOSTILE && way == 5)
        return at_random(octets, 1 + any(40));
    return from_the_peer(peer, octets);
}

struct event call_at_random(osi_end *end)
{
    static const enum verb of_phase[][6] = {
        [OSI_PHASE_ANSWERING] = {ACCEPT, ACCEPT, ACCEPT, ACCEPT, ACCEPT, REFUSE},
        [OSI_PHASE_READY] = {DATA, MINOR, MAJOR, GIVE, PLEASE, RELEASE},
        [OSI_PHASE_MAJOR_ASKED] = {PLEASE, RESTART, ABORT, PLEASE, RESTART, PLEASE},
        [OSI_PHASE_MAJOR_DUE] = {MAJOR_CONFIRM, MAJOR_CONFIRM, GIVE, PLEASE, RESTART, MAJOR_CONFIRM},
        [OSI_PHASE_RELEASE_DUE] = {RELEASE_ACCEPT, RELEASE_REFUSE, RELEASE_REFUSE, MINOR_CONFIRM, RESTART,
                                   RELEASE_REFUSE},
        [OSI_PHASE_RESTART_DUE] = {RESTART_CONFIRM, RESTART_CONFIRM, RESTART_CONFIRM, RESTART_CONFIRM,
                                   RESTART_CONFIRM, ABORT},
        [OSI_PHASE_ENDED] = {ABORT, ABORT, ABORT, ABORT, ABORT, ABORT},
    };
    static uint8_t data[3000];
    struct event e = event_of(CALL, LEFT, 0, 0);
    e.reference = (uint16_t)(any(4) == 0 ? 1 + any(3) : 1);
    uint32_t phase = osi_phase(end, e.reference);
    e.verb = any(5) == 0 ? (enum verb)any(ABORT) : of_phase[phase][any(6)];
    if (phase == OSI_PHASE_READY && any(4) == 0)
        e.verb = any(2) == 0 ? MINOR_CONFIRM : RESTART;
    e.units = any(4) == 0 ? OSI_DUPLEX : (uint16_t)(0x00b9 & (1u | any(256)));
    e.number = e.verb == ACCEPT ? any(3) : osi_next_serial(end, e.reference) - any(3);
    e.sides = (osi_sides){(uint8_t)any(2), (uint8_t)any(2), (uint8_t)any(2), (uint8_t)any(2)};
    e.tokens = any(2) == 0 ? osi_held(end, e.reference) : (uint8_t)any(256);
    e.confirm = (uint8_t)any(2);
    e.data = data;
    e.length = any(8) == 0 ? any(3000) : any(12);
    return e;
}

osi_opening opening_at_random(void)
{
    osi_opening asked = OSI_OPENING;
    asked.requirements = any(3) == 0 ? OSI_DUPLEX : (uint16_t)(1u | (0x00b8 & any(256)));
    asked.serial = any(3) == 0 ? 999998 : any(4);
    asked.wishes = (osi_sides){(uint8_t)any(3), (uint8_t)any(3), (uint8_t)any(3), (uint8_t)any(3)};
    asked.size_from_asker = any(3) == 0 ? (uint16_t)(64 + any(64)) : 0;
    asked.size_from_answerer = any(3) == 0 ? (uint16_t)(64 + any(64)) : 0;
    return asked;
}
