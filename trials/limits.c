/* Data that never ends: the octets that are kept of a TSDU reach their limit in both classes, and 64 connections
 * reach theirs at the same time. The octet above the limit ends the end in class 0, and only its connection in
 * class 2. Also each call with its greatest length, which succeeds. */
#include "memory.h"
#include "pairs.h"

#include <stdio.h>
#include <stdlib.h>
#include <string.h>

#define LONGEST 65535u
#define PACKET 4u

static struct pair pair;
static struct text shown;
static uint8_t packet[LONGEST];

static void is_shown(void *to, const osi_indication *i)
{
    (void)to;
    text_put(&shown, "%u ", i->reference);
    text_shown(&shown, i);
    text_put(&shown, "; ");
}

/* Feeds the right end a packet of this unit: a header and this many octets of data. */
static void feed_data(const uint8_t *header, size_t header_length, size_t data)
{
    size_t length = PACKET + header_length + data;
    packet[0] = 3;
    packet[1] = 0;
    packet[2] = (uint8_t)(length >> 8);
    packet[3] = (uint8_t)length;
    memcpy(packet + PACKET, header, header_length);
    memset(packet + PACKET + header_length, 0x41, data);
    end_feed(&pair.ends[RIGHT], packet, length, SIZE_MAX, is_shown, NULL);
    end_check(&pair.ends[RIGHT]);
}

/* Feeds this many octets of data without EOT to a connection of class 0 (reference 0) or 2. */
static void feed_unfinished(uint16_t reference, size_t data, uint8_t *number)
{
    size_t header_length = reference == 0 ? 3 : 5;
    while (data > 0) {
        size_t most = LONGEST - PACKET - header_length, count = data < most ? data : most;
        uint8_t class_0[] = {2, 0xf0, 0},
                class_2[] = {4, 0xf0, (uint8_t)(reference >> 8), (uint8_t)reference, *number};
        feed_data(reference == 0 ? class_0 : class_2, header_length, count);
        *number = (*number + 1) & 0x7f;
        data -= count;
    }
}

static void drop_outgoing(void)
{
    osi_octets octets;
    osi_outgoing(&pair.ends[RIGHT], &octets);
    osi_taken(&pair.ends[RIGHT], octets.length);
}

static void opened(uint8_t classes, unsigned connections)
{
    struct event ends = event_of(ENDS, LEFT, 0, 0), connect = event_of(CONNECT, LEFT, 0, 0);
    struct event left = event_of(CARRY, LEFT, 99999, 0), right = event_of(CARRY, RIGHT, 99999, 0);
    struct event drop = event_of(DROP, LEFT, 0, 0);
    ends.terms[LEFT] = ends.terms[RIGHT] = (osi_terms){classes, 13, 15};
    connect.units = OSI_HALF_DUPLEX;
    connect.data = octets_of("-", &connect.length);
    connect.addresses[0] = connect.addresses[1] = connect.data;
    text_clear(&shown);
    pair_begin(&pair);
    holds(pair_apply(&pair, &ends) == DONE, "no ends");
    for (unsigned i = 0; i < connections; i++) {
        holds(pair_apply(&pair, &connect) == DONE, "no connection");
        pair_run(&pair, &left, 1);
        pair_run(&pair, &right, 1);
        pair_run(&pair, &drop, 1);
    }
    /* Without the CN, which the left end sends after the CC, all are open and wait for it. */
    runs += 1;
}

static void class_0(void)
{
    uint8_t number = 0;
    uint64_t detail;
    text_clear(&place);
    text_put(&place, "no EOT in class 0");
    opened(OSI_CLASS_0, 1);
    for (int i = 0; i < 16; i++)
        feed_unfinished(0, 65528, &number);
    feed_unfinished(0, 128, &number);
    size_t kept = osi_kept(&pair.ends[RIGHT]);
    holds(kept == KEPT_OF_A_TSDU, "%zu octets are kept", kept);
    holds(osi_ended(&pair.ends[RIGHT], &detail) == OSI_END_NONE, "the end is over too early");
    feed_unfinished(0, 1, &number);
    holds(osi_ended(&pair.ends[RIGHT], &detail) == OSI_END_TSDU_TOO_LONG, "the end is not over");
    printf("limits: class 0: 1,048,576 octets are kept, one more ends the end\n");
    pair_free(&pair);
}

/* The DR 133 of the right end for this connection, and nothing else. */
static void check_disconnect(uint16_t reference)
{
    uint8_t wanted[] = {3, 0, 0, 11, 6, 0x80, 0, (uint8_t)reference, 0, (uint8_t)reference, 133};
    osi_octets octets;
    osi_outgoing(&pair.ends[RIGHT], &octets);
    holds(octets.length == sizeof wanted && memcmp(octets.at, wanted, sizeof wanted) == 0, "%zu octets are sent",
          octets.length);
    drop_outgoing();
}

static void class_2(void)
{
    uint8_t numbers[2] = {0, 0};
    uint64_t detail;
    text_clear(&place);
    text_put(&place, "no EOT in class 2");
    opened(OSI_CLASS_2, 2);
    feed_unfinished(2, 1000, &numbers[1]);
    feed_unfinished(1, KEPT_OF_A_TSDU, &numbers[0]);
    drop_outgoing();
    size_t kept = osi_kept(&pair.ends[RIGHT]);
    holds(kept == KEPT_OF_A_TSDU + 1000, "%zu octets are kept", kept);
    feed_unfinished(1, 1, &numbers[0]);
    check_disconnect(1);
    kept = osi_kept(&pair.ends[RIGHT]);
    holds(kept == 1000, "%zu octets are kept of the other connection", kept);
    holds(osi_ended(&pair.ends[RIGHT], &detail) == OSI_END_NONE, "the end is over");
    holds(osi_phase(&pair.ends[RIGHT], 2) == OSI_PHASE_WAIT_CN, "the other connection does not wait");
    feed_unfinished(2, KEPT_OF_A_TSDU - 1000, &numbers[1]);
    kept = osi_kept(&pair.ends[RIGHT]);
    holds(kept == KEPT_OF_A_TSDU, "%zu octets are kept of the other connection at its limit", kept);
    printf("limits: class 2: the octet behind 1,048,576 disconnects its connection, the other goes on\n");
    pair_free(&pair);
}

static void sixty_four(void)
{
    uint8_t numbers[64] = {0};
    text_clear(&place);
    text_put(&place, "64 connections without EOT");
    opened(OSI_CLASS_2, 64);
    for (uint16_t i = 0; i < 64; i++)
        feed_unfinished((uint16_t)(i + 1), KEPT_OF_A_TSDU, &numbers[i]);
    uint8_t header[] = {3, 0, 0xff, 0xff, 4, 0xf0, 0, 1, 0};
    memcpy(packet, header, sizeof header);
    end_feed(&pair.ends[RIGHT], packet, LONGEST - 1, SIZE_MAX, is_shown, NULL);
    size_t kept = osi_kept(&pair.ends[RIGHT]);
    holds(kept == 64 * (size_t)KEPT_OF_A_TSDU + LONGEST - 1, "%zu octets are kept", kept);
    printf("limits: 64 connections: %zu octets are kept at most, with an unfinished packet\n", kept);
    pair_free(&pair);
}

/* ---- each call at its greatest length */

#define ALL_UNITS 0x00b9
#define MOST_USER_DATA 10240u
#define MOST_DATA 1048572u

static uint8_t longest[MOST_DATA];

/* An event with as much user data as is allowed, which succeeds. */
static void is_done(struct event event, size_t length)
{
    event.data = longest;
    event.length = length;
    text_clear(&pair.out);
    pair_run(&pair, &event, 1);
    holds(strstr(pair.out.at, " refused ") == NULL, "refused: %s", pair.out.at);
}

static void carries(int side)
{
    struct event carry = event_of(CARRY, side, UINT32_MAX, 0);
    pair_run(&pair, &carry, 1);
}

static void connects(void)
{
    static uint8_t tsap[32];
    struct event connect = event_of(CONNECT, LEFT, 1, 0);
    connect.units = ALL_UNITS;
    connect.addresses[0] = connect.addresses[1] = tsap;
    connect.address_lengths[0] = connect.address_lengths[1] = sizeof tsap;
    is_done(connect, MOST_USER_DATA);
    for (int i = 0; i < 3; i++) {
        carries(LEFT);
        carries(RIGHT);
    }
}

/* A call of a user, whose octets are carried. */
static void calls(int side, uint16_t reference, enum verb verb, uint32_t number)
{
    struct event call = event_of(CALL, side, number, 0);
    call.verb = verb;
    call.reference = reference;
    call.units = ALL_UNITS;
    call.tokens = OSI_TOKEN_DATA | OSI_TOKEN_MINOR | OSI_TOKEN_MAJOR | OSI_TOKEN_RELEASE;
    call.confirm = true;
    is_done(call, verb == DATA ? MOST_DATA : MOST_USER_DATA);
    if (verb != DATA)
        carries(side);
}

static void greatest_lengths(void)
{
    struct event ends = event_of(ENDS, LEFT, 0, 0);
    ends.terms[LEFT] = ends.terms[RIGHT] = (osi_terms){OSI_CLASS_2, 13, 15};
    text_clear(&place);
    text_put(&place, "each call at its greatest length");
    memset(longest, 0x41, sizeof longest);
    pair_begin(&pair);
    holds(pair_apply(&pair, &ends) == DONE, "no ends");
    connects();
    calls(RIGHT, 1, ACCEPT, 1);
    calls(LEFT, 1, DATA, 0);
    calls(LEFT, 1, DATA, 0); /* waits until the one before has gone */
    for (int i = 0; i < 40; i++) {
        carries(LEFT);
        carries(RIGHT);
    }
    calls(LEFT, 1, MINOR, 0);
    calls(RIGHT, 1, MINOR_CONFIRM, 1);
    calls(RIGHT, 1, PLEASE, 0);
    calls(LEFT, 1, MAJOR, 0);
    calls(RIGHT, 1, MAJOR_CONFIRM, 0);
    calls(LEFT, 1, RESTART, 3);
    calls(RIGHT, 1, RESTART_CONFIRM, 0);
    calls(LEFT, 1, RELEASE, 0);
    calls(RIGHT, 1, RELEASE_REFUSE, 0);
    calls(LEFT, 1, RELEASE, 0);
    calls(RIGHT, 1, RELEASE_ACCEPT, 0);
    connects();
    calls(RIGHT, 2, REFUSE, 0);
    connects();
    calls(LEFT, 3, ABORT, 0);
    runs += 1;
    printf("limits: each call at its greatest length\n");
    pair_free(&pair);
}

int main(void)
{
    class_0();
    class_2();
    sixty_four();
    greatest_lengths();
    return counts("limits");
}
