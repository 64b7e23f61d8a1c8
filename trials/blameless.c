/* Two ends whose users make random calls, and three judges of what passes between them: at the left end, in the middle, and at the
 * right end. What one end sends passes and arrives in pieces of any length, at any time. No judge blames anybody.
 *
 *     blameless [--runs N] [--seed N] [--round N]     the same seed and round give the same run again */
#include "hostile.h"
#include "pairs.h"

#include <stdio.h>
#include <stdlib.h>
#include <string.h>

#define STEPS 300
#define PLACES 3

/* What one side has sent: its octets, and how many of them have passed the middle and have arrived. */
struct way {
    struct text octets;
    size_t passed, arrived;
};

static osi_end ends[2] = {OSI_END, OSI_END};
static struct way ways[2];
static osi_judge judges[PLACES] = {OSI_JUDGE, OSI_JUDGE, OSI_JUDGE};
static const char *const place_names[PLACES] = {"at left", "in the middle", "at right"};
static struct text history;
static uint64_t octets_seen, connections_asked, further[PLACES];

/* Octets of a side pass the judge at a place. */
static void goes_by(int place, int side, const char *octets, size_t length)
{
    size_t used;
    if (osi_judge_feed(&judges[place], side == LEFT ? OSI_LEFT : OSI_RIGHT, (const uint8_t *)octets, length, &used) != OSI_OK)
        abort();
}

static void moved(const char *what, int side, size_t length)
{
    if (length > 0)
        text_put(&history, "%s %s %zu\n", what, side_names[side], length);
}

/* ---- octets on their way */

/* All that an end has to send is sent. It passes the place beside it. */
static void sends(int side)
{
    struct way *way = &ways[side];
    osi_octets there;
    osi_outgoing(&ends[side], &there);
    text_grow(&way->octets, there.length + 1);
    if (there.length > 0)
        memcpy(way->octets.at + way->octets.length, there.at, there.length);
    goes_by(side == LEFT ? 0 : 2, side, (const char *)there.at, there.length);
    way->octets.length += there.length;
    octets_seen += there.length;
    moved("sent", side, there.length);
    if (osi_taken(&ends[side], there.length) != OSI_OK)
        abort();
}

static size_t some_of(size_t length)
{
    return length == 0 || any(3) == 0 ? length : 1 + any((uint32_t)length);
}

static void passes(int side)
{
    struct way *way = &ways[side];
    size_t length = some_of(way->octets.length - way->passed);
    goes_by(1, side, way->octets.at + way->passed, length);
    way->passed += length;
    moved("passes", side, length);
}

static void is_shown(osi_end *end)
{
    osi_indication shown;
    while (osi_next(end, &shown))
        holds(shown.tag != OSI_BAD_UNIT && shown.tag != OSI_PEER_ABORT, "a user is told of a fault\n%s", history.at);
}

/* Octets of a side arrive at the other end. Those that it uses pass the place beside it. */
static void arrives(int side)
{
    struct way *way = &ways[side];
    size_t length = some_of(way->passed - way->arrived);
    moved("arrives", side, length);
    while (length > 0) {
        osi_fed fed;
        if (osi_feed(&ends[1 - side], (const uint8_t *)way->octets.at + way->arrived, length, &fed) != OSI_OK)
            abort();
        goes_by(side == LEFT ? 2 : 0, side, way->octets.at + way->arrived, fed.used);
        is_shown(&ends[1 - side]);
        way->arrived += fed.used;
        length -= fed.used;
    }
}

/* ---- users */

static void calls(int side)
{
    struct event event = call_at_random(&ends[side]);
    event.verb = event.verb == ABORT && any(4) > 0 ? DATA : event.verb;
    uint32_t code = end_call(&ends[side], &event);
    if (code == OSI_OK)
        text_put(&history, "%s %u %s\n", side_names[side], event.reference, verb_names[event.verb]);
}

static void connects(void)
{
    osi_opening asked = opening_at_random();
    uint16_t reference;
    uint32_t code = osi_connect(&ends[LEFT], &asked, &reference);
    text_put(&history, "connect %u\n", code);
    connections_asked += code == OSI_OK;
}

static void disconnects(int side)
{
    uint32_t code = osi_disconnect(&ends[side], (uint16_t)(1 + any(3)));
    text_put(&history, "%s disconnects %u\n", side_names[side], code);
}

static void step(void)
{
    int side = (int)any(2);
    uint32_t way = any(16);
    if (way < 4)
        sends(side);
    else if (way < 7)
        passes(side);
    else if (way < 10)
        arrives(side);
    else if (way < 14)
        calls(side);
    else if (way == 14 && any(6) == 0)
        connects();
    else if (way == 15 && any(12) == 0)
        disconnects(side);
}

/* ---- a run */

static void judge_says(int place)
{
    osi_verdict v;
    char line[OSI_VERDICT_TEXT];
    while (osi_judge_next(&judges[place], &v) == OSI_OK) {
        osi_verdict_text(&v, line, sizeof line);
        bool blames = v.kind == OSI_VERDICT_BROKE || v.kind == OSI_VERDICT_LEAVES;
        holds(!blames, "a judge %s blames an end: %s\n%s", place_names[place], line, history.at);
        further[place] += !blames;
    }
}

static void live_once(uint32_t class)
{
    osi_terms terms[2];
    for (int side = LEFT; side <= RIGHT; side++)
        terms[side] = (osi_terms){class == 0 ? OSI_CLASS_0 : OSI_CLASS_2, (uint8_t)(7 + any(7)), (uint8_t)(1 + any(15))};
    text_clear(&history);
    for (int side = LEFT; side <= RIGHT; side++) {
        text_clear(&ways[side].octets);
        ways[side].passed = ways[side].arrived = 0;
    }
    if (osi_caller(&ends[LEFT], &terms[LEFT]) || osi_called(&ends[RIGHT], &terms[RIGHT]))
        abort();
    for (int place = 0; place < PLACES; place++)
        if (osi_judge_new(&judges[place]))
            abort();
    connects();
    for (int i = 0; i < STEPS; i++)
        step();
    for (int place = 0; place < PLACES; place++) {
        judge_says(place);
        osi_judge_free(&judges[place]);
    }
    osi_free(&ends[LEFT]);
    osi_free(&ends[RIGHT]);
    runs += 1;
}

int main(int count, char **words)
{
    const struct rounds rounds = rounds_of(count, words, 20000);
    for (uint64_t round = rounds.first; round < rounds.first + rounds.runs; round++) {
        any_begin(rounds.seed, round);
        live_once(round % 2 == 0 ? 0 : 2);
    }
    printf("blameless: %llu octets of %llu connections; judged no further: %llu, %llu and %llu\n", (unsigned long long)octets_seen,
           (unsigned long long)connections_asked, (unsigned long long)further[0], (unsigned long long)further[1],
           (unsigned long long)further[2]);
    return counts("blameless");
}
