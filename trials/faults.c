/* What an end tells of its peer, beside what a judge says of the same octets. An end is fed what a peer sends, the same
 * with changes, or octets at random; its user and that of the peer make random calls. The judge is fed the octets that the end
 * used and those that the peer took, in this order. When the end tells its user of a bad unit, or ends with a fault, the judge
 * has to say that the peer broke the protocol or left the profile. Where it may say less, `liberties` has the fault, and
 * docs/DECISIONS.md why.
 *
 *     faults [--runs N] [--seed N] [--round N]     the same seed and round give the same run again */
#include "hostile.h"
#include "pairs.h"

#include <stdio.h>
#include <stdlib.h>
#include <string.h>

#define STEPS 150
#define CODES 32

/* What an end tells: of a bad unit, with its fault; or why it ended. */
struct told {
    bool is_unit;
    uint32_t code;
};

/* What a judge says of the peer. */
enum said { NOTHING_SAID, NOT_JUDGED, BLAMED, SAYINGS };

static osi_end one = OSI_END, peer = OSI_END;
static osi_judge judge = OSI_JUDGE;
static struct text history;
/* All octets that the end used, and all that it sent. */
static struct text used, sent;
static struct told told;
static enum said said;
static bool begins_in_the_middle;
static uint32_t side_of_one;
static uint64_t counted[2][2][CODES][SAYINGS];

static void note(const char *what, const uint8_t *octets, size_t length)
{
    text_put(&history, "%s ", what);
    text_octets(&history, octets, length);
    text_put(&history, "\n");
}

static void keep(struct text *all, const uint8_t *octets, size_t length)
{
    text_grow(all, length + 1);
    memcpy(all->at + all->length, octets, length);
    all->length += length;
}

/* ---- the judge */

static void judge_feeds(uint32_t side, const uint8_t *octets, size_t length)
{
    size_t used;
    if (osi_judge_feed(&judge, side, octets, length, &used) != OSI_OK)
        abort();
}

/* What is certain of the peer, and that nobody says anything of this end. */
static void judge_says(void)
{
    osi_verdict v;
    char line[OSI_VERDICT_TEXT];
    while (osi_judge_next(&judge, &v) == OSI_OK) {
        osi_verdict_text(&v, line, sizeof line);
        text_put(&history, "judge: %s\n", line);
        bool blames = v.kind == OSI_VERDICT_BROKE || v.kind == OSI_VERDICT_LEAVES;
        holds(v.side != side_of_one || !blames, "an end is blamed: %s", line);
        if (v.side == side_of_one)
            continue;
        begins_in_the_middle = begins_in_the_middle || v.rule == OSI_RULE_NO_OPENING;
        enum said more = blames ? BLAMED : NOT_JUDGED;
        said = more > said ? more : said;
    }
}

/* ---- the end */

static bool has_told(void)
{
    return told.code != 0;
}

static void looked_at(const osi_indication *shown)
{
    if (shown->tag == OSI_BAD_UNIT && !has_told())
        told = (struct told){true, shown->fault.fault};
}

/* An end that ended for lack of memory has no fault to tell. */
static void look_at_end(void)
{
    uint64_t detail;
    uint32_t code = osi_ended(&one, &detail);
    bool is_fault = code >= OSI_END_UNKNOWN_REFERENCE && code != OSI_END_NO_MEMORY_FOR_PACKET && code != OSI_END_NO_MEMORY_FOR_TSDU;
    if (is_fault && !has_told())
        told = (struct told){false, code};
}

static void one_is_fed(const uint8_t *octets, size_t length)
{
    note("fed", octets, length);
    while (length > 0 && !has_told()) {
        osi_fed fed;
        osi_indication shown;
        if (osi_feed(&one, octets, length, &fed) != OSI_OK)
            abort();
        judge_feeds(1 - side_of_one, octets, fed.used);
        keep(&used, octets, fed.used);
        while (osi_next(&one, &shown))
            looked_at(&shown);
        look_at_end();
        octets += fed.used;
        length -= fed.used;
    }
}

static void peer_is_fed(void)
{
    osi_octets there;
    osi_outgoing(&one, &there);
    note("sent", there.at, there.length);
    keep(&sent, there.at, there.length);
    judge_feeds(side_of_one, there.at, there.length);
    for (size_t at = 0; at < there.length;) {
        osi_fed fed;
        osi_indication shown;
        if (osi_feed(&peer, there.at + at, there.length - at, &fed) != OSI_OK)
            abort();
        while (osi_next(&peer, &shown))
            ;
        at += fed.used;
    }
    if (osi_taken(&one, there.length) != OSI_OK)
        abort();
}

static void calls(osi_end *end)
{
    struct event event = call_at_random(end);
    uint32_t code = end_call(end, &event);
    text_put(&history, "%s %s %u: %u\n", end == &one ? "calls" : "peer calls", verb_names[event.verb], event.reference, code);
}

static void connects(osi_end *end)
{
    osi_opening asked = opening_at_random();
    uint16_t reference;
    uint32_t code = osi_connect(end, &asked, &reference);
    text_put(&history, "connect: %u\n", code);
}

/* ---- a run */

static void step(bool is_caller, enum life life)
{
    static uint8_t octets[PIECE + 1];
    uint32_t way = any(10);
    if (way < 4)
        one_is_fed(octets, some_octets(&peer, octets, life));
    else if (way < 6)
        peer_is_fed();
    else if (way == 6 && any(8) == 0)
        connects(is_caller ? &one : &peer);
    else
        calls(way < 8 ? &one : &peer);
}

/* The code of the last unit that the end used, if it came alone in its packet; else 0. */
static uint8_t code_of_the_last(void)
{
    const uint8_t *octets = (const uint8_t *)used.at;
    uint8_t code = 0;
    for (size_t at = 0, length; at + 6 <= used.length; at += length) {
        length = (size_t)octets[at + 2] * 256 + octets[at + 3];
        bool is_packet = octets[at] == 3 && length >= 7 && at + length <= used.length;
        code = is_packet && octets[at + 4] + 5u == length ? octets[at + 5] & 0xf0 : 0;
        if (!is_packet)
            return 0;
    }
    return code;
}

/* Whether there is a DR in a whole packet. A DT is the last unit of its packet, since the rest is its user data. */
static bool has_a_dr(const uint8_t *packet, size_t length)
{
    for (size_t at = 4; at + 1 < length && (packet[at + 1] & 0xf0) != 0xf0; at += packet[at] + 1u)
        if (packet[at + 1] == 0x80)
            return true;
    return false;
}

/* Whether the end has sent a DR. All that it sends is whole packets. */
static bool has_sent_a_dr(void)
{
    const uint8_t *octets = (const uint8_t *)sent.at;
    for (size_t at = 0, length; at + 4 <= sent.length; at += length) {
        length = (size_t)octets[at + 2] * 256 + octets[at + 3];
        if (has_a_dr(octets + at, length))
            return true;
    }
    return false;
}

/* Where a judge may say less of the peer than the end does. What begins with another unit than a CR may have begun before, which is
 * certain once a packet of the calling side has passed. And after a DR of the end that refused a CR, a DC with any references may answer
 * it. */
static bool is_liberty(void)
{
    bool is_undecided = side_of_one == OSI_LEFT && sent.length == 0;
    bool may_answer = code_of_the_last() == 0xc0 && has_sent_a_dr();
    return begins_in_the_middle || (said == NOTHING_SAID && (is_undecided || may_answer));
}

static void live_once(uint32_t class)
{
    osi_terms terms = {class == 0 ? OSI_CLASS_0 : OSI_CLASS_2, (uint8_t)(7 + any(7)), (uint8_t)(1 + any(15))};
    bool is_caller = any(2) == 0;
    enum life life = (enum life)(1 + any(2));
    /* Until then the peer does no wrong, so that the end comes into every phase. */
    int hostile_from = any(3) == 0 ? 0 : (int)any(STEPS);
    text_clear(&history);
    text_clear(&used);
    text_clear(&sent);
    told = (struct told){false, 0};
    said = NOTHING_SAID;
    begins_in_the_middle = false;
    side_of_one = is_caller ? OSI_LEFT : OSI_RIGHT;
    if ((is_caller ? osi_caller : osi_called)(&one, &terms) || (is_caller ? osi_called : osi_caller)(&peer, &terms) || osi_judge_new(&judge))
        abort();
    connects(is_caller ? &one : &peer);
    for (int i = 0; i < STEPS && !has_told(); i++)
        step(is_caller, i < hostile_from ? HONEST : life);
    judge_says();
    if (has_told()) {
        counted[class / 2][told.is_unit][told.code][said] += 1;
        holds(said == BLAMED || is_liberty(), "the end tells of %s %u, and the judge says %s of the peer\n%s",
              told.is_unit ? "a bad unit" : "a fault", told.code, said == NOT_JUDGED ? "that it is not judged" : "nothing", history.at);
    }
    osi_free(&one);
    osi_free(&peer);
    osi_judge_free(&judge);
    runs += 1;
}

static void print_counts(void)
{
    for (uint32_t class = 0; class < 2; class++)
        for (uint32_t unit = 0; unit < 2; unit++)
            for (uint32_t code = 0; code < CODES; code++) {
                const uint64_t *row = counted[class][unit][code];
                uint64_t all = row[NOTHING_SAID] + row[NOT_JUDGED] + row[BLAMED];
                if (all > 0)
                    printf("faults: class %u, %s %2u: %llu; the judge blames the peer in %llu, judges no further in %llu\n", class * 2,
                           unit ? "bad unit" : "end", code, (unsigned long long)all, (unsigned long long)row[BLAMED],
                           (unsigned long long)row[NOT_JUDGED]);
            }
}

int main(int count, char **words)
{
    const struct rounds rounds = rounds_of(count, words, 20000);
    for (uint64_t round = rounds.first; round < rounds.first + rounds.runs; round++) {
        any_begin(rounds.seed, round);
        live_once(round % 2 == 0 ? 0 : 2);
    }
    print_counts();
    return counts("faults");
}
