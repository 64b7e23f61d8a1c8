/* Each packet of the scripts, cut to each length, and with each of its octets set to each of 256 values. The
 * result is fed to fresh ends of each role and class, to callers that await an answer, and to the end that the
 * packet was sent to, in its state at that time: whole, and octet by octet, which must give the same result.
 * After each, all checks of an end are made. An end that was fed a packet cut short is then told of a break,
 * and each of its users is told at most once that the connection is lost.
 *
 *     damage [--step N] [--write FILE]    takes only each Nth value, 1 for all; writes the octets that were fed,
 *                                         one line of hexadecimal digits each */
#include "memory.h"
#include "pairs.h"

#include <stdio.h>
#include <stdlib.h>
#include <string.h>

#define PACKETS 4000
#define FRESH 12

/* A packet in flight: the events before it, and how much of the next carry came before it. */
struct packet {
    size_t script;
    size_t event;
    size_t before;
    int to;
    const uint8_t *octets;
    size_t length;
    bool new; /* no earlier packet is the same */
};

static const char *const names[] = {
    "addresses", "both_classes", "class_0_alone", "no_class", "accepted", "badly_spelled", "units_not_there",
    "duplex_release", "no_version", "data_in_parts", "tokens", "minor_points", "token_lost", "restarts_cross",
    "restart_below", "last_number", "numbers_go_round", "out_of_sequence", "release_refused"};
#define SCRIPTS (sizeof names / sizeof names[0])

static struct script scripts[SCRIPTS];
static struct packet packets[PACKETS];
static size_t packet_count;
static struct pair pair;
static FILE *fed;
static struct text whole, single;

/* ---- the packets of the scripts */

static void keep(struct packet packet)
{
    packet.new = true;
    for (size_t i = 0; i < packet_count && packet.new; i++)
        packet.new =
            packets[i].length != packet.length || memcmp(packets[i].octets, packet.octets, packet.length) != 0;
    /* If data units differ only in their numbers and data, the first one is enough. */
    if (packet.length == 132 && !packet.new)
        return;
    if (packet_count == PACKETS)
        abort();
    uint8_t *copy = malloc(packet.length);
    memcpy(copy, packet.octets, packet.length);
    packet.octets = copy;
    packets[packet_count++] = packet;
}

/* The packets in the octets that an event brings to a side. */
static void keep_all(size_t script, size_t event, int to, const uint8_t *octets, size_t length)
{
    for (size_t at = 0; at + 4 <= length;) {
        size_t count = (size_t)octets[at + 2] * 256 + octets[at + 3];
        keep((struct packet){script, event, at, to, octets + at, count, true});
        at += count;
    }
}

static bool is_many(size_t script, size_t event)
{
    return strcmp(names[script], "numbers_go_round") == 0 && event > 20 && event + 8 < scripts[script].count;
}

static void packets_of(size_t script)
{
    scripts[script] = script_read(names[script]);
    text_clear(&place);
    text_put(&place, "%s", names[script]);
    pair_begin(&pair);
    for (size_t i = 0; i < scripts[script].count; i++) {
        const struct event *event = &scripts[script].events[i];
        osi_octets octets;
        osi_outgoing(&pair.ends[event->side], &octets);
        if (event->kind == CARRY && !is_many(script, i))
            keep_all(script, i, 1 - event->side, octets.at, octets.length);
        if (event->kind == FEED)
            keep_all(script, i, event->side, event->data, event->length);
        pair_run(&pair, event, 1);
    }
    pair_free(&pair);
}

/* ---- feeding */

static void is_shown(void *to, const osi_indication *shown)
{
    struct text *text = to;
    text_put(text, "%u ", shown->reference);
    text_shown(text, shown);
    text_put(text, "; ");
}

static void fed_to(osi_end *end, const uint8_t *octets, size_t length, size_t piece, struct text *text)
{
    text_clear(text);
    end_feed(end, octets, length, piece, is_shown, text);
    end_state(end, text);
    end_check(end);
}

static bool lost_once(const char *told)
{
    for (uint16_t reference = 1; reference <= REFERENCES; reference++) {
        char lost[40];
        snprintf(lost, sizeof lost, "%u ProviderAbort Lost; ", reference);
        const char *first = strstr(told, lost);
        if (first != NULL && strstr(first + 1, lost) != NULL)
            return false;
    }
    return true;
}

static void broken(osi_end *end, struct text *text)
{
    memory_in();
    osi_broken(end);
    memory_out();
    end_fetch(end, is_shown, text);
    holds(lost_once(text->at), "a user is told twice: %s", text->at);
    end_check(end);
}

static void free_end(osi_end *end)
{
    memory_in();
    osi_free(end);
    memory_out();
}

/* Fresh ends: callers, called ends, and callers that await an answer, with class 0, 2, both and none. */
static void make_fresh(osi_end *end, unsigned kind)
{
    osi_terms terms = {(uint8_t)(kind % 4), 10, 4};
    osi_opening asked = OSI_OPENING;
    uint16_t reference;
    memory_in();
    uint32_t code = kind / 4 == 1 ? osi_called(end, &terms) : osi_caller(end, &terms);
    holds(code == OSI_OK, "an end is not made");
    if (kind / 4 == 2)
        holds(osi_connect(end, &asked, &reference) == OSI_OK, "no connection is asked for");
    memory_out();
}

static void feed_fresh(const uint8_t *octets, size_t length, bool cut)
{
    for (unsigned kind = 0; kind < FRESH; kind++) {
        osi_end one = OSI_END, other = OSI_END;
        make_fresh(&one, kind);
        make_fresh(&other, kind);
        fed_to(&one, octets, length, SIZE_MAX, &whole);
        fed_to(&other, octets, length, 1, &single);
        holds(strcmp(whole.at, single.at) == 0, "whole: %s, by single octets: %s", whole.at, single.at);
        if (cut)
            broken(&one, &whole);
        free_end(&one);
        free_end(&other);
        holds(memory_held() == 0, "%lld growths are not given back", (long long)memory_held());
        runs += 1;
    }
}

/* The two ends in their states when the packet was sent. */
static void stand_before(const struct packet *packet)
{
    const struct script *script = &scripts[packet->script];
    pair_begin(&pair);
    for (size_t i = 0; i < packet->event; i++)
        pair_apply(&pair, &script->events[i]);
    struct event carry = event_of(CARRY, 1 - packet->to, (uint32_t)packet->before, 0);
    pair_apply(&pair, &carry);
    text_clear(&pair.out);
}

static void feed_in_place(const struct packet *packet, const uint8_t *octets, size_t length, bool cut)
{
    stand_before(packet);
    fed_to(&pair.ends[packet->to], octets, length, SIZE_MAX, &whole);
    if (cut)
        broken(&pair.ends[packet->to], &whole);
    pair_free(&pair);
    if (!cut) {
        stand_before(packet);
        fed_to(&pair.ends[packet->to], octets, length, 1, &single);
        holds(strcmp(whole.at, single.at) == 0, "in place, whole: %s, by single octets: %s", whole.at, single.at);
        pair_free(&pair);
    }
    runs += 1;
}

static void feed(const struct packet *packet, const uint8_t *octets, size_t length, bool cut)
{
    feed_in_place(packet, octets, length, cut);
    if (!packet->new)
        return;
    feed_fresh(octets, length, cut);
    for (size_t i = 0; fed != NULL && i < length; i++)
        fprintf(fed, i + 1 == length ? "%02x\n" : "%02x", octets[i]);
}

/* ---- damage */

static void damage(const struct packet *packet, unsigned step)
{
    static uint8_t octets[65536];
    memcpy(octets, packet->octets, packet->length);
    for (size_t length = 0; length <= packet->length; length++) {
        text_clear(&place);
        text_put(&place, "%s, event %zu, the packet cut to %zu", names[packet->script], packet->event, length);
        feed(packet, octets, length, true);
    }
    for (size_t at = 0; at < packet->length; at++) {
        for (unsigned value = 0; value < 256; value++) {
            if (value % step != at % step)
                continue;
            octets[at] = (uint8_t)value;
            text_clear(&place);
            text_put(&place, "%s, event %zu, octet %zu is %02x", names[packet->script], packet->event, at, value);
            feed(packet, octets, packet->length, false);
        }
        octets[at] = packet->octets[at];
    }
}

int main(int count, char **words)
{
    unsigned step = 1;
    size_t octets = 0, different = 0;
    for (int i = 1; i + 1 < count; i += 2) {
        if (strcmp(words[i], "--step") == 0)
            step = (unsigned)atoi(words[i + 1]);
        if (strcmp(words[i], "--write") == 0)
            fed = fopen(words[i + 1], "w");
    }
    for (size_t i = 0; i < SCRIPTS; i++)
        packets_of(i);
    runs = 0;
    for (size_t i = 0; i < packet_count; i++) {
        damage(&packets[i], step);
        octets += packets[i].length;
        different += packets[i].new;
    }
    if (fed != NULL)
        fclose(fed);
    printf("damage: %zu packets of %zu octets, %zu of them different, each cut to each length and each octet at %u "
           "values\n",
           packet_count, octets, different, 256 / step);
    return counts("damage");
}
