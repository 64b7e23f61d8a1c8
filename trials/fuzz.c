/* Random octets, cut at random, for a time. Two equal ends are fed the same octets, cut in two ways; a third
 * end is their peer, so that they come into every phase. They are fed what the peer sends, the same with some
 * octets changed, packets around random octets, or random octets alone; in between the users of both sides
 * make random calls. If an end does not do what its contracts say, or if the two come to different states,
 * the program stops and prints what was done.
 *
 *     fuzz [--seconds N] [--seed N] [--round N]     the same seed and round give the same run again */
#include "hostile.h"
#include "memory.h"
#include "pairs.h"

#include <stdio.h>
#include <stdlib.h>
#include <string.h>
#include <time.h>

#define STEPS 150

static osi_end one = OSI_END, other = OSI_END, peer = OSI_END;
static struct text shown_one, shown_other, shown_peer, history;
static uint64_t octets_fed, calls_done, calls_refused, shown_of[32], ended_by[32];
static bool first;

static void is_shown(void *to, const osi_indication *shown)
{
    struct text *text = to;
    text_put(text, "%u ", shown->reference);
    text_shown(text, shown);
    text_put(text, "; ");
    if (first)
        shown_of[shown->tag] += 1;
}

/* ---- what is done */

static void feed_both(const uint8_t *octets, size_t length)
{
    text_put(&history, "feed ");
    text_octets(&history, octets, length);
    text_put(&history, "\n");
    octets_fed += length;
    for (size_t at = 0; at < length;) {
        size_t count = 1 + any((uint32_t)(length - at));
        first = true;
        end_feed(&one, octets + at, count, SIZE_MAX, is_shown, &shown_one);
        first = false;
        end_feed(&other, octets + at, count, 1 + any(7), is_shown, &shown_other);
        at += count;
    }
}

static void same(void)
{
    static struct text left, right;
    text_clear(&left);
    text_clear(&right);
    end_check(&one);
    end_state(&one, &left);
    end_state(&other, &right);
    holds(strcmp(left.at, right.at) == 0, "two cuts come to %s, and to %s", left.at, right.at);
    holds(strcmp(shown_one.at, shown_other.at) == 0, "two cuts show %s, and %s", shown_one.at, shown_other.at);
}

/* Feeds the peer too, so that the two stay in step. */
static void answer_peer(void)
{
    osi_octets there;
    osi_outgoing(&one, &there);
    size_t length = there.length;
    text_clear(&shown_peer);
    end_feed(&peer, there.at, length, SIZE_MAX, is_shown, &shown_peer);
    osi_taken(&one, length);
    osi_taken(&other, length);
}

static uint32_t make_call(osi_end *end, const struct event *event)
{
    uint32_t code = end_call(end, event);
    calls_done += code == OSI_OK;
    calls_refused += code != OSI_OK;
    return code;
}

static void call_both(void)
{
    struct event event = call_at_random(&one);
    text_put(&history, "call %u %s units %04x number %u tokens %02x length %zu\n", event.reference,
             verb_names[event.verb], event.units, event.number, event.tokens, event.length);
    uint32_t code = make_call(&one, &event), again = end_call(&other, &event);
    holds(code == again, "the same call answers %u, and %u", code, again);
}

static void connect_from(osi_end *end, osi_end *twin)
{
    osi_opening asked = opening_at_random();
    uint16_t reference;
    text_put(&history, "connect %04x %u, sizes %u %u\n", asked.requirements, asked.serial, asked.size_from_asker,
             asked.size_from_answerer);
    uint32_t code = osi_connect(end, &asked, &reference);
    if (twin != NULL)
        holds(code == osi_connect(twin, &asked, &reference), "the same connect answers otherwise");
}

static void step(bool calls, enum life life)
{
    static uint8_t octets[PIECE + 1];
    uint32_t way = any(10);
    if (way < 4)
        feed_both(octets, some_octets(&peer, octets, life));
    else if (way < 6)
        answer_peer();
    else if (way == 6 && any(8) == 0)
        connect_from(calls ? &one : &peer, calls ? &other : NULL);
    else if (way < 8)
        call_both();
    else {
        struct event event = call_at_random(&peer);
        make_call(&peer, &event);
    }
    if (any(1000) == 0) {
        osi_broken(&one);
        osi_broken(&other);
        first = true;
        end_fetch(&one, is_shown, &shown_one);
        first = false;
        end_fetch(&other, is_shown, &shown_other);
    }
}

static void live_once(void)
{
    static const uint8_t classes[] = {1, 1, 1, 2, 2, 2, 3, 3, 3, 3, 3, 0};
    osi_terms terms = {classes[any(12)], (uint8_t)(7 + any(7)), (uint8_t)(1 + any(15))};
    osi_terms of_peer = {any(6) == 0 ? classes[any(12)] : terms.classes, (uint8_t)(7 + any(7)),
                         (uint8_t)(1 + any(15))};
    bool calls = any(2) == 0;
    enum life hostile = (enum life)any(3);
    uint64_t detail;
    text_clear(&shown_one);
    text_clear(&shown_other);
    text_clear(&history);
    text_put(&history, "%s, classes %u size %u window %u\n", calls ? "caller" : "called", terms.classes, terms.size,
             terms.window);
    if ((calls ? osi_caller : osi_called)(&one, &terms) || (calls ? osi_caller : osi_called)(&other, &terms) ||
        (calls ? osi_called : osi_caller)(&peer, &of_peer))
        abort();
    connect_from(calls ? &one : &peer, calls ? &other : NULL);
    for (int i = 0; i < STEPS && failures == 0; i++) {
        step(calls, hostile);
        same();
    }
    ended_by[osi_ended(&one, &detail)] += 1;
    osi_free(&one);
    osi_free(&other);
    osi_free(&peer);
    runs += 1;
}

static void print_counts(void)
{
    uint64_t all = 0, faults = 0, ends = 0;
    for (size_t i = 1; i < 32; i++) {
        all += shown_of[i];
        ends += ended_by[i];
        faults += i >= OSI_END_UNKNOWN_REFERENCE ? ended_by[i] : 0;
    }
    printf("fuzz: %llu octets, %llu indications (%llu of them a fault of the peer), %llu calls done and %llu "
           "refused; %llu ends ended, %llu by a fault\n",
           (unsigned long long)octets_fed, (unsigned long long)all,
           (unsigned long long)(shown_of[OSI_BAD_UNIT] + shown_of[OSI_PEER_ABORT]), (unsigned long long)calls_done,
           (unsigned long long)calls_refused, (unsigned long long)ends, (unsigned long long)faults);
    for (uint32_t i = 1; i < 32; i++)
        if (shown_of[i] > 0 || ended_by[i] > 0)
            printf("fuzz: %2u: %llu indications, %llu ends\n", i, (unsigned long long)shown_of[i],
                   (unsigned long long)ended_by[i]);
}

int main(int count, char **words)
{
    uint64_t seconds = 60, seed = (uint64_t)time(NULL), first_round = 0;
    for (int i = 1; i + 1 < count; i += 2) {
        if (strcmp(words[i], "--seconds") == 0)
            seconds = strtoull(words[i + 1], NULL, 10);
        if (strcmp(words[i], "--seed") == 0)
            seed = strtoull(words[i + 1], NULL, 10);
        if (strcmp(words[i], "--round") == 0)
            first_round = strtoull(words[i + 1], NULL, 10);
    }
    printf("fuzz: seed %llu\n", (unsigned long long)seed);
    time_t end = time(NULL) + (time_t)seconds;
    for (uint64_t round = first_round; failures == 0 && time(NULL) < end; round++) {
        any_begin(seed, round);
        live_once();
    }
    if (failures > 0)
        printf("what was done:\n%s", history.at);
    print_counts();
    return counts("fuzz");
}
