/*
 * Tests of the rules of osi.h that are not about one function: null pointers to no octets, slots that are empty or moved, structs of
 * another header, and names. Two ends in one program; the last line is 'N passed, M failed'.
 *
 *   cc -std=c99 -Iinclude bindings/c/test_osi.c build/libosi-session.a -o build/test_osi_c
 */
#include "osi.h"

#include <stdio.h>
#include <stdlib.h>
#include <string.h>
#ifdef __GLIBC__
#include <malloc.h>
#endif

static unsigned passed, failed;
#define CHECK(holds) check(holds, #holds, __LINE__)

static void check(bool holds, const char *what, int line)
{
    passed += holds;
    failed += !holds;
    if (!holds)
        printf("FAILED: line %d: %s\n", line, what);
}

#define ALL_UNITS (OSI_HALF_DUPLEX | OSI_MINOR_SYNC | OSI_MAJOR_SYNC | OSI_RESYNCHRONIZE | OSI_NEGOTIATED_RELEASE)
#define ALL_TOKENS (OSI_TOKEN_DATA | OSI_TOKEN_MINOR | OSI_TOKEN_MAJOR | OSI_TOKEN_RELEASE)
#define CHECK_QUIETLY(holds) ((holds) ? (void)0 : check(false, #holds, __LINE__))
static const osi_sides asker = {OSI_ASKER, OSI_ASKER, OSI_ASKER, OSI_ASKER};
static const osi_terms both = {OSI_CLASS_0 | OSI_CLASS_2, 13, 15};

struct pair {
    osi_end caller, called;
    uint16_t of;
};

/* Carries all outgoing octets of one end, and returns the tag of the other's last indication, OSI_NONE for none. */
static osi_indication carry(osi_end *from, osi_end *to)
{
    osi_indication last = {0}, shown;
    osi_octets lent;
    osi_outgoing(from, &lent);
    const size_t length = lent.length;
    uint8_t *piece = malloc(length + 1);
    if (piece == NULL)
        abort();
    memcpy(piece, lent.at, length);
    osi_taken(from, length);
    for (size_t used = 0; used < length;) {
        osi_fed fed;
        osi_feed(to, piece + used, length - used, &fed);
        used += fed.used;
        while (osi_next(to, &shown))
            last = shown;
    }
    free(piece);
    return last;
}

static struct pair asked(const osi_opening *opening)
{
    struct pair pair = {OSI_END, OSI_END, 0};
    CHECK(osi_caller(&pair.caller, &both) == OSI_OK && osi_called(&pair.called, &both) == OSI_OK);
    CHECK(osi_connect(&pair.caller, opening, &pair.of) == OSI_OK);
    carry(&pair.caller, &pair.called);
    carry(&pair.called, &pair.caller);
    CHECK(carry(&pair.caller, &pair.called).tag == OSI_CONNECT);
    return pair;
}

/* A connection whose caller holds all tokens. */
static struct pair opened(void)
{
    osi_opening opening = OSI_OPENING;
    opening.requirements = ALL_UNITS;
    struct pair pair = asked(&opening);
    CHECK(osi_accept(&pair.called, pair.of, ALL_UNITS, 0, &asker, NULL, 0) == OSI_OK);
    CHECK(carry(&pair.called, &pair.caller).tag == OSI_CONNECTED);
    return pair;
}

static void let_go(struct pair *pair)
{
    osi_free(&pair->caller);
    osi_free(&pair->called);
}

/* ---- a null pointer to no octets */

static void none_at_opening(void)
{
    osi_opening opening = OSI_OPENING;
    CHECK(opening.user_data.at == NULL && opening.called_tsap.at == NULL);
    struct pair pair = asked(&opening);
    CHECK(osi_refuse(&pair.called, pair.of, NULL, 0) == OSI_OK);
    CHECK(carry(&pair.called, &pair.caller).tag == OSI_REFUSED_BY_SESSION);
    let_go(&pair);
    pair = asked(&opening);
    CHECK(osi_refuse_with(&pair.called, pair.of, OSI_REFUSAL_CONGESTION, (const uint8_t *)"x", 1) == OSI_BAD_ARGUMENT);
    CHECK(osi_refuse_with(&pair.called, pair.of, 3, NULL, 0) == OSI_BAD_ARGUMENT);
    CHECK(osi_refuse_with(&pair.called, pair.of, OSI_REFUSAL_CONGESTION, NULL, 0) == OSI_OK);
    CHECK(carry(&pair.called, &pair.caller).reason == 1);
    let_go(&pair);
    pair = asked(&opening);
    CHECK(osi_accept_sized(&pair.called, pair.of, OSI_HALF_DUPLEX, 0, &asker, 0, 0, NULL, 0) == OSI_OK);
    osi_indication shown = carry(&pair.called, &pair.caller);
    CHECK(shown.tag == OSI_CONNECTED && shown.user_data.at != NULL && shown.user_data.length == 0);
    let_go(&pair);
}

static void none_in_calls(void)
{
    struct pair p = opened();
    CHECK(osi_data(&p.caller, p.of, NULL, 0) == OSI_EMPTY);
    CHECK(osi_minor(&p.caller, p.of, 1, NULL, 0) == OSI_OK && carry(&p.caller, &p.called).tag == OSI_MINOR);
    CHECK(osi_minor_confirm(&p.called, p.of, 0, NULL, 0) == OSI_OK && carry(&p.called, &p.caller).tag == OSI_MINOR_CONFIRMED);
    CHECK(osi_please(&p.called, p.of, OSI_TOKEN_DATA, NULL, 0) == OSI_OK && carry(&p.called, &p.caller).tag == OSI_ASKED);
    CHECK(osi_major(&p.caller, p.of, NULL, 0) == OSI_OK && carry(&p.caller, &p.called).tag == OSI_MAJOR);
    CHECK(osi_major_confirm(&p.called, p.of, NULL, 0) == OSI_OK && carry(&p.called, &p.caller).tag == OSI_MAJOR_CONFIRMED);
    CHECK(osi_restart(&p.caller, p.of, 2, &asker, NULL, 0) == OSI_OK && carry(&p.caller, &p.called).tag == OSI_RESTART);
    CHECK(osi_restart_confirm(&p.called, p.of, &asker, NULL, 0) == OSI_OK && carry(&p.called, &p.caller).tag == OSI_RESTARTED);
    CHECK(osi_release(&p.caller, p.of, NULL, 0) == OSI_OK && carry(&p.caller, &p.called).tag == OSI_RELEASE);
    CHECK(osi_release_refuse(&p.called, p.of, NULL, 0) == OSI_OK && carry(&p.called, &p.caller).tag == OSI_RELEASE_REFUSED);
    CHECK(osi_release(&p.caller, p.of, NULL, 0) == OSI_OK && carry(&p.caller, &p.called).tag == OSI_RELEASE);
    CHECK(osi_release_accept(&p.called, p.of, NULL, 0) == OSI_OK && carry(&p.called, &p.caller).tag == OSI_RELEASED);
    let_go(&p);
    p = opened();
    CHECK(osi_abort(&p.caller, p.of, NULL, 0) == OSI_OK && carry(&p.caller, &p.called).tag == OSI_ABORTED);
    osi_fed fed = {1, true};
    CHECK(osi_feed(&p.caller, NULL, 0, &fed) == OSI_OK && fed.used == 0 && !fed.waits);
    let_go(&p);
}

/* ---- slots */

static void no_slot_is_freed(void)
{
    osi_end empty = OSI_END;
    osi_free(NULL);
    osi_free(&empty);
    osi_free(&empty);
    CHECK(osi_data(&empty, 1, NULL, 0) == OSI_SLOT_EMPTY && osi_broken(&empty) == OSI_SLOT_EMPTY);
}

static void an_empty_slot_has_nothing(void)
{
    osi_end empty = OSI_END;
    osi_opening opening = OSI_OPENING;
    uint16_t reference = 7;
    uint64_t detail = 7;
    osi_indication shown;
    osi_octets lent = OSI_NO_OCTETS;
    CHECK(osi_connect(&empty, &opening, &reference) == OSI_SLOT_EMPTY && reference == 7);
    CHECK(!osi_next(&empty, &shown) && shown.tag == OSI_NONE && shown.user_data.at != NULL);
    CHECK(osi_ended(&empty, &detail) == OSI_END_NONE && detail == 0 && osi_phase(&empty, 1) == OSI_PHASE_NONE);
    osi_outgoing(&empty, &lent);
    CHECK(lent.at != NULL && lent.length == 0);
    CHECK(osi_kept(&empty) + osi_unsent(&empty, 1) + osi_backlog(&empty) + osi_live(&empty) == 0);
}

/* Slots may be moved by value, also by realloc; octets that an end has lent keep their address. */
static void a_slot_is_moved(void)
{
    struct pair *pairs = malloc(sizeof *pairs);
    if (pairs == NULL)
        abort();
    pairs[0] = opened();
    CHECK(osi_data(&pairs[0].caller, pairs[0].of, (const uint8_t *)"moved", 5) == OSI_OK);
    osi_octets before, after;
    osi_outgoing(&pairs[0].caller, &before);
    struct pair *more = realloc(pairs, 4096 * sizeof *pairs);
    if (more == NULL)
        abort();
    memset(&more[1], 0xff, sizeof *more);
    more[1].caller = more[0].caller;
    memset(&more[0].caller, 0xff, sizeof more[0].caller);
    more[0].caller = (osi_end)OSI_END;
    osi_outgoing(&more[1].caller, &after);
    CHECK(before.at == after.at && before.length == after.length);
    osi_indication shown = carry(&more[1].caller, &more[0].called);
    CHECK(shown.tag == OSI_DATA && shown.user_data.length == 5);
    CHECK(osi_data(&more[0].caller, more[0].of, (const uint8_t *)"x", 1) == OSI_SLOT_EMPTY);
    osi_free(&more[1].caller);
    let_go(&more[0]);
    free(more);
}

/* ---- structs of another header */

/* The first fields of osi_opening and of osi_indication, as if the others had been added later; and all fields with one more
 * that this library doesn't know. */
#define WITHOUT_SIZES offsetof(osi_opening, size_from_asker)
#define WITHOUT_SIZES_SHOWN offsetof(osi_indication, size_from_asker)
struct later_opening {
    osi_opening known;
    uint64_t unknown;
};
struct later_indication {
    osi_indication known;
    uint64_t unknown;
};

static void openings_of_other_headers(void)
{
    osi_end end = OSI_END;
    uint16_t reference = 0;
    struct later_opening later = {OSI_OPENING, 0};
    later.known.size_from_asker = 1;
    CHECK(osi_caller(&end, &both) == OSI_OK);
    CHECK(osi_connect(&end, &later.known, &reference) == OSI_BAD_ARGUMENT);
    CHECK(osi_connect_with_size(&end, &later.known, WITHOUT_SIZES, &reference) == OSI_OK && reference == 1);
    osi_free(&end);
    later.known.size_from_asker = 64;
    later.unknown = 1;
    CHECK(osi_caller(&end, &both) == OSI_OK);
    CHECK(osi_connect_with_size(&end, &later.known, sizeof later, &reference) == OSI_BAD_ARGUMENT);
    later.unknown = 0;
    CHECK(osi_connect_with_size(&end, &later.known, sizeof later, &reference) == OSI_OK && reference == 1);
    osi_free(&end);
}

static void indications_of_other_headers(void)
{
    osi_opening opening = OSI_OPENING;
    opening.size_from_asker = 4660;
    struct pair pair = asked(&opening);
    struct later_indication shown;
    memset(&shown, 0x55, sizeof shown);
    osi_last_with_size(&pair.called, &shown.known, WITHOUT_SIZES_SHOWN);
    CHECK(shown.known.tag == OSI_NONE && shown.known.user_data.length == 0 && shown.known.size_from_asker == 0x5555);
    let_go(&pair);
    pair = (struct pair){OSI_END, OSI_END, 0};
    CHECK(osi_caller(&pair.caller, &both) == OSI_OK && osi_called(&pair.called, &both) == OSI_OK);
    CHECK(osi_connect(&pair.caller, &opening, &pair.of) == OSI_OK);
    carry(&pair.caller, &pair.called);
    carry(&pair.called, &pair.caller);
    osi_octets lent;
    osi_fed fed;
    osi_outgoing(&pair.caller, &lent);
    CHECK(osi_feed(&pair.called, lent.at, lent.length, &fed) == OSI_OK && fed.waits && osi_fetch(&pair.called) == OSI_OK);
    memset(&shown, 0x55, sizeof shown);
    osi_last_with_size(&pair.called, &shown.known, WITHOUT_SIZES_SHOWN);
    CHECK(shown.known.tag == OSI_CONNECT && shown.known.size_from_asker == 0x5555);
    osi_last_with_size(&pair.called, &shown.known, sizeof shown);
    CHECK(shown.known.tag == OSI_CONNECT && shown.known.size_from_asker == 4660 && shown.unknown == 0);
    let_go(&pair);
}

/* ---- addresses */

static bool is(const uint8_t *octets, uint8_t length, const char *text)
{
    return length == strlen(text) && memcmp(octets, text, length) == 0;
}

#define IS(address, text) is((address).octets, (address).length, text)

static void addresses(void)
{
    osi_opening opening = OSI_OPENING;
    opening.calling_tsap = (osi_octets){(const uint8_t *)"here", 4};
    opening.called_tsap = (osi_octets){(const uint8_t *)"0123456789abcdef0123456789ABCDEF", 32};
    opening.calling_selector = (osi_octets){(const uint8_t *)"me", 2};
    opening.called_selector = (osi_octets){(const uint8_t *)"0123456789abcdef", 16};
    struct pair pair = asked(&opening);
    osi_end *const ends[] = {&pair.caller, &pair.called};
    for (int i = 0; i < 2; i++) {
        osi_addressing shown;
        memset(&shown, 0x55, sizeof shown);
        CHECK(osi_addresses(ends[i], pair.of, &shown) == OSI_OK);
        CHECK(IS(shown.calling_tsap, "here") && IS(shown.called_tsap, "0123456789abcdef0123456789ABCDEF"));
        CHECK(IS(shown.calling_selector, "me") && IS(shown.called_selector, "0123456789abcdef"));
        CHECK(osi_addresses(ends[i], 2, &shown) == OSI_NOTHING && shown.calling_tsap.length == 0);
        CHECK(IS(shown.called_tsap, "") && IS(shown.calling_selector, "") && IS(shown.called_selector, ""));
    }
    let_go(&pair);
    osi_addressing shown;
    memset(&shown, 0x55, sizeof shown);
    CHECK(osi_addresses(&pair.called, pair.of, &shown) == OSI_SLOT_EMPTY && shown.called_selector.length == 0);
}

/* ---- giving up one connection */

/* A second connection on the byte connection of a first. */
static uint16_t second_of(struct pair *p)
{
    osi_opening opening = OSI_OPENING;
    uint16_t second = 0;
    CHECK(osi_connect(&p->caller, &opening, &second) == OSI_OK && second == 2);
    CHECK(osi_disconnect(&p->caller, second) == OSI_BAD_STATE && osi_disconnect(&p->caller, 3) == OSI_NO_SUCH_CONNECTION);
    carry(&p->caller, &p->called);
    carry(&p->called, &p->caller);
    CHECK(carry(&p->caller, &p->called).tag == OSI_CONNECT);
    CHECK(osi_accept(&p->called, second, OSI_HALF_DUPLEX, 0, &asker, OSI_NO_DATA) == OSI_OK);
    CHECK(carry(&p->called, &p->caller).tag == OSI_CONNECTED);
    return second;
}

static void a_connection_is_given_up_alone(void)
{
    static const uint8_t message[200000];
    struct pair p = opened();
    const uint16_t second = second_of(&p);
    CHECK(osi_data(&p.caller, p.of, message, sizeof message) == OSI_OK && osi_unsent(&p.caller, p.of) > 0);
    CHECK(osi_abort(&p.caller, p.of, OSI_NO_DATA) == OSI_OK && osi_live(&p.caller) == 2);
    CHECK(osi_disconnect(&p.caller, p.of) == OSI_OK && osi_backlog(&p.caller) == 0);
    CHECK(osi_phase(&p.caller, p.of) == OSI_PHASE_ENDED && osi_disconnect(&p.caller, p.of) == OSI_OK);
    const osi_indication lost = carry(&p.caller, &p.called);
    CHECK(lost.tag == OSI_LOST && lost.reference == p.of);
    CHECK(carry(&p.called, &p.caller).tag == OSI_NONE && osi_live(&p.caller) == 1 && osi_live(&p.called) == 1);
    CHECK(osi_data(&p.caller, second, (const uint8_t *)"still here", 10) == OSI_OK && osi_wants_write(&p.caller));
    CHECK(!osi_is_over(&p.caller) && carry(&p.caller, &p.called).tag == OSI_DATA && !osi_wants_write(&p.caller));
    CHECK(osi_disconnect(&p.called, second) == OSI_OK && carry(&p.called, &p.caller).tag == OSI_LOST);
    CHECK(!osi_is_over(&p.caller) && carry(&p.caller, &p.called).tag == OSI_NONE);
    CHECK(osi_is_over(&p.caller) && osi_is_over(&p.called));
    let_go(&p);
    CHECK(osi_disconnect(&p.caller, 1) == OSI_SLOT_EMPTY && !osi_is_over(&p.caller) && !osi_wants_write(&p.caller));
}

/* ---- trace and counters */

struct log {
    char text[8192];
    size_t length;
    unsigned lines, stopped;
};

static void on_line(void *context, uint32_t direction, const char *text, size_t length)
{
    struct log *log = context;
    log->lines++;
    log->stopped += text == NULL;
    if (text != NULL && log->length + length + 2 < sizeof log->text) {
        log->text[log->length++] = direction == OSI_SENT ? '>' : '<';
        memcpy(log->text + log->length, text, length);
        log->length += length;
        log->text[log->length++] = '\n';
    }
}

/* Each packet is traced as `osi show` has it, in the order in which the packets pass. */
static void lines_are_traced(void)
{
    static const char wanted[] =
        ">packet 0 length 20 code ef\n>  CR credit 15 dst 0000 src 0001 class 2 options 0 size 0d more 00 also 00\n"
        "<packet 0 length 17 code df\n<  CC credit 15 dst 0001 src 0001 class 2 options 0 size 0d more 00\n";
    struct pair pair = {OSI_END, OSI_END, 0};
    osi_opening opening = OSI_OPENING;
    struct log log = {"", 0, 0, 0};
    CHECK(osi_caller(&pair.caller, &both) == OSI_OK && osi_called(&pair.called, &both) == OSI_OK);
    CHECK(osi_trace(&pair.caller, 3) == OSI_BAD_ARGUMENT && osi_trace(&pair.caller, OSI_TRACE_LINES) == OSI_OK);
    CHECK(osi_trace_fetch(&pair.caller, OSI_SENT) == OSI_NOTHING && osi_trace_fetch(&pair.caller, 2) == OSI_BAD_ARGUMENT);
    CHECK(osi_connect(&pair.caller, &opening, &pair.of) == OSI_OK);
    carry(&pair.caller, &pair.called);
    osi_trace_each(&pair.caller, on_line, &log);
    carry(&pair.called, &pair.caller);
    osi_trace_each(&pair.caller, on_line, &log);
    CHECK(log.length == sizeof wanted - 1 && memcmp(log.text, wanted, log.length) == 0);
    osi_counters counters;
    memset(&counters, 0x55, sizeof counters);
    osi_counts(&pair.caller, &counters);
    CHECK(counters.sent.octets == 20 && counters.sent.packets == 1 && counters.received.units == 1);
    CHECK(counters.received.tsdus == 0 && counters.received.session_units == 0 && counters.received.refused == 0);
    CHECK(osi_trace(&pair.caller, OSI_TRACE_OFF) == OSI_OK && osi_trace_fetch(&pair.caller, OSI_SENT) == OSI_NOTHING);
    osi_counts(&pair.caller, &counters);
    CHECK(counters.sent.octets + counters.received.octets + counters.sent.packets == 0);
    let_go(&pair);
    osi_octets lines = OSI_NO_OCTETS;
    CHECK(osi_trace(&pair.caller, OSI_TRACE_LINES) == OSI_SLOT_EMPTY && osi_trace_fetch(&pair.caller, 0) == OSI_SLOT_EMPTY);
    osi_trace_lines(&pair.caller, &lines);
    memset(&counters, 0x55, sizeof counters);
    osi_counts(&pair.caller, &counters);
    CHECK(lines.at != NULL && lines.length == 0 && counters.received.octets == 0);
}

/* A trace stops if nobody fetches its lines, and says so once, after its last lines. Counters don't stop for that. */
static void lines_that_nobody_fetches_are_bounded(void)
{
    static const uint8_t fault[] = {3, 0, 0, 7, 2, 0xF0, 0x80};
    struct log log = {"", 0, 0, 0};
    osi_end ends[2] = {OSI_END, OSI_END};
    osi_fed fed;
    osi_octets lines;
    osi_counters counters;
    for (uint32_t i = 0; i < 2; i++) {
        CHECK(osi_called(&ends[i], &both) == OSI_OK && osi_trace(&ends[i], i + 1) == OSI_OK);
        for (int n = 0; n < 20000; n++)
            CHECK_QUIETLY(osi_feed(&ends[i], fault, sizeof fault, &fed) == OSI_OK && fed.used == sizeof fault);
        CHECK(osi_ended(&ends[i], &(uint64_t){0}) != OSI_END_NONE);
    }
    osi_counts(&ends[0], &counters);
    CHECK(counters.received.packets == 20000 && counters.received.tsdus == 20000 && counters.received.octets == 140000);
    CHECK(osi_trace_fetch(&ends[0], OSI_RECEIVED) == OSI_NOTHING);
    CHECK(osi_trace_fetch(&ends[1], OSI_RECEIVED) == OSI_OK);
    osi_trace_lines(&ends[1], &lines);
    CHECK(lines.length <= 1048576 && lines.length > 1048576 - 200 && memcmp(lines.at, "packet 0 length 7 code f0\n", 26) == 0);
    osi_trace_each(&ends[1], on_line, &log);
    CHECK(log.lines == 1 && log.stopped == 1);
    osi_trace_each(&ends[1], on_line, &log);
    CHECK(log.lines == 1 && osi_trace_fetch(&ends[1], OSI_RECEIVED) == OSI_NOTHING);
    osi_free(&ends[0]);
    osi_free(&ends[1]);
}

/* ---- a byte connection that passes is judged */

static const uint8_t cr[] = {3, 0, 0, 14, 9, 0xE0, 0, 0, 0, 1, 0, 0xC0, 1, 10};
static const uint8_t cc[] = {3, 0, 0, 14, 9, 0xD0, 0, 1, 0, 2, 0, 0xC0, 1, 10};
static const uint8_t dt[] = {3, 0, 0, 19, 2, 0xF0, 0x80, 1, 0, 1, 0, 'r', 'e', 'c', 'o', 'r', 'd', ' ', '1'};
/* A CN with all units of 00B9 and all tokens with the side that asks; with 14 for 13 it is the AC that agrees. */
static uint8_t cn[] = {3, 0, 0, 27, 2, 0xF0, 0x80, 13, 18, 5, 12, 19, 1, 1, 22, 1, 2, 23, 1, '1', 26, 1, 0, 20, 2, 0, 0xB9};

/* Feeds octets of a side, of which all have to pass. */
static void pass(osi_judge *judge, uint32_t side, const uint8_t *octets, size_t length)
{
    size_t used = 0;
    CHECK_QUIETLY(osi_judge_feed(judge, side, octets, length, &used) == OSI_OK && used == length);
}

static void open_in(osi_judge *judge)
{
    CHECK(osi_judge_new(judge) == OSI_OK);
    pass(judge, OSI_LEFT, cr, sizeof cr);
    pass(judge, OSI_RIGHT, cc, sizeof cc);
    cn[7] = 13;
    pass(judge, OSI_LEFT, cn, sizeof cn);
    cn[7] = 14;
    pass(judge, OSI_RIGHT, cn, sizeof cn);
}

static bool says(osi_judge *judge, const char *text)
{
    osi_octets lent;
    CHECK(osi_judge_write(judge) == OSI_OK);
    osi_judge_text(judge, &lent);
    return lent.length == strlen(text) && memcmp(lent.at, text, lent.length) == 0;
}

/* Whether the text has these words. */
static bool has_line(osi_judge *judge, const char *words)
{
    osi_octets lent;
    CHECK(osi_judge_write(judge) == OSI_OK);
    osi_judge_text(judge, &lent);
    const char *text = (const char *)lent.at;
    const size_t length = strlen(words);
    for (size_t i = 0; i + length <= lent.length; i++)
        if (memcmp(text + i, words, length) == 0)
            return true;
    return false;
}

/* Whether no verdict is due. */
static bool has_none(osi_judge *judge)
{
    osi_verdict verdict;
    return osi_judge_next(judge, &verdict) == OSI_NOTHING && verdict.kind == OSI_VERDICT_NONE && verdict.connection == 0;
}

/* The kind of the verdict so far, on the session of a side of the first connection or on the transport of a side. */
static uint32_t kind_so_far(osi_judge *judge, uint64_t connection, uint32_t side)
{
    osi_verdict verdict;
    CHECK(osi_judge_verdict(judge, connection, side, &verdict) == OSI_OK);
    CHECK(verdict.side == side && verdict.connection == connection);
    return verdict.kind;
}

/* The side that sends data without the token is told at once, and once; the other side has kept the protocol. */
static void a_break_is_told(void)
{
    osi_judge judge = OSI_JUDGE;
    osi_verdict verdict;
    uint64_t connections = 7;
    open_in(&judge);
    CHECK(has_none(&judge));
    pass(&judge, OSI_LEFT, dt, sizeof dt);
    CHECK(kind_so_far(&judge, 0, OSI_RIGHT) == OSI_VERDICT_KEPT);
    for (size_t i = 0; i < sizeof dt; i++) {
        CHECK_QUIETLY(has_none(&judge));
        pass(&judge, OSI_RIGHT, dt + i, 1);
    }
    CHECK(osi_judge_next(&judge, &verdict) == OSI_OK);
    CHECK(verdict.side == OSI_RIGHT && verdict.kind == OSI_VERDICT_BROKE && verdict.rule == OSI_RULE_TOKEN_NOT_HELD);
    CHECK(verdict.said == OSI_SAID_DT && verdict.offset == 41 && verdict.left == 1 && verdict.right == 2);
    CHECK(has_none(&judge));
    CHECK(osi_judge_verdict(&judge, 0, OSI_RIGHT, &verdict) == OSI_OK && verdict.kind == OSI_VERDICT_BROKE && verdict.offset == 41);
    CHECK(kind_so_far(&judge, 0, OSI_LEFT) == OSI_VERDICT_KEPT);
    CHECK(kind_so_far(&judge, OSI_NO_CONNECTION, OSI_LEFT) == OSI_VERDICT_KEPT);
    CHECK(kind_so_far(&judge, OSI_NO_CONNECTION, OSI_RIGHT) == OSI_VERDICT_KEPT);
    CHECK(osi_judge_verdict(&judge, 1, OSI_LEFT, &verdict) == OSI_NO_SUCH_CONNECTION && verdict.kind == OSI_VERDICT_NONE);
    CHECK(osi_judge_connections(&judge, &connections) == OSI_OK && connections == 1);
    CHECK(says(&judge, "left packets 3 octets 60 rest 0\nright packets 3 octets 60 rest 0\n"
                       "left 1 kept 2 phase Ready held 55 next 1 below 1 lowest 1 owes Abort\n"
                       "right 2 broke packet 41 Data TokenNotHeld\n"
                       "right 2 knew 2 of 2 phase Ready held 00 next 1 below 1 lowest 1\n"
                       "right broke the protocol first, packet 41: Data TokenNotHeld\n"));
    osi_judge_free(&judge);
    CHECK(!judge.full);
}

/* The two sides break the protocol between two questions: the first break is told first. */
static void the_first_break_is_told_first(void)
{
    static const uint8_t nothing[] = {4, 0, 0, 7};
    osi_judge judge = OSI_JUDGE;
    osi_verdict verdict;
    open_in(&judge);
    pass(&judge, OSI_RIGHT, dt, sizeof dt);
    pass(&judge, OSI_LEFT, nothing, sizeof nothing);
    CHECK(osi_judge_next(&judge, &verdict) == OSI_OK && verdict.side == OSI_RIGHT && verdict.connection == 0);
    CHECK(verdict.kind == OSI_VERDICT_BROKE && verdict.rule == OSI_RULE_TOKEN_NOT_HELD && verdict.offset == 41);
    CHECK(osi_judge_next(&judge, &verdict) == OSI_OK && verdict.side == OSI_LEFT && verdict.connection == OSI_NO_CONNECTION);
    CHECK(verdict.kind == OSI_VERDICT_BROKE && verdict.rule == OSI_RULE_BAD_VERSION && verdict.said == OSI_SAID_TPKT);
    CHECK(kind_so_far(&judge, OSI_NO_CONNECTION, OSI_LEFT) == OSI_VERDICT_BROKE);
    osi_judge_free(&judge);
}

/* What right sends before the first packet of left is a break, unless left then shows that the capture begins in the middle of a
 * connection. So it is certain only then. */
static void what_right_sends_first_is_told_late(const uint8_t *first, size_t length, bool is_late)
{
    osi_judge judge = OSI_JUDGE;
    osi_verdict verdict;
    CHECK(osi_judge_new(&judge) == OSI_OK);
    pass(&judge, OSI_RIGHT, cc, sizeof cc);
    CHECK(has_none(&judge));
    CHECK(osi_judge_verdict(&judge, OSI_NO_CONNECTION, OSI_RIGHT, &verdict) == OSI_OK);
    CHECK(verdict.kind == OSI_VERDICT_BROKE && verdict.rule == OSI_RULE_UNKNOWN_REFERENCE);
    pass(&judge, OSI_LEFT, first, length);
    CHECK(osi_judge_next(&judge, &verdict) == OSI_OK);
    CHECK(verdict.kind == (is_late ? OSI_VERDICT_NOT_JUDGED : OSI_VERDICT_BROKE) && verdict.by == OSI_RIGHT);
    CHECK(verdict.rule == (is_late ? OSI_RULE_NO_OPENING : OSI_RULE_UNKNOWN_REFERENCE));
    osi_judge_free(&judge);
}

#if defined(__GLIBC__) && defined(__GLIBC_PREREQ)
#if __GLIBC_PREREQ(2, 33)
#define KNOWS_WHAT_IS_ALLOCATED
#endif
#endif

#ifdef KNOWS_WHAT_IS_ALLOCATED
static size_t allocated(void)
{
    const struct mallinfo2 info = mallinfo2();
    return info.uordblks + info.hblkhd;
}

#endif

/* Two connections of class 2, each with its CR, CC, CN and AC; the references are at [8] of a CR, at [6] and [8] of a CC,
 * and at [6] of the others. */
static uint8_t cr2[] = {3, 0, 0, 17, 12, 0xE4, 0, 0, 0, 1, 0x20, 0xC0, 1, 10, 0xC6, 1, 0};
static uint8_t cc2[] = {3, 0, 0, 17, 12, 0xD4, 0, 1, 0, 2, 0x20, 0xC0, 1, 10, 0xC6, 1, 0};
static uint8_t cn2[] = {3, 0, 0, 29, 4, 0xF0, 0, 2, 0x80, 13, 18, 5, 12, 19, 1, 1, 22, 1, 2, 23, 1, '1', 26, 1, 0, 20, 2, 0, 0xB9};
static uint8_t dt2[] = {3, 0, 0, 17, 4, 0xF0, 0, 3, 0x81, 1, 0, 1, 0, 'd', 'a', 't', 'a'};

/* A connection of class 2 that left calls by this reference, and right by the next. */
static void open_on(osi_judge *judge, uint8_t left)
{
    cr2[9] = cc2[7] = left;
    cc2[9] = left + 1;
    pass(judge, OSI_LEFT, cr2, sizeof cr2);
    pass(judge, OSI_RIGHT, cc2, sizeof cc2);
    cn2[7] = left + 1;
    cn2[9] = 13;
    pass(judge, OSI_LEFT, cn2, sizeof cn2);
    cn2[7] = left;
    cn2[9] = 14;
    pass(judge, OSI_RIGHT, cn2, sizeof cn2);
}

/* The line of a verdict, in a buffer that holds it. */
static bool is_line(const osi_verdict *verdict, const char *line)
{
    char text[OSI_VERDICT_TEXT];
    const size_t length = osi_verdict_text(verdict, text, sizeof text);
    return length == strlen(line) && length < sizeof text && strcmp(text, line) == 0;
}

/* On the second connection right sends data without the token: its session breaks the protocol there, and the first connection
 * goes on. */
static void a_break_is_told_of_its_connection(void)
{
    osi_judge judge = OSI_JUDGE;
    osi_verdict verdict;
    CHECK(osi_judge_new(&judge) == OSI_OK);
    open_on(&judge, 1);
    open_on(&judge, 3);
    CHECK(has_none(&judge));
    dt2[7] = 3;
    for (size_t i = 0; i < sizeof dt2; i++) {
        CHECK_QUIETLY(has_none(&judge));
        pass(&judge, OSI_RIGHT, dt2 + i, 1);
    }
    CHECK(osi_judge_next(&judge, &verdict) == OSI_OK);
    CHECK(verdict.connection == 1 && verdict.left == 3 && verdict.right == 4 && verdict.side == OSI_RIGHT && verdict.by == OSI_RIGHT);
    CHECK(verdict.kind == OSI_VERDICT_BROKE && verdict.rule == OSI_RULE_TOKEN_NOT_HELD && verdict.said == OSI_SAID_DT);
    CHECK(verdict.offset == 92 && has_none(&judge) && is_line(&verdict, "right 4 broke packet 92 Data TokenNotHeld"));
    dt2[7] = 2;
    pass(&judge, OSI_LEFT, dt2, sizeof dt2);
    CHECK(has_none(&judge));
    osi_judge_free(&judge);
    CHECK(!judge.full);
}

/* Right gives a reference twice: its transport broke a rule, and after that nothing more of either side is judged. */
static void a_break_of_transport_is_told(void)
{
    osi_judge judge = OSI_JUDGE;
    osi_verdict verdict;
    CHECK(osi_judge_new(&judge) == OSI_OK);
    open_on(&judge, 1);
    cr2[9] = cc2[7] = 3;
    cc2[9] = 2;
    pass(&judge, OSI_LEFT, cr2, sizeof cr2);
    pass(&judge, OSI_RIGHT, cc2, sizeof cc2);
    CHECK(osi_judge_next(&judge, &verdict) == OSI_OK && verdict.kind == OSI_VERDICT_BROKE && verdict.side == OSI_RIGHT);
    CHECK(verdict.rule == OSI_RULE_REFERENCE_IN_USE && verdict.said == OSI_SAID_TRANSPORT_CC && verdict.offset == 46);
    for (uint32_t side = OSI_LEFT; side <= OSI_RIGHT; side++) {
        CHECK(osi_judge_next(&judge, &verdict) == OSI_OK && verdict.side == side && verdict.by == OSI_RIGHT);
        CHECK(verdict.kind == OSI_VERDICT_NOT_JUDGED && verdict.rule == OSI_RULE_REFERENCE_IN_USE && verdict.offset == 46);
    }
    CHECK(has_none(&judge));
    osi_judge_free(&judge);
}

/* Each form of a line, and buffers that are too small. */
static void verdicts_are_written(void)
{
    osi_verdict said = {0};
    char text[16];
    CHECK(is_line(&said, ""));
    said = (osi_verdict){0, 0, OSI_VERDICT_KEPT, OSI_RIGHT, OSI_RIGHT, OSI_RULE_NONE, OSI_SAID_NOTHING, 1, 2};
    CHECK(is_line(&said, "right 2 kept"));
    said.connection = OSI_NO_CONNECTION;
    CHECK(is_line(&said, "right kept"));
    said = (osi_verdict){143, 0, OSI_VERDICT_BROKE, OSI_LEFT, OSI_LEFT, OSI_RULE_TOKEN_NOT_HELD, OSI_SAID_DT, 1, 65535};
    CHECK(is_line(&said, "left 1 broke packet 143 Data TokenNotHeld"));
    said.side = said.by = OSI_RIGHT;
    CHECK(is_line(&said, "right 65535 broke packet 143 Data TokenNotHeld"));
    said.kind = OSI_VERDICT_LEAVES;
    said.rule = OSI_RULE_OUTSIDE;
    said.said = OSI_SAID_RS;
    CHECK(is_line(&said, "right 65535 leaves packet 143 Restart Outside"));
    said = (osi_verdict){0, 0, OSI_VERDICT_TOO_MANY, OSI_LEFT, OSI_LEFT, OSI_RULE_NONE, OSI_SAID_NOTHING, 1, 2};
    CHECK(is_line(&said, "left 1 too many"));
    said.kind = OSI_VERDICT_NOT_JUDGED;
    said.rule = OSI_RULE_LIMIT;
    CHECK(is_line(&said, "left 1 not judged Limit"));
    said = (osi_verdict){92, OSI_NO_CONNECTION, OSI_VERDICT_BROKE, OSI_RIGHT, OSI_RIGHT, OSI_RULE_REFERENCE_IN_USE,
                               OSI_SAID_TRANSPORT_CC, 0, 0};
    CHECK(is_line(&said, "right broke packet 92 CC ReferenceInUse"));
    said.kind = OSI_VERDICT_NOT_JUDGED;
    said.side = OSI_LEFT;
    CHECK(is_line(&said, "left not judged after right packet 92 CC ReferenceInUse"));
    /* The longest: an offset of 20 digits. */
    said.offset = UINT64_MAX;
    said.side = OSI_RIGHT;
    said.rule = OSI_RULE_BAD_TPDU_PARAMETER_LENGTH;
    said.said = OSI_SAID_TPDU;
    CHECK(is_line(&said, "right not judged after right packet 18446744073709551615 TPDU BadParameterLength"));
    memset(text, 'x', sizeof text);
    const size_t length = osi_verdict_text(&said, NULL, 0);
    CHECK(osi_verdict_text(&said, text, 6) == length && strcmp(text, "right") == 0 && text[6] == 'x');
    CHECK(osi_verdict_text(&said, text, 1) == length && text[0] == 0 && text[1] == 'i');
}

/* Each number that a verdict may have for what was sent, and for the rule, has its word. */
static void each_word_is_known(void)
{
    osi_verdict said = {0, 0, OSI_VERDICT_BROKE, OSI_LEFT, OSI_LEFT, OSI_RULE_OUTSIDE, OSI_SAID_CN, 1, 2};
    char text[OSI_VERDICT_TEXT];
    for (uint32_t number = 1; number < 300; number++) {
        said.said = number;
        said.rule = OSI_RULE_OUTSIDE;
        osi_verdict_text(&said, text, sizeof text);
        CHECK_QUIETLY((strstr(text, "unknown") == NULL) == (strcmp(osi_said_name(number), "unknown") != 0));
        said.said = OSI_SAID_DT;
        said.rule = number;
        osi_verdict_text(&said, text, sizeof text);
        CHECK_QUIETLY((strstr(text, "unknown") == NULL) == (strcmp(osi_rule_name(number), "unknown") != 0));
    }
}

/* The most that a judge keeps of a connection, what each TSDU of it counts beside its octets, and how many these are of CN and AC. */
#define MOST_KEPT 3145728u
#define OF_EACH_TSDU 48u
#define OPENING (2 * (20 + OF_EACH_TSDU))

/* The packet of a minor synchronisation point with this number, in a DT of class 2 to reference 2. Returns its length. */
static size_t point_of(uint8_t *packet, unsigned number)
{
    const uint8_t head[] = {3, 0, 0, 0, 4, 0xF0, 0, 2, 0x80 | (number & 127), 1, 0, 49, 0, 42, 0};
    memcpy(packet, head, sizeof head);
    const int digits = snprintf((char *)packet + sizeof head, 7, "%u", number);
    packet[14] = (uint8_t)digits;
    packet[12] = (uint8_t)(digits + 2);
    packet[3] = (uint8_t)(sizeof head + digits);
    return packet[3];
}

/* Points pass on the first of two connections until there is no room for one more, and are acknowledged. Returns how many passed,
 * the one without room included. */
static unsigned points_that_fit(osi_judge *judge)
{
    uint8_t packet[24], ak[] = {3, 0, 0, 9, 4, 0x6F, 0, 1, 0};
    size_t kept = OPENING, length;
    unsigned number = 0;
    do {
        length = point_of(packet, ++number);
        pass(judge, OSI_LEFT, packet, length);
        ak[8] = (number + 1) & 127;
        pass(judge, OSI_RIGHT, ak, sizeof ak);
        kept += length - 9 + OF_EACH_TSDU;
    } while (kept <= MOST_KEPT && has_none(judge));
    return number;
}

/* More than is kept of a connection passes on the first: points, each with a number of its own. That is said once of each of its
 * sides, and the second is judged on. */
static void more_than_is_kept_of_a_connection_passes(void)
{
    osi_judge judge = OSI_JUDGE;
    osi_verdict verdict;
    CHECK(osi_judge_new(&judge) == OSI_OK);
    open_on(&judge, 1);
    open_on(&judge, 3);
    CHECK(points_that_fit(&judge) > 50000);
    for (uint32_t side = OSI_LEFT; side <= OSI_RIGHT; side++) {
        CHECK(osi_judge_next(&judge, &verdict) == OSI_OK);
        CHECK(verdict.side == side && verdict.kind == OSI_VERDICT_NOT_JUDGED && verdict.rule == OSI_RULE_LIMIT);
        CHECK(verdict.connection == 0 && verdict.left == 1 && verdict.right == 2);
    }
    CHECK(has_none(&judge));
    dt2[7] = 3;
    dt2[8] = 0x81;
    pass(&judge, OSI_RIGHT, dt2, sizeof dt2);
    CHECK(osi_judge_next(&judge, &verdict) == OSI_OK && verdict.connection == 1 && verdict.kind == OSI_VERDICT_BROKE);
    CHECK(kind_so_far(&judge, 0, OSI_LEFT) == OSI_VERDICT_NOT_JUDGED && kind_so_far(&judge, 1, OSI_LEFT) == OSI_VERDICT_KEPT);
    CHECK(has_line(&judge, "right 2 not judged Limit\n"));
    CHECK(has_line(&judge, "right broke the protocol first, packet "));
    osi_judge_free(&judge);
}

#ifdef KNOWS_WHAT_IS_ALLOCATED
/* A connection of class 0 whose TPDUs have up to 8,192 octets. */
static void open_large(osi_judge *judge)
{
    uint8_t large_cr[sizeof cr], large_cc[sizeof cc];
    memcpy(large_cr, cr, sizeof cr);
    memcpy(large_cc, cc, sizeof cc);
    large_cr[13] = large_cc[13] = 13;
    CHECK(osi_judge_new(judge) == OSI_OK);
    pass(judge, OSI_LEFT, large_cr, sizeof large_cr);
    pass(judge, OSI_RIGHT, large_cc, sizeof large_cc);
    cn[7] = 13;
    pass(judge, OSI_LEFT, cn, sizeof cn);
    cn[7] = 14;
    pass(judge, OSI_RIGHT, cn, sizeof cn);
}

/* How much memory a connection takes on which so many packets of data of this length passed: TSDUs of left, or parts of a TSDU of each
 * side. */
static size_t taken_by_data(size_t length, size_t count, bool is_whole)
{
    static uint8_t data[8196];
    const size_t before = allocated();
    osi_judge judge = OSI_JUDGE;
    memcpy(data, dt, sizeof dt);
    data[2] = (uint8_t)(length >> 8);
    data[3] = (uint8_t)(length & 255);
    data[6] = is_whole ? 0x80 : 0;
    open_large(&judge);
    while (count-- > 0) {
        data[length - 1]++;
        pass(&judge, is_whole ? OSI_LEFT : count % 2, data, length);
    }
    CHECK(kind_so_far(&judge, 0, OSI_LEFT) == OSI_VERDICT_KEPT && kind_so_far(&judge, 0, OSI_RIGHT) == OSI_VERDICT_KEPT);
    const size_t taken = allocated() - before;
    osi_judge_free(&judge);
    return taken;
}

/* However much data passes on a connection, it takes next to nothing; and at most 8 MiB, if both sides are within a TSDU that is nearly as
 * long as one may be. */
static void a_connection_takes_little_memory(void)
{
    static const size_t lengths[] = {12, 13, 19, 24, 40, 48, 100, 1000, 8196};
    for (size_t i = 0; i < sizeof lengths / sizeof *lengths; i++)
        CHECK(taken_by_data(lengths[i], 3000, true) <= 65536);
    CHECK(taken_by_data(8196, 250, false) <= 8u * 1048576u);
}
#else
static void a_connection_takes_little_memory(void)
{
    printf("not there: mallinfo2, by which the memory of a judge is measured\n");
}
#endif

/* What is not a side, and slots that hold no judge or hold one already. A capture that begins in the middle of a connection is not
 * judged, and its text says so; before, that only one direction is here. */
static void judges_that_are_refused(void)
{
    osi_judge judge = OSI_JUDGE;
    osi_verdict verdict;
    osi_octets lent;
    size_t used = 1;
    uint64_t connections = 1;
    CHECK(osi_judge_feed(&judge, OSI_LEFT, cr, sizeof cr, &used) == OSI_SLOT_EMPTY && used == 0);
    CHECK(osi_judge_verdict(&judge, 0, OSI_LEFT, &verdict) == OSI_SLOT_EMPTY && verdict.kind == OSI_VERDICT_NONE);
    CHECK(osi_judge_next(&judge, &verdict) == OSI_SLOT_EMPTY && verdict.kind == OSI_VERDICT_NONE);
    CHECK(osi_judge_connections(&judge, &connections) == OSI_SLOT_EMPTY && connections == 0);
    CHECK(osi_judge_write(&judge) == OSI_SLOT_EMPTY);
    osi_judge_text(&judge, &lent);
    CHECK(lent.length == 0 && lent.at != NULL);
    osi_judge_free(&judge);
    CHECK(osi_judge_new(&judge) == OSI_OK && osi_judge_new(&judge) == OSI_IN_USE);
    CHECK(says(&judge, "left packets 0 octets 0 rest 0\nright packets 0 octets 0 rest 0\nnot judged: no octets\n"));
    CHECK(osi_judge_feed(&judge, 2, cr, sizeof cr, &used) == OSI_BAD_ARGUMENT && used == 0);
    CHECK(osi_judge_verdict(&judge, 0, 2, &verdict) == OSI_BAD_ARGUMENT && verdict.kind == OSI_VERDICT_NONE);
    CHECK(osi_judge_verdict(&judge, 0, OSI_LEFT, &verdict) == OSI_NO_SUCH_CONNECTION);
    CHECK(osi_judge_feed(&judge, OSI_LEFT, OSI_NO_DATA, &used) == OSI_OK && used == 0);
    pass(&judge, OSI_LEFT, dt, sizeof dt);
    for (uint32_t side = OSI_LEFT; side <= OSI_RIGHT; side++) {
        CHECK(osi_judge_next(&judge, &verdict) == OSI_OK && verdict.side == side && verdict.kind == OSI_VERDICT_NOT_JUDGED);
        CHECK(verdict.rule == OSI_RULE_NO_OPENING && verdict.by == OSI_LEFT && verdict.connection == OSI_NO_CONNECTION);
        CHECK(kind_so_far(&judge, OSI_NO_CONNECTION, side) == OSI_VERDICT_NOT_JUDGED);
    }
    CHECK(has_none(&judge));
    CHECK(says(&judge, "left packets 1 octets 19 rest 0\nright packets 0 octets 0 rest 0\n"
                       "not judged: only one direction is here\n"));
    pass(&judge, OSI_RIGHT, dt, sizeof dt);
    CHECK(has_none(&judge));
    CHECK(says(&judge, "left packets 1 octets 19 rest 0\nright packets 1 octets 19 rest 0\n"
                       "not judged: the capture begins in the middle of a connection\n"));
    osi_judge_free(&judge);
    osi_judge_free(&judge);
}

/* ---- names */

static void names(void)
{
    CHECK(strcmp(osi_version(), OSI_VERSION) == 0);
    CHECK(strcmp(osi_code_name(OSI_TOKEN_NOT_HELD), "OSI_TOKEN_NOT_HELD") == 0);
    CHECK(strcmp(osi_indication_name(OSI_PEER_ABORT), "OSI_PEER_ABORT") == 0);
    CHECK(strcmp(osi_phase_name(OSI_PHASE_READY), "OSI_PHASE_READY") == 0);
    CHECK(strcmp(osi_end_name(OSI_END_BAD_LI), "OSI_END_BAD_LI") == 0);
    CHECK(strcmp(osi_verdict_name(OSI_VERDICT_LEAVES), "OSI_VERDICT_LEAVES") == 0);
    CHECK(strcmp(osi_rule_name(OSI_RULE_TOKEN_NOT_HELD), "OSI_RULE_TOKEN_NOT_HELD") == 0);
    CHECK(strcmp(osi_said_name(OSI_SAID_MIP), "OSI_SAID_MIP") == 0);
    CHECK(strcmp(osi_code_name(6), "unknown") == 0 && strcmp(osi_end_name(8), "unknown") == 0);
}

int main(void)
{
    none_at_opening();
    none_in_calls();
    no_slot_is_freed();
    an_empty_slot_has_nothing();
    a_slot_is_moved();
    openings_of_other_headers();
    indications_of_other_headers();
    addresses();
    a_connection_is_given_up_alone();
    lines_are_traced();
    lines_that_nobody_fetches_are_bounded();
    a_break_is_told();
    the_first_break_is_told_first();
    what_right_sends_first_is_told_late(cr, sizeof cr, false);
    what_right_sends_first_is_told_late(dt, sizeof dt, true);
    a_break_is_told_of_its_connection();
    a_break_of_transport_is_told();
    more_than_is_kept_of_a_connection_passes();
    verdicts_are_written();
    each_word_is_known();
    a_connection_takes_little_memory();
    judges_that_are_refused();
    names();
    printf("%u passed, %u failed\n", passed, failed);
    return failed != 0;
}
