/* One end, and what its contracts say of it. */
#include "ends.h"
#include "memory.h"

#include <stdarg.h>
#include <stdio.h>
#include <stdlib.h>
#include <string.h>

uint64_t runs, checks, failures;
struct text place;

void holds(bool it, const char *format, ...)
{
    checks += 1;
    if (it)
        return;
    failures += 1;
    if (failures > 20)
        exit(counts("stopped"));
    va_list words;
    printf("FAILED: %s: ", place.at == NULL ? "" : place.at);
    va_start(words, format);
    vprintf(format, words);
    va_end(words);
    putchar('\n');
}

int counts(const char *program)
{
    printf("%s: %llu runs, %llu checks, %llu failed\n", program, (unsigned long long)runs,
           (unsigned long long)checks, (unsigned long long)failures);
    return failures == 0 ? 0 : 1;
}

/* ---- feeding */

static uint32_t ended_by(osi_end *end)
{
    uint64_t detail;
    return osi_ended(end, &detail);
}

static bool has_ended(osi_end *end)
{
    return ended_by(end) != OSI_END_NONE;
}

/* After a fault of the peer, or an allocation failure, the feed in which it happens uses its whole piece. */
static bool is_spoilt(osi_end *end)
{
    return ended_by(end) == OSI_END_NO_MEMORY || ended_by(end) >= OSI_END_UNKNOWN_REFERENCE;
}

void end_fetch(osi_end *end, shown_to *shown, void *to)
{
    osi_indication indication;
    for (;;) {
        memory_in();
        bool there = osi_next(end, &indication);
        holds(memory_out() == 0, "fetching wants memory");
        if (!there)
            break;
        shown(to, &indication);
    }
    holds(indication.tag == OSI_NONE, "nothing waits, and something is shown");
}

void end_feed(osi_end *end, const uint8_t *octets, size_t length, size_t piece, shown_to *shown, void *to)
{
    while (length > 0) {
        size_t count = length < piece ? length : piece;
        osi_fed fed;
        bool over = has_ended(end);
        memory_in();
        uint32_t code = osi_feed(end, octets, count, &fed);
        memory_out();
        bool ended = has_ended(end);
        holds(code == OSI_OK, "feed answers %u", code);
        holds(fed.used > 0 && fed.used <= count, "%zu of %zu octets are used", fed.used, count);
        holds(fed.used == count || fed.waits, "a piece is not used whole, and nothing waits");
        holds(!(over || is_spoilt(end)) || fed.used == count, "an end that has ended leaves octets of a piece");
        if (fed.used == 0 || fed.used > count)
            return;
        if (fed.waits) {
            osi_fed again;
            memory_in();
            osi_feed(end, octets, count, &again);
            holds(memory_out() == 0, "feeding wants memory while an indication waits");
            holds(again.waits && again.used == (ended ? count : 0), "while an indication waits %zu octets are used",
                  again.used);
            uint64_t before = checks;
            end_fetch(end, shown, to);
            holds(checks > before, "nothing was fetched");
        }
        octets += fed.used;
        length -= fed.used;
    }
}

/* ---- what a state says */

static bool is_live(uint32_t phase)
{
    return phase != OSI_PHASE_NONE && phase != OSI_PHASE_ENDED;
}

static bool may_hold(uint32_t phase)
{
    return phase >= OSI_PHASE_READY && phase <= OSI_PHASE_RELEASE_DUE;
}

static size_t live_of(osi_end *end)
{
    size_t live = 0;
    for (uint16_t reference = 1; reference <= 64; reference++) {
        uint32_t phase = osi_phase(end, reference);
        if (phase == OSI_PHASE_NONE)
            break;
        live += is_live(phase);
    }
    return live;
}

static void check_connection(osi_end *end, uint16_t reference, bool ended)
{
    uint32_t phase = osi_phase(end, reference), next = osi_next_serial(end, reference);
    uint8_t held = osi_held(end, reference);
    holds(held == 0 || may_hold(phase), "tokens %02x are held in phase %u", held, phase);
    holds((held & ~0x55) == 0, "tokens %02x", held);
    holds(next <= 1000000 && osi_confirmed_below(end, reference) <= next
              && osi_lowest_restart(end, reference) <= next,
          "the numbers are not in order");
    if (ended)
        holds(held == 0 && (phase == OSI_PHASE_NONE || phase == OSI_PHASE_ENDED),
              "the end has ended, and %u is in phase %u", reference, phase);
}

static void ignored(void *to, const osi_indication *shown)
{
    (void)to;
    (void)shown;
    holds(false, "an end that has ended shows something");
}

/* An end that has ended does nothing, whatever still happens to it. */
static void check_ended(osi_end *end)
{
    static const uint8_t octets[] = {3, 0, 0, 7, 2, 0xf0, 0x80, 4, 0xff, 0};
    static struct text before, after;
    uint16_t reference = 0;
    osi_opening asked = OSI_OPENING;
    text_clear(&before);
    end_state(end, &before);
    end_feed(end, octets, sizeof octets, sizeof octets, ignored, NULL);
    memory_in();
    holds(osi_broken(end) == OSI_OK, "a break is refused");
    uint32_t code = osi_connect(end, &asked, &reference);
    holds(code == OSI_ENDED || code == OSI_NOT_CALLER, "a connection is asked for: %u", code);
    code = osi_abort(end, 1, OSI_NO_DATA);
    holds(code == OSI_ENDED || code == OSI_NO_SUCH_CONNECTION, "a call: %u", code);
    holds(memory_out() == 0, "an end that has ended wants memory");
    end_fetch(end, ignored, NULL);
    text_clear(&after);
    end_state(end, &after);
    holds(strcmp(before.at, after.at) == 0, "an end that has ended changes: %s, then %s", before.at, after.at);
}

/* An empty piece, which needs no memory and changes nothing. */
static void check_nothing_fed(osi_end *end)
{
    osi_fed fed;
    size_t kept = osi_kept(end);
    uint32_t ended = ended_by(end);
    memory_in();
    osi_feed(end, (const uint8_t *)"", 0, &fed);
    holds(memory_out() == 0, "an empty piece wants memory");
    holds(fed.used == 0 && !fed.waits && osi_kept(end) == kept && ended_by(end) == ended, "an empty piece changes an end");
}

void end_check(osi_end *end)
{
    bool ended = has_ended(end);
    check_nothing_fed(end);
    size_t kept = osi_kept(end), live = live_of(end);
    holds(kept <= KEPT_OF_A_PACKET + live * ((size_t)KEPT_OF_A_TSDU + KEPT_OF_DATA), "%zu octets are kept for %zu connections", kept,
          live);
    for (uint16_t reference = 1; reference <= REFERENCES; reference++)
        check_connection(end, reference, ended);
    if (ended)
        check_ended(end);
}

void end_state(osi_end *end, struct text *text)
{
    osi_octets octets;
    uint64_t detail;
    uint32_t ended = osi_ended(end, &detail);
    text_put(text, "ended %u %llu kept %zu live %zu backlog %zu", ended, (unsigned long long)detail,
             ended == 0 ? osi_kept(end) : 0, osi_live(end), osi_backlog(end));
    for (uint16_t reference = 1; reference <= REFERENCES; reference++) {
        uint32_t phase = osi_phase(end, reference);
        if (phase == OSI_PHASE_NONE)
            break;
        text_put(text, " | phase %u held %02x next %u below %u lowest %u unsent %zu", phase,
                 osi_held(end, reference), osi_next_serial(end, reference),
                 osi_confirmed_below(end, reference), osi_lowest_restart(end, reference),
                 osi_unsent(end, reference));
    }
    osi_outgoing(end, &octets);
    text_put(text, " | ");
    text_octets(text, octets.at, octets.length);
}

/* ---- indications */

static void text_data(struct text *text, const char *word, osi_octets data)
{
    text_put(text, "%s ", word);
    text_octets(text, data.at, data.length);
}

static void text_sides(struct text *text, osi_sides s)
{
    static const char letters[] = "arc";
    text_put(text, " sides %c%c%c%c", letters[s.data], letters[s.minor], letters[s.major], letters[s.release]);
}

/* The words between the name and the user data. */
static void text_fields(struct text *text, const osi_indication *i)
{
    static const char *const faults[] = {"",          "Spelling",  "Unexpected",   "NotSelected", "TokenHeld",
                                         "BadNumber", "BadTokens", "BadEnclosure", "DataTooLong"};
    if (i->tag == OSI_CONNECT || i->tag == OSI_CONNECTED)
        text_put(text, i->has_number ? " units %04x serial %u" : " units %04x serial -", i->requirements,
                 i->number);
    if (i->tag == OSI_REFUSED_BY_TRANSPORT || i->tag == OSI_REFUSED_BY_SESSION)
        text_put(text, " %u", i->reason);
    if (i->tag == OSI_GIVEN || i->tag == OSI_ASKED)
        text_put(text, " %02x", i->tokens);
    if (i->tag == OSI_MINOR || i->tag == OSI_MINOR_CONFIRMED || i->tag == OSI_MAJOR || i->tag == OSI_RESTART
        || i->tag == OSI_RESTARTED)
        text_put(text, " %u", i->number);
    if (i->tag == OSI_MINOR)
        text_put(text, " confirm %s", i->confirm ? "yes" : "no");
    if (i->tag == OSI_CONNECT || i->tag == OSI_CONNECTED || i->tag == OSI_RESTART || i->tag == OSI_RESTARTED)
        text_sides(text, i->sides);
    if (i->tag == OSI_PEER_ABORT)
        text_put(text, " %02x", i->reason);
    if (i->tag == OSI_BAD_UNIT)
        text_put(text, " %s", faults[i->fault.fault]);
}

void text_shown(struct text *text, const osi_indication *i)
{
    static const char *const names[] = {
        "",
        "Connect",
        "Connected",
        "Refused transport",
        "Refused session",
        "Data",
        "Given",
        "Asked",
        "Minor",
        "MinorConfirmed",
        "Major",
        "MajorConfirmed",
        "Restart",
        "Restarted",
        "Release",
        "Released",
        "ReleaseRefused",
        "Aborted",
        "ProviderAbort Lost",
        "ProviderAbort Peer",
        "ProviderAbort Unit",
    };
    text_put(text, "%s", names[i->tag]);
    text_fields(text, i);
    if (i->tag == OSI_DATA)
        text_data(text, "", i->user_data);
    else if (i->tag != OSI_REFUSED_BY_TRANSPORT && i->tag != OSI_GIVEN && i->tag < OSI_LOST)
        text_data(text, " data", i->user_data);
    if (i->size_from_asker != 0 || i->size_from_answerer != 0)
        text_put(text, " tsdu %u %u", i->size_from_asker, i->size_from_answerer);
}
