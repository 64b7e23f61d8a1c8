/* Two ends. */
#include "pairs.h"
#include "memory.h"

#include <string.h>

static const char *code_name(uint32_t code)
{
    static const char *const names[] = {
        "NoSuchConnection", "Ended",       "BadState",      "NotSelected", "TokenNotHeld",
        "TokenAlreadyHeld", "BadNumber",   "SerialsUsedUp", "Empty",       "TooLong",
        "NotCaller",        "Negotiating", "OneConnection", "TooMany",     "ReferencesUsedUp",
    };
    if (code >= OSI_NO_SUCH_CONNECTION && code <= OSI_REFERENCES_USED_UP)
        return names[code - OSI_NO_SUCH_CONNECTION];
    return code == OSI_BAD_ARGUMENT ? "BadArgument" : "Closed";
}

void pair_begin(struct pair *pair)
{
    struct text out = pair->out;
    memset(pair, 0, sizeof *pair);
    pair->out = out;
    text_clear(&pair->out);
}

/* ---- indications */

struct side {
    struct pair *pair;
    int side;
};

static void record_shown_by(struct pair *pair, int side, const osi_indication *i)
{
    if (i->reference == 0 || i->reference > REFERENCES)
        return;
    struct record *record = &pair->records[side][i->reference - 1];
    const uint8_t *octets = i->user_data.at;
    size_t length = i->user_data.length;
    switch (i->tag) {
    case OSI_CONNECTED:
        record->duplex = (i->requirements & OSI_DUPLEX) != 0;
        record->base = i->has_number ? i->number : pair->serials[i->reference - 1];
        break;
    case OSI_DATA:
        record_shown(record, A_DATA, 0, octets, length);
        break;
    case OSI_MINOR:
        record_shown(record, i->confirm ? A_MINOR : A_MINOR_UNCONFIRMED, i->number, octets, length);
        break;
    case OSI_MAJOR:
        record_shown(record, A_MAJOR, i->number, octets, length);
        break;
    case OSI_RESTART:
        record_cut(record, i->number);
        record->asking = false;
        break;
    case OSI_RESTARTED:
        record->asking = false;
        break;
    default:
        break;
    }
}

static void is_shown(void *to, const osi_indication *shown)
{
    const struct side *at = to;
    struct pair *pair = at->pair;
    text_put(&pair->out, "%s %u ", side_names[at->side], shown->reference);
    text_shown(&pair->out, shown);
    text_put(&pair->out, "\n");
    record_shown_by(pair, at->side, shown);
    if (pair->quiet)
        return;
    uint64_t detail;
    uint32_t ended = osi_ended(&pair->ends[at->side], &detail);
    holds(shown->tag != OSI_BAD_UNIT && shown->tag != OSI_PEER_ABORT, "a user is shown a fault");
    holds(shown->tag != OSI_LOST || ended == OSI_END_BROKEN || ended == OSI_END_NO_MEMORY,
          "a connection is lost, and the end is %u", ended);
}

/* ---- calls */

uint32_t end_call(osi_end *end, const struct event *e)
{
    uint16_t r = e->reference;
    switch (e->verb) {
    case ACCEPT:
        return osi_accept_sized(end, r, e->units, e->number, &e->sides, e->sizes[0], e->sizes[1], e->data,
                                e->length);
    case REFUSE:
        return osi_refuse(end, r, e->data, e->length);
    case DATA:
        return osi_data(end, r, e->data, e->length);
    case GIVE:
        return osi_give(end, r, e->tokens);
    case PLEASE:
        return osi_please(end, r, e->tokens, e->data, e->length);
    case MINOR:
        return osi_minor(end, r, e->confirm, e->data, e->length);
    case MINOR_CONFIRM:
        return osi_minor_confirm(end, r, e->number, e->data, e->length);
    case MAJOR:
        return osi_major(end, r, e->data, e->length);
    case MAJOR_CONFIRM:
        return osi_major_confirm(end, r, e->data, e->length);
    case RESTART:
        return osi_restart(end, r, e->number, &e->sides, e->data, e->length);
    case RESTART_CONFIRM:
        return osi_restart_confirm(end, r, &e->sides, e->data, e->length);
    case RELEASE:
        return osi_release(end, r, e->data, e->length);
    case RELEASE_ACCEPT:
        return osi_release_accept(end, r, e->data, e->length);
    case RELEASE_REFUSE:
        return osi_release_refuse(end, r, e->data, e->length);
    default:
        return osi_abort(end, r, e->data, e->length);
    }
}

static void record_call(struct pair *pair, const struct event *e)
{
    struct record *record = &pair->records[e->side][e->reference - 1];
    switch (e->verb) {
    case ACCEPT:
        record->duplex = (e->units & OSI_DUPLEX) != 0;
        record->base = e->number;
        break;
    case DATA:
        record_asked(record, A_DATA, e->data, e->length);
        break;
    case MINOR:
        record_asked(record, e->confirm ? A_MINOR : A_MINOR_UNCONFIRMED, e->data, e->length);
        break;
    case MAJOR:
        record_asked(record, A_MAJOR, e->data, e->length);
        break;
    case RESTART:
        record_cut(record, e->number);
        record->asking = true;
        break;
    default:
        break;
    }
}

static enum outcome apply_call(struct pair *pair, const struct event *e)
{
    memory_in();
    uint32_t code = end_call(&pair->ends[e->side], e);
    uint64_t growths = memory_out();
    holds(code == OSI_OK || code == OSI_NO_MEMORY || growths == 0, "a call that is refused wants memory");
    if (code == OSI_NO_MEMORY)
        return NO_MEMORY;
    text_put(&pair->out, "%s %u %s ", side_names[e->side], e->reference, verb_names[e->verb]);
    text_put(&pair->out, code == OSI_OK ? "ok\n" : "refused %s\n", code_name(code));
    if (code == OSI_OK && e->reference >= 1 && e->reference <= REFERENCES)
        record_call(pair, e);
    return DONE;
}

static enum outcome apply_connect(struct pair *pair, const struct event *e)
{
    uint16_t reference = 0;
    osi_opening asked = OSI_OPENING;
    asked.requirements = e->units;
    asked.serial = e->number;
    asked.wishes = e->sides;
    asked.user_data = (osi_octets){e->data, e->length};
    asked.calling_tsap = (osi_octets){e->addresses[0], e->address_lengths[0]};
    asked.called_tsap = (osi_octets){e->addresses[1], e->address_lengths[1]};
    asked.size_from_asker = e->sizes[0];
    asked.size_from_answerer = e->sizes[1];
    memory_in();
    uint32_t code = osi_connect(&pair->ends[LEFT], &asked, &reference);
    uint64_t growths = memory_out();
    holds(code == OSI_OK || code == OSI_NO_MEMORY || growths == 0, "a connect that is refused wants memory");
    if (code == OSI_NO_MEMORY) {
        holds(reference == 0, "a refused connect gives a reference");
        return NO_MEMORY;
    }
    if (code == OSI_OK)
        text_put(&pair->out, "left connect ok %u\n", reference);
    else
        text_put(&pair->out, "left connect refused %s\n", code_name(code));
    if (code == OSI_OK && reference <= REFERENCES)
        pair->serials[reference - 1] = e->number;
    return DONE;
}

/* ---- octets */

size_t pair_under_way(struct pair *pair, int side)
{
    osi_octets octets;
    osi_outgoing(&pair->ends[side], &octets);
    return pair->broken && octets.length > pair->may[side] ? pair->may[side] : octets.length;
}

static void take(struct pair *pair, int side, size_t count)
{
    memory_in();
    holds(osi_taken(&pair->ends[side], count) == OSI_OK, "%zu octets cannot be taken away", count);
    holds(memory_out() == 0, "taking octets away wants memory");
    if (pair->broken)
        pair->may[side] -= count;
}

static void apply_carry(struct pair *pair, const struct event *e)
{
    osi_octets octets;
    size_t there = pair_under_way(pair, e->side), count = e->number < there ? e->number : there;
    struct side to = {pair, 1 - e->side};
    osi_outgoing(&pair->ends[e->side], &octets);
    text_put(&pair->out, "%s carried %zu\n", side_names[e->side], count);
    end_feed(&pair->ends[1 - e->side], octets.at, count, SIZE_MAX, is_shown, &to);
    take(pair, e->side, count);
}

static void apply_told(struct pair *pair, const struct event *e)
{
    struct side to = {pair, e->side};
    text_put(&pair->out, "%s told\n", side_names[e->side]);
    memory_in();
    holds(osi_broken(&pair->ends[e->side]) == OSI_OK, "an end is not told of a break");
    holds(memory_out() == 0, "a break wants memory");
    end_fetch(&pair->ends[e->side], is_shown, &to);
}

static void apply_break(struct pair *pair, const struct event *e)
{
    size_t left = pair_under_way(pair, LEFT), right = pair_under_way(pair, RIGHT);
    pair->broken = true;
    pair->may[LEFT] = e->number < left ? e->number : left;
    pair->may[RIGHT] = e->other < right ? e->other : right;
    text_put(&pair->out, "broken\n");
}

static enum outcome apply_ends(struct pair *pair, const struct event *e)
{
    uint32_t code = OSI_OK;
    memory_in();
    if (!pair->ends[LEFT].full)
        code = osi_caller(&pair->ends[LEFT], &e->terms[LEFT]);
    if (code == OSI_OK)
        code = osi_called(&pair->ends[RIGHT], &e->terms[RIGHT]);
    memory_out();
    holds(code == OSI_OK || code == OSI_NO_MEMORY, "an end is not made: %u", code);
    return code == OSI_OK ? DONE : NO_MEMORY;
}

static void apply_wants(struct pair *pair, const struct event *e)
{
    static struct text wanted, found;
    osi_octets octets;
    osi_outgoing(&pair->ends[e->side], &octets);
    text_clear(&wanted);
    text_octets(&wanted, e->data, e->length);
    text_clear(&found);
    text_octets(&found, octets.at, octets.length);
    holds(strcmp(wanted.at, found.at) == 0, "the %s side sends %s, and not %s", side_names[e->side], found.at,
          wanted.at);
}

/* The last line of the transcript. */
static void apply_shows(struct pair *pair, const struct event *e)
{
    size_t from = pair->out.length < e->length + 1 ? 0 : pair->out.length - e->length - 1;
    bool begins = from == 0 || pair->out.at[from - 1] == '\n';
    holds(begins && pair->out.length > e->length && memcmp(pair->out.at + from, e->data, e->length) == 0,
          "the transcript does not end with: %s", (const char *)e->data);
}

static void apply_holds(struct pair *pair, const struct event *e)
{
    uint8_t held = osi_held(&pair->ends[e->side], e->reference);
    holds(held == e->tokens, "the %s side holds %02x, and not %02x", side_names[e->side], held, e->tokens);
}

enum outcome pair_apply(struct pair *pair, const struct event *e)
{
    struct side to = {pair, e->side};
    switch (e->kind) {
    case ENDS:
        return apply_ends(pair, e);
    case CONNECT:
        return apply_connect(pair, e);
    case CALL:
        return apply_call(pair, e);
    case CARRY:
        apply_carry(pair, e);
        break;
    case BREAK:
        apply_break(pair, e);
        break;
    case TOLD:
        apply_told(pair, e);
        break;
    case FEED:
        pair->quiet = true;
        end_feed(&pair->ends[e->side], e->data, e->length, SIZE_MAX, is_shown, &to);
        break;
    case DROP:
        take(pair, e->side, pair_under_way(pair, e->side));
        break;
    case WANTS:
        apply_wants(pair, e);
        break;
    case SHOWS:
        apply_shows(pair, e);
        break;
    case HOLDS:
        apply_holds(pair, e);
        break;
    }
    return DONE;
}

void pair_run(struct pair *pair, const struct event *events, size_t count)
{
    for (size_t i = 0; i < count; i++) {
        holds(pair_apply(pair, &events[i]) == DONE, "event %zu wants for memory", i);
        pair_check(pair);
    }
}

/* ---- the promises */

void pair_check(struct pair *pair)
{
    for (int side = 0; side < 2; side++)
        end_check(&pair->ends[side]);
    for (uint16_t reference = 1; reference <= REFERENCES && !pair->quiet; reference++) {
        const struct record *left = &pair->records[LEFT][reference - 1],
                            *right = &pair->records[RIGHT][reference - 1];
        holds((osi_held(&pair->ends[LEFT], reference) & osi_held(&pair->ends[RIGHT], reference)) == 0,
              "a token of %u is held by both sides", reference);
        holds(records_agree(left, right), "the views of %u do not agree", reference);
        holds(confirmed_is_seen(left, osi_confirmed_below(&pair->ends[LEFT], reference), right),
              "a confirmed point of %u was not seen at the right", reference);
        holds(confirmed_is_seen(right, osi_confirmed_below(&pair->ends[RIGHT], reference), left),
              "a confirmed point of %u was not seen at the left", reference);
    }
    for (int side = 0; side < 2 && !pair->quiet; side++) {
        uint64_t detail;
        uint32_t ended = osi_ended(&pair->ends[side], &detail);
        holds(ended < OSI_END_UNKNOWN_REFERENCE, "the %s end ends by a fault, %u", side_names[side], ended);
    }
}

void pair_standing(struct pair *pair)
{
    static const char *const phases[] = {
        "",         "WaitTransport", "WaitCn",     "Connecting", "Answering",  "Ready",    "MajorAsked",
        "MajorDue", "Releasing",     "ReleaseDue", "Restarting", "RestartDue", "Aborting", "Ended",
    };
    for (int side = 0; side < 2; side++)
        for (uint16_t reference = 1; reference <= REFERENCES; reference++) {
            osi_end *end = &pair->ends[side];
            uint32_t phase = osi_phase(end, reference);
            if (phase != OSI_PHASE_NONE && phase != OSI_PHASE_ENDED)
                text_put(&pair->out, "%s %u phase %s held %02x next %u below %u lowest %u\n", side_names[side],
                         reference, phases[phase], osi_held(end, reference), osi_next_serial(end, reference),
                         osi_confirmed_below(end, reference), osi_lowest_restart(end, reference));
        }
}

void pair_free(struct pair *pair)
{
    memory_in();
    for (int side = 0; side < 2; side++)
        osi_free(&pair->ends[side]);
    memory_out();
    holds(memory_held() == 0, "%lld growths were not given back", (long long)memory_held());
    for (int side = 0; side < 2; side++)
        for (size_t i = 0; i < REFERENCES; i++)
            record_free(&pair->records[side][i]);
}
