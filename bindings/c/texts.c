/*
 * A verdict as a line of text, in the words of `osi judge`. It reads the numbers of the struct alone, and takes no
 * memory. It is tested (bindings/c/test_osi.c, bindings/python/tests/test_judge.py), and not proved.
 */
#include "osi.h"

/* A line that is written: its octets, as far as they fit, and how long it is so far. */
struct line {
    char *text;
    size_t size;
    size_t length;
};

static void add(struct line *line, const char *words)
{
    for (; *words != 0; words++, line->length++)
        if (line->length + 1 < line->size)
            line->text[line->length] = *words;
}

static void add_number(struct line *line, uint64_t number)
{
    char digits[21];
    char *first = digits + sizeof digits - 1;
    *first = 0;
    do
        *--first = (char)('0' + number % 10);
    while ((number /= 10) != 0);
    add(line, first);
}

#define WORDS(number, words) case number: return words

/* The call that sends a session unit, what could not be read, or a transport unit. */
static const char *said_words(uint32_t said)
{
    switch (said) {
        WORDS(OSI_SAID_CN, "Connect");
        WORDS(OSI_SAID_AC, "Accept");
        WORDS(OSI_SAID_RF, "Refuse");
        WORDS(OSI_SAID_DT, "Data");
        WORDS(OSI_SAID_GT, "Give");
        WORDS(OSI_SAID_PT, "Please");
        WORDS(OSI_SAID_MIP, "Minor");
        WORDS(OSI_SAID_MIA, "MinorConfirm");
        WORDS(OSI_SAID_MAP, "Major");
        WORDS(OSI_SAID_MAA, "MajorConfirm");
        WORDS(OSI_SAID_RS, "Restart");
        WORDS(OSI_SAID_RA, "RestartConfirm");
        WORDS(OSI_SAID_FN, "Release");
        WORDS(OSI_SAID_DN, "ReleaseAccept");
        WORDS(OSI_SAID_NF, "ReleaseRefuse");
        WORDS(OSI_SAID_AB, "Abort");
        WORDS(OSI_SAID_AA, "AbortAccept");
        WORDS(OSI_SAID_TSDU, "TSDU");
        WORDS(OSI_SAID_TPKT, "TPKT");
        WORDS(OSI_SAID_TPDU, "TPDU");
        WORDS(OSI_SAID_TRANSPORT_DT, "DT");
        WORDS(OSI_SAID_TRANSPORT_DR, "DR");
        WORDS(OSI_SAID_TRANSPORT_CR, "CR");
        WORDS(OSI_SAID_TRANSPORT_CC, "CC");
        WORDS(OSI_SAID_TRANSPORT_DC, "DC");
        WORDS(OSI_SAID_TRANSPORT_AK, "AK");
        WORDS(OSI_SAID_TRANSPORT_ER, "ER");
    }
    return "unknown";
}

static const char *rule_words(uint32_t rule)
{
    switch (rule) {
        WORDS(OSI_RULE_NO_SUCH_CONNECTION, "NoSuchConnection");
        WORDS(OSI_RULE_ENDED, "Ended");
        WORDS(OSI_RULE_BAD_STATE, "BadState");
        WORDS(OSI_RULE_NOT_SELECTED, "NotSelected");
        WORDS(OSI_RULE_TOKEN_NOT_HELD, "TokenNotHeld");
        WORDS(OSI_RULE_TOKEN_ALREADY_HELD, "TokenAlreadyHeld");
        WORDS(OSI_RULE_BAD_NUMBER, "BadNumber");
        WORDS(OSI_RULE_SERIALS_USED_UP, "SerialsUsedUp");
        WORDS(OSI_RULE_EMPTY, "Empty");
        WORDS(OSI_RULE_TOO_LONG, "TooLong");
        WORDS(OSI_RULE_BAD_TOKENS, "BadTokens");
        WORDS(OSI_RULE_BAD_ENCLOSURE, "BadEnclosure");
        WORDS(OSI_RULE_NO_FAULT, "NoFault");
        WORDS(OSI_RULE_NOTHING_TO_ANSWER, "NothingToAnswer");
        WORDS(OSI_RULE_OUTSIDE, "Outside");
        WORDS(OSI_RULE_UNKNOWN_SI, "UnknownSi");
        WORDS(OSI_RULE_LENGTH_PAST_END, "LengthPastEnd");
        WORDS(OSI_RULE_MISSING_PARAMETER, "MissingParameter");
        WORDS(OSI_RULE_DUPLICATE_PARAMETER, "DuplicateParameter");
        WORDS(OSI_RULE_BAD_VALUE, "BadValue");
        WORDS(OSI_RULE_BAD_CONCATENATION, "BadConcatenation");
        WORDS(OSI_RULE_TRAILING_OCTETS, "TrailingOctets");
        WORDS(OSI_RULE_NO_OPENING, "NoOpening");
        WORDS(OSI_RULE_BAD_VERSION, "BadVersion");
        WORDS(OSI_RULE_BAD_LENGTH, "BadLength");
        WORDS(OSI_RULE_BAD_LI, "BadLi");
        WORDS(OSI_RULE_UNKNOWN_CODE, "UnknownCode");
        WORDS(OSI_RULE_BAD_TPDU_PARAMETER_LENGTH, "BadParameterLength");
        WORDS(OSI_RULE_BAD_TPDU_PARAMETER_VALUE, "BadParameterValue");
        WORDS(OSI_RULE_DUPLICATE_TPDU_PARAMETER, "DuplicateParameter");
        WORDS(OSI_RULE_UNEXPECTED_UNIT, "UnexpectedUnit");
        WORDS(OSI_RULE_WRONG_FORM, "WrongForm");
        WORDS(OSI_RULE_TSDU_TOO_LONG, "TsduTooLong");
        WORDS(OSI_RULE_LIMIT, "Limit");
        WORDS(OSI_RULE_TOO_MANY_CONNECTIONS, "TooMany");
        WORDS(OSI_RULE_ONE_CONNECTION, "OneConnection");
        WORDS(OSI_RULE_NEGOTIATING, "Negotiating");
        WORDS(OSI_RULE_REFERENCE_IN_USE, "ReferenceInUse");
        WORDS(OSI_RULE_UNKNOWN_REFERENCE, "UnknownReference");
        WORDS(OSI_RULE_BAD_ANSWER, "BadAnswer");
        WORDS(OSI_RULE_LARGER_SIZE, "LargerSize");
        WORDS(OSI_RULE_CLOSED, "Closed");
        WORDS(OSI_RULE_OUT_OF_SEQUENCE, "OutOfSequence");
        WORDS(OSI_RULE_NO_CREDIT, "NoCredit");
        WORDS(OSI_RULE_SIZE_EXCEEDED, "SizeExceeded");
        WORDS(OSI_RULE_CREDIT_REDUCED, "CreditReduced");
    }
    return "unknown";
}

static const char *side_words(uint32_t side)
{
    return side == OSI_RIGHT ? "right" : "left";
}

/* The side of a session by the reference that it gave the connection; a transport by the side alone. */
static void add_session(struct line *line, const osi_verdict *verdict)
{
    add(line, side_words(verdict->side));
    add(line, " ");
    add_number(line, verdict->side == OSI_RIGHT ? verdict->right : verdict->left);
}

static void add_side(struct line *line, const osi_verdict *verdict)
{
    if (verdict->said <= OSI_SAID_TSDU)
        add_session(line, verdict);
    else
        add(line, side_words(verdict->side));
}

/* The packet, what was sent in it, and the rule. */
static void add_packet(struct line *line, const osi_verdict *verdict)
{
    add(line, " packet ");
    add_number(line, verdict->offset);
    add(line, " ");
    add(line, said_words(verdict->said));
    add(line, " ");
    add(line, rule_words(verdict->rule));
}

static void add_not_judged(struct line *line, const osi_verdict *verdict)
{
    if (verdict->said == OSI_SAID_NOTHING) {
        add_session(line, verdict);
        add(line, " not judged ");
        add(line, rule_words(verdict->rule));
    } else {
        add(line, side_words(verdict->side));
        add(line, " not judged after ");
        add(line, side_words(verdict->by));
        add_packet(line, verdict);
    }
}

size_t osi_verdict_text(const osi_verdict *verdict, char *text, size_t size)
{
    struct line line = {text, size, 0};
    switch (verdict->kind) {
        case OSI_VERDICT_KEPT:
            if (verdict->connection == OSI_NO_CONNECTION)
                add(&line, side_words(verdict->side));
            else
                add_session(&line, verdict);
            add(&line, " kept");
            break;
        case OSI_VERDICT_BROKE:
            add_side(&line, verdict);
            add(&line, " broke");
            add_packet(&line, verdict);
            break;
        case OSI_VERDICT_LEAVES:
            add_side(&line, verdict);
            add(&line, " leaves");
            add_packet(&line, verdict);
            break;
        case OSI_VERDICT_TOO_MANY:
            add_session(&line, verdict);
            add(&line, " too many");
            break;
        case OSI_VERDICT_NOT_JUDGED:
            add_not_judged(&line, verdict);
            break;
    }
    if (size != 0)
        text[line.length < size ? line.length : size - 1] = 0;
    return line.length;
}
