/* Prints the C compiler's layout of the declarations of include/osi.h, and each of its numbers: one line for
 * each. The tests of the bindings compare these lines with their own declarations.
 *
 *     struct osi_terms 3 1           its size and its alignment
 *     field osi_terms.size 1 1       its offset, and its size
 *     value OSI_SLOT_EMPTY 1
 */
#include "osi.h"

#include <stdio.h>

struct alignments {
    struct { char c; osi_end at; } osi_end;
    struct { char c; osi_octets at; } osi_octets;
    struct { char c; osi_terms at; } osi_terms;
    struct { char c; osi_sides at; } osi_sides;
    struct { char c; osi_opening at; } osi_opening;
    struct { char c; osi_fault at; } osi_fault;
    struct { char c; osi_indication at; } osi_indication;
    struct { char c; osi_fed at; } osi_fed;
    struct { char c; osi_tsap at; } osi_tsap;
    struct { char c; osi_selector at; } osi_selector;
    struct { char c; osi_addressing at; } osi_addressing;
    struct { char c; osi_tally at; } osi_tally;
    struct { char c; osi_counters at; } osi_counters;
    struct { char c; osi_judge at; } osi_judge;
    struct { char c; osi_verdict at; } osi_verdict;
};

#define ALIGNMENT(type) (offsetof(struct alignments, type.at) - offsetof(struct alignments, type))
#define STRUCT(type) printf("struct " #type " %zu %zu\n", sizeof(type), ALIGNMENT(type))
#define FIELD(type, field) \
    printf("field " #type "." #field " %zu %zu\n", offsetof(type, field), sizeof(((type *)0)->field))
#define VALUE(name) printf("value " #name " %lu\n", (unsigned long)(name))

static void structs(void)
{
    STRUCT(osi_end);
    FIELD(osi_end, full);
    FIELD(osi_end, inner);
    STRUCT(osi_octets);
    FIELD(osi_octets, at);
    FIELD(osi_octets, length);
    STRUCT(osi_terms);
    FIELD(osi_terms, classes);
    FIELD(osi_terms, size);
    FIELD(osi_terms, window);
    STRUCT(osi_sides);
    FIELD(osi_sides, data);
    FIELD(osi_sides, minor);
    FIELD(osi_sides, major);
    FIELD(osi_sides, release);
    STRUCT(osi_fed);
    FIELD(osi_fed, used);
    FIELD(osi_fed, waits);
}

static void opening(void)
{
    STRUCT(osi_opening);
    FIELD(osi_opening, requirements);
    FIELD(osi_opening, serial);
    FIELD(osi_opening, wishes);
    FIELD(osi_opening, calling_tsap);
    FIELD(osi_opening, called_tsap);
    FIELD(osi_opening, calling_selector);
    FIELD(osi_opening, called_selector);
    FIELD(osi_opening, user_data);
    FIELD(osi_opening, size_from_asker);
    FIELD(osi_opening, size_from_answerer);
}

static void indication(void)
{
    STRUCT(osi_fault);
    FIELD(osi_fault, fault);
    FIELD(osi_fault, si);
    FIELD(osi_fault, spelling);
    FIELD(osi_fault, parameter);
    FIELD(osi_fault, offset);
    STRUCT(osi_indication);
    FIELD(osi_indication, tag);
    FIELD(osi_indication, number);
    FIELD(osi_indication, reference);
    FIELD(osi_indication, requirements);
    FIELD(osi_indication, has_number);
    FIELD(osi_indication, confirm);
    FIELD(osi_indication, tokens);
    FIELD(osi_indication, reason);
    FIELD(osi_indication, sides);
    FIELD(osi_indication, fault);
    FIELD(osi_indication, user_data);
    FIELD(osi_indication, size_from_asker);
    FIELD(osi_indication, size_from_answerer);
}

static void addresses(void)
{
    STRUCT(osi_tsap);
    FIELD(osi_tsap, octets);
    FIELD(osi_tsap, length);
    STRUCT(osi_selector);
    FIELD(osi_selector, octets);
    FIELD(osi_selector, length);
    STRUCT(osi_addressing);
    FIELD(osi_addressing, calling_tsap);
    FIELD(osi_addressing, called_tsap);
    FIELD(osi_addressing, calling_selector);
    FIELD(osi_addressing, called_selector);
}

static void counters(void)
{
    STRUCT(osi_tally);
    FIELD(osi_tally, octets);
    FIELD(osi_tally, packets);
    FIELD(osi_tally, units);
    FIELD(osi_tally, tsdus);
    FIELD(osi_tally, session_units);
    FIELD(osi_tally, refused);
    STRUCT(osi_counters);
    FIELD(osi_counters, received);
    FIELD(osi_counters, sent);
}

static void judging(void)
{
    STRUCT(osi_judge);
    FIELD(osi_judge, full);
    FIELD(osi_judge, inner);
    STRUCT(osi_verdict);
    FIELD(osi_verdict, offset);
    FIELD(osi_verdict, connection);
    FIELD(osi_verdict, kind);
    FIELD(osi_verdict, side);
    FIELD(osi_verdict, by);
    FIELD(osi_verdict, rule);
    FIELD(osi_verdict, said);
    FIELD(osi_verdict, left);
    FIELD(osi_verdict, right);
}

static void verdicts(void)
{
    VALUE(OSI_LEFT);
    VALUE(OSI_RIGHT);
    VALUE(OSI_VERDICT_NONE);
    VALUE(OSI_VERDICT_KEPT);
    VALUE(OSI_VERDICT_BROKE);
    VALUE(OSI_VERDICT_LEAVES);
    VALUE(OSI_VERDICT_TOO_MANY);
    VALUE(OSI_VERDICT_NOT_JUDGED);
    VALUE(OSI_RULE_NONE);
    VALUE(OSI_RULE_NO_SUCH_CONNECTION);
    VALUE(OSI_RULE_ENDED);
    VALUE(OSI_RULE_BAD_STATE);
    VALUE(OSI_RULE_NOT_SELECTED);
    VALUE(OSI_RULE_TOKEN_NOT_HELD);
    VALUE(OSI_RULE_TOKEN_ALREADY_HELD);
    VALUE(OSI_RULE_BAD_NUMBER);
    VALUE(OSI_RULE_SERIALS_USED_UP);
    VALUE(OSI_RULE_EMPTY);
    VALUE(OSI_RULE_TOO_LONG);
    VALUE(OSI_RULE_BAD_TOKENS);
    VALUE(OSI_RULE_BAD_ENCLOSURE);
    VALUE(OSI_RULE_NO_FAULT);
    VALUE(OSI_RULE_NOTHING_TO_ANSWER);
    VALUE(OSI_RULE_OUTSIDE);
    VALUE(OSI_RULE_UNKNOWN_SI);
    VALUE(OSI_RULE_LENGTH_PAST_END);
    VALUE(OSI_RULE_MISSING_PARAMETER);
    VALUE(OSI_RULE_DUPLICATE_PARAMETER);
    VALUE(OSI_RULE_BAD_VALUE);
    VALUE(OSI_RULE_BAD_CONCATENATION);
    VALUE(OSI_RULE_TRAILING_OCTETS);
    VALUE(OSI_RULE_NO_OPENING);
    VALUE(OSI_RULE_BAD_VERSION);
    VALUE(OSI_RULE_BAD_LENGTH);
    VALUE(OSI_RULE_BAD_LI);
    VALUE(OSI_RULE_UNKNOWN_CODE);
    VALUE(OSI_RULE_BAD_TPDU_PARAMETER_LENGTH);
    VALUE(OSI_RULE_BAD_TPDU_PARAMETER_VALUE);
    VALUE(OSI_RULE_DUPLICATE_TPDU_PARAMETER);
    VALUE(OSI_RULE_UNEXPECTED_UNIT);
    VALUE(OSI_RULE_WRONG_FORM);
    VALUE(OSI_RULE_TSDU_TOO_LONG);
    VALUE(OSI_RULE_LIMIT);
    VALUE(OSI_RULE_TOO_MANY_CONNECTIONS);
    VALUE(OSI_RULE_ONE_CONNECTION);
    VALUE(OSI_RULE_NEGOTIATING);
    VALUE(OSI_RULE_REFERENCE_IN_USE);
    VALUE(OSI_RULE_UNKNOWN_REFERENCE);
    VALUE(OSI_RULE_BAD_ANSWER);
    VALUE(OSI_RULE_LARGER_SIZE);
    VALUE(OSI_RULE_CLOSED);
    VALUE(OSI_RULE_OUT_OF_SEQUENCE);
    VALUE(OSI_RULE_NO_CREDIT);
    VALUE(OSI_RULE_SIZE_EXCEEDED);
    VALUE(OSI_RULE_CREDIT_REDUCED);
    VALUE(OSI_SAID_NOTHING);
    VALUE(OSI_SAID_CN);
    VALUE(OSI_SAID_AC);
    VALUE(OSI_SAID_RF);
    VALUE(OSI_SAID_DT);
    VALUE(OSI_SAID_GT);
    VALUE(OSI_SAID_PT);
    VALUE(OSI_SAID_MIP);
    VALUE(OSI_SAID_MIA);
    VALUE(OSI_SAID_MAP);
    VALUE(OSI_SAID_MAA);
    VALUE(OSI_SAID_RS);
    VALUE(OSI_SAID_RA);
    VALUE(OSI_SAID_FN);
    VALUE(OSI_SAID_DN);
    VALUE(OSI_SAID_NF);
    VALUE(OSI_SAID_AB);
    VALUE(OSI_SAID_AA);
    VALUE(OSI_SAID_TSDU);
    VALUE(OSI_SAID_TPKT);
    VALUE(OSI_SAID_TPDU);
    VALUE(OSI_SAID_TRANSPORT_DT);
    VALUE(OSI_SAID_TRANSPORT_DR);
    VALUE(OSI_SAID_TRANSPORT_CR);
    VALUE(OSI_SAID_TRANSPORT_CC);
    VALUE(OSI_SAID_TRANSPORT_DC);
    VALUE(OSI_SAID_TRANSPORT_AK);
    VALUE(OSI_SAID_TRANSPORT_ER);
    VALUE(OSI_VERDICT_TEXT);
}

static void trace(void)
{
    VALUE(OSI_TRACE_OFF);
    VALUE(OSI_TRACE_COUNTS);
    VALUE(OSI_TRACE_LINES);
    VALUE(OSI_RECEIVED);
    VALUE(OSI_SENT);
}

static void codes(void)
{
    VALUE(OSI_OK);
    VALUE(OSI_SLOT_EMPTY);
    VALUE(OSI_BAD_ARGUMENT);
    VALUE(OSI_NO_MEMORY);
    VALUE(OSI_IN_USE);
    VALUE(OSI_NOTHING);
    VALUE(OSI_NO_SUCH_CONNECTION);
    VALUE(OSI_ENDED);
    VALUE(OSI_BAD_STATE);
    VALUE(OSI_NOT_SELECTED);
    VALUE(OSI_TOKEN_NOT_HELD);
    VALUE(OSI_TOKEN_ALREADY_HELD);
    VALUE(OSI_BAD_NUMBER);
    VALUE(OSI_SERIALS_USED_UP);
    VALUE(OSI_EMPTY);
    VALUE(OSI_TOO_LONG);
    VALUE(OSI_NOT_CALLER);
    VALUE(OSI_NEGOTIATING);
    VALUE(OSI_ONE_CONNECTION);
    VALUE(OSI_TOO_MANY);
    VALUE(OSI_REFERENCES_USED_UP);
}

static void terms_and_sets(void)
{
    VALUE(OSI_CLASS_0);
    VALUE(OSI_CLASS_2);
    VALUE(OSI_HALF_DUPLEX);
    VALUE(OSI_DUPLEX);
    VALUE(OSI_MINOR_SYNC);
    VALUE(OSI_MAJOR_SYNC);
    VALUE(OSI_RESYNCHRONIZE);
    VALUE(OSI_NEGOTIATED_RELEASE);
    VALUE(OSI_TOKEN_DATA);
    VALUE(OSI_TOKEN_MINOR);
    VALUE(OSI_TOKEN_MAJOR);
    VALUE(OSI_TOKEN_RELEASE);
    VALUE(OSI_ASKER);
    VALUE(OSI_ANSWERER);
    VALUE(OSI_CHOICE);
    VALUE(OSI_REFUSAL_UNSPECIFIED);
    VALUE(OSI_REFUSAL_CONGESTION);
    VALUE(OSI_REFUSAL_WITH_DATA);
}

static void indications(void)
{
    VALUE(OSI_NONE);
    VALUE(OSI_CONNECT);
    VALUE(OSI_CONNECTED);
    VALUE(OSI_REFUSED_BY_TRANSPORT);
    VALUE(OSI_REFUSED_BY_SESSION);
    VALUE(OSI_DATA);
    VALUE(OSI_GIVEN);
    VALUE(OSI_ASKED);
    VALUE(OSI_MINOR);
    VALUE(OSI_MINOR_CONFIRMED);
    VALUE(OSI_MAJOR);
    VALUE(OSI_MAJOR_CONFIRMED);
    VALUE(OSI_RESTART);
    VALUE(OSI_RESTARTED);
    VALUE(OSI_RELEASE);
    VALUE(OSI_RELEASED);
    VALUE(OSI_RELEASE_REFUSED);
    VALUE(OSI_ABORTED);
    VALUE(OSI_LOST);
    VALUE(OSI_PEER_ABORT);
    VALUE(OSI_BAD_UNIT);
}

static void ends(void)
{
    VALUE(OSI_END_NONE);
    VALUE(OSI_END_BROKEN);
    VALUE(OSI_END_CLOSED);
    VALUE(OSI_END_PEER_CLOSED);
    VALUE(OSI_END_NO_MEMORY);
    VALUE(OSI_END_UNKNOWN_REFERENCE);
    VALUE(OSI_END_BAD_ANSWER);
    VALUE(OSI_END_UNEXPECTED_UNIT);
    VALUE(OSI_END_BAD_VERSION);
    VALUE(OSI_END_BAD_LENGTH);
    VALUE(OSI_END_NO_MEMORY_FOR_PACKET);
    VALUE(OSI_END_BAD_LI);
    VALUE(OSI_END_UNKNOWN_CODE);
    VALUE(OSI_END_BAD_PARAMETER_LENGTH);
    VALUE(OSI_END_BAD_PARAMETER_VALUE);
    VALUE(OSI_END_DUPLICATE_PARAMETER);
    VALUE(OSI_END_WRONG_FORM);
    VALUE(OSI_END_OUT_OF_SEQUENCE);
    VALUE(OSI_END_CREDIT_REDUCED);
    VALUE(OSI_END_TSDU_TOO_LONG);
    VALUE(OSI_END_NO_MEMORY_FOR_TSDU);
}

static void phases(void)
{
    VALUE(OSI_PHASE_NONE);
    VALUE(OSI_PHASE_WAIT_TRANSPORT);
    VALUE(OSI_PHASE_WAIT_CN);
    VALUE(OSI_PHASE_CONNECTING);
    VALUE(OSI_PHASE_ANSWERING);
    VALUE(OSI_PHASE_READY);
    VALUE(OSI_PHASE_MAJOR_ASKED);
    VALUE(OSI_PHASE_MAJOR_DUE);
    VALUE(OSI_PHASE_RELEASING);
    VALUE(OSI_PHASE_RELEASE_DUE);
    VALUE(OSI_PHASE_RESTARTING);
    VALUE(OSI_PHASE_RESTART_DUE);
    VALUE(OSI_PHASE_ABORTING);
    VALUE(OSI_PHASE_ENDED);
}

int main(void)
{
    structs();
    opening();
    indication();
    addresses();
    counters();
    codes();
    terms_and_sets();
    indications();
    ends();
    phases();
    trace();
    judging();
    verdicts();
    return 0;
}
