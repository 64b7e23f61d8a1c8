/* The names that osi.h gives to its numbers, and the version of this library. */
#include "osi.h"

#define NAME(number) case number: return #number

static const char unknown[] = "unknown";

/* The version after a name that finds it in the file of the library, as bindings/rust/build.rs does. */
static const char version[] = "libosi-session " OSI_VERSION;

const char *osi_version(void)
{
    return version + sizeof "libosi-session " - 1;
}

const char *osi_code_name(uint32_t code)
{
    switch (code) {
        NAME(OSI_OK);
        NAME(OSI_SLOT_EMPTY);
        NAME(OSI_BAD_ARGUMENT);
        NAME(OSI_NO_MEMORY);
        NAME(OSI_IN_USE);
        NAME(OSI_NOTHING);
        NAME(OSI_NO_SUCH_CONNECTION);
        NAME(OSI_ENDED);
        NAME(OSI_BAD_STATE);
        NAME(OSI_NOT_SELECTED);
        NAME(OSI_TOKEN_NOT_HELD);
        NAME(OSI_TOKEN_ALREADY_HELD);
        NAME(OSI_BAD_NUMBER);
        NAME(OSI_SERIALS_USED_UP);
        NAME(OSI_EMPTY);
        NAME(OSI_TOO_LONG);
        NAME(OSI_NOT_CALLER);
        NAME(OSI_NEGOTIATING);
        NAME(OSI_ONE_CONNECTION);
        NAME(OSI_TOO_MANY);
        NAME(OSI_REFERENCES_USED_UP);
    }
    return unknown;
}

const char *osi_indication_name(uint32_t tag)
{
    switch (tag) {
        NAME(OSI_NONE);
        NAME(OSI_CONNECT);
        NAME(OSI_CONNECTED);
        NAME(OSI_REFUSED_BY_TRANSPORT);
        NAME(OSI_REFUSED_BY_SESSION);
        NAME(OSI_DATA);
        NAME(OSI_GIVEN);
        NAME(OSI_ASKED);
        NAME(OSI_MINOR);
        NAME(OSI_MINOR_CONFIRMED);
        NAME(OSI_MAJOR);
        NAME(OSI_MAJOR_CONFIRMED);
        NAME(OSI_RESTART);
        NAME(OSI_RESTARTED);
        NAME(OSI_RELEASE);
        NAME(OSI_RELEASED);
        NAME(OSI_RELEASE_REFUSED);
        NAME(OSI_ABORTED);
        NAME(OSI_LOST);
        NAME(OSI_PEER_ABORT);
        NAME(OSI_BAD_UNIT);
    }
    return unknown;
}

const char *osi_phase_name(uint32_t phase)
{
    switch (phase) {
        NAME(OSI_PHASE_NONE);
        NAME(OSI_PHASE_WAIT_TRANSPORT);
        NAME(OSI_PHASE_WAIT_CN);
        NAME(OSI_PHASE_CONNECTING);
        NAME(OSI_PHASE_ANSWERING);
        NAME(OSI_PHASE_READY);
        NAME(OSI_PHASE_MAJOR_ASKED);
        NAME(OSI_PHASE_MAJOR_DUE);
        NAME(OSI_PHASE_RELEASING);
        NAME(OSI_PHASE_RELEASE_DUE);
        NAME(OSI_PHASE_RESTARTING);
        NAME(OSI_PHASE_RESTART_DUE);
        NAME(OSI_PHASE_ABORTING);
        NAME(OSI_PHASE_ENDED);
    }
    return unknown;
}

const char *osi_end_name(uint32_t why)
{
    switch (why) {
        NAME(OSI_END_NONE);
        NAME(OSI_END_BROKEN);
        NAME(OSI_END_CLOSED);
        NAME(OSI_END_PEER_CLOSED);
        NAME(OSI_END_NO_MEMORY);
        NAME(OSI_END_UNKNOWN_REFERENCE);
        NAME(OSI_END_BAD_ANSWER);
        NAME(OSI_END_UNEXPECTED_UNIT);
        NAME(OSI_END_BAD_VERSION);
        NAME(OSI_END_BAD_LENGTH);
        NAME(OSI_END_NO_MEMORY_FOR_PACKET);
        NAME(OSI_END_BAD_LI);
        NAME(OSI_END_UNKNOWN_CODE);
        NAME(OSI_END_BAD_PARAMETER_LENGTH);
        NAME(OSI_END_BAD_PARAMETER_VALUE);
        NAME(OSI_END_DUPLICATE_PARAMETER);
        NAME(OSI_END_WRONG_FORM);
        NAME(OSI_END_OUT_OF_SEQUENCE);
        NAME(OSI_END_CREDIT_REDUCED);
        NAME(OSI_END_TSDU_TOO_LONG);
        NAME(OSI_END_NO_MEMORY_FOR_TSDU);
    }
    return unknown;
}

const char *osi_verdict_name(uint32_t kind)
{
    switch (kind) {
        NAME(OSI_VERDICT_NONE);
        NAME(OSI_VERDICT_KEPT);
        NAME(OSI_VERDICT_BROKE);
        NAME(OSI_VERDICT_LEAVES);
        NAME(OSI_VERDICT_TOO_MANY);
        NAME(OSI_VERDICT_NOT_JUDGED);
    }
    return unknown;
}

const char *osi_rule_name(uint32_t rule)
{
    switch (rule) {
        NAME(OSI_RULE_NONE);
        NAME(OSI_RULE_NO_SUCH_CONNECTION);
        NAME(OSI_RULE_ENDED);
        NAME(OSI_RULE_BAD_STATE);
        NAME(OSI_RULE_NOT_SELECTED);
        NAME(OSI_RULE_TOKEN_NOT_HELD);
        NAME(OSI_RULE_TOKEN_ALREADY_HELD);
        NAME(OSI_RULE_BAD_NUMBER);
        NAME(OSI_RULE_SERIALS_USED_UP);
        NAME(OSI_RULE_EMPTY);
        NAME(OSI_RULE_TOO_LONG);
        NAME(OSI_RULE_BAD_TOKENS);
        NAME(OSI_RULE_BAD_ENCLOSURE);
        NAME(OSI_RULE_NO_FAULT);
        NAME(OSI_RULE_NOTHING_TO_ANSWER);
        NAME(OSI_RULE_OUTSIDE);
        NAME(OSI_RULE_UNKNOWN_SI);
        NAME(OSI_RULE_LENGTH_PAST_END);
        NAME(OSI_RULE_MISSING_PARAMETER);
        NAME(OSI_RULE_DUPLICATE_PARAMETER);
        NAME(OSI_RULE_BAD_VALUE);
        NAME(OSI_RULE_BAD_CONCATENATION);
        NAME(OSI_RULE_TRAILING_OCTETS);
        NAME(OSI_RULE_NO_OPENING);
        NAME(OSI_RULE_BAD_VERSION);
        NAME(OSI_RULE_BAD_LENGTH);
        NAME(OSI_RULE_BAD_LI);
        NAME(OSI_RULE_UNKNOWN_CODE);
        NAME(OSI_RULE_BAD_TPDU_PARAMETER_LENGTH);
        NAME(OSI_RULE_BAD_TPDU_PARAMETER_VALUE);
        NAME(OSI_RULE_DUPLICATE_TPDU_PARAMETER);
        NAME(OSI_RULE_UNEXPECTED_UNIT);
        NAME(OSI_RULE_WRONG_FORM);
        NAME(OSI_RULE_TSDU_TOO_LONG);
        NAME(OSI_RULE_LIMIT);
        NAME(OSI_RULE_TOO_MANY_CONNECTIONS);
        NAME(OSI_RULE_ONE_CONNECTION);
        NAME(OSI_RULE_NEGOTIATING);
        NAME(OSI_RULE_REFERENCE_IN_USE);
        NAME(OSI_RULE_UNKNOWN_REFERENCE);
        NAME(OSI_RULE_BAD_ANSWER);
        NAME(OSI_RULE_LARGER_SIZE);
        NAME(OSI_RULE_CLOSED);
        NAME(OSI_RULE_OUT_OF_SEQUENCE);
        NAME(OSI_RULE_NO_CREDIT);
        NAME(OSI_RULE_SIZE_EXCEEDED);
        NAME(OSI_RULE_CREDIT_REDUCED);
    }
    return unknown;
}

const char *osi_said_name(uint32_t said)
{
    switch (said) {
        NAME(OSI_SAID_NOTHING);
        NAME(OSI_SAID_CN);
        NAME(OSI_SAID_AC);
        NAME(OSI_SAID_RF);
        NAME(OSI_SAID_DT);
        NAME(OSI_SAID_GT);
        NAME(OSI_SAID_PT);
        NAME(OSI_SAID_MIP);
        NAME(OSI_SAID_MIA);
        NAME(OSI_SAID_MAP);
        NAME(OSI_SAID_MAA);
        NAME(OSI_SAID_RS);
        NAME(OSI_SAID_RA);
        NAME(OSI_SAID_FN);
        NAME(OSI_SAID_DN);
        NAME(OSI_SAID_NF);
        NAME(OSI_SAID_AB);
        NAME(OSI_SAID_AA);
        NAME(OSI_SAID_TSDU);
        NAME(OSI_SAID_TPKT);
        NAME(OSI_SAID_TPDU);
        NAME(OSI_SAID_TRANSPORT_DT);
        NAME(OSI_SAID_TRANSPORT_DR);
        NAME(OSI_SAID_TRANSPORT_CR);
        NAME(OSI_SAID_TRANSPORT_CC);
        NAME(OSI_SAID_TRANSPORT_DC);
        NAME(OSI_SAID_TRANSPORT_AK);
        NAME(OSI_SAID_TRANSPORT_ER);
    }
    return unknown;
}
