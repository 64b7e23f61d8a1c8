/* The parts of presentation (ITU-T X.226) and ACSE (ITU-T X.227) that an association of MMS needs. Parts that
 * never change are stored octets, and ber.h reads what a peer sends.
 *
 * Each function that writes answers how many octets it wrote at the end of `room`; `*at` is then the first of
 * them. It answers 0 if they don't fit. */
#ifndef UPPER_H
#define UPPER_H

#include "ber.h"

/* A selector or an address, of at most 32 octets. */
struct selector {
    uint8_t octets[32];
    uint8_t length;
};

/* How many contexts a peer may ask for: a longer list is not read. */
#define MOST_CONTEXTS 16

enum upper_problem {
    UPPER_NONE,
    UPPER_UNREADABLE,   /* it is no PDU of presentation, or has no PDU of ACSE in it */
    UPPER_NO_MMS,       /* the syntaxes of ACSE and MMS are not both there */
    UPPER_OTHER_NAME,   /* the application context is not that of MMS */
    UPPER_OTHER_CALLED, /* the called selector of some layer is another one */
    UPPER_NO_DUPLEX,    /* the session has no duplex */
};

/* What both sides know after the request for an association. */
struct upper {
    uint8_t acse, mms;               /* the presentation contexts of both syntaxes, 1 to 127 */
    uint8_t contexts;                /* how many contexts the request has */
    bool knows[MOST_CONTEXTS];       /* which of these are accepted */
    struct selector name;            /* the application context, as the contents of an OBJECT IDENTIFIER */
};

/* A buffer for written octets. */
struct room {
    uint8_t octets[65536];
};

/* ---- the calling side */

/* The user data of a CN: a CP with an AARQ that has this PDU of MMS. The contexts are 1 and 3. */
size_t upper_ask(struct upper *u, const struct selector *calling, const struct selector *called, const uint8_t *mms,
                 size_t length, struct room *room, const uint8_t **at);
/* Reads the user data of an AC: a CPA with an AARE that accepts. `mms` is the PDU of MMS inside. */
enum upper_problem upper_read_answer(struct ber data, struct ber *mms);
/* The user data of an FN: an RLRQ. */
size_t upper_ask_release(const struct upper *u, struct room *room, const uint8_t **at);

/* ---- the called side */

/* Reads the user data of a CN. If a selector is given, the CP has to call it. */
enum upper_problem upper_read_asked(struct upper *u, struct ber data, const struct selector *own, struct ber *mms);
/* The user data of an AC: a CPA with an AARE that accepts. */
size_t upper_accept(const struct upper *u, const struct selector *own, const uint8_t *mms, size_t length,
                    struct room *room, const uint8_t **at);
/* The user data of an RF: a CPR, and with UPPER_OTHER_NAME an AARE in it. */
size_t upper_refuse(const struct upper *u, enum upper_problem why, struct room *room, const uint8_t **at);
/* The user data of a DN: an RLRE. */
size_t upper_accept_release(const struct upper *u, struct room *room, const uint8_t **at);

/* ---- both */

/* The user data of a DT: one PDU of MMS. */
size_t upper_data(const struct upper *u, const uint8_t *mms, size_t length, struct room *room, const uint8_t **at);
/* Reads one. */
bool upper_read_data(const struct upper *u, struct ber data, struct ber *mms);
/* The user data of an AB: an ARU with an ABRT of the user. */
size_t upper_abort(const struct upper *u, struct room *room, const uint8_t **at);

#endif
