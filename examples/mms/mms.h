/* PDUs of MMS (ISO 9506-2): those of an association that identifies the server, lists its objects and reads them. */
#ifndef MMS_H
#define MMS_H

#include "ber.h"

#include <stdio.h>

/* Which PDU it is: its tag. */
#define MMS_CONFIRMED_REQUEST 0xa0u
#define MMS_CONFIRMED_RESPONSE 0xa1u
#define MMS_CONFIRMED_ERROR 0xa2u
#define MMS_UNCONFIRMED 0xa3u
#define MMS_REJECT 0xa4u
#define MMS_INITIATE_REQUEST 0xa8u
#define MMS_INITIATE_RESPONSE 0xa9u
#define MMS_CONCLUDE_REQUEST 0x8bu
#define MMS_CONCLUDE_RESPONSE 0x8cu
#define MMS_CONCLUDE_ERROR 0xadu

/* Which service of a confirmed request or response: its tag. */
#define MMS_GET_NAME_LIST 0xa1u
#define MMS_IDENTIFY_REQUEST 0x82u
#define MMS_IDENTIFY_RESPONSE 0xa2u
#define MMS_READ 0xa4u
#define MMS_GET_ATTRIBUTES 0xa6u

/* Which objects a GetNameList asks for. */
#define MMS_NAMED_VARIABLE 0u
#define MMS_DOMAIN 9u

/* The longest PDU of MMS that either side proposes, in octets, and how many requests may be unanswered. */
#define MMS_LONGEST 32000u
#define MMS_OUTSTANDING 5u

/* A name as received. ISO 9506 allows at most 32 octets; servers of IEC 61850 have longer names. */
#define MMS_NAME 129
struct mms_name {
    char domain[MMS_NAME + 1]; /* empty for a name that belongs to no domain */
    char item[MMS_NAME + 1];
};

/* A PDU in its parts. `body` has the contents of the service, or of the PDU if it has no service. */
struct mms_pdu {
    uint32_t kind;
    uint32_t invoke;
    bool has_invoke;
    uint32_t service;
    struct ber body;
};

/* Reads a PDU; false if the octets are none. */
bool mms_read(struct ber octets, struct mms_pdu *pdu);
/* Copies an Identifier; false if it is empty, too long, or has an octet that is not printable. */
bool mms_read_identifier(struct ber contents, char to[MMS_NAME + 1]);
/* An ObjectName: without a domain, of this association (which has no names), or of a domain. */
bool mms_read_name(struct ber octets, struct mms_name *name);

/* PDUs of the calling side. */
void mms_put_initiate(struct ber_writer *w);
void mms_put_identify(struct ber_writer *w, uint32_t invoke);
/* With a domain, the names of that domain. `after` is the name after which to go on, or empty. */
void mms_put_name_list(struct ber_writer *w, uint32_t invoke, uint32_t objects, const char *domain, const char *after);
void mms_put_read(struct ber_writer *w, uint32_t invoke, const struct mms_name *name);
void mms_put_conclude(struct ber_writer *w);

/* Puts the head of a response or an error in front of the written octets. */
void mms_wrap_confirmed(struct ber_writer *w, uint32_t kind, uint32_t invoke);

/* Prints a value as people write it: `true`, `17`, `230.1`, `"text"`, `{1, 2}`. */
void mms_print_value(FILE *to, uint32_t tag, struct ber contents);
/* The name of the reason why a variable was not read (DataAccessError). */
const char *mms_access_error(uint32_t code);

#endif
