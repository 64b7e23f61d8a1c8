/* The server's objects and answers: a few variables, some of them in a domain. */
#ifndef PLANT_H
#define PLANT_H

#include "mms.h"

/* What the clients of one process share. */
struct plant {
    uint32_t reads; /* how many variables were read */
};

/* Puts the response to an initiate-Request with these contents, and answers how many octets a PDU may have; 0 if
 * the contents can't be read. */
uint32_t plant_initiate(struct ber asked, struct ber_writer *w);

/* Puts the answer to a confirmed request: a response, an error, or a reject. */
void plant_answer(struct plant *p, const struct mms_pdu *request, struct ber_writer *w);

/* Puts a reject for a PDU that can't be read, or whose kind is not answered. */
void plant_reject(const struct mms_pdu *pdu, bool is_readable, struct ber_writer *w);

#endif
