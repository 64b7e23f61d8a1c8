/* Two ends that are carried each other's octets, as a script says (docs/PROMISES.md). */
#ifndef TRIALS_PAIRS_H
#define TRIALS_PAIRS_H

#include "ends.h"
#include "scripts.h"
#include "views.h"

struct pair {
    osi_end ends[2];
    bool broken;
    size_t may[2];  /* once it is broken: how many octets of each side can still be carried */
    struct record records[2][REFERENCES];
    uint32_t serials[REFERENCES]; /* that the CN named */
    struct text out;              /* the transcript */
    bool quiet;                   /* checks nothing of two ends: one of them is fed what no end sent */
};

/* How an event went: done; a call or making the ends found no memory, and nothing happened. */
enum outcome { DONE, NO_MEMORY };

/* A call of the user of a connection, and what it answers. */
uint32_t end_call(osi_end *end, const struct event *event);

void pair_begin(struct pair *pair);
/* Does what the event says, writes its lines of the transcript, and checks both ends. */
enum outcome pair_apply(struct pair *pair, const struct event *event);
/* Events one after the other; none of them may want for memory. */
void pair_run(struct pair *pair, const struct event *events, size_t count);
/* The last lines of the transcript: where each connection stands that has not ended. */
void pair_standing(struct pair *pair);
/* How many octets this side has to send that can still be carried. */
size_t pair_under_way(struct pair *pair, int side);
/* What the promises on two ends say of their records, of the tokens held and of what is confirmed. */
void pair_check(struct pair *pair);
/* Frees both ends; checked: they give back all that they were given. */
void pair_free(struct pair *pair);

#endif
