/* One end, and what its contracts say of it after whatever happened to it. */
#ifndef TRIALS_ENDS_H
#define TRIALS_ENDS_H

#include "osi.h"
#include "text.h"

/* References that are looked at: 1 to this. */
#define REFERENCES 4

#define KEPT_OF_A_PACKET 65535u
#define KEPT_OF_A_TSDU 1048576u
#define KEPT_OF_DATA 1048572u

/* What a program of the trials counts. `checks` are comparisons with what a contract says. */
extern uint64_t runs, checks, failures;
/* Where the program is, for a failure: it is printed in front of it. */
extern struct text place;

/* Counts a check; where it does not hold, prints what it was, and the place. */
void holds(bool it, const char *format, ...) __attribute__((format(printf, 2, 3)));
/* Prints the counts; the status of the program. */
int counts(const char *program);

typedef void shown_to(void *to, const osi_indication *shown);

/* Feeds octets in pieces of at most so many, and fetches what is shown in between. Checked: how much
 * is used, that something is, and that an indication waits exactly where it is said. */
void end_feed(osi_end *end, const uint8_t *octets, size_t length, size_t piece, shown_to *shown, void *to);
/* Fetches all that is shown. */
void end_fetch(osi_end *end, shown_to *shown, void *to);
/* Checks of a state: what is kept is within its bound, tokens are held in their phases alone, the
 * numbers are in order; and of an end that has ended that it holds nothing, that feeding and a break
 * change nothing, and that it is called in vain. */
void end_check(osi_end *end);
/* All that can be asked of an end, as text: two ends that answer alike give the same. */
void end_state(osi_end *end, struct text *text);
/* What is shown, as docs/TOOL.md writes it, without a line end. */
void text_shown(struct text *text, const osi_indication *shown);

#endif
