/* What the journal of two ends says of each side: its view, by which promises on two ends are computed. */
#ifndef TRIALS_VIEWS_H
#define TRIALS_VIEWS_H

#include "osi.h"

enum what { A_DATA, A_MINOR, A_MINOR_UNCONFIRMED, A_MAJOR };

/* Data, or a point with its number. */
struct item {
    enum what what;
    uint32_t number;
    uint8_t *octets;
    size_t length;
};

struct items {
    struct item *at;
    size_t count;
    size_t room;
};

/* The entries of one side for one connection, folded. */
struct record {
    struct items view;   /* data and points, which restarts have cut */
    struct items asked;  /* data that was asked to be sent */
    struct items shown;  /* data that was shown */
    uint32_t base;
    bool duplex;
    bool asking;         /* a restart was asked for, and neither it nor another was shown since */
};

/* An accepted request, or an indication, of data or a point. A requested point has the number that
 * follows on those of the view. */
void record_asked(struct record *record, enum what what, const uint8_t *octets, size_t length);
void record_shown(struct record *record, enum what what, uint32_t number, const uint8_t *octets, size_t length);
/* A restart at a number, which was asked for or shown. */
void record_cut(struct record *record, uint32_t number);
void record_free(struct record *record);

/* One of the two views begins with the other; with duplex what each side was shown is how what the
 * other asked for begins. */
bool records_agree(const struct record *left, const struct record *right);
/* Each point below this number in the view of a side is in that of the other, unless that one is asking. */
bool confirmed_is_seen(const struct record *side, uint32_t confirmed_below, const struct record *other);

#endif
