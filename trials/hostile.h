/* What a hostile peer may send, and what users may call at random. */
#ifndef TRIALS_HOSTILE_H
#define TRIALS_HOSTILE_H

#include "ends.h"
#include "scripts.h"

#include <stddef.h>
#include <stdint.h>

/* Room for so many octets at once. */
#define PIECE 4096

/* How hostile a run is: only what the peer sends, or other session units too, or anything. */
enum life { HONEST, OTHER_UNITS, HOSTILE };

/* Which runs a program makes. The same seed and round give the same run again. */
struct rounds {
    uint64_t runs, seed, first;
};

/* So many runs, or what the words say: --runs N, --seed N, --round N. */
struct rounds rounds_of(int count, char **words, uint64_t runs);
/* Begins with a round of a seed, and notes the place for failures. */
void any_begin(uint64_t seed, uint64_t round);
/* A number below this one, which is not 0. */
uint32_t any(uint32_t below);
/* Writes octets that this peer may send, at most PIECE + 1, and returns how many. Some of them the peer has to send, and they are
 * taken from it. */
size_t some_octets(osi_end *peer, uint8_t *octets, enum life life);
/* A call that the phase probably allows, or any call. Its octets are valid until the next one. */
struct event call_at_random(osi_end *end);
/* What the CN of a caller asks for. */
osi_opening opening_at_random(void);

#endif
