/* The allocator under an end: it counts, and refuses one growth where it is told to. */
#ifndef TRIALS_MEMORY_H
#define TRIALS_MEMORY_H

#include <stdbool.h>
#include <stddef.h>
#include <stdint.h>

/* Growths asked for since the last `memory_begin`, and whether one was refused. */
extern uint64_t memory_growths;
extern bool memory_refused;

/* Counts from 0 on, and refuses the growth with this number (0: none). */
void memory_begin(uint64_t refuse);
/* Around each call of an end: only what an end asks for is counted and refused. The second answers
 * how many growths there were since the first. */
void memory_in(void);
uint64_t memory_out(void);
/* What ends have been given and have not given back: how many blocks, and how many octets they asked for. */
int64_t memory_held(void);
size_t memory_octets(void);
/* The most octets since the last call of this. */
size_t memory_peak(void);

#endif
