/* The allocator below an end. The programs are linked with -Wl,--wrap for malloc, calloc, realloc and free, so
 * that each call of an end for memory comes here. */
#include "memory.h"

#include <stdlib.h>

uint64_t memory_growths;
bool memory_refused;
static uint64_t refuse_at;
static bool inside;
static uint64_t growths_before;
static int64_t held;

/* Each block that an end holds is in this table, at the first empty place from that of its address on. */
#define PLACES (1u << 17)

struct block {
    uintptr_t at;
    size_t octets;
};

static struct block blocks[PLACES];
static size_t blocks_held, octets_held, octets_most;

void *__real_malloc(size_t size);
void *__real_calloc(size_t count, size_t size);
void *__real_realloc(void *at, size_t size);
void __real_free(void *at);
void *__wrap_malloc(size_t size);
void *__wrap_calloc(size_t count, size_t size);
void *__wrap_realloc(void *at, size_t size);
void __wrap_free(void *at);

void memory_begin(uint64_t refuse)
{
    memory_growths = 0;
    memory_refused = false;
    refuse_at = refuse;
}

void memory_in(void)
{
    inside = true;
    growths_before = memory_growths;
}

uint64_t memory_out(void)
{
    inside = false;
    return memory_growths - growths_before;
}

int64_t memory_held(void)
{
    return held;
}

size_t memory_octets(void)
{
    return octets_held;
}

size_t memory_peak(void)
{
    size_t most = octets_most;
    octets_most = octets_held;
    return most;
}

static size_t wanted_place(uintptr_t at)
{
    return (at >> 4) * 0x9e3779b97f4a7c15u >> 40 & (PLACES - 1);
}

/* The place of a block, or the empty one where it would be. */
static size_t place_of(uintptr_t at)
{
    size_t i = wanted_place(at);
    while (blocks[i].at != 0 && blocks[i].at != at)
        i = (i + 1) & (PLACES - 1);
    return i;
}

/* An end holds a block of so many octets. */
static void put(void *at, size_t octets)
{
    if (at == NULL)
        return;
    if (++blocks_held == PLACES)
        abort();
    blocks[place_of((uintptr_t)at)] = (struct block){(uintptr_t)at, octets};
    octets_held += octets;
    if (octets_held > octets_most)
        octets_most = octets_held;
}

/* Leaves the block at a place out, and moves up those behind it that an empty place would hide. */
static void leave_out(size_t i)
{
    octets_held -= blocks[i].octets;
    blocks_held -= 1;
    for (size_t j = (i + 1) & (PLACES - 1); blocks[j].at != 0; j = (j + 1) & (PLACES - 1)) {
        size_t from = wanted_place(blocks[j].at);
        if (((j - from) & (PLACES - 1)) >= ((j - i) & (PLACES - 1))) {
            blocks[i] = blocks[j];
            i = j;
        }
    }
    blocks[i].at = 0;
}

/* This block is freed. If an end held it, it does no more. */
static void drop(void *at)
{
    size_t i = place_of((uintptr_t)at);
    if (at != NULL && blocks[i].at != 0)
        leave_out(i);
}

/* Whether to refuse this growth. */
static bool refuses(void)
{
    if (!inside)
        return false;
    memory_growths += 1;
    if (memory_growths != refuse_at)
        return false;
    memory_refused = true;
    return true;
}

void *__wrap_malloc(size_t size)
{
    if (refuses())
        return NULL;
    void *given = __real_malloc(size);
    held += inside && given != NULL;
    if (inside)
        put(given, size);
    return given;
}

void *__wrap_calloc(size_t count, size_t size)
{
    if (refuses())
        return NULL;
    void *given = __real_calloc(count, size);
    held += inside && given != NULL;
    if (inside)
        put(given, count * size);
    return given;
}

void *__wrap_realloc(void *at, size_t size)
{
    if (refuses())
        return NULL;
    void *given = __real_realloc(at, size);
    held += inside && at == NULL && given != NULL;
    if (inside && given != NULL) {
        drop(at);
        put(given, size);
    }
    return given;
}

void __wrap_free(void *at)
{
    held -= inside && at != NULL;
    drop(at);
    __real_free(at);
}
