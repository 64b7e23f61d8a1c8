/* Reads a TSDU many times and picks its fields: the proved reader compared with C, in ns each. */
#include <stdint.h>
#include <stdio.h>
#include <stdlib.h>
#include <string.h>
#include "tsdu.h"
#include "timer.h"

/* A slice is passed as a pointer and a length. */
uint64_t osi_bench_tsdus(const uint8_t *tsdu, size_t length, size_t rounds);

#define ROUNDS 10000
#define RUNS 2001
#define DATA 1000

/* The expected unit: its SI, the length of its user information, and two serial numbers plus 1, 0 for none. */
struct wanted {
    unsigned si, information, number, initial;
};

struct work {
    const char *name;
    const uint8_t *octets;
    size_t length;
    size_t count;
    struct wanted units[2];
};

/* The expected sum of this many rounds, in 64 bits. */
static uint64_t expected(const struct work *w, size_t rounds)
{
    uint64_t sum = 1;
    for (size_t i = 0; i < rounds; i++)
        for (size_t k = 0; k < w->count; k++) {
            const struct wanted *u = &w->units[k];
            sum = sum * 31 + u->si + 3 * (uint64_t)u->information + 5 * (uint64_t)u->number
                + 7 * (uint64_t)u->initial;
        }
    return sum;
}

/* The same work in C. */
static __attribute__((noinline)) uint64_t by_hand(const uint8_t *tsdu, size_t length, size_t rounds)
{
    uint64_t sum = 1;
    for (size_t i = 0; i < rounds; i++) {
        struct unit units[MOST_UNITS];
        size_t count;
        struct failed f = read_units(units, &count, tsdu, sum == 0 ? 0 : length);
        if (f.fault) {
            sum = sum * 31 + 100 + (unsigned)f.fault + 53 * (uint64_t)f.at;
            continue;
        }
        for (size_t k = 0; k < count; k++) {
            const struct unit *u = &units[k];
            sum = sum * 31 + u->si + 3 * (uint64_t)u->information.length;
            if (u->there & BIT(NUMBER))
                sum += 5 * ((uint64_t)u->number + 1);
            if (u->there & BIT(INITIAL))
                sum += 7 * ((uint64_t)u->initial + 1);
        }
    }
    return sum;
}

typedef uint64_t reader(const uint8_t *tsdu, size_t length, size_t rounds);

/* Prints the best of many runs that take turns. Returns whether each had the expected sum. */
static int report(const struct work *w)
{
    static reader *const readers[2] = {osi_bench_tsdus, by_hand};
    const uint64_t wanted = expected(w, ROUNDS);
    double best[2] = {1e9, 1e9};
    for (int i = 0; i < RUNS; i++)
        for (int k = 0; k < 2; k++) {
            double start = now(), taken;
            uint64_t seen = readers[k](w->octets, w->length, ROUNDS);
            taken = (now() - start) * 1e9 / ROUNDS;
            if (seen != wanted)
                return 0;
            if (taken < best[k])
                best[k] = taken;
        }
    printf("%16s %8zu %8zu %8.2f %8.2f %8.2f\n", w->name, w->length, w->count, best[0], best[1], best[1] / best[0]);
    return 1;
}

int main(int argc, char **argv)
{
    /* A GT with no token and a DT, then octets of any value. */
    static uint8_t data[DATA] = {1, 0, 1, 0};
    /* Protocol options, version 2, first number 1 and token setting in their group, and functional units. */
    static const uint8_t connect[] = {0x0D, 0x12, 0x05, 0x0C, 0x13, 1, 0, 0x16, 1, 2,
                                      0x17, 1,    0x31, 0x1A, 1,    0, 0x14, 2, 0, 0xB9};
    /* A GT with no token and a MIP with number 1. */
    static const uint8_t minor[] = {1, 0, 0x31, 3, 0x2A, 1, 0x31};
    static const struct work works[] = {
        {"GT and DT", data, sizeof data, 2, {{1, 0, 0, 0}, {1, DATA - 4, 0, 0}}},
        {"CN", connect, sizeof connect, 1, {{13, 0, 0, 2}}},
        {"GT and MIP", minor, sizeof minor, 2, {{1, 0, 0, 0}, {49, 0, 2, 0}}},
    };
    int good = 1;
    for (size_t i = 4; i < DATA; i++)
        data[i] = (uint8_t)(i * 31);
    /* With the words `job TSDU rounds` one job runs once, to be counted; it prints its sum, so that both can be compared. */
    if (argc == 4) {
        const struct work *w = &works[atoi(argv[2]) % 3];
        size_t rounds = strtoul(argv[3], NULL, 10);
        reader *run = strcmp(argv[1], "proved") == 0 ? osi_bench_tsdus : by_hand;
        printf("%zu operations: %llu\n", rounds, (unsigned long long)run(w->octets, w->length, rounds));
        return 0;
    }
    say_how("Reading TSDUs, in ns for each TSDU", RUNS);
    printf("%16s %8s %8s %8s %8s %8s\n", "TSDU", "octets", "units", "ours", "C", "ours / C");
    for (size_t i = 0; i < sizeof works / sizeof works[0]; i++)
        good = good && report(&works[i]);
    if (!good)
        fprintf(stderr, "what is seen is not what stands there\n");
    return good ? 0 : 1;
}
