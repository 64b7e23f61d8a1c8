/* Cuts a stream of packets: by the proved cutter, by the same work in C, and by memcpy, in one run. */
#include <stdint.h>
#include <stdio.h>
#include <stdlib.h>
#include <string.h>
#include "timer.h"

/* A slice is passed as a pointer and a length; the allocator passes nothing. */
uint64_t osi_bench_cut(const uint8_t *stream, size_t length, size_t piece);

#define LARGEST 65535

/* The cutter as a C programmer would write it: a buffer for one packet, filled by memcpy. */
struct cutter {
    uint8_t *held;
    size_t length;
    size_t room;
    uint64_t offset;
    int fault;
};

struct fed {
    size_t used;
    int whole;
    int fault;
};

static int grow(struct cutter *c, size_t wanted)
{
    size_t room = c->room * 2 > wanted ? c->room * 2 : wanted;
    uint8_t *held = realloc(c->held, room < 64 ? 64 : room);
    if (held == NULL)
        return 0;
    c->held = held;
    c->room = room < 64 ? 64 : room;
    return 1;
}

static inline int octet(const struct cutter *c, const uint8_t *piece, size_t n, size_t at)
{
    if (at < c->length)
        return c->held[at];
    at -= c->length;
    return at < n ? piece[at] : -1;
}

static struct fed feed(struct cutter *c, const uint8_t *piece, size_t n)
{
    struct fed fed = {0, 0, 0};
    int version, high, low;
    size_t wanted;
    if (c->fault) {
        fed.fault = c->fault;
        return fed;
    }
    version = octet(c, piece, n, 0);
    if (version < 0)
        return fed;
    if (version != 3) {
        fed.fault = c->fault = 1;
        return fed;
    }
    low = octet(c, piece, n, 3);
    if (low < 0) {
        fed.used = n;
    } else {
        high = octet(c, piece, n, 2);
        wanted = (size_t)high * 256 + (size_t)low;
        if (wanted < 7) {
            fed.fault = c->fault = 2;
            return fed;
        }
        wanted -= c->length;
        fed.whole = n >= wanted;
        fed.used = fed.whole ? wanted : n;
    }
    if (fed.used == 0)
        return fed;
    if (c->length + fed.used > c->room && !grow(c, c->length + fed.used)) {
        fed.fault = 3;
        return fed;
    }
    memcpy(c->held + c->length, piece, fed.used);
    c->length += fed.used;
    return fed;
}

__attribute__((noinline)) static uint64_t cut_by_hand(const uint8_t *stream, size_t length, size_t piece)
{
    struct cutter c = {NULL, 0, 0, 0, 0};
    uint64_t packets = 0, octets = 0;
    size_t at = 0;
    while (at < length) {
        size_t n = length - at < piece ? length - at : piece;
        const uint8_t *rest = stream + at;
        at += n;
        for (;;) {
            struct fed fed = feed(&c, rest, n);
            if (fed.fault || !fed.whole)
                break;
            packets += 1;
            octets += c.length - 4;
            c.offset += c.length;
            c.length = 0;
            rest += fed.used;
            n -= fed.used;
        }
    }
    free(c.held);
    return packets * 1000003 + octets;
}

static uint8_t target[LARGEST + 1];

__attribute__((noinline)) static uint64_t copy(const uint8_t *stream, size_t length, size_t piece)
{
    uint64_t sum = 0;
    size_t at = 0;
    while (at < length) {
        size_t n = length - at < piece ? length - at : piece;
        memcpy(target, stream + at, n);
        __asm__ volatile("" : : "r"(target) : "memory");
        sum += n;
        at += n;
    }
    return sum;
}

typedef uint64_t job(const uint8_t *, size_t, size_t);

#define JOBS 3
#define RUNS 31

/* The best of many runs of each job, which take turns, in MB (10^6 octets) per second. */
static void speeds(job *const jobs[JOBS], const uint8_t *stream, size_t length, size_t piece, double best[JOBS],
                   uint64_t answers[JOBS])
{
    for (int k = 0; k < JOBS; k++)
        best[k] = 0;
    for (int i = 0; i < RUNS; i++)
        for (int k = 0; k < JOBS; k++) {
            double start = now(), rate;
            answers[k] = jobs[k](stream, length, piece);
            rate = (double)length / (now() - start) / 1e6;
            if (rate > best[k])
                best[k] = rate;
        }
}

static size_t fill(uint8_t *stream, size_t length, size_t packet)
{
    size_t at = 0;
    while (at + packet <= length) {
        stream[at] = 3;
        stream[at + 1] = 0;
        stream[at + 2] = (uint8_t)(packet / 256);
        stream[at + 3] = (uint8_t)(packet % 256);
        for (size_t i = 4; i < packet; i++)
            stream[at + i] = (uint8_t)(i * 31 + at);
        at += packet;
    }
    return at;
}

static job *const jobs[JOBS] = {osi_bench_cut, cut_by_hand, copy};

/* With the words `job packet piece rounds` one job goes over a stream of 1 MiB this many times, to be counted; it prints
   the number of packets. */
static int once(char **words, uint8_t *stream)
{
    size_t packet = strtoul(words[2], NULL, 10), piece = strtoul(words[3], NULL, 10), rounds = strtoul(words[4], NULL, 10);
    size_t filled = fill(stream, 1 << 20, packet), packets = filled / packet;
    job *run = jobs[strcmp(words[1], "proved") == 0 ? 0 : 1];
    uint64_t wanted = packets * 1000003 + filled - 4 * packets;
    for (size_t i = 0; i < rounds; i++)
        if (run(stream, filled, piece) != wanted)
            return 1;
    printf("%zu operations\n", rounds * packets);
    return 0;
}

int main(int count, char **words)
{
    static const size_t packets[] = {12, 1031, 8199};
    static const size_t pieces[] = {1, 1448, 65536};
    size_t length = 4 << 20;
    uint8_t *stream = malloc(length);
    if (stream == NULL)
        return 1;
    if (count == 5)
        return once(words, stream);
    say_how("Cutting packets, in MB of the stream a second", RUNS);
    printf("%8s %8s %10s %10s %10s %8s\n", "packet", "piece", "ours", "C", "memcpy", "ours / C");
    for (size_t i = 0; i < 3; i++)
        for (size_t j = 0; j < 3; j++) {
            size_t filled = fill(stream, length, packets[i]);
            double best[JOBS];
            uint64_t answers[JOBS];
            speeds(jobs, stream, filled, pieces[j], best, answers);
            if (answers[0] != answers[1]) {
                fprintf(stderr, "the answers differ\n");
                return 1;
            }
            printf("%8zu %8zu %10.0f %10.0f %10.0f %8.2f\n", packets[i], pieces[j], best[0], best[1], best[2],
                   best[0] / best[1]);
        }
    free(stream);
    return 0;
}
