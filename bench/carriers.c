/* Moves TSDUs over a pair of carriers, whose octets are carried in pieces: the proved carriers, and the same work in C. */
#include <stdio.h>
#include "carrier.h"
#include "timer.h"

/* A slice is passed as a pointer and a length; the allocator passes nothing. */
uint64_t osi_bench_carriers(const uint8_t *tsdu, size_t length, size_t rounds, uint16_t connections, size_t piece,
                            bool class_two);

struct moved {
    uint64_t tsdus, octets;
};

/* Takes a TSDU into a block of its own, counts it, and frees it. */
static void count(struct tsdu tsdu, struct moved *moved)
{
    if (tsdu.memory == NULL && tsdu.length > 0) {
        tsdu.memory = malloc(tsdu.length);
        if (tsdu.memory == NULL)
            abort();
        copy(tsdu.memory, tsdu.at, tsdu.length);
    }
    /* Pretends to read the block: otherwise gcc would leave the copy out, because it is freed at once. */
    __asm__ volatile("" : : "r"(tsdu.memory) : "memory");
    moved->tsdus += 1;
    moved->octets += tsdu.length;
    free(tsdu.memory);
}

static void carry(struct carrier *from, struct carrier *to, size_t piece, struct moved *moved)
{
    while (from->outgoing.length > from->outgoing.first) {
        size_t left = from->outgoing.length - from->outgoing.first;
        drop(&from->outgoing, feed(to, from->outgoing.at + from->outgoing.first, left < piece ? left : piece));
        if (to->event.waits) {
            count(to->event.tsdu, moved);
            to->event.waits = false;
        }
    }
}

/* Moves a TSDU this many times over connections that take turns. */
static uint64_t move_by_hand(const uint8_t *tsdu, size_t n, size_t rounds, uint16_t connections, size_t piece,
                             bool class_two)
{
    struct carrier *caller = carrier_of(connections, class_two), *called = carrier_of(connections, class_two);
    struct moved moved = {0, 0};
    for (size_t i = 0; i < rounds && send_tsdu(caller, (unsigned)(i % connections) + 1, 0, tsdu, n); i++)
        do {
            carry(caller, called, piece, &moved);
            carry(called, caller, piece, &moved);
        } while (caller->outgoing.length > caller->outgoing.first);
    close_carrier(caller);
    close_carrier(called);
    return moved.tsdus * 1000003 + moved.octets;
}

typedef uint64_t job(const uint8_t *, size_t, size_t, uint16_t, size_t, bool);

#define JOBS 2
#define RUNS 31

static job *const jobs[JOBS] = {osi_bench_carriers, move_by_hand};

/* One line: MB/s of user data and ns a TSDU, the least of many runs of each job, which take turns. */
static bool report(const uint8_t *tsdu, size_t n, size_t rounds, uint16_t connections, size_t piece, bool class_two)
{
    double best[JOBS] = {1e9, 1e9};
    bool good = true;
    for (int i = 0; i < RUNS * JOBS; i++) {
        int k = i % JOBS;
        double start = now(), taken;
        good = jobs[k](tsdu, n, rounds, connections, piece, class_two) == rounds * 1000003 + rounds * n && good;
        taken = now() - start;
        best[k] = taken < best[k] ? taken : best[k];
    }
    printf("%5d %11u %6zu %8zu", class_two ? 2 : 0, (unsigned)connections, piece, n);
    for (int k = 0; k < JOBS; k++)
        printf(" %8.0f %9.1f", (double)n * (double)rounds / best[k] / 1e6, best[k] / (double)rounds * 1e9);
    printf(" %8.2f\n", best[1] / best[0]);
    return good;
}

/* With the words `job class connections piece octets rounds` one job runs once, to be counted; it prints the number of
   TSDUs. */
static int once(char **words, const uint8_t *tsdu)
{
    size_t rounds = strtoul(words[6], NULL, 10);
    size_t n = strtoul(words[5], NULL, 10);
    job *run = jobs[strcmp(words[1], "proved") == 0 ? 0 : 1];
    uint64_t answer = run(tsdu, n, rounds, (uint16_t)atoi(words[3]), strtoul(words[4], NULL, 10), words[2][0] == '2');
    printf("%zu operations\n", rounds);
    return answer == rounds * 1000003 + rounds * n ? 0 : 1;
}

int main(int count, char **words)
{
    static const size_t lengths[] = {1048576, 1000, 100}, rounds[] = {16, 20000, 40000}, pieces[] = {65536, 1448};
    static const uint16_t connections[] = {1, 1, MOST_LIVE};
    uint8_t *tsdu = malloc(LONGEST);
    bool good = tsdu != NULL;
    for (size_t i = 0; good && i < LONGEST; i++)
        tsdu[i] = (uint8_t)(i * 7);
    if (good && count == 7)
        return once(words, tsdu);
    say_how("Carriers, in MB of user data a second", RUNS);
    printf("%5s %11s %6s %8s %8s %9s %8s %9s %8s\n", "class", "connections", "piece", "octets", "ours", "ns a TSDU", "C", "ns a TSDU",
           "ours / C");
    for (int kind = 0; kind < 3; kind++)
        for (int p = 0; p < 2; p++)
            for (int i = 0; good && i < 3; i++)
                good = report(tsdu, lengths[i], rounds[i], connections[kind], pieces[p], kind > 0);
    free(tsdu);
    if (!good)
        fprintf(stderr, "the answers differ, or there is no memory\n");
    return good ? 0 : 1;
}
