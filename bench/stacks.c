/* Data, minor points and their confirmations over a pair of stacks, whose octets are carried from one to the other: the
   proved stacks, and the same written by hand, with a carrier and a session for each connection. Only the proved ones send
   data in parts. */
#include <stdio.h>
#include "stack.h"
#include "timer.h"

/* A slice is passed as a pointer and a length; the allocator passes nothing. */
uint64_t osi_bench_stacks(const uint8_t *data, size_t length, size_t rounds, uint16_t connections, uint16_t first,
                          bool class_two, bool points, uint16_t size);

/* ---- a pair */

struct ends {
    struct stack caller, called;
    uint64_t messages, octets;
};

static void carry(struct stack *from, struct stack *to, struct ends *e)
{
    struct octets *out = &from->carrier->outgoing;
    while (out->length > out->first) {
        drop(out, feed_stack(to, out->at + out->first, out->length - out->first));
        if (to->waits) {
            e->messages += 1;
            e->octets += to->shown.data.length;
            free(to->shown.data.memory);
            to->waits = false;
        }
    }
}

static void exchange(struct ends *e)
{
    do {
        carry(&e->caller, &e->called, e);
        carry(&e->called, &e->caller, e);
    } while (e->caller.carrier->outgoing.length > e->caller.carrier->outgoing.first);
}

static bool one_round(struct ends *e, unsigned reference, struct slice data, bool points)
{
    uint32_t number;
    if (!stack_data(&e->caller, reference, data))
        return false;
    exchange(e);
    if (!points)
        return true;
    number = session_of(&e->caller, reference)->next;
    if (!stack_minor(&e->caller, reference))
        return false;
    exchange(e);
    if (!stack_confirm(&e->called, reference, number))
        return false;
    exchange(e);
    return true;
}

/* This many rounds over connections that take turns: those from the first one given here to the last. */
static uint64_t on_stacks_by_hand(const uint8_t *octets, size_t length, size_t rounds, uint16_t connections, uint16_t first,
                                  bool class_two, bool points)
{
    struct ends *e = calloc(1, sizeof *e);
    struct slice data = {octets, length};
    uint64_t answer;
    if (e == NULL)
        abort();
    open_stack(&e->caller, connections, class_two, true);
    open_stack(&e->called, connections, class_two, false);
    for (size_t i = 0; i < rounds && one_round(e, first + (unsigned)(i % (connections - first + 1u)), data, points); i++)
        continue;
    answer = e->messages * 1000003 + e->octets;
    close_carrier(e->caller.carrier);
    close_carrier(e->called.carrier);
    free(e);
    return answer;
}

static uint64_t stacks_by_hand(const uint8_t *data, size_t length, size_t rounds, uint16_t connections, bool class_two,
                               bool points)
{
    return on_stacks_by_hand(data, length, rounds, connections, 1, class_two, points);
}

/* No limit to the octets of a TSDU. */
static uint64_t proved(const uint8_t *data, size_t length, size_t rounds, uint16_t connections, bool class_two, bool points)
{
    return osi_bench_stacks(data, length, rounds, connections, 1, class_two, points, 0);
}

/* Of these connections only the last is used, so that looking it up in the order of the connections costs most. */
static uint64_t proved_last(const uint8_t *data, size_t length, size_t rounds, uint16_t connections, bool class_two, bool points)
{
    return osi_bench_stacks(data, length, rounds, connections, connections, class_two, points, 0);
}

static uint64_t last_by_hand(const uint8_t *data, size_t length, size_t rounds, uint16_t connections, bool class_two, bool points)
{
    return on_stacks_by_hand(data, length, rounds, connections, connections, class_two, points);
}

/* The largest limit: data of 100,000 octets leaves in two parts. */
static uint64_t in_parts(const uint8_t *data, size_t length, size_t rounds, uint16_t connections, bool class_two, bool points)
{
    return osi_bench_stacks(data, length, rounds, connections, 1, class_two, points, 65535);
}

/* A small limit: data of 1,000 octets leaves in five parts, so that the cost of a part is most of it. */
static uint64_t in_short_parts(const uint8_t *data, size_t length, size_t rounds, uint16_t connections, bool class_two, bool points)
{
    return osi_bench_stacks(data, length, rounds, connections, 1, class_two, points, 256);
}

typedef uint64_t job(const uint8_t *, size_t, size_t, uint16_t, bool, bool);

#define JOBS 2
#define RUNS 31
#define LONGEST_DATA 100000

/* Ours compared with C, and whole data compared with data in parts. */
static job *const beside_c[JOBS] = {proved, stacks_by_hand}, *const beside_whole[JOBS] = {in_parts, proved};

static uint64_t expected(size_t n, size_t rounds, bool points)
{
    return rounds * (points ? 3 : 1) * 1000003 + rounds * n;
}

/* The least time of many runs of each job, which take turns; false if an answer is wrong. */
static bool timed(job *const jobs[JOBS], double best[JOBS], const uint8_t *data, size_t n, size_t rounds,
                  uint16_t connections, bool class_two, bool points)
{
    bool good = true;
    best[0] = best[1] = 1e9;
    for (int i = 0; i < RUNS * JOBS; i++) {
        int k = i % JOBS;
        double start = worked(), taken;
        good = jobs[k](data, n, rounds, connections, class_two, points) == expected(n, rounds, points) && good;
        taken = worked() - start;
        best[k] = taken < best[k] ? taken : best[k];
    }
    return good;
}

/* One line: messages and MB of user data a second, and ns a message, without the time to open the connections and for a
   first round on each. If `first` is 0, it gets the time of our message, and the last column is our speed divided by
   that. */
static bool report(const uint8_t *data, size_t n, size_t rounds, uint16_t connections, bool class_two, bool points,
                   double *first)
{
    double all[JOBS], opening[JOBS], messages = (double)rounds * (points ? 3 : 1);
    bool good = timed(beside_c, opening, data, n, connections, connections, class_two, points)
        && timed(beside_c, all, data, n, connections + rounds, connections, class_two, points);
    for (int k = 0; k < JOBS; k++)
        all[k] -= opening[k];
    if (*first == 0)
        *first = all[0];
    printf("%5d %11u %6s %7zu", class_two ? 2 : 0, (unsigned)connections, points ? "points" : "data", n);
    for (int k = 0; k < JOBS; k++)
        printf(" %10.0f %7.0f %9.1f", messages / all[k], (double)n * (double)rounds / all[k] / 1e6, all[k] / messages * 1e9);
    printf(" %8.2f %8.2f\n", all[1] / all[0], *first / all[0]);
    return good;
}

/* The same of data in parts, over one connection. The last column is our speed divided by that of data that goes whole. */
static bool report_parts(const uint8_t *data, size_t n, size_t rounds, bool class_two)
{
    double all[JOBS], opening[JOBS];
    bool good = timed(beside_whole, opening, data, n, 1, 1, class_two, false)
        && timed(beside_whole, all, data, n, 1 + rounds, 1, class_two, false);
    for (int k = 0; k < JOBS; k++)
        all[k] -= opening[k];
    printf("%5d %11u %6s %7zu %10.0f %7.0f %9.1f", class_two ? 2 : 0, 1u, "parts", n, (double)rounds / all[0],
           (double)n * (double)rounds / all[0] / 1e6, all[0] / (double)rounds * 1e9);
    printf(" %10s %7s %9s %8s %8.2f\n", "-", "-", "-", "-", all[1] / all[0]);
    return good;
}

static job *job_of(char **words)
{
    if (strcmp(words[4], "parts") == 0)
        return in_parts;
    if (strcmp(words[4], "short-parts") == 0)
        return in_short_parts;
    bool ours = strcmp(words[1], "proved") == 0;
    if (strcmp(words[4], "last") == 0)
        return ours ? proved_last : last_by_hand;
    return ours ? proved : stacks_by_hand;
}

/* With the words `job class connections data|points|last|parts|short-parts octets rounds` one job runs once, to be counted;
   it prints the number of rounds. */
static int once(char **words, const uint8_t *data)
{
    size_t n = strtoul(words[5], NULL, 10), rounds = strtoul(words[6], NULL, 10);
    bool points = strcmp(words[4], "points") == 0;
    job *run = job_of(words);
    printf("%zu operations\n", rounds);
    return run(data, n, rounds, (uint16_t)atoi(words[3]), words[2][0] == '2', points) == expected(n, rounds, points) ? 0 : 1;
}

int main(int count, char **words)
{
    static const size_t lengths[] = {1, 100, 1000, 100000}, rounds[] = {8000, 8000, 8000, 256};
    static uint8_t data[LONGEST_DATA];
    bool good = true;
    for (size_t i = 0; i < LONGEST_DATA; i++)
        data[i] = (uint8_t)(i * 31);
    if (count == 7)
        return once(words, data);
    say_how("Stacks, in messages a second, and our speed divided by that with one connection; of parts by that of whole data",
            RUNS);
    printf("%5s %11s %6s %7s %10s %7s %9s %10s %7s %9s %8s %8s\n", "class", "connections", "round", "octets", "ours", "MB/s",
           "ns each", "C", "MB/s", "ns each", "ours / C", "/ with 1");
    for (int points = 0; points < 2; points++)
        for (int i = 0; good && i < 4; i++) {
            double of_class_zero = 0, of_one = 0;
            good = report(data, lengths[i], rounds[i], 1, false, points, &of_class_zero)
                && report(data, lengths[i], rounds[i], 1, true, points, &of_one)
                && report(data, lengths[i], rounds[i], MOST_LIVE, true, points, &of_one);
        }
    for (int class_two = 0; good && class_two < 2; class_two++)
        good = report_parts(data, LONGEST_DATA, 256, class_two);
    if (!good)
        fprintf(stderr, "the answers differ\n");
    return good ? 0 : 1;
}
