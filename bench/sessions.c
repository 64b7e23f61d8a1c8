/* Exchanges data, a minor point and its confirmation over a pair of sessions: the proved ones compared with C, in ns. A call
   writes what comes before user data into a buffer that is kept, where an end has its packet. */
#include <stdint.h>
#include <stdio.h>
#include <string.h>
#include "session.h"
#include "timer.h"

/* A slice is passed as a pointer and a length; the allocator passes nothing. */
uint64_t osi_bench_sessions(const uint8_t *data, size_t length, size_t rounds, size_t part);

#define RUNS 301
#define ROUNDS 10000
#define PARTS 9

/* Octets to be sent and their room: a buffer that is kept, where an end has its packet. */
struct out {
    uint8_t *at;
    size_t room;
};

struct ends {
    struct session caller, called;
    struct out out;
};

/* Half-duplex and minor synchronize, base 0; the caller holds both tokens. */
static void open_ends(struct ends *e)
{
    memset(e, 0, sizeof *e);
    e->caller.is_caller = 1;
    e->caller.phase = e->called.phase = READY;
    e->caller.units = e->called.units = 0x0009;
    e->caller.available = e->called.available = DATA_TOKEN | MINOR_TOKEN;
    e->caller.held = DATA_TOKEN | MINOR_TOKEN;
    count_room(&e->caller);
    count_room(&e->called);
}

static const struct slice none = {(const uint8_t *)"", 0};

/* The place for so many octets; NULL if memory runs out. */
static uint8_t *place_for(struct out *out, size_t n)
{
    uint8_t *at;
    if (n <= out->room)
        return out->at;
    at = realloc(out->at, n);
    if (at == NULL)
        return NULL;
    out->at = at;
    out->room = n;
    return at;
}

/* Writes the octets before data. The data stays where it is. Returns the length of the TSDU, 0 if the call is refused. */
static size_t call_data(struct ends *e, struct slice data)
{
    uint8_t *at;
    if (may_data(&e->caller, data) != OK)
        return 0;
    at = place_for(&e->out, DATA_FRONT);
    if (at == NULL)
        return 0;
    write_data_front(at);
    return DATA_FRONT + data.length;
}

/* The same, and writes the data after them. */
static size_t write_data(struct ends *e, struct slice data)
{
    uint8_t *at;
    if (may_data(&e->caller, data) != OK)
        return 0;
    at = place_for(&e->out, DATA_FRONT + data.length);
    if (at == NULL)
        return 0;
    write_data_front(at);
    memcpy(at + DATA_FRONT, data.at, data.length);
    return DATA_FRONT + data.length;
}

/* The call for data that returns its TSDU in a block of its own, which is freed. */
static size_t own_data(const struct session *s, struct slice data)
{
    uint8_t *at;
    if (may_data(s, data) != OK)
        return 0;
    at = malloc(DATA_FRONT + data.length);
    if (at == NULL)
        return 0;
    write_data_front(at);
    memcpy(at + DATA_FRONT, data.at, data.length);
    __asm__ volatile("" : : "r"(at) : "memory");
    free(at);
    return DATA_FRONT + data.length;
}

static size_t call_minor(struct session *s, struct out *out)
{
    struct front front;
    uint8_t *at;
    if (may_minor(s, none) != OK)
        return 0;
    minor_front(s, 1, none, &front);
    if (!fits(s, front.octets))
        return 0;
    at = place_for(out, front.octets);
    if (at == NULL)
        return 0;
    write_front(at, &front);
    minor_sent(s);
    return front.octets;
}

static size_t call_confirm(struct session *s, uint32_t number, struct out *out)
{
    struct front front;
    uint8_t *at;
    if (may_confirm(s, number, none) != OK)
        return 0;
    confirm_front(number, none, &front);
    if (!fits(s, front.octets))
        return 0;
    at = place_for(out, front.octets);
    if (at == NULL)
        return 0;
    write_front(at, &front);
    confirm_sent(s, number);
    return front.octets;
}

/* Lends a TSDU of so many octets to a side. Returns how many octets it has, or 0 if nothing is shown. */
static size_t hand(const struct out *out, size_t octets, struct session *to)
{
    struct taken t;
    uint8_t *lent = NULL;
    if (octets == 0)
        return 0;
    if (take(to, out->at, octets, &lent, &t) != OK || t.first.kind == SHOWN_NONE || t.aborts)
        octets = 0;
    /* The user looks at what is shown; otherwise gcc would not copy it. */
    __asm__ volatile("" : : "r"(t.first.data.memory) : "memory");
    free(t.first.data.memory);
    return octets;
}

static size_t data_to(struct ends *e, struct slice data)
{
    return hand(&e->out, write_data(e, data), &e->called);
}

static size_t minor_to(struct ends *e)
{
    return hand(&e->out, call_minor(&e->caller, &e->out), &e->called);
}

static size_t confirmed_to(struct ends *e, int handed)
{
    uint32_t number = e->caller.next;
    size_t point = minor_to(e), more;
    if (!point)
        return 0;
    more = call_confirm(&e->called, number, &e->out);
    if (handed)
        more = hand(&e->out, more, &e->caller);
    return more ? point + more : 0;
}

static __attribute__((noinline)) size_t part_of(struct ends *e, struct slice data, size_t part)
{
    switch (part) {
    case 0: return call_data(e, data);
    case 1: return data_to(e, data);
    case 2: return call_minor(&e->caller, &e->out);
    case 3: return minor_to(e);
    case 4: return confirmed_to(e, 0);
    case 5: return confirmed_to(e, 1);
    case 7: return write_data(e, data);
    case 8: return own_data(&e->caller, data);
    default: return data_to(e, data) + confirmed_to(e, 1);
    }
}

static __attribute__((noinline)) uint64_t by_hand(const uint8_t *octets, size_t length, size_t rounds, size_t part)
{
    struct slice data = {octets, length};
    struct ends e;
    uint64_t sum = 0;
    open_ends(&e);
    for (size_t i = 0; i < rounds; i++) {
        size_t more = part_of(&e, data, part);
        if (!more)
            break;
        sum += more;
    }
    free(e.out.at);
    return sum;
}

/* The octets of the TSDUs of this many rounds of a part: GT and DT with the data, GT and MIP, GT and MIA, the last two
   with the digits of the number. */
static uint64_t expected(size_t length, size_t rounds, size_t part)
{
    static const unsigned data[PARTS] = {1, 1, 0, 0, 0, 0, 1, 1, 1}, points[PARTS] = {0, 0, 1, 1, 2, 2, 2, 0, 0};
    uint8_t digits[6];
    uint64_t octets = 0;
    for (size_t i = 0; i < rounds; i++)
        octets += data[part] * (4 + length) + points[part] * (6 + (uint64_t)digits_of((uint32_t)i, digits));
    return octets;
}

typedef uint64_t side(const uint8_t *data, size_t length, size_t rounds, size_t part);

/* The ns of one round of a part, or less than 0 if it sent something wrong. */
static double timed(side *run, const uint8_t *data, size_t length, size_t part)
{
    double start = now();
    uint64_t octets = run(data, length, ROUNDS, part);
    double taken = (now() - start) * 1e9 / ROUNDS;
    return octets == expected(length, ROUNDS, part) ? taken : -1;
}

static void line(size_t length, const char *name, double ours, double c)
{
    printf("%8zu %-28s %10.1f %10.1f %8.2f\n", length, name, ours, c, c / ours);
}

/* Prints the best of many runs that take turns. Returns whether each sent the right octets. */
static int report(const uint8_t *data, size_t length)
{
    static side *const sides[2] = {osi_bench_sessions, by_hand};
    double best[2][PARTS];
    for (size_t part = 0; part < PARTS; part++) {
        best[0][part] = best[1][part] = 1e9;
        for (int i = 0; i < RUNS; i++)
            for (int k = 0; k < 2; k++) {
                double taken = timed(sides[k], data, length, part);
                if (taken < 0)
                    return 0;
                if (taken < best[k][part])
                    best[k][part] = taken;
            }
    }
    line(length, "call data", best[0][0], best[1][0]);
    line(length, "call data, in its own block", best[0][8], best[1][8]);
    line(length, "data, called and taken", best[0][1], best[1][1]);
    line(length, "call a point", best[0][2], best[1][2]);
    line(length, "a point, called and taken", best[0][3], best[1][3]);
    line(length, "and its confirmation called", best[0][4], best[1][4]);
    line(length, "and taken", best[0][5], best[1][5]);
    line(length, "a round", best[0][6], best[1][6]);
    return 1;
}

int main(int argc, char **argv)
{
    static const size_t lengths[] = {1, 100, 1000};
    static uint8_t data[1000];
    int good = 1;
    for (size_t i = 0; i < sizeof data; i++)
        data[i] = (uint8_t)(i * 31);
    /* With the words `job part octets rounds` one job runs once, to be counted; it prints the number of octets, so that
       both can be compared. */
    if (argc == 5) {
        side *run = strcmp(argv[1], "proved") == 0 ? osi_bench_sessions : by_hand;
        size_t part = strtoul(argv[2], NULL, 10), length = strtoul(argv[3], NULL, 10), rounds = strtoul(argv[4], NULL, 10);
        printf("%zu operations: %llu\n", rounds, (unsigned long long)run(data, length, rounds, part));
        return 0;
    }
    say_how("Sessions, in ns for each call, TSDU and round", RUNS);
    printf("%8s %-28s %10s %10s %8s\n", "octets", "", "ours", "C", "ours / C");
    for (int i = 0; good && i < 3; i++)
        good = report(data, lengths[i]);
    if (!good)
        fprintf(stderr, "what is sent is not what is to be sent\n");
    return good ? 0 : 1;
}
