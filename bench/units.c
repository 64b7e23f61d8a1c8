/* Reads the units of packets: by the proved reader, and by the same work in C, in one run. */
#include <stdint.h>
#include <stdio.h>
#include <stdlib.h>
#include <string.h>
#include "timer.h"

/* A slice is passed as a pointer and a length. */
uint64_t osi_bench_units(const uint8_t *packets, size_t octets, const size_t *lengths, size_t count);

enum kind { CR = 1, CC, DR, DC, DT0, DT2, AK, ER };

enum fault { GOOD = 0, BAD_LI = 101, UNKNOWN_CODE, BAD_PARAMETER_LENGTH, BAD_PARAMETER_VALUE, DUPLICATE_PARAMETER };

/* The parameters of a CR or CC as a C programmer would keep them: 0, -1 or no pointer for absent. */
struct parameters {
    int size;
    int options;
    const uint8_t *calling, *called, *classes;
    size_t calling_length, called_length, classes_length;
};

struct unit {
    enum kind kind;
    unsigned credit, destination, source, class, options, reason, end, number;
    struct parameters parameters;
    const uint8_t *user;
    size_t user_length;
};

/* The result of reading: how many octets the unit has, or the first fault and its offset. */
struct outcome {
    enum fault fault;
    size_t at;
};

static inline struct outcome outcome(enum fault fault, size_t at)
{
    struct outcome o = {fault, at};
    return o;
}

static inline unsigned reference(const uint8_t *h)
{
    return (unsigned)h[0] << 8 | h[1];
}

static inline enum fault keep(const uint8_t **kept, size_t *kept_length, const uint8_t *value, size_t n, size_t most)
{
    if (n > most)
        return BAD_PARAMETER_LENGTH;
    if (*kept != NULL)
        return DUPLICATE_PARAMETER;
    *kept = value;
    *kept_length = n;
    return GOOD;
}

static inline enum fault add_size(struct parameters *p, const uint8_t *value, size_t n)
{
    if (n != 1)
        return BAD_PARAMETER_LENGTH;
    if (p->size != 0)
        return DUPLICATE_PARAMETER;
    if (value[0] < 7 || value[0] > 13)
        return BAD_PARAMETER_VALUE;
    p->size = value[0];
    return GOOD;
}

static inline enum fault add_options(struct parameters *p, const uint8_t *value, size_t n)
{
    if (n != 1)
        return BAD_PARAMETER_LENGTH;
    if (p->options >= 0)
        return DUPLICATE_PARAMETER;
    p->options = value[0];
    return GOOD;
}

static inline enum fault add_parameter(struct parameters *p, unsigned code, const uint8_t *value, size_t n)
{
    switch (code) {
    case 0xC0:
        return add_size(p, value, n);
    case 0xC1:
        return keep(&p->calling, &p->calling_length, value, n, 32);
    case 0xC2:
        return keep(&p->called, &p->called_length, value, n, 32);
    case 0xC6:
        return add_options(p, value, n);
    case 0xC7:
        return keep(&p->classes, &p->classes_length, value, n, 255);
    default:
        return GOOD;
    }
}

/* The parameters in these octets of a unit. Without `p`, none is known. */
static inline struct outcome read_parameters(struct parameters *p, const uint8_t *unit, size_t start, size_t end)
{
    while (start < end) {
        size_t n;
        enum fault fault = GOOD;
        if (end - start < 2)
            return outcome(BAD_PARAMETER_LENGTH, start);
        n = unit[start + 1];
        if (end - start - 2 < n)
            return outcome(BAD_PARAMETER_LENGTH, start);
        if (p != NULL)
            fault = add_parameter(p, unit[start], unit + start + 2, n);
        if (fault != GOOD)
            return outcome(fault, start);
        start += 2 + n;
    }
    return outcome(GOOD, end);
}

static inline struct outcome read_connect(struct unit *u, enum kind kind, const uint8_t *h, size_t li)
{
    static const struct parameters none = {0, -1, NULL, NULL, NULL, 0, 0, 0};
    if (li < 6)
        return outcome(BAD_LI, 0);
    u->kind = kind;
    u->credit = h[1] & 15;
    u->destination = kind == CC ? reference(h + 2) : 0;
    u->source = reference(h + 4);
    u->class = h[6] >> 4;
    u->options = h[6] & 15;
    u->parameters = none;
    return read_parameters(&u->parameters, h, 7, 1 + li);
}

static inline struct outcome read_disconnect(struct unit *u, const uint8_t *h, size_t li)
{
    if (li < 6)
        return outcome(BAD_LI, 0);
    u->kind = DR;
    u->destination = reference(h + 2);
    u->source = reference(h + 4);
    u->reason = h[6];
    return read_parameters(NULL, h, 7, 1 + li);
}

static inline struct outcome read_disconnected(struct unit *u, const uint8_t *h, size_t li)
{
    if (li != 5)
        return outcome(BAD_LI, 0);
    u->kind = DC;
    u->destination = reference(h + 2);
    u->source = reference(h + 4);
    return outcome(GOOD, 6);
}

static inline struct outcome read_transfer(struct unit *u, const uint8_t *h, size_t li)
{
    if (li == 2) {
        u->kind = DT0;
        u->end = h[2] >> 7;
        return outcome(GOOD, 3);
    }
    if (li != 4)
        return outcome(BAD_LI, 0);
    u->kind = DT2;
    u->destination = reference(h + 2);
    u->end = h[4] >> 7;
    u->number = h[4] & 127;
    return outcome(GOOD, 5);
}

static inline struct outcome read_acknowledge(struct unit *u, const uint8_t *h, size_t li)
{
    if (li != 4)
        return outcome(BAD_LI, 0);
    u->kind = AK;
    u->credit = h[1] & 15;
    u->destination = reference(h + 2);
    u->number = h[4] & 127;
    return outcome(GOOD, 5);
}

static inline struct outcome read_error(struct unit *u, const uint8_t *h, size_t li)
{
    if (li < 4)
        return outcome(BAD_LI, 0);
    u->kind = ER;
    u->destination = reference(h + 2);
    u->reason = h[4];
    return read_parameters(NULL, h, 5, 1 + li);
}

static inline struct outcome read_fields(struct unit *u, const uint8_t *h, size_t li)
{
    switch (h[1] >> 4) {
    case 0xE:
        return read_connect(u, CR, h, li);
    case 0xD:
        return read_connect(u, CC, h, li);
    case 0x6:
        return read_acknowledge(u, h, li);
    }
    switch (h[1]) {
    case 0x80:
        return read_disconnect(u, h, li);
    case 0xC0:
        return read_disconnected(u, h, li);
    case 0xF0:
        return read_transfer(u, h, li);
    case 0x70:
        return read_error(u, h, li);
    default:
        return outcome(UNKNOWN_CODE, 1);
    }
}

/* The first unit of the octets. */
static inline struct outcome read_unit(struct unit *u, const uint8_t *octets, size_t n)
{
    struct outcome o;
    size_t li;
    if (n == 0)
        return outcome(BAD_LI, 0);
    li = octets[0];
    if (li == 0 || li == 255 || n <= li)
        return outcome(BAD_LI, 0);
    o = read_fields(u, octets, li);
    if (o.fault != GOOD || u->kind == DC || u->kind == AK || u->kind == ER)
        return o;
    u->user = octets + o.at;
    u->user_length = n - o.at;
    return outcome(GOOD, n);
}

static inline uint64_t with_parameters(const struct parameters *p)
{
    uint64_t sum = 31 * (uint64_t)p->size + 37 * (uint64_t)(p->options + 1);
    if (p->calling != NULL)
        sum += 41 * (p->calling_length + 1);
    if (p->called != NULL)
        sum += 43 * (p->called_length + 1);
    if (p->classes != NULL)
        sum += 47 * (p->classes_length + 1);
    return sum;
}

/* Adds fields, each times a weight of its own, in 64 bits. */
static inline uint64_t with_unit(uint64_t sum, const struct unit *u)
{
    sum = sum * 31 + u->kind;
    switch (u->kind) {
    case CR:
    case CC:
        return sum + 3 * u->user_length + 5 * (uint64_t)u->destination + 7 * (uint64_t)u->source
            + 11 * (uint64_t)u->credit + 13 * (uint64_t)u->class + 17 * (uint64_t)u->options
            + with_parameters(&u->parameters);
    case DR:
        return sum + 3 * u->user_length + 5 * (uint64_t)u->destination + 7 * (uint64_t)u->source
            + 19 * (uint64_t)u->reason;
    case DC:
        return sum + 5 * (uint64_t)u->destination + 7 * (uint64_t)u->source;
    case DT0:
        return sum + 3 * u->user_length + 23 * (uint64_t)u->end;
    case DT2:
        return sum + 3 * u->user_length + 5 * (uint64_t)u->destination + 23 * (uint64_t)u->end
            + 29 * (uint64_t)u->number;
    case AK:
        return sum + 5 * (uint64_t)u->destination + 11 * (uint64_t)u->credit + 29 * (uint64_t)u->number;
    case ER:
        return sum + 5 * (uint64_t)u->destination + 19 * (uint64_t)u->reason;
    }
    return sum;
}

static inline uint64_t with_fault(uint64_t sum, struct outcome o)
{
    return sum * 31 + o.fault + 53 * o.at;
}

/* Whether a packet is one DT of class 0 or of class 2, whose user data is all that follows its header. Such packets are read apart
   from others, and once. */
static inline int is_one_data0(const uint8_t *packet, size_t n)
{
    return n >= 3 && packet[0] == 2 && packet[1] == 0xF0;
}

static inline int is_one_data2(const uint8_t *packet, size_t n)
{
    return n >= 5 && packet[0] == 4 && packet[1] == 0xF0;
}

static inline uint64_t with_one_data0(uint64_t sum, const uint8_t *packet, size_t n)
{
    struct unit u = {.kind = DT0, .end = packet[2] >> 7, .user = packet + 3, .user_length = n - 3};
    return with_unit(sum, &u);
}

static inline uint64_t with_one_data2(uint64_t sum, const uint8_t *packet, size_t n)
{
    struct unit u = {.kind = DT2, .destination = reference(packet + 2), .end = packet[4] >> 7, .number = packet[4] & 127,
                     .user = packet + 5, .user_length = n - 5};
    return with_unit(sum, &u);
}

/* The fault of a packet, or GOOD: what `read_units` answers before it yields the units. */
static inline struct outcome check_packet(const uint8_t *packet, size_t n)
{
    struct unit u;
    size_t at = 0;
    do {
        struct outcome o = read_unit(&u, packet + at, n - at);
        if (o.fault != GOOD)
            return outcome(o.fault, at + o.at);
        at += o.at;
    } while (at < n);
    return outcome(GOOD, n);
}

/* Checks the whole packet, and reads each unit again as it is gone over: the same work. */
static inline uint64_t packet_twice(uint64_t sum, const uint8_t *packet, size_t n)
{
    struct outcome o = check_packet(packet, n);
    struct unit u = {0};
    size_t at = 0;
    if (o.fault != GOOD)
        return with_fault(sum, o);
    while (at < n) {
        o = read_unit(&u, packet + at, n - at);
        sum = with_unit(sum, &u);
        at += o.at;
    }
    return sum;
}

/* Reads the packet once, and drops its sum if a unit is bad. */
static inline uint64_t packet_once(uint64_t before, const uint8_t *packet, size_t n)
{
    uint64_t sum = before;
    struct unit u = {0};
    size_t at = 0;
    do {
        struct outcome o = read_unit(&u, packet + at, n - at);
        if (o.fault != GOOD)
            return with_fault(before, outcome(o.fault, at + o.at));
        sum = with_unit(sum, &u);
        at += o.at;
    } while (at < n);
    return sum;
}

__attribute__((noinline)) static uint64_t read_twice(const uint8_t *packets, size_t octets, const size_t *lengths,
                                                     size_t count)
{
    uint64_t sum = 0;
    for (size_t i = 0; i < count && lengths[i] <= octets; i++) {
        sum = is_one_data0(packets, lengths[i]) ? with_one_data0(sum, packets, lengths[i])
            : is_one_data2(packets, lengths[i]) ? with_one_data2(sum, packets, lengths[i]) : packet_twice(sum, packets, lengths[i]);
        packets += lengths[i];
        octets -= lengths[i];
    }
    return sum;
}

__attribute__((noinline)) static uint64_t read_once(const uint8_t *packets, size_t octets, const size_t *lengths,
                                                    size_t count)
{
    uint64_t sum = 0;
    for (size_t i = 0; i < count && lengths[i] <= octets; i++) {
        sum = is_one_data0(packets, lengths[i]) ? with_one_data0(sum, packets, lengths[i])
            : is_one_data2(packets, lengths[i]) ? with_one_data2(sum, packets, lengths[i]) : packet_once(sum, packets, lengths[i]);
        packets += lengths[i];
        octets -= lengths[i];
    }
    return sum;
}

/* Packets one after the other, their lengths, and the number of their units. */
struct work {
    const char *name;
    uint8_t *packets;
    size_t octets;
    size_t *lengths;
    size_t count;
    size_t units;
};

typedef uint64_t job(const uint8_t *, size_t, const size_t *, size_t);

#define JOBS 3
#define RUNS 2001

static job *const jobs[JOBS] = {osi_bench_units, read_twice, read_once};

/* The best of many runs of each job, which take turns, in ns per unit. */
static void times(const struct work *w, double best[JOBS], uint64_t answers[JOBS])
{
    for (int k = 0; k < JOBS; k++)
        best[k] = 1e9;
    for (int i = 0; i < RUNS * JOBS; i++) {
        int k = i % JOBS;
        double start = now(), taken;
        answers[k] = jobs[k](w->packets, w->octets, w->lengths, w->count);
        taken = (now() - start) * 1e9 / (double)w->units;
        if (taken < best[k])
            best[k] = taken;
    }
}

struct sample {
    size_t length;
    size_t units;
    const char *octets;
};

#define SAMPLE(units, text) {sizeof(text) - 1, units, text}

/* CR and CC with parameters, then DR, DC, DT of class 2, AK and DT, ER, and two with user data. */
static const struct sample mixed[] = {
    SAMPLE(1, "\x11\xE0\0\0\0\x01\0\xC0\x01\x0A\xC1\x02\x01\0\xC2\x02\x01\x02"),
    SAMPLE(1, "\x0F\xE3\0\0\0\x01\x20\xC0\x01\x0A\xC6\x01\0\xC7\x01\0"),
    SAMPLE(1, "\x11\xD0\0\x01\0\x01\0\xC0\x01\x0A\xC1\x02\x01\0\xC2\x02\x01\x02"),
    SAMPLE(1, "\x0C\xD4\0\x01\0\x01\x20\xC0\x01\x0A\xC6\x01\0"),
    SAMPLE(1, "\x06\x80\0\x01\0\x02\x85"),
    SAMPLE(1, "\x05\xC0\0\x02\0\x01"),
    SAMPLE(1, "\x04\xF0\0\x01\0\x01\0\x01\0ABCDEFGH"),
    SAMPLE(2, "\x04\x61\0\x01\x05\x04\xF0\0\x02\x80\x01\0\x01\0ABCD"),
    SAMPLE(1, "\x04\x70\0\x03\x02"),
    SAMPLE(1, "\x08\x80\0\x01\0\x02\x85\xE0\0user data"),
    SAMPLE(1, "\x12\xE7\x12\x34\xAB\xCD\x4E\xC6\x01\x03\x85\0\xC0\x01\x07\xC7\x02\x20\0user data"),
    SAMPLE(3, "\x05\xC0\0\x01\0\x02\x07\x70\0\x03\x02\xC1\x01\x09\x04\x62\0\x01\x86"),
};

#define SAMPLES (sizeof(mixed) / sizeof(mixed[0]))

static uint32_t state = 1;

static uint32_t chance(uint32_t below)
{
    state = state * 1664525 + 1013904223;
    return (state >> 8) % below;
}

static int begin(struct work *w, const char *name, size_t count, size_t longest)
{
    w->name = name;
    w->octets = 0;
    w->count = 0;
    w->units = 0;
    w->packets = malloc(count * longest);
    w->lengths = malloc(count * sizeof(size_t));
    return w->packets != NULL && w->lengths != NULL;
}

static void add(struct work *w, const char *octets, size_t length, size_t units)
{
    memcpy(w->packets + w->octets, octets, length);
    w->lengths[w->count] = length;
    w->octets += length;
    w->count += 1;
    w->units += units;
}

/* Packets of this many octets with one DT of class 0. */
static int fill_data(struct work *w, const char *name, size_t count, size_t length)
{
    char packet[128] = "\x02\xF0\x80";
    if (!begin(w, name, count, length))
        return 0;
    for (size_t i = 0; i < count; i++) {
        packet[2] = (char)(i % 3 == 0 ? 0 : 0x80);
        add(w, packet, length, 1);
    }
    return 1;
}

static int fill_mixed(struct work *w, const char *name, size_t count)
{
    if (!begin(w, name, count, 64))
        return 0;
    for (size_t i = 0; i < count; i++) {
        const struct sample *s = &mixed[chance(SAMPLES)];
        add(w, s->octets, s->length, s->units);
    }
    return 1;
}

/* Changes an octet of about every second packet, to any value or to one that the packet has elsewhere. */
static void spoil(struct work *w)
{
    uint8_t *packet = w->packets;
    for (size_t i = 0; i < w->count; i++) {
        uint32_t length = (uint32_t)w->lengths[i], how = chance(4);
        if (how >= 2)
            packet[chance(length)] = how == 2 ? (uint8_t)chance(256) : packet[chance(length)];
        packet += length;
    }
}

static int same(const uint64_t answers[JOBS])
{
    return answers[0] == answers[1] && answers[0] == answers[2];
}

/* Whether the readers agree on packets many of which are bad. */
static int agree_on_faults(void)
{
    struct work w;
    uint64_t answers[JOBS];
    if (!fill_mixed(&w, "spoiled", 100000))
        return 0;
    spoil(&w);
    for (int k = 0; k < JOBS; k++)
        answers[k] = jobs[k](w.packets, w.octets, w.lengths, w.count);
    free(w.packets);
    free(w.lengths);
    return same(answers);
}

static int report(struct work *w)
{
    double best[JOBS];
    uint64_t answers[JOBS];
    times(w, best, answers);
    printf("%16s %8zu %9.2f %9.2f %9.2f %14.2f %14.2f\n", w->name, w->units, best[0], best[1], best[2],
           best[1] / best[0], best[2] / best[0]);
    free(w->packets);
    free(w->lengths);
    return same(answers);
}

static int fill_named(struct work *w, const char *name)
{
    if (strcmp(name, "mixed") == 0)
        return fill_mixed(w, name, 10000);
    return fill_data(w, name, 10000, (size_t)atoi(name));
}

/* With the words `job 128|6|mixed rounds` one job reads the packets this many times, to be counted; it prints the
   number of units. */
static int once(char **words)
{
    struct work w;
    size_t rounds = strtoul(words[3], NULL, 10);
    int k = strcmp(words[1], "proved") == 0 ? 0 : strcmp(words[1], "once") == 0 ? 2 : 1;
    uint64_t first;
    if (!fill_named(&w, words[2]))
        return 1;
    first = jobs[k](w.packets, w.octets, w.lengths, w.count);
    for (size_t i = 1; i < rounds; i++)
        if (jobs[k](w.packets, w.octets, w.lengths, w.count) != first)
            return 1;
    printf("%zu operations: %llu\n", rounds * w.units, (unsigned long long)first);
    return 0;
}

int main(int count, char **words)
{
    struct work w;
    int good;
    if (count == 4)
        return once(words);
    good = agree_on_faults();
    say_how("Reading units, in ns for each unit", RUNS);
    printf("%16s %8s %9s %9s %9s %14s %14s\n", "packets", "units", "ours", "C twice", "C once", "ours / C twice", "ours / C once");
    good = good && fill_data(&w, "DT, 128 octets", 10000, 128) && report(&w);
    good = good && fill_data(&w, "DT, 6 octets", 10000, 6) && report(&w);
    good = good && fill_mixed(&w, "mixed", 10000) && report(&w);
    if (!good)
        fprintf(stderr, "the answers differ, or there is no memory\n");
    return good ? 0 : 1;
}
