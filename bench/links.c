/* Moves TSDUs over a pair of links: the proved links, and the same work in C, in one run. */
#include <stdbool.h>
#include <stdint.h>
#include <stdio.h>
#include <stdlib.h>
#include <string.h>
#include "timer.h"

/* A slice is passed as a pointer and a length; the allocator passes nothing. */
uint64_t osi_bench_links(const uint8_t *tsdu, size_t length, size_t rounds, bool class_two);

#define LARGEST 8192
#define LONGEST 1048576
#define WINDOW 15
#define NUMBERS 128

/* Octets on the heap, and their capacity. */
struct octets {
    uint8_t *at;
    size_t length;
    size_t room;
};

/* A ring of messages; its capacity is a power of two. */
struct queue {
    struct octets *messages;
    size_t first;
    size_t count;
    size_t room;
};

enum kind { DT, AK };

/* A unit that one end sends and the other takes; the octets are lent. */
struct unit {
    enum kind kind;
    unsigned class, destination, number, credit, end;
    const uint8_t *user;
    size_t user_length;
};

enum fault { TAKEN = 0, WRONG_FORM, OUT_OF_SEQUENCE, CREDIT_REDUCED, TOO_LONG, NO_MEMORY };

struct link {
    unsigned class;
    size_t limit;
    /* Sending: the message that is being cut, how much of it was sent, and the messages after it. */
    struct octets current;
    size_t given;
    int has_more;
    struct queue outgoing;
    /* Receiving: the message that is being joined, and the complete ones. */
    struct octets begun;
    struct queue whole;
    /* Class 2. */
    unsigned next, unacknowledged, credit, expected, waiting;
};

static int push(struct queue *q, struct octets message)
{
    if (q->count == q->room) {
        size_t room = q->room == 0 ? 4 : 2 * q->room;
        struct octets *messages = malloc(room * sizeof(struct octets));
        if (messages == NULL)
            return 0;
        for (size_t i = 0; i < q->count; i++)
            messages[i] = q->messages[(q->first + i) & (q->room - 1)];
        free(q->messages);
        q->messages = messages;
        q->first = 0;
        q->room = room;
    }
    q->messages[(q->first + q->count) & (q->room - 1)] = message;
    q->count += 1;
    return 1;
}

static int pop(struct queue *q, struct octets *message)
{
    if (q->count == 0)
        return 0;
    *message = q->messages[q->first];
    q->first = (q->first + 1) & (q->room - 1);
    q->count -= 1;
    return 1;
}

static int append(struct octets *o, const uint8_t *more, size_t n)
{
    if (n > o->room - o->length) {
        size_t room = 2 * o->room > o->length + n ? 2 * o->room : o->length + n;
        uint8_t *at = realloc(o->at, room);
        if (at == NULL)
            return 0;
        o->at = at;
        o->room = room;
    }
    if (n > 0)
        memcpy(o->at + o->length, more, n);
    o->length += n;
    return 1;
}

/* Whether to copy a message into the room of the previous one, if it fits. */
static bool keeps_room;

/* Copies a message into the room of the previous one, if nothing else is to be sent. */
static int begin(struct link *l, const uint8_t *tsdu, size_t n)
{
    if (l->current.room < n) {
        uint8_t *at = malloc(n);
        if (at == NULL)
            return 0;
        free(l->current.at);
        l->current.at = at;
        l->current.room = n;
    }
    if (n > 0)
        memcpy(l->current.at, tsdu, n);
    l->current.length = n;
    l->given = 0;
    l->has_more = 1;
    return 1;
}

/* Keeps a copy of a message, after those that are to be sent. */
static int send_tsdu(struct link *l, const uint8_t *tsdu, size_t n)
{
    if (keeps_room && !l->has_more && l->outgoing.count == 0)
        return begin(l, tsdu, n);
    struct octets copy = {malloc(n > 0 ? n : 1), n, n};
    if (copy.at == NULL)
        return 0;
    memcpy(copy.at, tsdu, n);
    if (!push(&l->outgoing, copy)) {
        free(copy.at);
        return 0;
    }
    return 1;
}

/* The next part to send, which is lent. */
static int next_part(struct link *l, struct unit *u)
{
    size_t left;
    if (!l->has_more) {
        struct octets message;
        if (!pop(&l->outgoing, &message))
            return 0;
        free(l->current.at);
        l->current = message;
        l->given = 0;
        l->has_more = 1;
    }
    left = l->current.length - l->given;
    u->kind = DT;
    u->user = l->current.at + l->given;
    u->user_length = left > l->limit ? l->limit : left;
    u->end = left <= l->limit;
    u->number = 0;
    l->given += u->user_length;
    l->has_more = !u->end;
    return 1;
}

static int next_out(struct link *l, struct unit *u)
{
    u->class = l->class;
    u->destination = 1;
    if (l->class == 0)
        return next_part(l, u);
    if (l->waiting > 0) {
        l->waiting -= 1;
        u->kind = AK;
        u->number = (l->expected + NUMBERS - l->waiting) % NUMBERS;
        u->credit = WINDOW;
        return 1;
    }
    if (l->credit == 0 || !next_part(l, u))
        return 0;
    u->number = l->next;
    l->next = (l->next + 1) % NUMBERS;
    l->unacknowledged += 1;
    l->credit -= 1;
    return 1;
}

static enum fault join(struct link *l, const struct unit *u)
{
    static const struct octets none = {NULL, 0, 0};
    if (u->user_length > LONGEST - l->begun.length)
        return TOO_LONG;
    if (!append(&l->begun, u->user, u->user_length))
        return NO_MEMORY;
    if (!u->end)
        return TAKEN;
    if (!push(&l->whole, l->begun)) {
        l->begun.length -= u->user_length;
        return NO_MEMORY;
    }
    l->begun = none;
    return TAKEN;
}

static enum fault acknowledge(struct link *l, const struct unit *u)
{
    unsigned left = (l->next + NUMBERS - u->number) % NUMBERS;
    if (left > l->unacknowledged)
        return OUT_OF_SEQUENCE;
    if (u->credit < l->credit + left)
        return CREDIT_REDUCED;
    l->unacknowledged = left;
    l->credit = u->credit - left;
    return TAKEN;
}

static enum fault take(struct link *l, const struct unit *u)
{
    enum fault fault;
    if (u->class != l->class)
        return WRONG_FORM;
    if (l->class == 0)
        return u->kind == DT ? join(l, u) : WRONG_FORM;
    if (u->kind == AK)
        return acknowledge(l, u);
    if (u->number != l->expected || l->waiting >= WINDOW)
        return OUT_OF_SEQUENCE;
    fault = join(l, u);
    if (fault == TAKEN) {
        l->expected = (l->expected + 1) % NUMBERS;
        l->waiting += 1;
    }
    return fault;
}

/* Passes the next unit of one end to the other; 0 if there is none, or it is refused. */
static int pass(struct link *from, struct link *to)
{
    struct unit u;
    return next_out(from, &u) && take(to, &u) == TAKEN;
}

static void close_link(struct link *l)
{
    struct octets message;
    while (pop(&l->outgoing, &message) || pop(&l->whole, &message))
        free(message.at);
    free(l->outgoing.messages);
    free(l->whole.messages);
    free(l->current.at);
    free(l->begun.at);
}

/* Moves a TSDU this many times; in class 2 an AK goes back for each unit. */
__attribute__((noinline)) static uint64_t move(const uint8_t *tsdu, size_t n, size_t rounds, bool class_two)
{
    struct link from = {.class = class_two ? 2 : 0, .limit = LARGEST - (class_two ? 5 : 3), .credit = WINDOW};
    struct link to = from;
    struct octets message;
    uint64_t tsdus = 0, octets = 0;
    for (size_t i = 0; i < rounds && send_tsdu(&from, tsdu, n); i++) {
        while (pass(&from, &to) && (!class_two || pass(&to, &from)))
            continue;
        if (pop(&to.whole, &message)) {
            tsdus += 1;
            octets += message.length;
            free(message.at);
        }
    }
    close_link(&from);
    close_link(&to);
    return tsdus * 1000003 + octets;
}

/* Allocates memory for each TSDU to send. */
static uint64_t move_by_hand(const uint8_t *tsdu, size_t n, size_t rounds, bool class_two)
{
    keeps_room = false;
    return move(tsdu, n, rounds, class_two);
}

/* Copies each TSDU into the room of the previous one. */
static uint64_t move_in_kept_room(const uint8_t *tsdu, size_t n, size_t rounds, bool class_two)
{
    keeps_room = true;
    return move(tsdu, n, rounds, class_two);
}

typedef uint64_t job(const uint8_t *, size_t, size_t, bool);

#define JOBS 3
#define RUNS 201

static job *const jobs[JOBS] = {osi_bench_links, move_by_hand, move_in_kept_room};

/* The least seconds of many runs of each job, which take turns. */
static void times(const uint8_t *tsdu, size_t n, size_t rounds, bool class_two, double best[JOBS],
                  uint64_t answers[JOBS])
{
    for (int k = 0; k < JOBS; k++)
        best[k] = 1e9;
    for (int i = 0; i < RUNS * JOBS; i++) {
        int k = i % JOBS;
        double start = now(), taken;
        answers[k] = jobs[k](tsdu, n, rounds, class_two);
        taken = now() - start;
        if (taken < best[k])
            best[k] = taken;
    }
}

static int report(const uint8_t *tsdu, size_t n, size_t rounds, bool class_two)
{
    double best[JOBS], octets = (double)n * (double)rounds;
    uint64_t answers[JOBS];
    int good = 1;
    times(tsdu, n, rounds, class_two, best, answers);
    printf("%6d %8zu", class_two ? 2 : 0, n);
    for (int k = 0; k < JOBS; k++) {
        printf(" %9.0f", octets / best[k] / 1e6);
        good = good && answers[k] == rounds * 1000003 + rounds * n;
    }
    printf(" %9.1f %8.2f %13.2f\n", best[0] / (double)rounds * 1e9, best[1] / best[0], best[2] / best[0]);
    return good;
}

/* With the words `job class octets rounds` one job runs once, to be counted; it prints the number of TSDUs. */
static int once(char **words, const uint8_t *tsdu)
{
    size_t n = strtoul(words[3], NULL, 10), rounds = strtoul(words[4], NULL, 10);
    int k = strcmp(words[1], "proved") == 0 ? 0 : strcmp(words[1], "kept") == 0 ? 2 : 1;
    printf("%zu operations\n", rounds);
    return jobs[k](tsdu, n, rounds, words[2][0] == '2') == rounds * 1000003 + rounds * n ? 0 : 1;
}

int main(int count, char **words)
{
    static const size_t lengths[] = {1048576, 1000, 100}, rounds[] = {20, 10000, 20000};
    uint8_t *tsdu = malloc(LONGEST);
    int good = tsdu != NULL;
    for (size_t i = 0; good && i < LONGEST; i++)
        tsdu[i] = (uint8_t)(i * 7);
    if (good && count == 5)
        return once(words, tsdu);
    say_how("Links, in MB of user data a second", RUNS);
    printf("%6s %8s %9s %9s %9s %9s %8s %13s\n", "class", "octets", "ours", "C", "C kept", "ns a TSDU", "ours / C", "ours / C kept");
    for (int i = 0; good && i < 6; i++)
        good = report(tsdu, lengths[i / 2], rounds[i / 2], i % 2 == 1);
    free(tsdu);
    if (!good)
        fprintf(stderr, "the answers differ, or there is no memory\n");
    return good ? 0 : 1;
}
