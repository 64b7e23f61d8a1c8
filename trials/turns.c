/* Connections in turn on one byte connection, each at the place of the one before it. A judge keeps a short record of each that is
 * over: 100,000 take less than 20 MiB in all. The called side breaks the protocol on the first of them, on each hundredth and on the
 * last, and is told to have done so as soon as it has, and once they are all over. After each connection a verdict is asked for that
 * is not there, and at the end the verdict on each: it takes a second, and minutes if a call looks at all that are over.
 *
 *     turns [CONNECTIONS]     the most octets that are kept are printed, for another number of connections too */
#include "hostile.h"
#include "memory.h"

#include <stdio.h>
#include <stdlib.h>

#define CONNECTIONS 100000u
#define MOST (20u * 1024 * 1024)
#define EVERY 100u

/* A CR and a CC of class 2, a CN and its AC, a DT with data that nobody may send without a token, the DR and the DC. */
static const uint8_t cr[] = {3, 0, 0, 0x11, 0x0c, 0xe4, 0, 0, 0, 1, 0x20, 0xc0, 1, 0x0a, 0xc6, 1, 0};
static const uint8_t cc[] = {3, 0, 0, 0x11, 0x0c, 0xd4, 0, 1, 0, 2, 0x20, 0xc0, 1, 0x0a, 0xc6, 1, 0};
static const uint8_t cn[] = {3, 0, 0, 0x17, 4, 0xf0, 0, 2, 0x80, 0x0d, 0x0c, 5, 6, 0x13, 1, 1, 0x16, 1, 2, 0x14, 2, 0, 2};
static const uint8_t ac[] = {3, 0, 0, 0x17, 4, 0xf0, 0, 1, 0x80, 0x0e, 0x0c, 5, 6, 0x13, 1, 1, 0x16, 1, 2, 0x14, 2, 0, 2};
static const uint8_t point[] = {3, 0, 0, 0x10, 4, 0xf0, 0, 1, 0x81, 1, 0, 0x31, 3, 0x2a, 1, 0x31};
static const uint8_t dr[] = {3, 0, 0, 0x0b, 6, 0x80, 0, 2, 0, 1, 0x80};
static const uint8_t dc[] = {3, 0, 0, 0x0a, 5, 0xc0, 0, 1, 0, 2};

static osi_judge judge = OSI_JUDGE;
static uint64_t broken, told;

static void feeds(uint32_t side, const uint8_t *octets, size_t length)
{
    size_t used;
    memory_in();
    uint32_t code = osi_judge_feed(&judge, side, octets, length, &used);
    memory_out();
    holds(code == OSI_OK, "a piece is answered with %u", code);
}

static bool breaks_on(uint64_t number, uint64_t connections)
{
    return number % EVERY == 0 || number + 1 == connections;
}

/* What is certain and was not told: nothing but that right broke the protocol on this connection. */
static void fetches(uint64_t number)
{
    osi_verdict verdict;
    memory_in();
    uint32_t code = osi_judge_next(&judge, &verdict);
    memory_out();
    holds(code == OSI_OK && verdict.kind == OSI_VERDICT_BROKE && verdict.connection == number && verdict.side == OSI_RIGHT,
          "connection %llu is told otherwise", (unsigned long long)number);
    told += 1;
}

/* Nothing is certain that was not told. */
static void fetches_none(void)
{
    osi_verdict verdict;
    memory_in();
    uint32_t code = osi_judge_next(&judge, &verdict);
    memory_out();
    holds(code == OSI_NOTHING, "a verdict is told twice: %u, connection %llu", code, (unsigned long long)verdict.connection);
}

static void in_turn(uint64_t number, bool breaks)
{
    feeds(OSI_LEFT, cr, sizeof cr);
    feeds(OSI_RIGHT, cc, sizeof cc);
    feeds(OSI_LEFT, cn, sizeof cn);
    feeds(OSI_RIGHT, ac, sizeof ac);
    if (breaks) {
        feeds(OSI_RIGHT, point, sizeof point);
        broken += 1;
        fetches(number);
    }
    feeds(OSI_LEFT, dr, sizeof dr);
    feeds(OSI_RIGHT, dc, sizeof dc);
    fetches_none();
}

/* The verdict on right of a connection that may be over. */
static void asks(uint64_t number, uint32_t kind)
{
    osi_verdict verdict;
    memory_in();
    uint32_t code = osi_judge_verdict(&judge, number, OSI_RIGHT, &verdict);
    memory_out();
    holds(code == OSI_OK && verdict.kind == kind && verdict.left == 1 && verdict.right == 2, "connection %llu has another verdict",
          (unsigned long long)number);
}

int main(int count, char **words)
{
    const uint64_t connections = count > 1 ? strtoull(words[1], NULL, 10) : CONNECTIONS;
    memory_in();
    uint32_t code = osi_judge_new(&judge);
    memory_out();
    holds(code == OSI_OK, "no judge: %u", code);
    for (uint64_t number = 0; number < connections; number++)
        in_turn(number, breaks_on(number, connections));
    for (uint64_t number = 0; number < connections; number++)
        asks(number, breaks_on(number, connections) ? OSI_VERDICT_BROKE : OSI_VERDICT_KEPT);
    const size_t peak = memory_peak();
    memory_in();
    osi_judge_free(&judge);
    memory_out();
    holds(connections != CONNECTIONS || peak < MOST, "%zu octets are kept", peak);
    holds(told == broken, "%llu breaks are told of %llu", (unsigned long long)told, (unsigned long long)broken);
    runs += 1;
    printf("turns: %llu connections in turn, %llu of them with a break: at most %zu octets of memory\n", (unsigned long long)connections,
           (unsigned long long)broken, peak);
    return counts("turns");
}
