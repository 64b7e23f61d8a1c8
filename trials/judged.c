/* A judge while memory runs out. Each allocation that a judge asks for is refused in turn. The octets that have not passed are
 * then fed again, and its verdicts and its text are what they are with memory. The text that was written last is lent until
 * another one is written, whatever passes. */
#include "ends.h"
#include "memory.h"

#include <stdio.h>
#include <string.h>

/* A packet of a side. */
struct packet {
    uint32_t side;
    uint8_t length;
    uint8_t octets[32];
};

/* Left opens a connection, sends data in one part and in two, and right sends data without the token. */
static const struct packet packets[] = {
    {OSI_LEFT, 14, {3, 0, 0, 14, 9, 0xE0, 0, 0, 0, 1, 0, 0xC0, 1, 10}},
    {OSI_RIGHT, 14, {3, 0, 0, 14, 9, 0xD0, 0, 1, 0, 2, 0, 0xC0, 1, 10}},
    {OSI_LEFT, 27, {3, 0, 0, 27, 2, 0xF0, 0x80, 13, 18, 5, 12, 19, 1, 1, 22, 1, 2, 23, 1, '1', 26, 1, 0, 20, 2, 0, 0xB9}},
    {OSI_RIGHT, 27, {3, 0, 0, 27, 2, 0xF0, 0x80, 14, 18, 5, 12, 19, 1, 1, 22, 1, 2, 23, 1, '1', 26, 1, 0, 20, 2, 0, 0xB9}},
    {OSI_LEFT, 19, {3, 0, 0, 19, 2, 0xF0, 0x80, 1, 0, 1, 0, 'r', 'e', 'c', 'o', 'r', 'd', ' ', '1'}},
    {OSI_LEFT, 15, {3, 0, 0, 15, 2, 0xF0, 0, 1, 0, 1, 0, 'r', 'e', 'c', 'o'}},
    {OSI_LEFT, 11, {3, 0, 0, 11, 2, 0xF0, 0x80, 'r', 'd', ' ', '2'}},
    {OSI_RIGHT, 19, {3, 0, 0, 19, 2, 0xF0, 0x80, 1, 0, 1, 0, 'r', 'e', 'c', 'o', 'r', 'd', ' ', '3'}},
};
#define PACKETS (sizeof packets / sizeof packets[0])
#define PIECE 6u
/* More than a growth or two have room for. */
#define CONNECTIONS 100

static osi_judge judge;
static struct text told, ample, written;
static uint64_t fed_again, told_again;

static void add(struct text *text, const void *at, size_t length)
{
    text_grow(text, length + 1);
    memcpy(text->at + text->length, at, length);
    text->length += length;
    text->at[text->length] = 0;
}

/* The text that was written last is still lent. */
static void check_text(const char *when)
{
    osi_octets text;
    osi_judge_text(&judge, &text);
    holds(text.length == written.length && memcmp(text.at, written.at, text.length) == 0, "%s another text is lent than was written", when);
}

/* Feeds a piece. If memory runs out, what has not passed is fed again. */
static void feeds(uint32_t side, const uint8_t *octets, size_t length)
{
    size_t used;
    memory_in();
    uint32_t code = osi_judge_feed(&judge, side, octets, length, &used);
    memory_out();
    if (code == OSI_NO_MEMORY) {
        fed_again += 1;
        holds(memory_refused && used < length, "%zu of %zu octets passed when memory ran out", used, length);
        check_text("when memory ran out");
        octets += used;
        length -= used;
        memory_in();
        code = osi_judge_feed(&judge, side, octets, length, &used);
        memory_out();
    }
    holds(code == OSI_OK && used == length, "a piece does not pass: %u", code);
}

/* What is certain is told. If memory runs out, the same is told by the next call. */
static void tells(void)
{
    osi_verdict v;
    uint32_t code;
    do {
        memory_in();
        code = osi_judge_next(&judge, &v);
        memory_out();
        if (code == OSI_NO_MEMORY) {
            told_again += 1;
            holds(memory_refused, "no growth was refused");
            check_text("when memory ran out for a verdict");
        }
        if (code == OSI_OK)
            text_put(&told, "%u: %u %u %u %u %llu %llu %u %u\n", v.side, v.kind, v.by, v.rule, v.said, (unsigned long long)v.offset,
                     (unsigned long long)v.connection, v.left, v.right);
    } while (code == OSI_OK || code == OSI_NO_MEMORY);
    holds(code == OSI_NOTHING, "no verdict is told: %u", code);
}

static void writes(void)
{
    osi_octets text;
    memory_in();
    uint32_t code = osi_judge_write(&judge);
    memory_out();
    if (code == OSI_NO_MEMORY) {
        holds(memory_refused, "no growth was refused");
        check_text("after a text found no memory");
        memory_in();
        code = osi_judge_write(&judge);
        memory_out();
    }
    holds(code == OSI_OK, "no text is written: %u", code);
    osi_judge_text(&judge, &text);
    text_clear(&written);
    add(&written, text.at, text.length);
    add(&told, text.at, text.length);
}

/* Plays the capture with one growth refused. Returns whether one was. */
static bool play(uint64_t refuse)
{
    const int64_t before = memory_held();
    text_clear(&place);
    text_put(&place, "growth %llu", (unsigned long long)refuse);
    text_clear(&told);
    text_clear(&written);
    judge = (osi_judge)OSI_JUDGE;
    memory_begin(refuse);
    memory_in();
    uint32_t code = osi_judge_new(&judge);
    if (code == OSI_NO_MEMORY)
        code = osi_judge_new(&judge);
    memory_out();
    holds(code == OSI_OK, "no judge: %u", code);
    for (size_t i = 0; i < PACKETS; i++) {
        for (size_t at = 0; at < packets[i].length; at += PIECE) {
            size_t left = packets[i].length - at;
            feeds(packets[i].side, packets[i].octets + at, left < PIECE ? left : PIECE);
            check_text("after a piece");
            tells();
        }
        writes();
    }
    memory_in();
    osi_judge_free(&judge);
    memory_out();
    holds(memory_held() == before, "%lld growths were not given back", (long long)(memory_held() - before));
    if (refuse > 0)
        holds(strcmp(told.at, ample.at) == 0, "another judgement: %s", told.at);
    runs += 1;
    return memory_refused;
}

/* ---- many verdicts */

static void feeds_packet(uint32_t side, const uint8_t *octets, size_t length)
{
    size_t used;
    holds(osi_judge_feed(&judge, side, octets, length, &used) == OSI_OK && used == length, "a packet does not pass");
}

/* Left opens a connection of class 2, and sends a TSDU that is no session unit. */
static void breaks_on(uint16_t reference)
{
    const uint8_t high = (uint8_t)(reference >> 8), low = (uint8_t)reference;
    const uint8_t cr[] = {3, 0, 0, 14, 9, 0xEF, 0, 0, high, low, 0x20, 0xC0, 1, 10};
    const uint8_t cc[] = {3, 0, 0, 14, 9, 0xDF, high, low, high, low, 0x20, 0xC0, 1, 10};
    const uint8_t dt[] = {3, 0, 0, 11, 4, 0xF0, high, low, 0x80, 0xFF, 0};
    feeds_packet(OSI_LEFT, cr, sizeof cr);
    feeds_packet(OSI_RIGHT, cc, sizeof cc);
    feeds_packet(OSI_LEFT, dt, sizeof dt);
}

static void many_verdicts_wait(void)
{
    bool told_of[CONNECTIONS] = {false};
    osi_verdict v;
    text_clear(&place);
    text_put(&place, "%d connections", CONNECTIONS);
    judge = (osi_judge)OSI_JUDGE;
    holds(osi_judge_new(&judge) == OSI_OK, "no judge");
    for (uint16_t reference = 1; reference <= CONNECTIONS; reference++)
        breaks_on(reference);
    for (int i = 0; i < CONNECTIONS; i++) {
        uint32_t code = osi_judge_next(&judge, &v);
        holds(code == OSI_OK && v.kind == OSI_VERDICT_BROKE && v.side == OSI_LEFT, "verdict %d: %u, kind %u", i, code, v.kind);
        holds(v.connection < CONNECTIONS && !told_of[v.connection], "verdict %d is of connection %llu", i, (unsigned long long)v.connection);
        told_of[v.connection] = true;
    }
    holds(osi_judge_next(&judge, &v) == OSI_NOTHING, "more verdicts than breaks");
    osi_judge_free(&judge);
    runs += 1;
}

int main(void)
{
    play(0);
    holds(strstr(told.at, "right broke the protocol first") != NULL, "another judgement than is wanted: %s", told.at);
    const uint64_t growths = memory_growths;
    add(&ample, told.at, told.length);
    for (uint64_t refuse = 1; play(refuse); refuse++)
        ;
    holds(fed_again > 0, "no piece was fed again");
    holds(told_again > 0, "no verdict was asked for again");
    many_verdicts_wait();
    printf("judged: %llu growths of a judge refused in turn, %llu of them in a piece and %llu for a verdict\n", (unsigned long long)growths,
           (unsigned long long)fed_again, (unsigned long long)told_again);
    return counts("judged");
}
