/* Long TSDUs before a judge, in parts of any length. Of a TSDU that is not finished a judge holds what its parts hold and an eighth of
 * that at most beside; once the TSDU has ended, its room is given back. Also what passes with ample memory: a packet that is cut
 * anywhere, a piece with several packets and more than 64 KiB, a packet of many units, and many connections in turn. */
#include "hostile.h"
#include "memory.h"

#include <stdio.h>
#include <stdlib.h>
#include <string.h>

/* The longest TSDU, the longest packet, and what a judge may hold beside an unfinished TSDU: a packet of each side, whose buffer may
 * have doubled, and all else. */
#define LONGEST 1048576u
#define PACKET 65535u
#define BESIDE (4 * PACKET + 65536u)

static const uint8_t cr_0[] = {3, 0, 0, 11, 6, 0xE0, 0, 0, 0, 1, 0}, cc_0[] = {3, 0, 0, 11, 6, 0xD0, 0, 1, 0, 1, 0};
static const uint8_t cr_2[] = {3, 0, 0, 11, 6, 0xEF, 0, 0, 0, 1, 0x20}, cc_2[] = {3, 0, 0, 11, 6, 0xDF, 0, 1, 0, 2, 0x20};
static const uint8_t dr_2[] = {3, 0, 0, 11, 6, 0x80, 0, 2, 0, 1, 0x80}, dc_2[] = {3, 0, 0, 10, 5, 0xC0, 0, 1, 0, 2};
static const uint8_t cn[] = {3, 0, 0, 0x15, 2, 0xF0, 0x80, 0x0D, 0x0C, 5, 6, 0x13, 1, 1, 0x16, 1, 2, 0x14, 2, 0, 2};
static const uint8_t ac[] = {3, 0, 0, 0x15, 2, 0xF0, 0x80, 0x0E, 0x0C, 5, 6, 0x13, 1, 1, 0x16, 1, 2, 0x14, 2, 0, 2};

static osi_judge judge;
static uint8_t packet[3 * PACKET];
static size_t most_beside;

static void feeds(uint32_t side, const uint8_t *octets, size_t length)
{
    size_t used;
    memory_in();
    uint32_t code = osi_judge_feed(&judge, side, octets, length, &used);
    memory_out();
    holds(code == OSI_OK && used == length, "%zu of %zu octets pass: %u", used, length, code);
}

static void begins(const uint8_t *cr, const uint8_t *cc)
{
    judge = (osi_judge)OSI_JUDGE;
    memory_in();
    uint32_t code = osi_judge_new(&judge);
    memory_out();
    holds(code == OSI_OK, "no judge: %u", code);
    feeds(OSI_LEFT, cr, 11);
    feeds(OSI_RIGHT, cc, 11);
}

static void opens(void)
{
    begins(cr_0, cc_0);
    feeds(OSI_LEFT, cn, sizeof cn);
    feeds(OSI_RIGHT, ac, sizeof ac);
}

/* The session of left keeps the protocol, and all of it is judged. */
static void ends_kept(void)
{
    osi_verdict v;
    memory_in();
    uint32_t code = osi_judge_next(&judge, &v);
    holds(code == OSI_NOTHING, "a verdict on what is right: %u, kind %u", code, v.kind);
    code = osi_judge_verdict(&judge, 0, OSI_LEFT, &v);
    holds(code == OSI_OK && v.kind == OSI_VERDICT_KEPT, "another verdict: %u, kind %u", code, v.kind);
    osi_judge_free(&judge);
    memory_out();
    runs += 1;
}

static const uint8_t data_begins[] = {1, 0, 1, 0};

/* Writes a DT of class 0 with so many octets of a TSDU with data, from the first, the second and so on. */
static size_t dt(uint8_t *at, bool last, size_t from, size_t data)
{
    const size_t length = 7 + data;
    const uint8_t header[] = {3, 0, (uint8_t)(length >> 8), (uint8_t)length, 2, 0xF0, last ? 0x80 : 0};
    memcpy(at, header, sizeof header);
    memset(at + sizeof header, 0x41, data);
    for (size_t i = from; i < sizeof data_begins && i < from + data; ++i)
        at[sizeof header + i - from] = data_begins[i];
    return length;
}

/* What is held while a TSDU of so many parts is not finished. */
static void is_held(size_t kept, size_t before, const char *when)
{
    const size_t octets = memory_octets(), most = before + kept + kept / 8 + BESIDE;
    holds(octets <= most, "%s %zu octets of a TSDU are kept in %zu, where %zu were before", when, kept, octets, before);
    if (octets > before + kept && octets - before - kept > most_beside)
        most_beside = octets - before - kept;
}

/* Parts of this length, as many as a TSDU holds; then the TSDU ends, and a short one follows. */
static void in_parts(size_t part)
{
    text_clear(&place);
    text_put(&place, "parts of %zu octets", part);
    opens();
    const size_t before = memory_octets();
    size_t kept = 0;
    for (; kept + 2 * part <= LONGEST; kept += part) {
        feeds(OSI_LEFT, packet, dt(packet, false, kept, part));
        is_held(kept + part, before, "unfinished,");
    }
    feeds(OSI_LEFT, packet, dt(packet, true, kept, part));
    is_held(0, before, "ended,");
    feeds(OSI_LEFT, packet, dt(packet, true, 0, 8));
    ends_kept();
}

/* ---- ample memory */

/* Three packets with one TSDU of more than 128 KiB: in one piece, and cut at each of these places. */
static void in_pieces(void)
{
    static const size_t cuts[] = {1, 32767, 32768, 32769, 40000, 65535, 65536, 65540, 131070, 131071};
    text_clear(&place);
    text_put(&place, "a long TSDU in pieces");
    opens();
    size_t length = dt(packet, false, 0, PACKET - 7);
    length += dt(packet + length, false, PACKET - 7, PACKET - 7);
    length += dt(packet + length, true, 2 * (PACKET - 7), 1000);
    feeds(OSI_LEFT, packet, length);
    for (size_t i = 0; i < sizeof cuts / sizeof cuts[0]; i++) {
        feeds(OSI_LEFT, packet, cuts[i]);
        feeds(OSI_LEFT, packet + cuts[i], length - cuts[i]);
    }
    ends_kept();
}

/* One packet with 10,000 AKs, each the same as the one before. */
static void many_units(void)
{
    static const uint8_t ak[] = {4, 0x6F, 0, 1, 0};
    const size_t count = 10000, length = 4 + count * sizeof ak;
    text_clear(&place);
    text_put(&place, "%zu units in a packet", count);
    begins(cr_2, cc_2);
    const uint8_t header[] = {3, 0, (uint8_t)(length >> 8), (uint8_t)length};
    memcpy(packet, header, sizeof header);
    for (size_t i = 0; i < count; i++)
        memcpy(packet + 4 + i * sizeof ak, ak, sizeof ak);
    feeds(OSI_RIGHT, packet, length);
    ends_kept();
}

/* Connections in turn: the 257th and those after it are judged as the first is. */
static void in_turn(void)
{
    osi_verdict v;
    const uint8_t no_unit[] = {3, 0, 0, 11, 4, 0xF0, 0, 2, 0x80, 0xFF, 0};
    text_clear(&place);
    text_put(&place, "300 connections in turn");
    begins(cr_2, cc_2);
    for (int i = 1; i < 300; i++) {
        feeds(OSI_LEFT, dr_2, sizeof dr_2);
        feeds(OSI_RIGHT, dc_2, sizeof dc_2);
        feeds(OSI_LEFT, cr_2, sizeof cr_2);
        feeds(OSI_RIGHT, cc_2, sizeof cc_2);
    }
    feeds(OSI_LEFT, no_unit, sizeof no_unit);
    memory_in();
    uint32_t code = osi_judge_next(&judge, &v);
    holds(code == OSI_OK && v.kind == OSI_VERDICT_BROKE && v.connection == 299 && v.side == OSI_LEFT, "the last connection is not judged: %u, %u",
          code, v.kind);
    memory_out();
    ends_kept();
}

int main(void)
{
    static const size_t parts[] = {1, 7, 100, 1000, 4096, 4097, 16384, 65000, PACKET - 7};
    const int64_t held = memory_held();
    for (size_t i = 0; i < sizeof parts / sizeof parts[0]; i++)
        in_parts(parts[i]);
    in_pieces();
    many_units();
    in_turn();
    holds(memory_held() == held, "%lld growths were not given back", (long long)(memory_held() - held));
    printf("parts: beside an unfinished TSDU at most %zu octets are held\n", most_beside);
    return counts("parts");
}
