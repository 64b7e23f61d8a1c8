/*
 * An association between two programs, without a socket: both ends are here. The program carries the octets of each to the
 * other, and writes them to two files as hexadecimal, LEFT.hex and RIGHT.hex.
 *
 *     cc -std=c99 $(pkg-config --cflags osi-session) association.c $(pkg-config --libs osi-session) -o association
 *     ./association whole PPDUS LEFT.hex RIGHT.hex
 *
 * PPDUS is the folder with cp.hex and the others. The first word says what happens:
 *
 *     whole     an association is opened, data goes both ways, and it is released
 *     selector  the called user does not know the session selector, and refuses
 *     class     the caller offers class 2 alone, which the called end does not have
 *     abort     the called user aborts instead of answering
 */
#include <ctype.h>
#include <osi.h>
#include <stdio.h>
#include <stdlib.h>
#include <string.h>

enum { LONGEST = 10240 };

static const char *happens, *folder;

/* The octets of a file of hexadecimal digits; '#' begins a comment. */
static osi_octets read_ppdu(const char *name, uint8_t octets[LONGEST])
{
    char path[512];
    size_t digits = 0;
    int c;
    snprintf(path, sizeof path, "%s/%s.hex", folder, name);
    FILE *file = fopen(path, "r");
    if (file == NULL) {
        perror(path);
        exit(2);
    }
    memset(octets, 0, LONGEST);
    while ((c = getc(file)) != EOF) {
        if (c == '#')
            while ((c = getc(file)) != EOF && c != '\n')
                continue;
        if (isxdigit(c) && digits < 2 * LONGEST) {
            const int digit = isdigit(c) ? c - '0' : tolower(c) - 'a' + 10;
            octets[digits / 2] |= (uint8_t)(digits % 2 == 0 ? digit << 4 : digit);
            digits++;
        }
    }
    fclose(file);
    return (osi_octets){octets, digits / 2};
}

/* A call that has to succeed here, because the tables allow it in this state. */
static void done(uint32_t code)
{
    if (code == OSI_OK)
        return;
    fprintf(stderr, "refused: %s\n", osi_code_name(code));
    exit(1);
}

/* The called user's answer to a CN: it tests the called session selector. */
static void answer(osi_end *end, uint16_t reference)
{
    uint8_t octets[LONGEST];
    const osi_octets cpa = read_ppdu("cpa", octets);
    const osi_sides sides = {OSI_ASKER, OSI_ASKER, OSI_ASKER, OSI_ASKER};
    osi_addressing addresses;
    osi_addresses(end, reference, &addresses);
    const osi_selector *asked = &addresses.called_selector;
    if (asked->length == 2 && memcmp(asked->octets, "\x00\x01", 2) == 0)
        done(osi_accept(end, reference, OSI_DUPLEX, 0, &sides, cpa.at, cpa.length));
    else
        done(osi_refuse(end, reference, OSI_NO_DATA));
}

/* What a user does with an indication. */
static void show(const char *side, osi_end *end, const osi_indication *shown)
{
    uint8_t octets[LONGEST];
    osi_octets ppdu;
    printf("%-5s %s", side, osi_indication_name(shown->tag));
    if (shown->user_data.length > 0)
        printf(", %zu octets", shown->user_data.length);
    if (shown->tag == OSI_REFUSED_BY_TRANSPORT || shown->tag == OSI_REFUSED_BY_SESSION)
        printf(", reason %u", (unsigned)shown->reason);
    printf("\n");
    switch (shown->tag) {
    case OSI_CONNECT:
        answer(end, shown->reference);
        break;
    case OSI_CONNECTED:
        ppdu = read_ppdu("request", octets);
        done(osi_data(end, shown->reference, ppdu.at, ppdu.length));
        break;
    case OSI_DATA:
        if (strcmp(side, "left") == 0) {
            ppdu = read_ppdu("rlrq", octets);
            done(osi_release(end, shown->reference, ppdu.at, ppdu.length));
        } else if (strcmp(happens, "abort") == 0) {
            ppdu = read_ppdu("abrt", octets);
            done(osi_abort(end, shown->reference, ppdu.at, ppdu.length));
        } else {
            ppdu = read_ppdu("answer", octets);
            done(osi_data(end, shown->reference, ppdu.at, ppdu.length));
        }
        break;
    case OSI_RELEASE:
        ppdu = read_ppdu("rlre", octets);
        done(osi_release_accept(end, shown->reference, ppdu.at, ppdu.length));
        break;
    }
}

/* Carries the outgoing octets of one end to the other, and writes them to a file. Answers whether there were any. */
static bool carry(osi_end *from, const char *to_side, osi_end *to, FILE *capture)
{
    uint8_t piece[16384];
    osi_octets lent;
    osi_outgoing(from, &lent);
    const size_t length = lent.length < sizeof piece ? lent.length : sizeof piece;
    if (length == 0)
        return false;
    memcpy(piece, lent.at, length);
    osi_taken(from, length);
    for (size_t i = 0; i < length; i++)
        fprintf(capture, "%02x%s", piece[i], i + 1 == length || i % 24 == 23 ? "\n" : " ");
    for (size_t used = 0; used < length;) {
        osi_fed fed;
        osi_indication shown;
        osi_feed(to, piece + used, length - used, &fed);
        used += fed.used;
        while (osi_next(to, &shown))
            show(to_side, to, &shown);
    }
    return true;
}

int main(int argc, char **argv)
{
    if (argc != 5) {
        fprintf(stderr, "association: whole|selector|class|abort PPDUS LEFT.hex RIGHT.hex\n");
        return 2;
    }
    happens = argv[1], folder = argv[2];
    FILE *left = fopen(argv[3], "w"), *right = fopen(argv[4], "w");
    if (left == NULL || right == NULL) {
        perror("association");
        return 2;
    }

    uint8_t octets[LONGEST];
    uint16_t connection;
    osi_end caller = OSI_END, called = OSI_END;
    const osi_terms offered = {strcmp(happens, "class") == 0 ? OSI_CLASS_2 : OSI_CLASS_0, 13, 15};
    const osi_terms supported = {OSI_CLASS_0, 13, 15};
    const uint8_t *selector = (const uint8_t *)(strcmp(happens, "selector") == 0 ? "\x00\x09" : "\x00\x01");

    osi_opening asked = OSI_OPENING;
    asked.requirements = OSI_DUPLEX;
    asked.called_tsap = (osi_octets){(const uint8_t *)"\x00\x01", 2};
    asked.called_selector = (osi_octets){selector, 2};
    asked.user_data = read_ppdu("cp", octets);
    if (osi_caller(&caller, &offered) != OSI_OK || osi_called(&called, &supported) != OSI_OK ||
        osi_connect(&caller, &asked, &connection) != OSI_OK)
        return 1;
    bool moved = true;
    while (moved) {
        moved = carry(&caller, "right", &called, left);
        moved = carry(&called, "left", &caller, right) || moved;
    }
    osi_free(&caller);
    osi_free(&called);
    return fclose(left) == 0 && fclose(right) == 0 ? 0 : 1;
}
