/*
 * Two ends in one program, which carries the octets of each to the other, as sockets would.
 *
 *     cc -std=c99 $(pkg-config --cflags osi-session) hello.c $(pkg-config --libs osi-session) -o hello
 */
#include <osi.h>
#include <stdio.h>

/* Prints each indication; the called user answers. */
static void show(osi_end *end, const osi_indication *shown)
{
    const int length = (int)shown->user_data.length;
    const char *text = (const char *)shown->user_data.at;
    switch (shown->tag) {
    case OSI_CONNECT:
        printf("a connection is asked for: %.*s\n", length, text);
        const osi_sides sides = {OSI_ASKER, OSI_ASKER, OSI_ASKER, OSI_ASKER};
        if (osi_accept(end, shown->reference, OSI_HALF_DUPLEX, 0, &sides, (const uint8_t *)"a gateway", 9) != OSI_OK)
            printf("not accepted\n");
        break;
    case OSI_CONNECTED:
        printf("connected: %.*s\n", length, text);
        break;
    case OSI_DATA:
        printf("data: %.*s\n", length, text);
        break;
    default:
        printf("indication %u\n", (unsigned)shown->tag);
    }
}

/* Carries the outgoing octets of one end to the other. */
static void carry(osi_end *from, osi_end *to)
{
    uint8_t piece[4096];
    osi_octets lent;
    osi_outgoing(from, &lent);
    const size_t length = lent.length < sizeof piece ? lent.length : sizeof piece;
    for (size_t i = 0; i < length; i++)
        piece[i] = lent.at[i];
    osi_taken(from, length);
    for (size_t used = 0; used < length;) {
        osi_fed fed;
        osi_indication shown;
        osi_feed(to, piece + used, length - used, &fed);
        used += fed.used;
        while (osi_next(to, &shown))
            show(to, &shown);
    }
}

int main(void)
{
    osi_end caller = OSI_END, called = OSI_END;
    const osi_terms terms = {OSI_CLASS_0, 13, 15};
    osi_opening asked = OSI_OPENING;
    uint16_t connection;
    asked.user_data.at = (const uint8_t *)"who is there?";
    asked.user_data.length = 13;
    if (osi_caller(&caller, &terms) != OSI_OK || osi_called(&called, &terms) != OSI_OK ||
        osi_connect(&caller, &asked, &connection) != OSI_OK)
        return 1;
    for (int turn = 0; turn < 2; turn++) {
        carry(&caller, &called);
        carry(&called, &caller);
    }
    if (osi_data(&caller, connection, (const uint8_t *)"hello", 5) != OSI_OK)
        return 1;
    carry(&caller, &called);
    osi_free(&caller);
    osi_free(&called);
    return 0;
}
