/* Traces while memory runs out, and of a peer that begins many TSDUs and ends none. Each allocation that only a trace makes is
 * refused in turn: the end sends the same octets as with memory, the lines are a prefix of those with memory, and the trace says
 * once that it has stopped. */
#include "ends.h"
#include "memory.h"

#include <stdio.h>
#include <string.h>

#define MESSAGES 12

static osi_end caller, called;
static uint16_t connection;
static struct text sent, lines, all_sent, all_lines;
static unsigned stops;

static void on_line(void *context, uint32_t direction, const char *text, size_t length)
{
    (void)context;
    if (text == NULL)
        stops += 1;
    else
        text_put(&lines, "%u %.*s\n", direction, (int)length, text);
}

/* Carries all that an end has to send. Only a trace allocates in osi_taken. */
static void carry(osi_end *from, osi_end *to)
{
    static uint8_t piece[65536];
    osi_octets octets;
    osi_indication shown;
    osi_outgoing(from, &octets);
    const size_t length = octets.length;
    holds(length <= sizeof piece, "%zu octets are too many for a trial", length);
    memcpy(piece, octets.at, length);
    if (from == &caller)
        text_octets(&sent, piece, length);
    memory_in();
    holds(osi_taken(from, length) == OSI_OK, "octets are not taken");
    memory_out();
    for (size_t used = 0; used < length;) {
        osi_fed fed;
        holds(osi_feed(to, piece + used, length - used, &fed) == OSI_OK, "octets are not fed");
        used += fed.used;
        while (osi_next(to, &shown))
            if (shown.tag == OSI_CONNECT)
                holds(osi_accept(to, shown.reference, OSI_HALF_DUPLEX, 0, &(osi_sides){0, 0, 0, 0}, OSI_NO_DATA) == OSI_OK, "not accepted");
    }
    osi_trace_each(&caller, on_line, NULL);
}

/* A connection with messages of several units, whose caller is traced, with one growth refused. */
static bool play(uint64_t refuse)
{
    static const uint8_t message[1000];
    static const osi_terms terms = {OSI_CLASS_2, 9, 15};
    const osi_opening opening = OSI_OPENING;
    text_clear(&sent);
    text_clear(&lines);
    stops = 0;
    memory_begin(refuse);
    caller = called = (osi_end)OSI_END;
    holds(osi_caller(&caller, &terms) == OSI_OK && osi_called(&called, &terms) == OSI_OK, "no ends");
    holds(osi_trace(&caller, OSI_TRACE_LINES) == OSI_OK, "no trace");
    holds(osi_connect(&caller, &opening, &connection) == OSI_OK, "no connection");
    for (int turn = 0; turn < 3; turn++) {
        carry(&caller, &called);
        carry(&called, &caller);
    }
    for (int i = 0; i < MESSAGES; i++) {
        holds(osi_data(&caller, connection, message, sizeof message) == OSI_OK, "no data");
        carry(&caller, &called);
        carry(&called, &caller);
    }
    osi_free(&caller);
    osi_free(&called);
    return memory_refused;
}

static void each_growth(void)
{
    play(0);
    holds(stops == 0 && lines.length > 1000, "a trace with memory stops after %s", lines.at);
    const uint64_t growths = memory_growths;
    all_sent = sent;
    all_lines = lines;
    sent = lines = (struct text){NULL, 0, 0};
    for (uint64_t refuse = 1; play(refuse); refuse++) {
        runs += 1;
        holds(strcmp(sent.at, all_sent.at) == 0, "growth %llu: the end sends other octets", (unsigned long long)refuse);
        holds(stops == 1, "growth %llu: the trace says %u times that it has stopped", (unsigned long long)refuse, stops);
    }
    runs += 1;
    printf("traces: %llu growths of a trace refused in turn\n", (unsigned long long)growths);
}

/* The lines of one direction with a growth refused are a prefix of those of the same direction with memory. */
static void prefixes(void)
{
    static struct text of[2], with[2];
    for (uint64_t refuse = 1; play(refuse); refuse++) {
        for (unsigned direction = 0; direction < 2; direction++) {
            const char sign = (char)('0' + direction);
            text_clear(&of[direction]);
            text_clear(&with[direction]);
            for (const char *at = lines.at; *at != 0; at = strchr(at, '\n') + 1)
                if (*at == sign)
                    text_put(&of[direction], "%.*s", (int)(strchr(at, '\n') - at), at);
            for (const char *at = all_lines.at; *at != 0; at = strchr(at, '\n') + 1)
                if (*at == sign)
                    text_put(&with[direction], "%.*s", (int)(strchr(at, '\n') - at), at);
            holds(of[direction].length == 0 || strncmp(of[direction].at, with[direction].at, of[direction].length) == 0,
                  "growth %llu: other lines", (unsigned long long)refuse);
        }
        runs += 1;
    }
}

/* A peer of class 2 begins a TSDU for each of so many DST-REFs, and ends it at once or never. Returns the code of a fetch. */
static uint32_t begins(unsigned streams, bool end_it, uint32_t what, uint32_t *again)
{
    uint8_t packet[] = {3, 0, 0, 11, 4, 0xF0, 0, 0, end_it ? 0x80 : 0, 0x41, 0x42};
    osi_end end = OSI_END;
    osi_fed fed;
    const int64_t before = memory_held();
    runs += 1;
    memory_begin(0);
    memory_in();
    holds(osi_called(&end, &(osi_terms){OSI_CLASS_2, 13, 15}) == OSI_OK && osi_trace(&end, what) == OSI_OK, "no end");
    for (unsigned reference = 1; reference <= streams; reference++) {
        packet[6] = (uint8_t)(reference >> 8);
        packet[7] = (uint8_t)reference;
        holds(osi_feed(&end, packet, sizeof packet, &fed) == OSI_OK && fed.used == sizeof packet, "not fed");
    }
    uint32_t code = osi_trace_fetch(&end, OSI_RECEIVED);
    if (code == OSI_OK)
        code = osi_trace_fetch(&end, OSI_RECEIVED);
    *again = osi_trace_fetch(&end, OSI_RECEIVED);
    osi_free(&end);
    memory_out();
    holds(memory_held() == before, "%lld allocations are left", (long long)(memory_held() - before));
    return code;
}

static void many_streams(void)
{
    for (uint32_t what = OSI_TRACE_COUNTS; what <= OSI_TRACE_LINES; what++) {
        uint32_t again;
        holds(begins(64, false, what, &again) == OSI_NOTHING && again == OSI_NOTHING, "64 streams stop a trace");
        holds(begins(65, false, what, &again) == OSI_NO_MEMORY && again == OSI_NOTHING, "65 streams don't stop a trace, once");
        holds(begins(1000, false, what, &again) == OSI_NO_MEMORY && again == OSI_NOTHING, "1000 streams don't stop a trace, once");
        holds(begins(1000, true, what, &again) == OSI_NOTHING && again == OSI_NOTHING, "1000 streams with whole TSDUs stop a trace");
    }
}

int main(void)
{
    each_growth();
    prefixes();
    many_streams();
    return counts("traces");
}
