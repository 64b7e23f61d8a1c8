/* One end over a TCP socket. It reads and writes octets in whatever pieces the socket gives and takes, and passes each
 * indication to the user of the program. It never blocks, whether the peer reads or writes. */
#define _POSIX_C_SOURCE 200809L
#include "gateway.h"

#include <errno.h>
#include <poll.h>
#include <stdlib.h>
#include <string.h>
#include <sys/socket.h>
#include <time.h>
#include <unistd.h>

const char *option(int count, char **words, const char *name, const char *otherwise)
{
    for (int i = 1; i + 1 < count; i++)
        if (strcmp(words[i], name) == 0)
            return words[i + 1];
    return otherwise;
}

const char *code_name(uint32_t code)
{
    static const char *const refusals[] = {
        "NoSuchConnection", "Ended",         "BadState",       "NotSelected",   "TokenNotHeld",
        "TokenAlreadyHeld", "BadNumber",     "SerialsUsedUp",  "Empty",         "TooLong",
        "NotCaller",        "Negotiating",   "OneConnection",  "TooMany",       "ReferencesUsedUp",
    };
    if (code >= OSI_NO_SUCH_CONNECTION && code <= OSI_REFERENCES_USED_UP)
        return refusals[code - OSI_NO_SUCH_CONNECTION];
    return code == OSI_NO_MEMORY ? "OutOfMemory" : code == OSI_SLOT_EMPTY ? "Closed" : "BadArgument";
}

static void write_octets(FILE *file, const uint8_t *at, size_t length)
{
    static const char digits[] = "0123456789abcdef";
    for (size_t i = 0; i < length; i++) {
        putc(digits[at[i] >> 4], file);
        putc(digits[at[i] & 15], file);
    }
}

/* ---- the log, in the words of a transcript (docs/TOOL.md) */

static void write_data(FILE *log, const char *word, osi_octets data)
{
    fprintf(log, "%s ", word);
    if (data.length == 0)
        putc('-', log);
    write_octets(log, data.at, data.length);
}

static void write_sides(FILE *log, osi_sides s)
{
    static const char letters[] = "arc";
    fprintf(log, " sides %c%c%c%c", letters[s.data], letters[s.minor], letters[s.major], letters[s.release]);
}

static bool is_one_of(const osi_indication *i, uint32_t first, uint32_t second)
{
    return i->tag == first || i->tag == second;
}

/* The words between the name of an indication and its user data. */
static void write_fields(FILE *log, const osi_indication *i)
{
    static const char *const faults[] = {"",          "Spelling",  "Unexpected",   "NotSelected", "TokenHeld",
                                         "BadNumber", "BadTokens", "BadEnclosure", "DataTooLong"};
    if (is_one_of(i, OSI_CONNECT, OSI_CONNECTED))
        fprintf(log, i->has_number ? " units %04x serial %u" : " units %04x serial -", i->requirements, i->number);
    if (is_one_of(i, OSI_REFUSED_BY_TRANSPORT, OSI_REFUSED_BY_SESSION))
        fprintf(log, " %u", i->reason);
    if (is_one_of(i, OSI_GIVEN, OSI_ASKED))
        fprintf(log, " %02x", i->tokens);
    if (is_one_of(i, OSI_MINOR, OSI_MINOR_CONFIRMED) || is_one_of(i, OSI_RESTART, OSI_RESTARTED) || i->tag == OSI_MAJOR)
        fprintf(log, " %u", i->number);
    if (i->tag == OSI_MINOR)
        fputs(i->confirm ? " confirm yes" : " confirm no", log);
    if (is_one_of(i, OSI_CONNECT, OSI_CONNECTED) || is_one_of(i, OSI_RESTART, OSI_RESTARTED))
        write_sides(log, i->sides);
    if (i->tag == OSI_PEER_ABORT)
        fprintf(log, " %02x", i->reason);
    if (i->tag == OSI_BAD_UNIT)
        fprintf(log, " %s", faults[i->fault.fault]);
}

static void write_shown(FILE *log, const osi_indication *i)
{
    static const char *const names[] = {
        "",      "Connect",        "Connected", "Refused transport", "Refused session", "Data",     "Given",
        "Asked", "Minor",          "MinorConfirmed", "Major",        "MajorConfirmed",  "Restart",  "Restarted",
        "Release", "Released",     "ReleaseRefused", "Aborted",      "ProviderAbort Lost",
        "ProviderAbort Peer", "ProviderAbort Unit",
    };
    fputs(names[i->tag], log);
    write_fields(log, i);
    if (i->tag == OSI_DATA)
        write_data(log, "", i->user_data);
    else if (i->tag < OSI_LOST && !is_one_of(i, OSI_REFUSED_BY_TRANSPORT, OSI_GIVEN))
        write_data(log, " data", i->user_data);
    if (is_one_of(i, OSI_CONNECT, OSI_CONNECTED) && (i->size_from_asker != 0 || i->size_from_answerer != 0))
        fprintf(log, " tsdu %u %u", i->size_from_asker, i->size_from_answerer);
    putc('\n', log);
}

bool gateway_did(struct gateway *g, unsigned reference, const char *call, uint32_t code)
{
    if (g->log != NULL && code == OSI_OK)
        fprintf(g->log, "%s %u %s ok\n", g->side, reference, call);
    else if (g->log != NULL)
        fprintf(g->log, "%s %u %s refused %s\n", g->side, reference, call, code_name(code));
    return code == OSI_OK;
}

/* ---- the socket */

static long long now_in_milliseconds(void)
{
    struct timespec now;
    clock_gettime(CLOCK_MONOTONIC, &now);
    return (long long)now.tv_sec * 1000 + now.tv_nsec / 1000000;
}

static size_t outgoing_length(struct gateway *g)
{
    osi_octets octets;
    osi_outgoing(&g->end, &octets);
    return octets.length;
}

bool gateway_may_send(struct gateway *g)
{
    return outgoing_length(g) < MOST_WAITING && osi_backlog(&g->end) == 0;
}

bool gateway_may_answer(struct gateway *g, uint16_t reference)
{
    if (osi_unsent(&g->end, reference) <= MOST_UNSENT)
        return true;
    gateway_did(g, reference, "disconnect", osi_disconnect(&g->end, reference));
    return false;
}

static void write_line(void *file, uint32_t direction, const char *text, size_t length)
{
    const char sign = direction == OSI_SENT ? '>' : '<';
    if (text != NULL)
        fprintf(file, "%c %.*s\n", sign, (int)length, text);
    else
        fprintf(file, "%c the trace has stopped\n", sign);
}

/* Writes the lines of the packets that passed. */
static void write_trace(struct gateway *g)
{
    if (g->trace != NULL)
        osi_trace_each(&g->end, write_line, g->trace);
}

/* Fetches an indication, if one is pending. */
static bool show_next(struct gateway *g)
{
    osi_indication shown;
    if (!osi_next(&g->end, &shown))
        return false;
    g->was_shown = true;
    g->whole = g->shown_at = g->now;
    if (g->log != NULL) {
        fprintf(g->log, "%s %u ", g->side, shown.reference);
        write_shown(g->log, &shown);
    }
    g->shown(g, &shown);
    return true;
}

static void close_socket(struct gateway *g)
{
    osi_broken(&g->end);
    while (show_next(g)) {}
    close(g->socket);
    g->socket = -1;
}

static void feed_all(struct gateway *g, const uint8_t *piece, size_t length)
{
    osi_fed fed;
    do {
        osi_feed(&g->end, piece, length, &fed);
        piece += fed.used;
        length -= fed.used;
        if (fed.waits)
            show_next(g);
    } while (length > 0 || fed.waits);
}

static bool comes_later(void)
{
    return errno == EAGAIN || errno == EWOULDBLOCK || errno == EINTR;
}

/* Reads once. */
static void receive(struct gateway *g)
{
    static uint8_t piece[MOST_READ];
    const ssize_t count = recv(g->socket, piece, sizeof piece, MSG_DONTWAIT);
    if (count > 0) {
        g->was_heard = true;
        if (g->came != NULL)
            write_octets(g->came, piece, (size_t)count);
        feed_all(g, piece, (size_t)count);
        write_trace(g);
    } else if (count == 0 || !comes_later()) {
        close_socket(g);
    }
}

/* Stops in the middle of what it sends, until somebody ends the program. */
static void stall(void)
{
    puts("stalled");
    fflush(stdout);
    for (;;)
        pause();
}

/* Writes once, as much as the socket takes. */
static void transmit(struct gateway *g)
{
    osi_octets octets;
    osi_outgoing(&g->end, &octets);
    size_t most = octets.length;
    if (g->stall_at > 0 && g->sent_octets + most > g->stall_at)
        most = g->stall_at - g->sent_octets;
    const ssize_t count = send(g->socket, octets.at, most, MSG_NOSIGNAL | MSG_DONTWAIT);
    if (count >= 0) {
        if (g->sent != NULL)
            write_octets(g->sent, octets.at, (size_t)count);
        g->sent_octets += (size_t)count;
        g->moved = g->written = g->now;
        osi_taken(&g->end, (size_t)count);
        write_trace(g);
        if (g->stall_at > 0 && g->sent_octets == g->stall_at)
            stall();
    } else if (!comes_later()) {
        close_socket(g);
    }
}

/* ---- a turn of the loop (docs/GUIDE.md) */

void gateway_give_up(struct gateway *g, const char *why)
{
    FILE *log = g->log != NULL ? g->log : stderr;
    fprintf(log, "%s gives up: %s\n", g->side, why);
    /* (osi_phase says what its connections wait for) */
    for (uint16_t r = 1; !g->was_shown && osi_phase(&g->end, r) != OSI_PHASE_NONE; r++)
        fprintf(log, "%s %u was never shown, %s\n", g->side, r, osi_phase_name(osi_phase(&g->end, r)));
    close_socket(g);
}

/* What the peer has not done in time. */
static const char *overdue(const struct gateway *g)
{
    if (g->now > g->whole + g->patience)
        return "a packet or data is not ended";
    if (g->now > g->written + g->patience)
        return "the peer does not read";
    return g->was_heard && !g->was_shown ? "nothing was shown" : "the peer is silent";
}

bool gateway_is_less_active(const struct gateway *g, const struct gateway *other)
{
    return g->was_shown == other->was_shown ? g->shown_at < other->shown_at : !g->was_shown;
}

short gateway_events(struct gateway *g)
{
    const bool reads = outgoing_length(g) <= MOST_OUTGOING;
    return (short)((reads ? POLLIN : 0) | (osi_wants_write(&g->end) ? POLLOUT : 0));
}

static long long earlier(long long one, long long other)
{
    return one < other ? one : other;
}

/* When to give the peer up, unless something happens before. */
static long long deadline(const struct gateway *g)
{
    return earlier(g->was_shown ? g->moved : g->began, earlier(g->whole, g->written)) + g->patience;
}

int gateway_timeout(struct gateway *g)
{
    const long long left = deadline(g) - now_in_milliseconds() + 1;
    if (g->has_more && gateway_may_send(g))
        return 0;
    return left > 0 ? (int)left : 0;
}

static void make_more_calls(struct gateway *g)
{
    if (g->socket >= 0 && g->more != NULL)
        g->more(g);
}

bool gateway_turn(struct gateway *g, short found)
{
    g->now = now_in_milliseconds();
    if (found != 0)
        g->moved = g->now;
    if (g->socket >= 0 && found & (POLLIN | POLLERR | POLLHUP))
        receive(g);
    make_more_calls(g);
    if (g->socket >= 0 && osi_wants_write(&g->end))
        transmit(g);
    make_more_calls(g);
    if (osi_kept(&g->end) == 0)
        g->whole = g->now;
    if (!osi_wants_write(&g->end))
        g->written = g->now;
    if (g->socket >= 0 && osi_is_over(&g->end))
        close_socket(g);
    if (g->socket >= 0 && g->now > deadline(g))
        gateway_give_up(g, overdue(g));
    return g->socket >= 0;
}

/* ---- opening and closing */

FILE *log_file(int count, char **words)
{
    const char *log = option(count, words, "--log", NULL);
    return log == NULL ? NULL : strcmp(log, "-") == 0 ? stdout : fopen(log, "w");
}

static FILE *capture_file(const char *capture, const char *side)
{
    char name[512];
    if (capture == NULL)
        return NULL;
    snprintf(name, sizeof name, "%s.%s", capture, side);
    return fopen(name, "w");
}

bool gateway_open(struct gateway *g, int socket, bool calls, int count, char **words)
{
    /* A caller offers class 2 only if its peer is known to have it; the called side takes what the caller prefers. */
    const char *classes = option(count, words, "--classes", calls ? "0" : "20");
    const char *capture = option(count, words, "--capture", NULL);
    osi_terms terms = {0, 13, (uint8_t)atoi(option(count, words, "--window", "15"))};
    if (strchr(classes, '0') != NULL)
        terms.classes |= OSI_CLASS_0;
    if (strchr(classes, '2') != NULL)
        terms.classes |= OSI_CLASS_2;
    g->socket = socket;
    g->side = calls ? "left" : "right";
    g->patience = atoll(option(count, words, "--wait", "10")) * 1000;
    g->now = g->began = g->moved = g->whole = g->written = g->shown_at = now_in_milliseconds();
    g->sent = capture_file(capture, g->side);
    g->came = capture_file(capture, calls ? "right" : "left");
    g->trace = capture_file(capture, "trace");
    if ((calls ? osi_caller(&g->end, &terms) : osi_called(&g->end, &terms)) != OSI_OK)
        return false;
    return g->trace == NULL || osi_trace(&g->end, OSI_TRACE_LINES) == OSI_OK;
}

void gateway_close(struct gateway *g)
{
    if (g->socket >= 0)
        close(g->socket);
    if (g->sent != NULL)
        fclose(g->sent);
    if (g->came != NULL)
        fclose(g->came);
    if (g->trace != NULL)
        fclose(g->trace);
    osi_free(&g->end);
}
