/* An MMS client: it identifies the server, lists its objects, reads them, and concludes.
 *
 *   client --host HOST [--port 102] [--called-tsap SELECTOR] [--calling-tsap SELECTOR] [--called-ssel SELECTOR]
 *          [--calling-ssel SELECTOR] [--called-psel SELECTOR] [--calling-psel SELECTOR] [--classes 0|2|20]
 *          [--wait 10] [--reads COUNT] [--ahead 1..5] [--again TIMES] [--abort] [--capture NAME] [JOB ..]
 *
 * A job is identify, domains, names, names:DOMAIN, read:NAME or read:DOMAIN/NAME. Without a job it walks
 * through everything that it finds. README.md in this folder describes the switches.
 *
 * The status is 0 if everything was answered and the association concluded; 1 if the server refused the
 * association or a request; 2 if words, host or files are wrong; 3 if the association was lost. */
#define _POSIX_C_SOURCE 200809L
#include "jobs.h"
#include "link.h"
#include "words.h"

#include <poll.h>
#include <stdlib.h>
#include <string.h>
#include <time.h>

enum outcome { GOES_ON, CONCLUDED, REFUSED, LOST };

struct asking {
    struct link link;
    struct upper upper;
    uint16_t reference;
    struct jobs jobs;
    size_t asked, answered;  /* of jobs, and of their repetitions: what was answered is not asked again */
    unsigned long reads, ahead, wait, again, losses;
    bool is_associated, concludes, aborts;
    enum outcome outcome;
    double began;
    struct selector called_tsap, calling_tsap, called_ssel, calling_ssel, called_psel, calling_psel;
};

/* How many requests to send: the jobs, or this many reads of the last one. */
static size_t total(const struct asking *a)
{
    return a->reads > 0 ? a->reads : a->jobs.count;
}

static void fails(struct asking *a, enum outcome outcome, const char *why)
{
    if (a->outcome != GOES_ON)
        return;
    a->outcome = outcome;
    fprintf(stderr, "client: %s, after %zu answers\n", why, a->answered);
}

/* Aborts. If that fails, for example because memory ran out, breaks the connection. */
static void abort_it(struct asking *a)
{
    struct room room;
    const uint8_t *at;
    const size_t length = upper_abort(&a->upper, &room, &at);
    if (osi_abort(&a->link.end, a->reference, at, length) != OSI_OK)
        link_break(&a->link);
}

static void send_mms(struct asking *a, const struct ber_writer *w)
{
    struct room room;
    const uint8_t *at;
    const size_t length = upper_data(&a->upper, w->at + w->begin, ber_written(w), &room, &at);
    const uint32_t code = osi_data(&a->link.end, a->reference, at, length);
    if (code != OSI_OK)
        fails(a, LOST, osi_code_name(code));
}

/* Asks for as much as may be unanswered; once all is answered, concludes. */
static void go_on(struct asking *a)
{
    uint8_t octets[1024];
    while (a->asked < total(a) && a->asked - a->answered < a->ahead) {
        struct ber_writer w = ber_writer_of(octets, sizeof octets);
        const size_t at = a->asked < a->jobs.count ? a->asked : a->jobs.count - 1;
        jobs_put(&a->jobs.at[at], (uint32_t)++a->asked, &w);
        send_mms(a, &w);
    }
    if (a->answered < total(a) || a->concludes)
        return;
    a->concludes = true;
    if (a->aborts) {
        a->outcome = CONCLUDED;
        puts("aborted");
        abort_it(a);
        return;
    }
    struct ber_writer w = ber_writer_of(octets, sizeof octets);
    mms_put_conclude(&w);
    send_mms(a, &w);
}

/* ---- indications of the client */

static void is_connected(struct asking *a, const osi_indication *i)
{
    struct ber mms;
    struct mms_pdu pdu;
    const enum upper_problem why = upper_read_answer(ber_of(i->user_data.at, i->user_data.length), &mms);
    if (why != UPPER_NONE || !mms_read(mms, &pdu) || pdu.kind != MMS_INITIATE_RESPONSE) {
        fails(a, REFUSED, why == UPPER_OTHER_NAME ? "the association is refused" : "the answer to the association can't be read");
        abort_it(a);
        return;
    }
    a->is_associated = true;
    if (a->began == 0)
        a->began = now();
    go_on(a);
}

static void data_came(struct asking *a, const osi_indication *i)
{
    struct ber mms;
    struct mms_pdu pdu;
    struct room room;
    const uint8_t *at;
    if (!upper_read_data(&a->upper, ber_of(i->user_data.at, i->user_data.length), &mms) || !mms_read(mms, &pdu)) {
        fails(a, LOST, "data that can't be read");
        abort_it(a);
    } else if (pdu.kind == MMS_CONCLUDE_RESPONSE && a->concludes) {
        const size_t length = upper_ask_release(&a->upper, &room, &at);
        const uint32_t code = osi_release(&a->link.end, a->reference, at, length);
        if (code != OSI_OK) {
            fails(a, LOST, osi_code_name(code));
            abort_it(a);
        }
    } else if (pdu.kind == MMS_UNCONFIRMED) {
        puts("a report, which is not read");
    } else if (pdu.has_invoke && pdu.invoke == a->answered + 1 && a->answered < a->asked) {
        jobs_answered(&a->jobs, a->answered, &pdu);
        a->answered++;
        go_on(a);
    } else {
        fails(a, LOST, "an answer to nothing that was asked");
        abort_it(a);
    }
}

static void is_refused(struct asking *a, const osi_indication *i)
{
    char text[80];
    snprintf(text, sizeof text, "refused by the %s, reason %u", i->tag == OSI_REFUSED_BY_SESSION ? "session" : "transport", i->reason);
    fails(a, REFUSED, text);
}

static void is_lost(struct asking *a)
{
    uint64_t detail;
    char text[80];
    const uint32_t why = osi_ended(&a->link.end, &detail);
    if (why >= OSI_END_NO_MEMORY)
        snprintf(text, sizeof text, "no packets of an MMS server: %s", osi_end_name(why));
    else
        snprintf(text, sizeof text, "%s", a->is_associated ? "lost" : "closed by the server before an association");
    fails(a, a->is_associated ? LOST : REFUSED, text);
}

static void shown(struct link *l, const osi_indication *i)
{
    struct asking *a = l->user;
    switch (i->tag) {
    case OSI_CONNECTED:
        is_connected(a, i);
        break;
    case OSI_DATA:
        data_came(a, i);
        break;
    case OSI_RELEASED:
        a->outcome = CONCLUDED;
        break;
    case OSI_RELEASE:
        fails(a, LOST, "the server releases the association");
        if (osi_release_accept(&l->end, i->reference, OSI_NO_DATA) != OSI_OK)
            link_break(l);
        break;
    case OSI_REFUSED_BY_TRANSPORT:
    case OSI_REFUSED_BY_SESSION:
        is_refused(a, i);
        break;
    case OSI_ABORTED:
    case OSI_PEER_ABORT:
        fails(a, LOST, "aborted by the server");
        break;
    case OSI_BAD_UNIT:
        fails(a, LOST, "a session unit is bad");
        break;
    case OSI_LOST:
        is_lost(a);
        break;
    default:
        break;
    }
}

/* ---- one association */

static osi_octets octets_of(const struct selector *s)
{
    return (osi_octets){s->octets, s->length};
}

static bool ask(struct asking *a)
{
    uint8_t octets[256];
    struct ber_writer w = ber_writer_of(octets, sizeof octets);
    struct room room;
    osi_opening asked = OSI_OPENING;
    mms_put_initiate(&w);
    asked.requirements = OSI_DUPLEX;
    asked.called_tsap = octets_of(&a->called_tsap);
    asked.calling_tsap = octets_of(&a->calling_tsap);
    asked.called_selector = octets_of(&a->called_ssel);
    asked.calling_selector = octets_of(&a->calling_ssel);
    asked.user_data.length = upper_ask(&a->upper, &a->calling_psel, &a->called_psel, octets + w.begin, ber_written(&w), &room,
                                       &asked.user_data.at);
    return osi_connect(&a->link.end, &asked, &a->reference) == OSI_OK;
}

/* Carries until the association is over. A server that is silent while an answer is due is given up. */
static void carry(struct asking *a)
{
    short came = 0;
    while (link_turn(&a->link, came)) {
        struct pollfd waits = {a->link.socket, link_awaits(&a->link), 0};
        poll(&waits, 1, 200);
        came = waits.revents;
        if (now() - a->link.heard > (double)a->wait || link_is_stuck(&a->link, (double)a->wait)) {
            fails(a, LOST, "the server is silent");
            link_break(&a->link);
        }
    }
}

/* One association, from the connection to its end. False if there is no connection, or no file. */
static bool associate(struct asking *a, const char *host, unsigned long port, const osi_terms *terms, const char *capture)
{
    const struct link fresh = {.end = OSI_END, .socket = -1, .shown = shown, .user = a};
    const int socket = link_connect("client", host, port, (double)a->wait);
    if (socket < 0)
        return false;
    a->link = fresh;
    a->outcome = GOES_ON;
    a->is_associated = a->concludes = false;
    a->asked = a->answered;
    const bool is_open = link_open(&a->link, socket, true, terms, capture) && ask(a);
    if (is_open)
        carry(a);
    else
        fprintf(stderr, "client: --capture %s: no such file can be written, or there is no memory\n", capture == NULL ? "" : capture);
    link_close(&a->link);
    return is_open;
}

/* Associations, until everything is answered: after a loss the next one goes on after the last answer. */
static int run(struct asking *a, const char *host, unsigned long port, const osi_terms *terms, const char *capture)
{
    for (unsigned long left = a->again;; left--) {
        const bool is_there = associate(a, host, port, terms, capture);
        if (is_there && a->outcome == LOST)
            a->losses++;
        if (is_there && (a->outcome == CONCLUDED || (a->outcome == REFUSED && left == 0)))
            break;
        if (left == 0)
            return is_there ? 3 : 2;
        nanosleep(&(struct timespec){0, 200000000}, NULL);
    }
    if (a->reads > 0)
        printf("%zu reads, %lu losses, %.0f reads/s\n", a->answered, a->losses, (double)a->answered / (now() - a->began));
    if (a->outcome == CONCLUDED && !a->aborts)
        puts("concluded");
    return a->outcome == REFUSED || a->jobs.wrong ? 1 : 0;
}

/* ---- words */

static bool read_jobs(struct asking *a, int at, int count, char **words)
{
    for (; at < count; at++)
        if (!jobs_spell(&a->jobs, words[at])) {
            fprintf(stderr, "client: %s is no job\n", words[at]);
            return false;
        }
    a->jobs.quiet = a->reads > 0;
    a->jobs.walks = a->jobs.count == 0 && a->reads == 0;
    if (a->reads > 0 && a->jobs.count == 0)
        jobs_add(&a->jobs, READ, "plant", "voltage", "");
    if (a->reads > 0 && (a->jobs.count != 1 || a->jobs.at[0].kind != READ)) {
        fputs("client: --reads wants one job, a read\n", stderr);
        return false;
    }
    if (a->jobs.walks) {
        jobs_add(&a->jobs, IDENTIFY, "", "", "");
        jobs_add(&a->jobs, NAMES, "", "", "");
        jobs_add(&a->jobs, DOMAINS, "", "", "");
    }
    return true;
}

static bool read_classes(const char *word, osi_terms *terms)
{
    const bool is_one = strcmp(word, "0") == 0 || strcmp(word, "2") == 0 || strcmp(word, "20") == 0;
    terms->classes = (uint8_t)((strchr(word, '0') != NULL ? OSI_CLASS_0 : 0) | (strchr(word, '2') != NULL ? OSI_CLASS_2 : 0));
    if (!is_one)
        fprintf(stderr, "client: --classes wants 0, 2 or 20, and not %s\n", word);
    return is_one;
}

int main(int count, char **words)
{
    static const struct selector two = {{0, 1}, 2}, four = {{0, 0, 0, 1}, 4};
    static struct asking a;
    const char *host = NULL, *classes = "0", *capture = NULL;
    unsigned long port = 102;
    osi_terms terms = {OSI_CLASS_0, 13, 15};
    const struct word known[] = {
        {.name = "--host", .text = &host},
        {.name = "--port", .number = &port, .least = 1, .most = 65535},
        {.name = "--called-tsap", .selector = &a.called_tsap, .most = 32},
        {.name = "--calling-tsap", .selector = &a.calling_tsap, .most = 32},
        {.name = "--called-ssel", .selector = &a.called_ssel, .most = 16},
        {.name = "--calling-ssel", .selector = &a.calling_ssel, .most = 16},
        {.name = "--called-psel", .selector = &a.called_psel, .most = 32},
        {.name = "--calling-psel", .selector = &a.calling_psel, .most = 32},
        {.name = "--classes", .text = &classes},
        {.name = "--wait", .number = &a.wait, .least = 1, .most = 3600},
        {.name = "--reads", .number = &a.reads, .least = 1, .most = 4000000000},
        {.name = "--ahead", .number = &a.ahead, .least = 1, .most = MMS_OUTSTANDING},
        {.name = "--again", .number = &a.again, .least = 0, .most = 1000000},
        {.name = "--abort", .is_there = &a.aborts},
        {.name = "--capture", .text = &capture},
    };
    a.called_tsap = a.calling_tsap = a.called_ssel = a.calling_ssel = two;
    a.called_psel = a.calling_psel = four;
    a.wait = 10;
    a.ahead = 1;
    const int rest = words_read("client", count, words, known, sizeof known / sizeof known[0]);
    if (rest < 0 || !read_jobs(&a, rest, count, words) || !read_classes(classes, &terms))
        return 2;
    if (host == NULL) {
        fputs("client: --host HOST is wanted\n", stderr);
        return 2;
    }
    const int status = run(&a, host, port, &terms, capture);
    free(a.jobs.at);
    if (fflush(stdout) != 0 || ferror(stdout)) {
        fputs("client: what was read can't be written to standard output\n", stderr);
        return 2;
    }
    return status;
}
