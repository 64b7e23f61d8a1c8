/* The lines of a script. */
#include "scripts.h"

#include <stdio.h>
#include <stdlib.h>
#include <string.h>

#define WORDS 12
#define LINE 40000 /* characters of the longest line */

const char *const side_names[] = {"left", "right"};
const char *const verb_names[] = {
    "accept",         "refuse",       "data",          "give",          "please",
    "minor",          "minorconfirm", "major",         "majorconfirm",  "restart",
    "restartconfirm", "release",      "releaseaccept", "releaserefuse", "abort",
};

static void bad(const char *name, const char *word)
{
    fprintf(stderr, "trials/scripts/%s.script: what is %s?\n", name, word);
    exit(2);
}

uint8_t *octets_of(const char *digits, size_t *length)
{
    size_t count = strcmp(digits, "-") == 0 ? 0 : strlen(digits) / 2;
    uint8_t *octets = malloc(count + 1);
    for (size_t i = 0; i < count; i++) {
        char pair[3] = {digits[2 * i], digits[2 * i + 1], 0};
        octets[i] = (uint8_t)strtoul(pair, NULL, 16);
    }
    *length = count;
    return octets;
}

static int side_of(const char *word)
{
    return strcmp(word, "right") == 0 ? RIGHT : LEFT;
}

static uint8_t letter_of(char letter)
{
    return letter == 'a' ? OSI_ASKER : letter == 'r' ? OSI_ANSWERER : OSI_CHOICE;
}

static osi_sides sides_of(const char *word)
{
    return (osi_sides){letter_of(word[0]), letter_of(word[1]), letter_of(word[2]), letter_of(word[3])};
}

static uint8_t classes_of(const char *word)
{
    uint8_t classes = strchr(word, '0') != NULL ? OSI_CLASS_0 : 0;
    return strchr(word, '2') != NULL ? classes | OSI_CLASS_2 : classes;
}

struct event event_of(enum kind kind, int side, uint32_t number, uint32_t other)
{
    struct event event;
    memset(&event, 0, sizeof event);
    event.kind = kind;
    event.side = side;
    event.number = number;
    event.other = other;
    return event;
}

static uint32_t number_of(const char *word)
{
    return (uint32_t)strtoul(word, NULL, 10);
}

/* The sizes after user data, if there are any. */
static void sizes_of(struct event *event, char **words)
{
    for (size_t i = 0; i < 2; i++)
        event->sizes[i] = (uint16_t)number_of(words[i]);
}

/* The words of a call after its verb. The last one is the user data, except for a give, and for an accept with
 * sizes after it. */
static struct event call_of(const char *name, char **words, size_t count)
{
    struct event event = event_of(CALL, side_of(words[0]), 0, 0);
    event.reference = (uint16_t)number_of(words[1]);
    size_t verb = 0;
    while (verb <= ABORT && strcmp(words[2], verb_names[verb]) != 0)
        verb++;
    if (verb > ABORT || count < 4)
        bad(name, words[2]);
    event.verb = (enum verb)verb;
    if (event.verb == ACCEPT && count == 9)
        sizes_of(&event, words + (count -= 2));
    if (event.verb == ACCEPT)
        event.units = (uint16_t)strtoul(words[3], NULL, 16);
    if (event.verb == ACCEPT || event.verb == RESTART || event.verb == MINOR_CONFIRM)
        event.number = number_of(words[event.verb == ACCEPT ? 4 : 3]);
    if (event.verb == ACCEPT || event.verb == RESTART || event.verb == RESTART_CONFIRM)
        event.sides = sides_of(words[count - 2]);
    if (event.verb == GIVE || event.verb == PLEASE)
        event.tokens = (uint8_t)strtoul(words[3], NULL, 16);
    if (event.verb == MINOR)
        event.confirm = strcmp(words[3], "yes") == 0;
    event.data = octets_of(event.verb == GIVE ? "-" : words[count - 1], &event.length);
    return event;
}

static struct event connect_of(char **words, size_t count)
{
    struct event event = event_of(CONNECT, LEFT, number_of(words[2]), 0);
    event.units = (uint16_t)strtoul(words[1], NULL, 16);
    event.sides = sides_of(words[3]);
    event.data = octets_of(words[4], &event.length);
    if (count >= 7)
        sizes_of(&event, words + 5);
    for (size_t i = 0; i < 2; i++)
        event.addresses[i] = octets_of(count == 9 ? words[7 + i] : "-", &event.address_lengths[i]);
    return event;
}

static struct event ends_of(char **words, size_t count)
{
    struct event event = event_of(ENDS, LEFT, 0, 0);
    for (size_t side = 0; side < 2; side++)
        event.terms[side] = (osi_terms){classes_of(words[1 + side]), (uint8_t)number_of(words[3]),
                                        (uint8_t)number_of(words[side == 1 && count == 6 ? 5 : 4])};
    return event;
}

static struct event shows_of(const char *line)
{
    struct event event = event_of(SHOWS, LEFT, 0, 0);
    event.length = strlen(line);
    event.data = malloc(event.length + 1);
    memcpy(event.data, line, event.length + 1);
    return event;
}

static struct event event_read(const char *name, char **words, size_t count)
{
    static const struct {
        const char *word;
        enum kind kind;
        size_t count;
    } lines[] = {
        {"ends", ENDS, 5}, {"connect", CONNECT, 5}, {"carry", CARRY, 3}, {"break", BREAK, 3}, {"told", TOLD, 2},
        {"feed", FEED, 3}, {"drop", DROP, 2},       {"wants", WANTS, 3}, {"holds", HOLDS, 4},
    };
    size_t line = 0;
    while (line < 9 && strcmp(words[0], lines[line].word) != 0)
        line++;
    if (line == 9)
        return call_of(name, words, count);
    if (count < lines[line].count)
        bad(name, words[0]);
    struct event event = event_of(lines[line].kind, side_of(words[1]), 0, 0);
    switch (event.kind) {
    case ENDS:
        return ends_of(words, count);
    case CONNECT:
        return connect_of(words, count);
    case BREAK:
        return event_of(BREAK, LEFT, number_of(words[1]), number_of(words[2]));
    case CARRY:
        event.number = number_of(words[2]);
        return event;
    case HOLDS:
        event.reference = (uint16_t)number_of(words[2]);
        event.tokens = (uint8_t)strtoul(words[3], NULL, 16);
        return event;
    case FEED:
    case WANTS:
        event.data = octets_of(words[2], &event.length);
        return event;
    default:
        return event;
    }
}

void script_add(struct script *script, struct event event)
{
    if (script->count == script->room) {
        script->room = 2 * script->room + 16;
        script->events = realloc(script->events, script->room * sizeof event);
        if (script->events == NULL)
            abort();
    }
    script->events[script->count++] = event;
}

struct script script_read(const char *name)
{
    static char line[LINE];
    struct script script = {.events = NULL, .count = 0, .room = 0};
    snprintf(script.name, sizeof script.name, "%s", name);
    snprintf(line, sizeof line, "trials/scripts/%s.script", name);
    FILE *file = fopen(line, "r");
    if (file == NULL)
        bad(name, "there");
    while (fgets(line, sizeof line, file) != NULL) {
        char *words[WORDS];
        size_t count = 0;
        line[strcspn(line, "\n")] = 0;
        if (line[0] == '#' || line[0] == 0)
            continue;
        if (strncmp(line, "shows ", 6) == 0) {
            script_add(&script, shows_of(line + 6));
            continue;
        }
        for (char *word = strtok(line, " "); word != NULL && count < WORDS; word = strtok(NULL, " "))
            words[count++] = word;
        script_add(&script, event_read(name, words, count));
    }
    fclose(file);
    return script;
}

void script_terms(struct script *script, uint8_t classes, uint8_t size, uint8_t window)
{
    for (size_t side = 0; side < 2; side++)
        script->events[0].terms[side] = (osi_terms){classes, size, window};
}

void script_sizes(struct script *script, uint16_t from_asker, uint16_t from_answerer)
{
    for (size_t i = 0; i < script->count; i++) {
        struct event *event = &script->events[i];
        if (event->kind == CONNECT || (event->kind == CALL && event->verb == ACCEPT)) {
            event->sizes[0] = from_asker;
            event->sizes[1] = from_answerer;
        }
    }
}
