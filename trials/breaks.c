/* Breaks the connection at each octet of eight scripts. The first script also runs with sizes of TSDUs, and
 * the last only with them: then data leaves in parts. Each carry is split into single octets. Before each of
 * these, and after the last, the connection breaks with four pairs of numbers of octets that can still be
 * carried. Then both sides receive all of these and are told of the break, in both orders, and are told again.
 * After each event the program tests the promises on two ends by the journal. In half of the runs the users
 * go on: the rest of the script is done after the break, before the sides are told.
 *
 *     breaks [--write FOLDER EACH]     also writes each EACHth run as a script, with its transcript */
#include "pairs.h"

#include <stdio.h>
#include <stdlib.h>
#include <string.h>

#define ALL 9999

/* The script of a run. */
static struct script whole;
static struct pair pair;
static const char *folder;
static uint64_t each = 97;

/* The same script, with each carry split into single octets. */
static struct script single(const struct script *script)
{
    struct script made = *script;
    made.events = NULL;
    made.count = made.room = 0;
    text_clear(&place);
    text_put(&place, "%s", script->name);
    pair_begin(&pair);
    for (size_t i = 0; i < script->count; i++) {
        struct event event = script->events[i];
        size_t times = 1;
        if (event.kind == CARRY) {
            size_t there = pair_under_way(&pair, event.side);
            times = event.number < there ? event.number : there;
            event.number = 1;
        }
        for (size_t k = 0; k < times; k++)
            script_add(&made, event);
        pair_run(&pair, &script->events[i], 1);
    }
    pair_free(&pair);
    return made;
}

static void write_line(FILE *file, const struct event *e)
{
    static struct text text;
    text_clear(&text);
    text_octets(&text, e->data == NULL ? (const uint8_t *)"" : e->data, e->length);
    static const char letters[] = "arc";
    char sides[5] = {letters[e->sides.data], letters[e->sides.minor], letters[e->sides.major],
                     letters[e->sides.release], 0};
    static const char *const classes[] = {"-", "0", "2", "20"};
    const char *side = side_names[e->side];
    char sizes[16] = "";
    if (e->sizes[0] != 0 || e->sizes[1] != 0)
        snprintf(sizes, sizeof sizes, " %u %u", e->sizes[0], e->sizes[1]);
    if (e->kind == ENDS)
        fprintf(file, "ends %s %s %u %u\n", classes[e->terms[0].classes], classes[e->terms[1].classes],
                e->terms[0].size, e->terms[0].window);
    else if (e->kind == CONNECT)
        fprintf(file, "connect %04x %u %s %s%s\n", e->units, e->number, sides, text.at, sizes);
    else if (e->kind == CARRY)
        fprintf(file, "carry %s %u\n", side, e->number);
    else if (e->kind == BREAK)
        fprintf(file, "break %u %u\n", e->number, e->other);
    else if (e->kind == TOLD)
        fprintf(file, "told %s\n", side);
    else {
        fprintf(file, "%s %u %s", side, e->reference, verb_names[e->verb]);
        if (e->verb == ACCEPT)
            fprintf(file, " %04x", e->units);
        if (e->verb == ACCEPT || e->verb == RESTART || e->verb == MINOR_CONFIRM)
            fprintf(file, " %u", e->number);
        if (e->verb == ACCEPT || e->verb == RESTART || e->verb == RESTART_CONFIRM)
            fprintf(file, " %s", sides);
        if (e->verb == GIVE || e->verb == PLEASE)
            fprintf(file, " %02x", e->tokens);
        if (e->verb == MINOR)
            fprintf(file, " %s", e->confirm ? "yes" : "no");
        fprintf(file, e->verb == GIVE ? "\n" : " %s%s\n", text.at, sizes);
    }
}

static void write_run(const struct script *script)
{
    char name[512];
    snprintf(name, sizeof name, "%s/%06llu.script", folder, (unsigned long long)runs);
    FILE *file = fopen(name, "w");
    for (size_t i = 0; file != NULL && i < script->count; i++)
        write_line(file, &script->events[i]);
    if (file != NULL)
        fclose(file);
    snprintf(name, sizeof name, "%s/%06llu.transcript", folder, (unsigned long long)runs);
    file = fopen(name, "w");
    if (file != NULL) {
        pair_standing(&pair);
        fputs(pair.out.at, file);
        fclose(file);
    }
}

/* What is still done after a break, with the sides in this order. */
static void add_end(struct script *run, int first)
{
    for (int i = 0; i < 2; i++)
        script_add(run, event_of(CARRY, i == 0 ? first : 1 - first, ALL, 0));
    for (int i = 0; i < 2; i++)
        script_add(run, event_of(TOLD, i == 0 ? first : 1 - first, 0, 0));
}

static void no_more(const char *side)
{
    static struct text before;
    text_clear(&before);
    text_put(&before, "%s told\n", side);
    size_t length = pair.out.length;
    struct event told = event_of(TOLD, strcmp(side, "left") == 0 ? LEFT : RIGHT, 0, 0);
    pair_run(&pair, &told, 1);
    holds(strcmp(pair.out.at + length, before.at) == 0, "a second time told, the %s side shows something", side);
}

static void run_one(const struct script *script, size_t at, uint32_t left, uint32_t right, int first, bool goes_on)
{
    whole.count = 0;
    for (size_t i = 0; i < at; i++)
        script_add(&whole, script->events[i]);
    script_add(&whole, event_of(BREAK, LEFT, left, right));
    for (size_t i = at; goes_on && i < script->count; i++)
        if (script->events[i].kind != CARRY)
            script_add(&whole, script->events[i]);
    add_end(&whole, first);
    text_clear(&place);
    text_put(&place, "%s, class %u, break at event %zu, keeps %u %u, %s first%s", script->name,
             script->events[0].terms[0].classes, at, left, right, side_names[first],
             goes_on ? ", users go on" : "");
    pair_begin(&pair);
    pair_run(&pair, whole.events, whole.count);
    for (uint16_t reference = 1; reference <= REFERENCES; reference++)
        for (int side = 0; side < 2; side++)
            holds(osi_held(&pair.ends[side], reference) == 0, "after the break a token is held");
    runs += 1;
    if (folder != NULL && runs % each == 0)
        write_run(&whole);
    no_more("right");
    no_more("left");
    pair_free(&pair);
}

static void break_everywhere(const struct script *script)
{
    static const uint32_t keeps[4][2] = {{0, 0}, {1, 0}, {0, 1}, {ALL, ALL}};
    for (size_t at = 1; at <= script->count; at++) {
        bool octet = at == script->count || script->events[at].kind == CARRY;
        for (int way = 0; octet && way < 16; way++)
            run_one(script, at, keeps[way / 4][0], keeps[way / 4][1], way & 1, (way & 2) != 0);
    }
}

/* A script in this class, with this size of TSDUs in both directions. */
static void break_in_class(const char *name, uint8_t class, uint16_t size)
{
    uint64_t before = runs;
    struct script script = script_read(name);
    script_terms(&script, class, 10, 4);
    script_sizes(&script, size, size);
    struct script octets = single(&script);
    break_everywhere(&octets);
    printf("breaks: %s in class %c, size %u: %llu runs\n", name, class == OSI_CLASS_0 ? '0' : '2', size,
           (unsigned long long)(runs - before));
}

int main(int count, char **words)
{
    static const char *const names[] = {
        "calls_refused", "token_lost", "restarts_cross", "restart_below", "release_refused"};
    if (count == 4 && strcmp(words[1], "--write") == 0) {
        folder = words[2];
        each = strtoull(words[3], NULL, 10);
    }
    for (size_t i = 0; i < 10; i++)
        break_in_class(names[i / 2], i % 2 == 0 ? OSI_CLASS_0 : OSI_CLASS_2, 0);
    static const char *const sized[] = {"calls_refused", "parts"};
    for (size_t i = 0; i < 4; i++)
        break_in_class(sized[i / 2], i % 2 == 0 ? OSI_CLASS_0 : OSI_CLASS_2, 64);
    static const char *const more[] = {"alternately", "duplex"};
    for (size_t i = 0; i < 2; i++) {
        uint64_t before = runs;
        struct script script = script_read(more[i]), octets = single(&script);
        break_everywhere(&octets);
        printf("breaks: %s: %llu runs\n", more[i], (unsigned long long)(runs - before));
    }
    return counts("breaks");
}
