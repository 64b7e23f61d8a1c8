/* Refuses each growth of memory: a script is played with the first growth refused that an end asks for, then
 * with the second, and so on until a run meets none. A call that runs out of memory has changed nothing, and if
 * it is made again it does what it does with ample memory. An end that runs out of memory while it is fed is over,
 * as after a break, and nothing more happens to it. */
#include "memory.h"
#include "pairs.h"

#include <stdio.h>
#include <string.h>

static struct pair pair;
static struct text ample, before, after;
static uint64_t refused_calls, ended_ends;

static void both_states(struct text *text)
{
    text_clear(text);
    for (int side = 0; side < 2; side++) {
        text_put(text, "%s %d: ", side_names[side], pair.ends[side].full);
        end_state(&pair.ends[side], text);
    }
}

static uint32_t reason(int side)
{
    uint64_t detail;
    return osi_ended(&pair.ends[side], &detail);
}

/* An end was fed and ran out of memory. */
static void check_over(int side, const char *shown)
{
    osi_end *end = &pair.ends[side];
    ended_ends += 1;
    holds(osi_kept(end) == 0 || osi_kept(end) <= KEPT_OF_A_PACKET, "%zu octets are kept", osi_kept(end));
    for (uint16_t reference = 1; reference <= REFERENCES; reference++) {
        char lost[64];
        uint32_t phase = osi_phase(end, reference);
        holds(phase == OSI_PHASE_NONE || phase == OSI_PHASE_ENDED, "connection %u is in phase %u", reference,
              phase);
        holds(osi_held(end, reference) == 0, "connection %u holds tokens", reference);
        snprintf(lost, sizeof lost, "%s %u ProviderAbort Lost\n", side_names[side], reference);
        const char *told = strstr(shown, lost);
        holds(told == NULL || strstr(told + 1, lost) == NULL, "the user of %u is told twice", reference);
    }
}

/* Plays the script with one growth refused. Returns whether one was. */
static bool play(const struct script *script, uint64_t refuse)
{
    pair_begin(&pair);
    memory_begin(refuse);
    for (size_t i = 0; i < script->count; i++) {
        const struct event *event = &script->events[i];
        text_clear(&place);
        text_put(&place, "%s, growth %llu, event %zu", script->name, (unsigned long long)refuse, i);
        size_t length = pair.out.length;
        both_states(&before);
        if (pair_apply(&pair, event) == NO_MEMORY) {
            refused_calls += 1;
            both_states(&after);
            holds(event->kind == ENDS || strcmp(before.at, after.at) == 0, "a refused call changes %s to %s",
                  before.at, after.at);
            holds(pair.out.length == length, "a refused call is told");
            holds(pair_apply(&pair, event) == DONE, "made again, the call finds no memory");
        }
        for (int side = 0; side < 2; side++)
            if (reason(side) == OSI_END_NO_MEMORY) {
                holds(memory_refused, "an end is over for want of memory, and no growth was refused");
                check_over(side, pair.out.at + length);
                pair_check(&pair);
                pair_free(&pair);
                return memory_refused;
            }
        pair_check(&pair);
    }
    pair_standing(&pair);
    if (refuse > 0)
        holds(strcmp(pair.out.at, ample.at) == 0, "another transcript: %s", pair.out.at);
    pair_free(&pair);
    return memory_refused;
}

static void each_growth(const char *name)
{
    struct script script = script_read(name);
    uint64_t calls = refused_calls, ends = ended_ends, first = runs;
    play(&script, 0);
    text_clear(&ample);
    text_grow(&ample, pair.out.length + 1);
    memcpy(ample.at, pair.out.at, pair.out.length + 1);
    ample.length = pair.out.length;
    uint64_t growths = memory_growths;
    for (uint64_t refuse = 1; play(&script, refuse); refuse++)
        runs += 1;
    runs += 1;
    holds(runs - first == growths + 1, "%llu growths, and %llu runs", (unsigned long long)growths,
          (unsigned long long)(runs - first));
    printf("growths: %s: %llu growths refused in turn, in %llu calls and %llu feeds\n", name,
           (unsigned long long)growths, (unsigned long long)(refused_calls - calls),
           (unsigned long long)(ended_ends - ends));
}

int main(void)
{
    static const char *const names[] = {
        "addresses", "both_classes", "class_0_alone", "no_class", "accepted", "minor_points",
        "numbers_go_round", "out_of_sequence", "calls_refused", "token_lost", "restarts_cross", "restart_below",
        "release_refused", "alternately", "duplex", "three_parts"};
    for (size_t i = 0; i < sizeof names / sizeof names[0]; i++)
        each_growth(names[i]);
    return counts("growths");
}
