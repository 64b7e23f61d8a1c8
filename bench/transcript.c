/* The work of `osi pair`, written in C over two ends of the library for C: it reads a script from its input, makes the calls
 * and carries the octets that the lines ask for, and prints the transcript. It knows only the lines of bench/script.py and
 * refuses any other; it keeps no journal.
 *
 *     transcript <SCRIPT */
#include "osi.h"

#include <stdio.h>
#include <stdlib.h>
#include <string.h>

/* ---- text ---- */

typedef struct text {
    char *at;
    size_t length, room;
} text;

static _Noreturn void fail(const char *why)
{
    fprintf(stderr, "transcript: %s\n", why);
    exit(2);
}

/* Makes room for this many more octets. */
static inline void reserve(text *out, size_t more)
{
    if (out->room - out->length >= more)
        return;
    out->room = out->room * 2 + more;
    out->at = realloc(out->at, out->room);
    if (out->at == NULL)
        fail("no memory");
}

/* The most octets of a line without its user data. */
#define LINE 192

static inline char *put(char *at, const char *word, size_t length)
{
    memcpy(at, word, length);
    return at + length;
}
#define PUT(at, word) put(at, word, sizeof word - 1)

static inline char *put_number(char *at, uint64_t number)
{
    char digits[20];
    size_t first = sizeof digits;
    do {
        digits[--first] = (char)('0' + number % 10);
        number /= 10;
    } while (number != 0);
    return put(at, digits + first, sizeof digits - first);
}

static inline char *put_hex(char *at, const uint8_t *octets, size_t length)
{
    static const char digits[] = "0123456789abcdef";
    for (size_t n = 0; n < length; n++) {
        *at++ = digits[octets[n] >> 4];
        *at++ = digits[octets[n] & 15];
    }
    return at;
}

static inline char *put_side(char *at, int is_right)
{
    return is_right ? PUT(at, "right ") : PUT(at, "left ");
}

/* ---- the words of a line ---- */

typedef struct line {
    const char *at, *end;
} line;

/* The next word of a line; none after the last one. */
static inline int next_word(line *rest, line *word)
{
    if (rest->at == NULL)
        return 0;
    const char *at = rest->at;
    while (at < rest->end && *at != ' ')
        at++;
    word->at = rest->at;
    word->end = at;
    rest->at = at < rest->end ? at + 1 : NULL;
    return 1;
}

static inline int is(const line *word, const char *name, size_t length)
{
    return (size_t)(word->end - word->at) == length && memcmp(word->at, name, length) == 0;
}
#define IS(word, name) is(word, name, sizeof name - 1)

static inline int number_in(const line *word, uint32_t most, uint32_t *number)
{
    uint64_t value = 0;
    if (word->at == word->end)
        return 0;
    for (const char *at = word->at; at < word->end; at++) {
        if (*at < '0' || *at > '9')
            return 0;
        value = value * 10 + (uint64_t)(*at - '0');
        if (value > most)
            return 0;
    }
    *number = (uint32_t)value;
    return 1;
}

static inline int digit(char letter)
{
    if (letter >= '0' && letter <= '9')
        return letter - '0';
    if (letter >= 'a' && letter <= 'f')
        return letter - 'a' + 10;
    if (letter >= 'A' && letter <= 'F')
        return letter - 'A' + 10;
    return -1;
}

/* The octets of user data, in a buffer that each line uses again. */
static uint8_t *data;
static size_t data_length, data_room;

static inline int data_in(const line *word)
{
    size_t digits = (size_t)(word->end - word->at);
    data_length = digits / 2;
    if (digits == 1 && *word->at == '-')
        return 1;
    if (digits == 0 || digits % 2 != 0)
        return 0;
    if (data_room < data_length) {
        data_room = data_length * 2;
        data = realloc(data, data_room);
        if (data == NULL)
            fail("no memory");
    }
    for (size_t n = 0; n < data_length; n++) {
        int high = digit(word->at[2 * n]), low = digit(word->at[2 * n + 1]);
        if (high < 0 || low < 0)
            return 0;
        data[n] = (uint8_t)(high * 16 + low);
    }
    return 1;
}

static inline int side_in(const line *word, int *is_right)
{
    *is_right = IS(word, "right");
    return *is_right || IS(word, "left");
}

static int units_in(const line *word, uint16_t *units)
{
    uint32_t value = 0;
    if (word->end - word->at != 4)
        return 0;
    for (int n = 0; n < 4; n++) {
        int four = digit(word->at[n]);
        if (four < 0)
            return 0;
        value = value * 16 + (uint32_t)four;
    }
    *units = (uint16_t)value;
    return 1;
}

static int sides_in(const line *word, const char *letters, osi_sides *sides)
{
    uint8_t values[4];
    if (word->end - word->at != 4)
        return 0;
    for (int n = 0; n < 4; n++) {
        const char *found = word->at[n] == 0 ? NULL : strchr(letters, word->at[n]);
        if (found == NULL)
            return 0;
        values[n] = (uint8_t)(found - letters);
    }
    *sides = (osi_sides){values[0], values[1], values[2], values[3]};
    return 1;
}

/* ---- the two ends ---- */

static osi_end ends[2] = {OSI_END, OSI_END};

static char *put_data(char *at, const osi_octets *octets)
{
    if (octets->length == 0)
        return PUT(at, "-");
    return put_hex(at, octets->at, octets->length);
}

static char *put_opened(char *at, const osi_indication *shown)
{
    const uint8_t sides[4] = {shown->sides.data, shown->sides.minor, shown->sides.major, shown->sides.release};
    const uint8_t units[2] = {(uint8_t)(shown->requirements >> 8), (uint8_t)shown->requirements};
    at = PUT(at, " units ");
    at = put_hex(at, units, 2);
    at = PUT(at, " serial ");
    at = shown->has_number ? put_number(at, shown->number) : PUT(at, "-");
    at = PUT(at, " sides ");
    for (int n = 0; n < 4; n++)
        *at++ = "arc"[sides[n]];
    return at;
}

/* The indications that these scripts cause. */
static void tell(text *out, int is_right, const osi_indication *shown)
{
    reserve(out, LINE + 2 * shown->user_data.length);
    char *at = out->at + out->length;
    at = put_side(at, is_right);
    at = put_number(at, shown->reference);
    switch (shown->tag) {
    case OSI_DATA:
        at = PUT(at, " Data ");
        break;
    case OSI_MINOR:
        at = PUT(at, " Minor ");
        at = put_number(at, shown->number);
        at = PUT(at, " confirm ");
        at = shown->confirm ? PUT(at, "yes data ") : PUT(at, "no data ");
        break;
    case OSI_MINOR_CONFIRMED:
        at = PUT(at, " MinorConfirmed ");
        at = put_number(at, shown->number);
        at = PUT(at, " data ");
        break;
    case OSI_CONNECT:
        at = PUT(at, " Connect");
        at = put_opened(at, shown);
        at = PUT(at, " data ");
        break;
    case OSI_CONNECTED:
        at = PUT(at, " Connected");
        at = put_opened(at, shown);
        at = PUT(at, " data ");
        break;
    default:
        fail("an indication that no such script brings about");
    }
    at = put_data(at, &shown->user_data);
    *at++ = '\n';
    out->length = (size_t)(at - out->at);
}

/* The indications of a carry go after the line with the number of octets that it carried. */
static int carry(text *out, line rest)
{
    line side, most;
    int from;
    uint32_t left;
    if (!next_word(&rest, &side) || !next_word(&rest, &most) || rest.at != NULL || !side_in(&side, &from) ||
        !number_in(&most, UINT32_MAX, &left))
        return 0;
    osi_octets octets;
    osi_outgoing(&ends[from], &octets);
    if (left > octets.length)
        left = (uint32_t)octets.length;
    reserve(out, LINE);
    char *at = put_side(out->at + out->length, from);
    at = PUT(at, "carried ");
    at = put_number(at, left);
    *at++ = '\n';
    out->length = (size_t)(at - out->at);
    while (left > 0) {
        osi_fed fed;
        osi_indication shown;
        osi_outgoing(&ends[from], &octets);
        if (osi_feed(&ends[!from], octets.at, left, &fed) != OSI_OK || osi_taken(&ends[from], fed.used) != OSI_OK)
            fail("an end does not take what the other sent");
        left -= (uint32_t)fed.used;
        while (osi_next(&ends[!from], &shown))
            tell(out, !from, &shown);
    }
    return 1;
}

static void answer(text *out, int is_right, uint32_t reference, const char *verb, size_t length, uint32_t code)
{
    if (code != OSI_OK)
        fail(osi_code_name(code));
    reserve(out, LINE);
    char *at = put_side(out->at + out->length, is_right);
    at = put_number(at, reference);
    *at++ = ' ';
    at = put(at, verb, length);
    at = PUT(at, " ok\n");
    out->length = (size_t)(at - out->at);
}
#define ANSWER(verb, code) answer(out, from, reference, verb, sizeof verb - 1, code)

static int accept_in(line rest, int from, uint32_t reference, uint32_t *code)
{
    line words[4];
    uint16_t units;
    uint32_t serial;
    osi_sides sides;
    for (int n = 0; n < 4; n++)
        if (!next_word(&rest, &words[n]))
            return 0;
    if (rest.at != NULL || !units_in(&words[0], &units) || !number_in(&words[1], 999999, &serial) ||
        !sides_in(&words[2], "ar", &sides) || !data_in(&words[3]))
        return 0;
    *code = osi_accept(&ends[from], (uint16_t)reference, units, serial, &sides, data, data_length);
    return 1;
}

static int call(text *out, const line *first, line rest)
{
    line connection, verb, word, last;
    int from;
    uint32_t reference, number, code;
    if (!side_in(first, &from) || !next_word(&rest, &connection) || !next_word(&rest, &verb) ||
        !number_in(&connection, 65535, &reference))
        return 0;
    uint16_t of = (uint16_t)reference;
    if (IS(&verb, "data")) {
        if (!next_word(&rest, &last) || rest.at != NULL || !data_in(&last))
            return 0;
        ANSWER("data", osi_data(&ends[from], of, data, data_length));
        return 1;
    }
    if (IS(&verb, "minor")) {
        if (!next_word(&rest, &word) || !next_word(&rest, &last) || rest.at != NULL || !data_in(&last))
            return 0;
        uint8_t confirm = IS(&word, "yes");
        if (!confirm && !IS(&word, "no"))
            return 0;
        ANSWER("minor", osi_minor(&ends[from], of, confirm, data, data_length));
        return 1;
    }
    if (IS(&verb, "minorconfirm")) {
        if (!next_word(&rest, &word) || !next_word(&rest, &last) || rest.at != NULL ||
            !number_in(&word, UINT32_MAX, &number) || !data_in(&last))
            return 0;
        ANSWER("minorconfirm", osi_minor_confirm(&ends[from], of, number, data, data_length));
        return 1;
    }
    if (IS(&verb, "accept")) {
        if (!accept_in(rest, from, reference, &code))
            return 0;
        ANSWER("accept", code);
        return 1;
    }
    return 0;
}

static int connect(text *out, line rest)
{
    line words[4];
    osi_opening asked = OSI_OPENING;
    uint16_t reference;
    for (int n = 0; n < 4; n++)
        if (!next_word(&rest, &words[n]))
            return 0;
    if (rest.at != NULL || !units_in(&words[0], &asked.requirements) || !number_in(&words[1], 999999, &asked.serial) ||
        !sides_in(&words[2], "arc", &asked.wishes) || !data_in(&words[3]))
        return 0;
    asked.user_data = (osi_octets){data, data_length};
    if (osi_connect(&ends[0], &asked, &reference) != OSI_OK)
        fail("no connection is asked for");
    reserve(out, LINE);
    char *at = PUT(out->at + out->length, "left connect ok ");
    at = put_number(at, reference);
    *at++ = '\n';
    out->length = (size_t)(at - out->at);
    return 1;
}

static int begin(line rest)
{
    line words[4];
    osi_terms terms[2];
    uint32_t size, window;
    for (int n = 0; n < 4; n++)
        if (!next_word(&rest, &words[n]))
            return 0;
    if (rest.at != NULL || !number_in(&words[2], 13, &size) || size < 7 || !number_in(&words[3], 15, &window) || window < 1)
        return 0;
    for (int n = 0; n < 2; n++) {
        uint8_t classes = IS(&words[n], "0") ? OSI_CLASS_0 : IS(&words[n], "2") ? OSI_CLASS_2 : OSI_CLASS_0 | OSI_CLASS_2;
        if (classes == (OSI_CLASS_0 | OSI_CLASS_2) && !IS(&words[n], "20"))
            return 0;
        terms[n] = (osi_terms){classes, (uint8_t)size, (uint8_t)window};
    }
    return osi_caller(&ends[0], &terms[0]) == OSI_OK && osi_called(&ends[1], &terms[1]) == OSI_OK;
}

/* The states of the connections, for the phases that such a script ends in. */
static void stand(text *out, int is_right)
{
    static const char *const phases[] = {"", "WaitTransport", "WaitCn", "Connecting", "Answering", "Ready"};
    for (uint32_t reference = 1; reference < 65536; reference++) {
        uint16_t of = (uint16_t)reference;
        uint32_t phase = osi_phase(&ends[is_right], of);
        if (phase == OSI_PHASE_NONE)
            return;
        if (phase > OSI_PHASE_READY)
            fail("a phase that no such script ends in");
        uint8_t held = osi_held(&ends[is_right], of);
        reserve(out, LINE);
        char *at = put_side(out->at + out->length, is_right);
        at = put_number(at, reference);
        at = PUT(at, " phase ");
        at = put(at, phases[phase], strlen(phases[phase]));
        at = PUT(at, " held ");
        at = put_hex(at, &held, 1);
        at = PUT(at, " next ");
        at = put_number(at, osi_next_serial(&ends[is_right], of));
        at = PUT(at, " below ");
        at = put_number(at, osi_confirmed_below(&ends[is_right], of));
        at = PUT(at, " lowest ");
        at = put_number(at, osi_lowest_restart(&ends[is_right], of));
        *at++ = '\n';
        out->length = (size_t)(at - out->at);
    }
}

static int play(text *out, line rest, int *has_begun)
{
    line first, whole = rest;
    if (!next_word(&whole, &first))
        return 0;
    if (!*has_begun) {
        *has_begun = IS(&first, "ends") && begin(whole);
        return *has_begun;
    }
    if (IS(&first, "carry"))
        return carry(out, whole);
    if (IS(&first, "connect"))
        return connect(out, whole);
    return call(out, &first, whole);
}

static text read_all(void)
{
    text in = {malloc(4096), 0, 4096};
    for (;;) {
        reserve(&in, 4096);
        size_t got = fread(in.at + in.length, 1, in.room - in.length, stdin);
        if (got == 0)
            return in;
        in.length += got;
    }
}

int main(void)
{
    text in = read_all();
    text out = {malloc(in.length * 2 + LINE), 0, in.length * 2 + LINE};
    const char *at = in.at, *end = in.at + in.length;
    int has_begun = 0, status = 0;
    if (out.at == NULL)
        fail("no memory");
    for (uint64_t number = 1; status == 0 && at != NULL; number++) {
        const char *stop = memchr(at, '\n', (size_t)(end - at));
        line rest = {at, stop != NULL ? stop : end};
        at = stop != NULL ? stop + 1 : NULL;
        if (rest.at == rest.end || *rest.at == '#' || play(&out, rest, &has_begun))
            continue;
        reserve(&out, LINE);
        char *tail = PUT(out.at + out.length, "line ");
        tail = put_number(tail, number);
        tail = PUT(tail, " refused\n");
        out.length = (size_t)(tail - out.at);
        status = 1;
    }
    if (status == 0 && has_begun) {
        stand(&out, 0);
        stand(&out, 1);
    }
    if (fwrite(out.at, 1, out.length, stdout) != out.length || fflush(stdout) != 0)
        fail("the transcript cannot be written");
    osi_free(&ends[0]);
    osi_free(&ends[1]);
    free(data);
    free(out.at);
    free(in.at);
    return status;
}
