/* Feeds the readers of examples/mms, which are unproved C, octets that were changed at random. With the sanitizers of the
 * compiler, a read outside the octets ends the program.
 *
 *   mms_octets ROUNDS [SEED]
 *
 * Each round takes a PDU that one side would send, changes some octets or cuts it, and passes it to all readers: as the user
 * data of a CN, of an AC and of a DT. The client reads what the server answers to it. */
#include "jobs.h"
#include "plant.h"
#include "upper.h"

#include <stdlib.h>
#include <string.h>

#define SEEDS 24
static struct {
    uint8_t octets[512];
    size_t length;
} seeds[SEEDS];
static size_t count;
static uint64_t state = 88172645463325252u;
static unsigned long associations, requests, answers;

static uint32_t random_number(void)
{
    state ^= state << 13;
    state ^= state >> 7;
    state ^= state << 17;
    return (uint32_t)(state >> 16);
}

static void keep(const uint8_t *at, size_t length)
{
    if (count == SEEDS || length > sizeof seeds[0].octets)
        return;
    memcpy(seeds[count].octets, at, length);
    seeds[count++].length = length;
}

/* What a client sends and the server answers: an association, and a request of each kind. */
static void make_seeds(void)
{
    static const char *const words[] = {"identify", "domains", "names", "names:plant", "read:plant/voltage", "read:clock"};
    static const struct selector psel = {{0, 0, 0, 1}, 4};
    static struct room room;
    struct upper asked, taken;
    uint8_t octets[400], answer[400];
    const uint8_t *at;
    struct ber mms;
    struct mms_pdu pdu;
    struct plant plant = {0};
    struct jobs jobs = {0};
    struct ber_writer w = ber_writer_of(octets, sizeof octets);
    mms_put_initiate(&w);
    size_t length = upper_ask(&asked, &psel, &psel, octets + w.begin, ber_written(&w), &room, &at);
    keep(at, length);
    if (upper_read_asked(&taken, ber_of(at, length), &psel, &mms) != UPPER_NONE || !mms_read(mms, &pdu))
        abort();
    w = ber_writer_of(answer, sizeof answer);
    plant_initiate(pdu.body, &w);
    length = upper_accept(&taken, &psel, answer + w.begin, ber_written(&w), &room, &at);
    keep(at, length);
    for (uint32_t i = 0; i < sizeof words / sizeof words[0] && jobs_spell(&jobs, words[i]); i++) {
        w = ber_writer_of(octets, sizeof octets);
        jobs_put(&jobs.at[i], i, &w);
        length = upper_data(&asked, octets + w.begin, ber_written(&w), &room, &at);
        keep(at, length);
        if (!upper_read_data(&taken, ber_of(at, length), &mms) || !mms_read(mms, &pdu))
            abort();
        w = ber_writer_of(answer, sizeof answer);
        plant_answer(&plant, &pdu, &w);
        length = upper_data(&taken, answer + w.begin, ber_written(&w), &room, &at);
        keep(at, length);
    }
    free(jobs.at);
}

static size_t change(uint8_t *octets, size_t length)
{
    static const uint8_t dear[] = {0, 1, 0x1f, 0x30, 0x7f, 0x80, 0x84, 0xa0, 0xbf, 0xff};
    for (uint32_t changes = random_number() % 6; changes > 0 && length > 4; changes--) {
        const size_t at = random_number() % length;
        if (random_number() % 4 == 0)
            length -= random_number() % 4;
        else if (random_number() % 2 == 0)
            octets[at] = (uint8_t)random_number();
        else
            octets[at] = dear[random_number() % sizeof dear];
    }
    return length;
}

static void as_connect(struct ber data, struct room *room)
{
    static const struct selector none = {{0}, 0};
    uint8_t octets[400];
    const uint8_t *at;
    struct upper u;
    struct ber mms;
    struct mms_pdu pdu;
    struct ber_writer w = ber_writer_of(octets, sizeof octets);
    const enum upper_problem why = upper_read_asked(&u, data, &none, &mms);
    if (why != UPPER_NONE)
        upper_refuse(&u, why, room, &at);
    else if (mms_read(mms, &pdu) && plant_initiate(pdu.body, &w) > 0)
        associations += upper_accept(&u, &none, octets + w.begin, ber_written(&w), room, &at) > 0;
    upper_read_answer(data, &mms);
}

static void as_data(struct ber data)
{
    static const char *const words[] = {"identify", "domains", "names", "read:x"};
    static uint8_t octets[1024];
    static struct plant plant;
    const struct upper u = {.mms = 3};
    struct jobs jobs = {.walks = true};
    struct ber mms;
    struct mms_pdu pdu;
    struct ber_writer w = ber_writer_of(octets, 64 + random_number() % (sizeof octets - 64));
    if (!upper_read_data(&u, data, &mms) || !mms_read(mms, &pdu))
        return;
    jobs_spell(&jobs, words[random_number() % 4]);
    jobs_answered(&jobs, 0, &pdu);
    answers++;
    if (pdu.kind == MMS_CONFIRMED_REQUEST) {
        plant_answer(&plant, &pdu, &w);
        requests++;
        if (w.full || !mms_read(ber_of(octets + w.begin, ber_written(&w)), &pdu))
            abort();
        jobs_answered(&jobs, 0, &pdu);
    }
    free(jobs.at);
}

int main(int argc, char **words)
{
    static struct room room;
    const unsigned long rounds = argc > 1 ? strtoul(words[1], NULL, 10) : 100000;
    state += argc > 2 ? strtoul(words[2], NULL, 10) : 0;
    make_seeds();
    if (freopen("/dev/null", "w", stdout) == NULL)
        return 2;
    for (unsigned long round = 0; round < rounds; round++) {
        const size_t seed = random_number() % count;
        uint8_t changed[sizeof seeds[0].octets];
        memcpy(changed, seeds[seed].octets, sizeof changed);
        const size_t length = change(changed, seeds[seed].length);
        uint8_t *octets = malloc(length); /* (of exactly this length, so that a read past the end is found) */
        if (octets == NULL)
            return 2;
        memcpy(octets, changed, length);
        as_connect(ber_of(octets, length), &room);
        as_data(ber_of(octets, length));
        free(octets);
    }
    fprintf(stderr, "%lu rounds, %lu associations, %lu PDUs, %lu requests\n", rounds, associations, answers, requests);
    return associations > 0 && requests > 0 ? 0 : 1;
}
