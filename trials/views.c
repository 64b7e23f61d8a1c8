/* Views. */
#include "views.h"

#include <stdlib.h>
#include <string.h>

static void append(struct items *items, enum what what, uint32_t number, const uint8_t *octets, size_t length)
{
    if (items->count == items->room) {
        items->room = 2 * items->room + 8;
        items->at = realloc(items->at, items->room * sizeof *items->at);
        if (items->at == NULL)
            abort();
    }
    uint8_t *copy = malloc(length + 1);
    memcpy(copy, octets, length);
    items->at[items->count++] = (struct item){what, number, copy, length};
}

static uint32_t points(const struct items *items)
{
    uint32_t count = 0;
    for (size_t i = 0; i < items->count; i++)
        count += items->at[i].what != A_DATA;
    return count;
}

static void drop_behind(struct items *items, size_t count)
{
    while (items->count > count)
        free(items->at[--items->count].octets);
}

void record_asked(struct record *record, enum what what, const uint8_t *octets, size_t length)
{
    uint32_t number = what == A_DATA ? 0 : record->base + points(&record->view);
    append(&record->view, what, number, octets, length);
    if (what == A_DATA)
        append(&record->asked, what, 0, octets, length);
}

void record_shown(struct record *record, enum what what, uint32_t number, const uint8_t *octets, size_t length)
{
    append(&record->view, what, number, octets, length);
    if (what == A_DATA)
        append(&record->shown, what, 0, octets, length);
}

void record_cut(struct record *record, uint32_t number)
{
    size_t keep = 0;
    for (size_t i = 0; number > record->base && i < record->view.count && keep == 0; i++)
        if (record->view.at[i].what != A_DATA && record->view.at[i].number == number - 1)
            keep = i + 1;
    drop_behind(&record->view, keep);
}

void record_free(struct record *record)
{
    struct items *all[] = {&record->view, &record->asked, &record->shown};
    for (size_t i = 0; i < 3; i++) {
        drop_behind(all[i], 0);
        free(all[i]->at);
    }
    *record = (struct record){.base = 0};
}

static bool is_same(const struct item *a, const struct item *b)
{
    return a->what == b->what && a->number == b->number && a->length == b->length
           && memcmp(a->octets, b->octets, a->length) == 0;
}

static bool begins(const struct items *whole, const struct items *front)
{
    if (front->count > whole->count)
        return false;
    for (size_t i = 0; i < front->count; i++)
        if (!is_same(&whole->at[i], &front->at[i]))
            return false;
    return true;
}

bool records_agree(const struct record *left, const struct record *right)
{
    if (left->duplex || right->duplex)
        return begins(&left->asked, &right->shown) && begins(&right->asked, &left->shown);
    return begins(&left->view, &right->view) || begins(&right->view, &left->view);
}

bool confirmed_is_seen(const struct record *side, uint32_t confirmed_below, const struct record *other)
{
    for (size_t i = 0; i < side->view.count; i++) {
        const struct item *point = &side->view.at[i];
        bool seen = point->what == A_DATA || point->number >= confirmed_below || other->asking;
        for (size_t k = 0; k < other->view.count && !seen; k++)
            seen = other->view.at[k].what != A_DATA && other->view.at[k].number == point->number;
        if (!seen)
            return false;
    }
    return true;
}
