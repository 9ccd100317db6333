/*
 * Rows that repeat a reading. Every row's line is read into a telegram, and two telegrams are held against each other field
 * by field; the rows before one are gone through from the last to the first, so that the lowest is what is left.
 */
#include "repeat.h"

#include "bundle.h"
#include "line.h"
#include "number.h"

#include <string.h>

/* The telegram of a row, where the row was heard and is data. */
struct reading {
    int is_one;
    struct second_telegram telegram;
};

static void read_row(const uint8_t *bundle, const uint8_t *row, struct reading *r)
{
    uint16_t line[SECOND_BODY / 2];
    const uint8_t *body = bundle + second_number(row + 6, 4);
    size_t characters = (size_t)second_number(row + 10, 2) / 2;
    for (size_t i = 0; i < characters; i++)
        line[i] = (uint16_t)second_number(body + 2 * i, 2);
    r->is_one = row[1] == 1 && second_read(line, characters, &r->telegram) == 0 && r->telegram.kind == SECOND_DATA;
}

static int same_entry(const struct second_entry *a, const struct second_entry *b)
{
    if (a->structure != b->structure || a->unit != b->unit || a->sort != b->sort)
        return 0;
    return a->sort == SECOND_TIME ? memcmp(a->moment, b->moment, sizeof a->moment) == 0 : a->count == b->count;
}

static int same_reading(const struct reading *a, const struct reading *b)
{
    const struct second_telegram *t = &a->telegram, *u = &b->telegram;
    if (!a->is_one || !b->is_one || t->number != u->number || t->count != u->count)
        return 0;
    for (size_t i = 0; i < t->count; i++)
        if (!same_entry(&t->entries[i], &u->entries[i]))
            return 0;
    return 1;
}

int second_repeats(const uint8_t *bundle, size_t n, uint16_t *rows, size_t places, size_t *count)
{
    static struct reading all[SECOND_ROWS];
    size_t many = 0;
    int refusal = second_check(bundle, n, &many);
    if (refusal != 0)
        return refusal;
    if (places < many)
        return 21;
    for (size_t i = 0; i < many; i++) {
        read_row(bundle, bundle + 2 + 12 * i, &all[i]);
        rows[i] = 0;
        for (size_t before = i; before > 0; before--)
            if (same_reading(&all[before - 1], &all[i]))
                rows[i] = (uint16_t)before;
    }
    *count = many;
    return 0;
}
