/*
 * The real-time method from the record, from document 02. The position's rows are laid out side by side first; whether one
 * counts is then asked of each by looking back from it.
 */
#include "replay.h"

#include "bundle.h"
#include "line.h"
#include "meaning.h"
#include "number.h"

/* A row of the position that is no wake-up: its first character begins, and its last one ends. */
struct spoken {
    int is_sent, refusal;
    uint64_t begins, ends;
    struct second_telegram telegram;
};

static int is_wake(const uint8_t *body, size_t characters)
{
    size_t others = 0;
    for (size_t i = 0; i < characters; i++)
        others += body[2 * i] != 0x55 || body[2 * i + 1] != 0;
    return characters > 458 && characters < 503 && others == 0;
}

/* Every rule of a bundle holds here. */
static size_t lay_out(const uint8_t *bundle, size_t rows, unsigned position, struct spoken *all)
{
    uint16_t line[SECOND_BODY / 2];
    size_t count = 0;
    for (const uint8_t *row = bundle + 2; row < bundle + 2 + 12 * rows; row += 12) {
        const uint8_t *body = bundle + second_number(row + 6, 4);
        size_t characters = (size_t)second_number(row + 10, 2) / 2;
        struct spoken *s = &all[count];
        if (row[0] != position || is_wake(body, characters))
            continue;
        for (size_t i = 0; i < characters; i++)
            line[i] = (uint16_t)second_number(body + 2 * i, 2);
        s->is_sent = row[1] == 0;
        s->begins = second_number(row + 2, 4);
        s->ends = s->begins + 11 * characters;
        s->refusal = second_read(line, characters, &s->telegram);
        count++;
    }
    return count;
}

static int fits(const struct spoken *asked, const struct spoken *answer)
{
    if (asked->refusal != 0 || asked->telegram.kind != SECOND_READ)
        return 0;
    if (answer->refusal != 0 || answer->telegram.kind != SECOND_DATA)
        return 0;
    return asked->telegram.address == 0xFE || asked->telegram.address == answer->telegram.address;
}

static int does_count(const struct spoken *all, size_t i)
{
    size_t send = i;
    if (all[i].is_sent)
        return 0;
    while (send > 0 && !all[send].is_sent)
        send--;
    if (!all[send].is_sent || all[i].begins < all[send].ends || all[i].begins > all[send].ends + 450)
        return 0;
    for (size_t between = send + 1; between < i; between++)
        if (all[between].begins >= all[send].ends)
            return 0;
    return fits(&all[send], &all[i]);
}

/* Up to the first number over 10^9; what comes after it would only be larger, and might pass 64 bits (2026-06). */
static uint64_t millilitres(const struct second_telegram *t)
{
    uint64_t volume = 0;
    for (size_t i = 0; i < t->count; i++)
        if (second_measures(t->entries[i].unit, SECOND_VOLUME)) {
            struct second_meaning meaning;
            second_entry_meaning(t->entries[i].unit, &meaning);
            volume = (uint64_t)t->entries[i].count; /* no volume is below zero */
            for (int tens = meaning.power + 6; tens > 0 && volume <= 1000000000; tens--)
                volume *= 10;
        }
    return volume;
}

/* Days since some day long ago: years begin in March here, so that a leap day is a year's last one. */
static int64_t day_of(const unsigned m[6])
{
    int64_t year = 2000 + (int64_t)m[0] - (m[1] < 3), month = m[1] < 3 ? m[1] + 9 : m[1] - 3;
    return 365 * year + year / 4 - year / 100 + year / 400 + (153 * month + 2) / 5 + m[2];
}

static int64_t second_of(const struct second_telegram *t)
{
    for (size_t i = 0; i < t->count; i++)
        if (t->entries[i].sort == SECOND_TIME) {
            const unsigned *m = t->entries[i].moment;
            return day_of(m) * 86400 + m[3] * 3600 + m[4] * 60 + m[5];
        }
    return 0;
}

/* To nearest, halves away from zero. */
static int64_t round_off(int64_t above, int64_t by)
{
    int64_t size = above < 0 ? -above : above, whole = size / by;
    if (2 * (size % by) >= by)
        whole++;
    return above < 0 ? -whole : whole;
}

/* C.1, between two answers. */
static int error_between(const struct second_telegram *first, const struct second_telegram *last, uint64_t s1, uint64_t s2,
                         uint64_t elapsed, int64_t *tenths)
{
    const uint64_t most = 1000000000, longest = 1800000;
    uint64_t v1 = millilitres(first), v2 = millilitres(last);
    int64_t meter = 1000 * (second_of(last) - second_of(first)), by, above;
    if (v1 > most || v2 > most || s1 > most || s2 > most)
        return 64;
    if (elapsed < 1 || elapsed > longest || meter < 1 || meter > (int64_t)longest)
        return 65;
    if (v2 < v1)
        return 61;
    if (s2 <= s1)
        return 62;
    by = (int64_t)(s2 - s1) * meter;
    above = (int64_t)(v2 - v1) * (int64_t)elapsed - by;
    *tenths = round_off(1000 * above, by);
    return 0;
}

int second_replay(const uint8_t *bundle, size_t n, unsigned position, uint64_t s1, uint64_t s2, uint64_t elapsed,
                  int64_t *tenths)
{
    static struct spoken all[SECOND_ROWS];
    const struct spoken *first = NULL, *last = NULL;
    size_t rows = 0, count;
    int refusal = second_check(bundle, n, &rows);
    if (refusal != 0)
        return refusal;
    if (position < 1 || position > 48)
        return 34;
    count = lay_out(bundle, rows, position, all);
    for (size_t i = 0; i < count; i++)
        if (does_count(all, i)) {
            last = &all[i];
            if (first == NULL)
                first = last;
        }
    if (first == last)
        return 63;
    return error_between(&first->telegram, &last->telegram, s1, s2, elapsed, tenths);
}
