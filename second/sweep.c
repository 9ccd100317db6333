/* Room in a long run, from 2026-12 of document 02: one row after the other is cut out, from the last to the first. */
#include "sweep.h"

#include "number.h"
#include "wake.h"

#include <string.h>

/* A bundle as it shrinks. */
struct shrinking {
    uint8_t b[SECOND_BUNDLE];
    size_t n, rows;
};

static size_t length_of(const struct shrinking *s, size_t row)
{
    return second_number(s->b + 2 + 12 * row + 10, 2);
}

/* It is what writing a wake-up of as many characters gives. */
static int is_wake(const uint8_t *body, size_t length)
{
    uint16_t wake[SECOND_BODY / 2];
    if (second_wake(length / 2, wake, SECOND_BODY / 2) != 0)
        return 0;
    for (size_t i = 0; i < length / 2; i++)
        if (second_number(body + 2 * i, 2) != wake[i])
            return 0;
    return 1;
}

static void cut_out(struct shrinking *s, size_t at, size_t many)
{
    memmove(s->b + at, s->b + at + many, s->n - at - many);
    s->n -= many;
}

static void number_again(struct shrinking *s)
{
    size_t place = 2 + 12 * s->rows;
    second_put_number(s->b, 2, s->rows);
    for (size_t i = 0; i < s->rows; i++) {
        second_put_number(s->b + 2 + 12 * i + 6, 4, place);
        place += length_of(s, i);
    }
}

int second_sweep(uint8_t *buffer, size_t places, uint64_t filled, unsigned position, size_t *length)
{
    static struct shrinking s;
    size_t rows = 0, place = (size_t)filled;
    int refusal = filled > places ? 30 : second_check(buffer, (size_t)filled, &rows);
    if (refusal != 0)
        return refusal;
    if (position > 48)
        return 34;
    memcpy(s.b, buffer, place);
    s.n = place;
    s.rows = rows;
    for (size_t row = rows; row-- > 0;) {
        size_t body = length_of(&s, row);
        place -= body;
        if (!is_wake(s.b + place, body) && (position == 0 || s.b[2 + 12 * row] != position))
            continue;
        cut_out(&s, place, body);
        cut_out(&s, 2 + 12 * row, 12);
        place -= 12;
        s.rows--;
    }
    number_again(&s);
    memcpy(buffer, s.b, s.n);
    *length = s.n;
    return 0;
}
