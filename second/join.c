/* The rows of one position, and two run bundles joined: rows are gathered, put in order and written as a bundle. */
#include "join.h"

#include "number.h"

#include <string.h>

/* Rows of any bundles, each with its body. */
static struct gathered {
    struct second_row row;
    const uint8_t *body;
} gathered[2 * SECOND_ROWS];

static size_t count;

/* Gathers the rows of a position, or all where it is 0, of a bundle that is accepted. */
static void gather(const uint8_t *bundle, size_t rows, unsigned position)
{
    const uint8_t *b = bundle + 2, *body = bundle + 2 + 12 * rows;
    for (; rows > 0; rows--, b += 12) {
        struct second_row row = {b[0], b[1], (uint32_t)second_number(b + 2, 4), 0, second_number(b + 10, 2)};
        if (position == 0 || row.position == position)
            gathered[count++] = (struct gathered){row, body};
        body += row.length;
    }
}

/* By time; rows of one time stay as they are. */
static void put_in_order(void)
{
    for (size_t i = 1; i < count; i++) {
        struct gathered one = gathered[i];
        size_t place = i;
        for (; place > 0 && gathered[place - 1].row.time > one.row.time; place--)
            gathered[place] = gathered[place - 1];
        gathered[place] = one;
    }
}

static int write_all(uint8_t *out, size_t places, size_t *length)
{
    size_t place = 2 + 12 * count, size = place;
    for (size_t i = 0; i < count; i++)
        size += gathered[i].row.length;
    if (count > SECOND_ROWS || size > SECOND_BUNDLE || size > places)
        return 38;
    second_put_number(out, 2, count);
    for (size_t i = 0; i < count; i++) {
        struct second_row row = gathered[i].row;
        row.offset = (uint32_t)place;
        second_put_row(out + 2 + 12 * i, &row);
        memcpy(out + place, gathered[i].body, row.length);
        place += row.length;
    }
    *length = size;
    return 0;
}

int second_of_position(const uint8_t *bundle, size_t n, unsigned position, uint8_t *out, size_t places, size_t *length)
{
    size_t rows = 0;
    int refusal = second_check(bundle, n, &rows);
    if (refusal != 0)
        return refusal;
    if (position == 0 || position > 48)
        return 34;
    count = 0;
    gather(bundle, rows, position);
    return write_all(out, places, length);
}

int second_join(const uint8_t *a, size_t m, const uint8_t *b, size_t n, uint8_t *out, size_t places, size_t *length)
{
    size_t in_a = 0, in_b = 0;
    int refusal = second_check(a, m, &in_a);
    if (refusal == 0)
        refusal = second_check(b, n, &in_b);
    if (refusal != 0)
        return refusal;
    count = 0;
    gather(a, in_a, 0);
    gather(b, in_b, 0);
    put_in_order();
    return write_all(out, places, length);
}
