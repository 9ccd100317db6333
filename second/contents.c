/* The contents of a run bundle kept in columns, from 2026-10 of document 02. */
#include "contents.h"

#include "number.h"

#include <string.h>

int second_contents(const uint8_t *bundle, size_t n, struct second_contents *c)
{
    size_t rows = 0;
    int refusal = second_check(bundle, n, &rows);
    if (refusal != 0)
        return refusal;
    memset(c, 0, sizeof *c);
    for (const uint8_t *b = bundle + 2; c->count < rows; b += 12, c->count++) {
        c->positions[c->count] = b[0];
        c->directions[c->count] = b[1];
        c->times[c->count] = (uint32_t)second_number(b + 2, 4);
        c->offsets[c->count] = (uint32_t)second_number(b + 6, 4);
        c->lengths[c->count] = (uint16_t)second_number(b + 10, 2);
    }
    return 0;
}

int second_contents_row(const struct second_contents *c, uint64_t index, struct second_row *row)
{
    if (c->count > SECOND_ROWS)
        return 101;
    if (index >= c->count)
        return 39;
    *row = (struct second_row){c->positions[index], c->directions[index], c->times[index], c->offsets[index], c->lengths[index]};
    return 0;
}

int second_contents_next(const struct second_contents *c, unsigned position, uint64_t from, size_t *index)
{
    if (c->count > SECOND_ROWS)
        return 101;
    for (uint64_t i = from; i < c->count; i++)
        if (c->positions[i] == position) {
            *index = (size_t)i;
            return 0;
        }
    return 39;
}
