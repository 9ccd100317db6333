/* A run bundle cut short, from 2026-11 of document 02: row upon row is added to a bundle of its own while it keeps the rules. */
#include "salvage.h"

#include "number.h"

#include <string.h>

struct walk {
    uint32_t last;
    size_t place;
};

/* A row's own lowest rule, or 0; what is behind it begins where the walk then stands. */
static int rule_of(const uint8_t *damaged, size_t n, const uint8_t *b, struct walk *walk)
{
    uint32_t time = (uint32_t)second_number(b + 2, 4);
    size_t offset = second_number(b + 6, 4), length = second_number(b + 10, 2);
    if (b[0] == 0 || b[0] > 48 || b[1] > 1 || time < walk->last || length % 2 != 0 || length < 2 || length > SECOND_BODY)
        return 34;
    if (offset != walk->place || n - offset < length)
        return 35;
    for (size_t i = 1; i < length; i += 2)
        if (damaged[offset + i] > 1)
            return 37;
    walk->last = time;
    walk->place += length;
    return 0;
}

int second_salvage(const uint8_t *damaged, size_t n, uint8_t *out, size_t places, struct second_salvaged *told)
{
    static uint8_t whole[SECOND_BUNDLE + 16];
    struct walk walk = {0, 0};
    size_t rows = 0, filled = 2;
    int first = second_check(damaged, n, &rows);
    if (first >= 30 && first <= 33)
        return first;
    rows = second_number(damaged, 2);
    walk.place = 2 + 12 * rows;
    memset(told, 0, sizeof *told);
    memset(whole, 0, 2);
    for (size_t i = 0; i < rows && told->rule == 0; i++) {
        const uint8_t *b = damaged + 2 + 12 * i;
        told->rule = rule_of(damaged, n, b, &walk);
        if (told->rule == 0) {
            struct second_row row = {b[0], b[1], (uint32_t)second_number(b + 2, 4), 0, second_number(b + 10, 2)};
            if (second_add(whole, SECOND_BUNDLE, filled, row, damaged + walk.place - row.length, &filled) != 0)
                return -1;
            told->kept++;
        }
    }
    told->dropped = rows - told->kept;
    if (told->dropped == 0 && walk.place < n)
        told->rule = 36;
    told->filled = filled;
    if (filled > places)
        return 38;
    memcpy(out, whole, filled);
    return 0;
}
