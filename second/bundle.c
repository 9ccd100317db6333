/* The run bundle and its listing, from document 01. */
#include "bundle.h"

#include "line.h"
#include "number.h"

#include <string.h>

static struct second_row row_at(const uint8_t *bundle, size_t i)
{
    const uint8_t *b = bundle + 2 + 12 * i;
    struct second_row row = {b[0], b[1], (uint32_t)second_number(b + 2, 4), (uint32_t)second_number(b + 6, 4),
                             second_number(b + 10, 2)};
    return row;
}

void second_put_row(uint8_t *to, const struct second_row *row)
{
    to[0] = (uint8_t)row->position;
    to[1] = (uint8_t)row->direction;
    second_put_number(to + 2, 4, row->time);
    second_put_number(to + 6, 4, row->offset);
    second_put_number(to + 10, 2, row->length);
}

/* 34, of one row behind another whose time was last. */
static int is_good(const struct second_row *row, uint32_t last)
{
    if (row->position < 1 || row->position > 48 || row->direction > 1 || row->time < last)
        return 0;
    return row->length % 2 == 0 && row->length >= 2 && row->length <= SECOND_BODY;
}

/* The time that a new row may not be below. */
static uint32_t last_time(const uint8_t *bundle, size_t rows)
{
    return rows == 0 ? 0 : row_at(bundle, rows - 1).time;
}

static int are_good(const uint8_t *bundle, size_t rows)
{
    for (size_t i = 0; i < rows; i++) {
        struct second_row row = row_at(bundle, i);
        if (!is_good(&row, last_time(bundle, i)))
            return 0;
    }
    return 1;
}

/* 35: where the bodies end, if each begins where the one before it ends and lies in the bundle; else 0. */
static size_t bodies_end(const uint8_t *bundle, size_t n, size_t rows)
{
    size_t place = 2 + 12 * rows;
    for (size_t i = 0; i < rows; i++) {
        struct second_row row = row_at(bundle, i);
        if (row.offset != place || n - place < row.length)
            return 0;
        place += row.length;
    }
    return place;
}

/* 37 */
static int is_wide(const uint8_t *bytes, size_t n)
{
    for (; n > 0; bytes += 2, n -= 2)
        if (second_number(bytes, 2) > 511)
            return 1;
    return 0;
}

int second_check(const uint8_t *bundle, size_t n, size_t *rows)
{
    size_t contents, end;
    if (n > SECOND_BUNDLE)
        return 30;
    if (n < 2)
        return 31;
    *rows = second_number(bundle, 2);
    if (*rows > SECOND_ROWS)
        return 32;
    contents = 2 + 12 * *rows;
    if (n < contents)
        return 33;
    if (!are_good(bundle, *rows))
        return 34;
    end = bodies_end(bundle, n, *rows);
    if (end == 0)
        return 35;
    if (end != n)
        return 36;
    return is_wide(bundle + contents, n - contents) ? 37 : 0;
}

int second_row(const uint8_t *bundle, size_t n, uint64_t index, struct second_row *row)
{
    size_t rows = 0;
    int refusal = second_check(bundle, n, &rows);
    if (refusal != 0)
        return refusal;
    if (index >= rows)
        return 39;
    *row = row_at(bundle, (size_t)index);
    return 0;
}

/* The new bundle is put together beside the old one, row by row and body by body, the new one at its place, and then copied over it. */
static void join(uint8_t *buffer, size_t rows, size_t new, struct second_row row, const uint8_t *body)
{
    static uint8_t joined[SECOND_BUNDLE];
    size_t place = 2 + 12 * (rows + 1);
    second_put_number(joined, 2, rows + 1);
    for (size_t i = 0; i <= rows; i++) {
        struct second_row one = i == new ? row : row_at(buffer, i < new ? i : i - 1);
        memcpy(joined + place, i == new ? body : buffer + one.offset, one.length);
        one.offset = (uint32_t)place;
        second_put_row(joined + 2 + 12 * i, &one);
        place += one.length;
    }
    memcpy(buffer, joined, place);
}

/* The refusals of a new row in a bundle of so many rows; no time below this one is good. */
static int tried(size_t places, uint64_t filled, size_t rows, const struct second_row *row, uint32_t before, const uint8_t *body,
                 size_t *length)
{
    if (!is_good(row, before))
        return 34;
    if (is_wide(body, row->length))
        return 37;
    *length = (size_t)filled + 12 + row->length;
    return rows == SECOND_ROWS || *length > places || *length > SECOND_BUNDLE ? 38 : 0;
}

int second_add(uint8_t *buffer, size_t places, uint64_t filled, struct second_row row, const uint8_t *body,
               size_t *length)
{
    size_t rows = 0;
    int refusal = filled > places ? 30 : second_check(buffer, (size_t)filled, &rows);
    if (refusal == 0)
        refusal = tried(places, filled, rows, &row, last_time(buffer, rows), body, length);
    if (refusal == 0)
        join(buffer, rows, rows, row, body);
    return refusal;
}

int second_insert(uint8_t *buffer, size_t places, uint64_t filled, struct second_row row, const uint8_t *body,
                  size_t *length)
{
    size_t rows = 0, place = 0;
    int refusal = filled > places ? 30 : second_check(buffer, (size_t)filled, &rows);
    if (refusal == 0)
        refusal = tried(places, filled, rows, &row, 0, body, length);
    if (refusal != 0)
        return refusal;
    for (size_t i = 0; i < rows; i++)
        if (row_at(buffer, i).time <= row.time)
            place = i + 1;
    join(buffer, rows, place, row, body);
    return 0;
}

/* ---- the listing */

static int is_wake(const uint16_t *line, size_t n)
{
    size_t same = 0;
    while (same < n && line[same] == 0x55)
        same++;
    return same == n && n >= 459 && n <= 502;
}

void second_word(const uint8_t *bundle, const struct second_row *row, FILE *to)
{
    static const char *const words[] = {"ack", "read", "enter", "leave", "data"};
    uint16_t line[SECOND_BODY / 2] = {0};
    struct second_telegram t;
    size_t n = row->length / 2;
    int refusal;
    for (size_t i = 0; i < n; i++)
        line[i] = (uint16_t)second_number(bundle + row->offset + 2 * i, 2);
    refusal = second_read(line, n, &t);
    if (is_wake(line, n))
        fprintf(to, "wake");
    else if (refusal != 0)
        fprintf(to, "refused %d", refusal);
    else
        fprintf(to, "%s", words[t.kind]);
}

static void list_row(const uint8_t *bundle, struct second_row row, FILE *to, int end)
{
    fprintf(to, "%u,%s,%lu,", row.position, row.direction == 0 ? "sent" : "heard", (unsigned long)row.time);
    second_word(bundle, &row, to);
    fputc(end, to);
}

void second_list(const uint8_t *bundle, size_t n, FILE *to, int end)
{
    size_t rows = 0;
    int refusal = second_check(bundle, n, &rows);
    if (refusal != 0) {
        fprintf(to, "refused %d%c", refusal, end);
        return;
    }
    fprintf(to, "position,direction,time,line%c", end);
    for (size_t i = 0; i < rows; i++)
        list_row(bundle, row_at(bundle, i), to, end);
}
