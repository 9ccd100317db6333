/* The cases of run bundles. */
#include "bundles.h"

#include "lines.h"
#include "telegrams.h"
#include "words.h"

#include "../second/bundle.h"
#include "../second/contents.h"
#include "../second/join.h"
#include "../second/repeat.h"
#include "../second/replay.h"
#include "../second/salvage.h"
#include "../second/sweep.h"
#include "../second/verdict.h"

#include <inttypes.h>
#include <stdio.h>
#include <string.h>

enum { BYTES_MOST = 70000 };

struct bytes {
    uint8_t b[BYTES_MOST];
    size_t n;
};

static int add_byte(struct bytes *list, uint64_t byte)
{
    if (list->n == BYTES_MOST)
        return 0;
    list->b[list->n++] = (uint8_t)byte;
    return 1;
}

/* A number in so many bytes, low byte first. */
static int add_number(struct bytes *list, size_t bytes, uint64_t n)
{
    for (; bytes > 0; bytes--, n >>= 8)
        if (!add_byte(list, n & 0xFF))
            return 0;
    return 1;
}

static int take_fill(struct bytes *list)
{
    uint64_t count, c;
    if (!take(&count, 0xFFFF) || !take(&c, 0xFFFF))
        return 0;
    for (; count > 0; count--)
        if (!add_number(list, 2, c))
            return 0;
    return 1;
}

static int take_rows(struct bytes *list)
{
    uint64_t count, position, direction, time, offset, length, step;
    if (!take(&count, 0xFFFF) || !take(&position, 0xFF) || !take(&direction, 0xFF) || !take(&time, 0xFFFFFFFF))
        return 0;
    if (!take(&offset, 0xFFFFFFFF) || !take(&length, 0xFFFF) || !take(&step, 0xFFFFFFFF))
        return 0;
    for (; count > 0; count--, time += step, offset += length) {
        if (!add_number(list, 1, position) || !add_number(list, 1, direction) || !add_number(list, 4, time))
            return 0;
        if (!add_number(list, 4, offset) || !add_number(list, 2, length))
            return 0;
    }
    return 1;
}

/* Bytes up to a name that begins no stretch of them. */
static int take_bytes(struct bytes *list)
{
    uint64_t byte;
    list->n = 0;
    for (;;) {
        if (take_name("fill")) {
            if (!take_fill(list))
                return 0;
        } else if (take_name("rows")) {
            if (!take_rows(list))
                return 0;
        } else if (!goes_on())
            return 1;
        else if (!take(&byte, 0xFF) || !add_byte(list, byte))
            return 0;
    }
}

/* How many characters alike, two bytes each, begin a list. */
static size_t alike(const uint8_t *b, size_t n)
{
    size_t same = 2;
    while (same + 2 <= n && memcmp(b, b + same, 2) == 0)
        same += 2;
    return n < 2 ? 0 : same / 2;
}

static void say_bytes(const uint8_t *b, size_t n)
{
    for (size_t i = 0, many; i < n; i += many < 4 ? 1 : 2 * many) {
        many = alike(b + i, n - i);
        if (many < 4)
            printf(" %02X", b[i]);
        else
            printf(" fill +%zu %03X", many, b[i + 1] << 8 | b[i]);
    }
}

static struct bytes bundle, body;

int answer_check(void)
{
    size_t rows = 0;
    if (!take_bytes(&bundle) || !is_whole())
        return 0;
    if (!refused(second_check(bundle.b, bundle.n, &rows)))
        printf("rows +%zu", rows);
    return 1;
}

static void say_row(const struct second_row *row)
{
    printf("row +%u +%u", row->position, row->direction);
    printf(" +%" PRIu32 " +%" PRIu32 " +%zu", row->time, row->offset, row->length);
}

static void say_body(const struct second_row *row)
{
    printf("body +%" PRIu32 " +%zu", row->offset, row->length);
    say_bytes(bundle.b + row->offset, row->length);
}

/* A row's number and a bundle, and what is said of the row. */
static int answer_of(void (*say)(const struct second_row *row))
{
    struct second_row row;
    uint64_t index;
    if (!take(&index, UINT64_MAX) || !take_bytes(&bundle) || !is_whole())
        return 0;
    if (!refused(second_row(bundle.b, bundle.n, index, &row)))
        say(&row);
    return 1;
}

int answer_row(void)
{
    return answer_of(say_row);
}

int answer_body(void)
{
    return answer_of(say_body);
}

/* The same row from the columns. */
int answer_kept(void)
{
    static struct second_contents contents;
    struct second_row row;
    uint64_t index;
    if (!take(&index, UINT64_MAX) || !take_bytes(&bundle) || !is_whole())
        return 0;
    if (!refused(second_contents(bundle.b, bundle.n, &contents)) && !refused(second_contents_row(&contents, index, &row)))
        say_row(&row);
    return 1;
}

int answer_next(void)
{
    static struct second_contents contents;
    uint64_t position, from;
    size_t index = 0;
    if (!take(&position, 0xFF) || !take(&from, UINT64_MAX) || !take_bytes(&bundle) || !is_whole())
        return 0;
    if (!refused(second_contents(bundle.b, bundle.n, &contents)) &&
        !refused(second_contents_next(&contents, (unsigned)position, from, &index)))
        printf("next +%zu", index);
    return 1;
}

typedef int adding(uint8_t *, size_t, uint64_t, struct second_row, const uint8_t *, size_t *);

/* Adding and inserting take the same and tell the same. */
static int answer_new_row(adding *put)
{
    uint64_t filled, position, direction, time;
    size_t length = 0;
    if (!take(&filled, UINT64_MAX) || !take(&position, 0xFF) || !take(&direction, 0xFF) || !take(&time, 0xFFFFFFFF))
        return 0;
    if (!take_name("body") || !take_bytes(&body) || !take_name("buffer") || !take_bytes(&bundle) || !is_whole())
        return 0;
    struct second_row row = {(unsigned)position, (unsigned)direction, (uint32_t)time, 0, body.n};
    if (!refused(put(bundle.b, bundle.n, filled, row, body.b, &length)))
        printf("filled +%zu", length);
    say_bytes(bundle.b, bundle.n);
    return 1;
}

int answer_add(void) { return answer_new_row(second_add); }

int answer_insert(void) { return answer_new_row(second_insert); }

int answer_sweep(void)
{
    uint64_t filled, position;
    size_t length = 0;
    if (!take(&filled, UINT64_MAX) || !take(&position, 0xFF) || !take_bytes(&bundle) || !is_whole())
        return 0;
    if (!refused(second_sweep(bundle.b, bundle.n, filled, (unsigned)position, &length)))
        printf("filled +%zu", length);
    say_bytes(bundle.b, bundle.n);
    return 1;
}

/* The second buffer holds FF before the call; what stands there afterwards is told up to the last byte that is another. */
static uint8_t out[BYTES_MOST];

static void say_out(void)
{
    size_t n = BYTES_MOST;
    while (n > 0 && out[n - 1] == 0xFF)
        n--;
    say_bytes(out, n);
}

int answer_salvage(void)
{
    struct second_salvaged told = {0, 0, 0, 0};
    uint64_t places;
    if (!take(&places, BYTES_MOST) || !take_bytes(&bundle) || !is_whole())
        return 0;
    memset(out, 0xFF, sizeof out);
    if (!refused(second_salvage(bundle.b, bundle.n, out, (size_t)places, &told)))
        printf("kept +%zu dropped +%zu rule +%d filled +%zu", told.kept, told.dropped, told.rule, told.filled);
    say_out();
    return 1;
}

int answer_of_position(void)
{
    uint64_t places, position;
    size_t length = 0;
    if (!take(&places, BYTES_MOST) || !take(&position, 0xFF) || !take_bytes(&bundle) || !is_whole())
        return 0;
    memset(out, 0xFF, sizeof out);
    if (!refused(second_of_position(bundle.b, bundle.n, (unsigned)position, out, (size_t)places, &length)))
        printf("filled +%zu", length);
    say_out();
    return 1;
}

int answer_join(void)
{
    static struct bytes other;
    uint64_t places;
    size_t length = 0;
    if (!take(&places, BYTES_MOST) || !take_name("first") || !take_bytes(&bundle) || !take_name("second") || !take_bytes(&other) || !is_whole())
        return 0;
    memset(out, 0xFF, sizeof out);
    if (!refused(second_join(bundle.b, bundle.n, other.b, other.n, out, (size_t)places, &length)))
        printf("filled +%zu", length);
    say_out();
    return 1;
}

int answer_list(void)
{
    if (!take_bytes(&bundle) || !is_whole())
        return 0;
    second_list(bundle.b, bundle.n, stdout, '/');
    return 1;
}

static void say_judged(const struct second_judged *j)
{
    static const char *const names[] = {"",      "wake", "first",  "resend",  "refused",   "counts",
                                        "leftover", "late", "second", "damaged", "wrongkind", "unasked"};
    printf("%s", names[j->verdict]);
    if (j->verdict == SECOND_UNSENT || j->verdict == SECOND_DAMAGED_LINE)
        printf(" %d", j->number);
}

static struct second_judged judged[SECOND_ROWS];

static void say_verdicts(size_t rows)
{
    printf("verdicts");
    for (size_t i = 0; i < rows; i++) {
        putchar(' ');
        say_judged(&judged[i]);
    }
}

int answer_verdicts(void)
{
    size_t rows = 0;
    if (!take_bytes(&bundle) || !is_whole())
        return 0;
    if (!refused(second_verdicts(bundle.b, bundle.n, judged, &rows)))
        say_verdicts(rows);
    return 1;
}

/* The same from the columns. */
int answer_kept_verdicts(void)
{
    static struct second_contents contents;
    size_t rows = 0;
    if (!take_bytes(&bundle) || !is_whole())
        return 0;
    if (!refused(second_contents(bundle.b, bundle.n, &contents)) &&
        !refused(second_contents_verdicts(&contents, bundle.b, bundle.n, judged, &rows)))
        say_verdicts(rows);
    return 1;
}

int answer_verdict(void)
{
    uint64_t index;
    if (!take(&index, UINT64_MAX) || !take_bytes(&bundle) || !is_whole())
        return 0;
    if (!refused(second_verdict(bundle.b, bundle.n, index, judged))) {
        printf("verdict ");
        say_judged(judged);
    }
    return 1;
}

int answer_replay(void)
{
    uint64_t position, s1, s2, elapsed;
    int64_t tenths = 0;
    if (!take(&position, 0xFF) || !take(&s1, UINT64_MAX) || !take(&s2, UINT64_MAX) || !take(&elapsed, UINT64_MAX))
        return 0;
    if (!take_bytes(&bundle) || !is_whole())
        return 0;
    if (!refused(second_replay(bundle.b, bundle.n, (unsigned)position, s1, s2, elapsed, &tenths)))
        printf("error %+" PRId64, tenths);
    return 1;
}

int answer_repeats(void)
{
    uint16_t numbers[PLACES_MOST];
    uint64_t places;
    size_t rows = 0;
    if (!take(&places, PLACES_MOST) || !take_bytes(&bundle) || !is_whole())
        return 0;
    clear_places(numbers, places);
    if (!refused(second_repeats(bundle.b, bundle.n, numbers, (size_t)places, &rows)))
        printf("rows +%zu", rows);
    while (places > 0 && numbers[places - 1] == MARKER)
        places--;
    for (uint64_t i = 0; i < places; i++)
        printf(" +%" PRIu16, numbers[i]);
    return 1;
}
