/* Run bundles, whole and damaged, their rows, columns, salvage, adding, inserting, sweep, choosing, joining and listing: the archive against the second
 * program. */
#define _POSIX_C_SOURCE 200809L

#include "compare_bundle.h"

#include "call.h"
#include "skarrowith.h"

#include "../second/chance.h"
#include "../second/contents.h"
#include "../second/make_bundle.h"
#include "../second/salvage.h"
#include "../second/join.h"
#include "../second/sweep.h"

#include <stdio.h>
#include <stdlib.h>
#include <string.h>

static void check(void)
{
    size_t count = 0;
    int refusal = second_check(bundle.b, bundle.n, &count);
    begin(BUNDLE_CHECK);
    struct lent *bytes = lend("bundle", bundle.n, bundle.b, bundle.n), *rows = lend("rows", sizeof count, NULL, 0);
    if (refusal == 0)
        memcpy(rows->second, &count, sizeof count);
    end(skarrowith_bundle_check(bytes->to, bundle.n, rows->to), answer_for(refusal));
}

static void put_row(void *to, const struct second_row *r)
{
    struct skarrowith_row fields = {r->time, r->offset, (uint16_t)r->length, (uint8_t)r->position, (uint8_t)r->direction};
    memcpy(to, &fields, sizeof fields);
}

static void row(void)
{
    struct second_row r = {0};
    size_t i = (size_t)some_row();
    size_t size = some_places(sizeof(struct skarrowith_row));
    int refusal = size < sizeof(struct skarrowith_row) ? 21 : second_row(bundle.b, bundle.n, i, &r);
    begin(BUNDLE_ROW);
    struct lent *bytes = lend("bundle", bundle.n, bundle.b, bundle.n), *out = lend("row", size, NULL, 0);
    if (refusal == 0)
        put_row(out->second, &r);
    end(skarrowith_bundle_row(bytes->to, bundle.n, (size_t)tell("i", i), out->to, size), answer_for(refusal));
}

static void list(void)
{
    char *text = NULL;
    size_t length = 0, places;
    FILE *to = open_memstream(&text, &length);
    if (to == NULL)
        abort();
    second_list(bundle.b, bundle.n, to, '\n');
    fclose(to);
    places = some_places(length);
    begin(BUNDLE_LIST);
    struct lent *bytes = lend("bundle", bundle.n, bundle.b, bundle.n), *out = lend("out", places, NULL, 0);
    struct lent *written = lend("written", sizeof length, NULL, 0);
    if (places >= length) {
        memcpy(out->second, text, length);
        memcpy(written->second, &length, sizeof length);
    }
    free(text);
    end(skarrowith_bundle_list(bytes->to, bundle.n, out->to, places, written->to), answer_for(places < length ? 21 : 0));
}

/* The columns as they are compared: the fields of the header's struct, each list by its name. */
static void put_contents(void *to, const struct second_contents *c)
{
    struct skarrowith_contents r;
    memset(&r, 0, sizeof r);
    r.count = c->count;
    for (size_t i = 0; i < SECOND_ROWS; i++) {
        r.positions[i] = c->positions[i];
        r.directions[i] = c->directions[i];
        r.times[i] = c->times[i];
        r.offsets[i] = c->offsets[i];
        r.lengths[i] = c->lengths[i];
    }
    memcpy(to, &r, sizeof r);
}

static struct second_contents columns;

static void contents_of(void)
{
    size_t size = some_places(sizeof(struct skarrowith_contents));
    int refusal = size < sizeof(struct skarrowith_contents) ? 21 : second_contents(bundle.b, bundle.n, &columns);
    begin(CONTENTS_OF);
    struct lent *bytes = lend("bundle", bundle.n, bundle.b, bundle.n), *out = lend("contents", size, NULL, 0);
    if (refusal == 0)
        put_contents(out->second, &columns);
    end(skarrowith_contents_of(bytes->to, bundle.n, out->to, size), answer_for(refusal));
}

/* Columns of another's making: any bytes, most often with a count that is in range, or nearly. */
static void some_columns(void)
{
    uint8_t *b = (uint8_t *)&columns;
    unsigned alike = once_in(2) ? 256 : between(1, 8);
    for (size_t i = 0; i < sizeof columns; i++)
        b[i] = (uint8_t)below(alike);
    columns.count = once_in(8) ? chance() : once_in(3) ? between(510, 514) : below(513);
}

/* The columns of a bundle, where it has any, and else of another's making; their size, now and then a wrong one. */
static size_t some_contents(uint8_t *record)
{
    if (once_in(4) || second_contents(bundle.b, bundle.n, &columns) != 0)
        some_columns();
    put_contents(record, &columns);
    return once_in(12) ? some_places(sizeof columns) : sizeof columns;
}

static uint8_t record[sizeof(struct skarrowith_contents) + 4096];

static void contents_row(void)
{
    struct second_row r = {0};
    size_t n = some_contents(record), size = some_places(sizeof(struct skarrowith_row));
    size_t i = once_in(2) ? (size_t)some_row() : below(514);
    int refusal = n != sizeof columns || columns.count > SECOND_ROWS ? 101 : size < sizeof(struct skarrowith_row) ? 21 : second_contents_row(&columns, i, &r);
    begin(CONTENTS_ROW);
    struct lent *in = lend("contents", n, record, n), *out = lend("row", size, NULL, 0);
    if (refusal == 0)
        put_row(out->second, &r);
    end(skarrowith_contents_row(in->to, n, (size_t)tell("i", i), out->to, size), answer_for(refusal));
}

static void contents_next(void)
{
    size_t n = some_contents(record), found = 0;
    size_t from = once_in(3) ? 0 : once_in(2) ? (size_t)some_row() : below(514);
    unsigned position = once_in(3) ? some_row_position() : columns.positions[below(SECOND_ROWS)];
    int refusal = n != sizeof columns ? 101 : second_contents_next(&columns, position, from, &found);
    begin(CONTENTS_NEXT);
    struct lent *in = lend("contents", n, record, n), *i = lend("i", sizeof found, NULL, 0);
    tell("position", position);
    if (refusal == 0)
        memcpy(i->second, &found, sizeof found);
    end(skarrowith_contents_next(in->to, n, (uint8_t)position, (size_t)tell("from", from), i->to), answer_for(refusal));
}

/* What is in the bundle is salvaged into so many places. */
static void salvage_into(size_t places, size_t size)
{
    struct second_salvaged s = {0, 0, 0, 0};
    int refusal = 21;
    begin(BUNDLE_SALVAGE);
    struct lent *damaged = lend("damaged", bundle.n, bundle.b, bundle.n), *out = lend("out", places, NULL, 0);
    struct lent *told = lend("told", size, NULL, 0);
    if (size >= sizeof(struct skarrowith_salvaged))
        refusal = second_salvage(bundle.b, bundle.n, out->second, places, &s);
    if (refusal == 0) {
        struct skarrowith_salvaged r = {s.kept, s.dropped, (uint64_t)s.rule, s.filled};
        memcpy(told->second, &r, sizeof r);
    }
    end(skarrowith_bundle_salvage(damaged->to, bundle.n, out->to, places, told->to, size), answer_for(refusal));
}

static void salvage(void)
{
    size_t places = some_salvage();
    salvage_into(places, some_places(sizeof(struct skarrowith_salvaged)));
}

/* The example bundle. */
static size_t read_example(void)
{
    FILE *file = fopen("../examples/night-shift.bundle", "rb");
    size_t whole;
    if (file == NULL)
        abort();
    whole = fread(bundle.b, 1, sizeof bundle.b, file);
    fclose(file);
    return whole;
}

void compare_all_cuts(void)
{
    size_t whole = read_example();
    for (bundle.n = 0; bundle.n <= whole; bundle.n++)
        salvage_into(whole, sizeof(struct skarrowith_salvaged));
}

/* The two that take a row more. */
static const struct adding {
    enum function name;
    void (*some)(struct addition *, unsigned);
    int (*second)(uint8_t *, size_t, uint64_t, struct second_row, const uint8_t *, size_t *);
    uint32_t (*proved)(uint8_t *, size_t, size_t *, uint8_t, uint8_t, uint32_t, const uint8_t *, size_t);
} adds = {BUNDLE_ADD, some_addition, second_add, skarrowith_bundle_add},
  inserts = {BUNDLE_INSERT, some_insertion, second_insert, skarrowith_bundle_insert};

/* A row is put into a bundle of its own making. */
static void add(const struct adding *by)
{
    static struct addition a;
    size_t filled, length = 0;
    int refusal;
    by->some(&a, 4);
    filled = (size_t)a.filled;
    begin(by->name);
    struct lent *buffer = lend("buffer", bundle.n, bundle.b, bundle.n), *body = lend("body", a.row.length, a.body, a.row.length);
    struct lent *fills = lend("filled", sizeof filled, &filled, sizeof filled);
    tell("position", a.row.position);
    tell("direction", a.row.direction);
    tell("time", a.row.time);
    refusal = by->second(buffer->second, bundle.n, filled, a.row, a.body, &length);
    if (refusal == 0)
        memcpy(fills->second, &length, sizeof length);
    end(by->proved(buffer->to, bundle.n, fills->to, (uint8_t)a.row.position, (uint8_t)a.row.direction, a.row.time, body->to,
                   a.row.length),
        answer_for(refusal));
}

/* The buffer is swept, of which so many bytes are said to be filled. */
static void sweep_filled(size_t filled, unsigned position)
{
    size_t length = 0;
    int refusal;
    begin(BUNDLE_SWEEP);
    struct lent *buffer = lend("buffer", bundle.n, bundle.b, bundle.n);
    struct lent *fills = lend("filled", sizeof filled, &filled, sizeof filled);
    tell("position", position);
    refusal = second_sweep(buffer->second, bundle.n, filled, position, &length);
    if (refusal == 0)
        memcpy(fills->second, &length, sizeof length);
    end(skarrowith_bundle_sweep(buffer->to, bundle.n, fills->to, (uint8_t)position), answer_for(refusal));
}

static void sweep(void)
{
    struct sweeping s;
    some_sweep(&s, 6);
    sweep_filled((size_t)s.filled, s.position);
}

/* The rows of a position go into so many places. */
static void choose_into(unsigned position, size_t places)
{
    size_t length = 0;
    int refusal;
    begin(BUNDLE_OF_POSITION);
    struct lent *in = lend("bundle", bundle.n, bundle.b, bundle.n), *out = lend("out", places, NULL, 0);
    struct lent *filled = lend("filled", sizeof length, NULL, 0);
    tell("position", position);
    refusal = second_of_position(bundle.b, bundle.n, position, out->second, places, &length);
    if (refusal == 0)
        memcpy(filled->second, &length, sizeof length);
    end(skarrowith_bundle_of_position(in->to, bundle.n, (uint8_t)position, out->to, places, filled->to), answer_for(refusal));
}

static void choose(void)
{
    struct choice c;
    some_choice(&c, 6);
    choose_into(c.position, c.places);
}

static void join(void)
{
    static struct joining j;
    size_t length = 0;
    int refusal;
    some_join(&j, 6);
    begin(BUNDLE_JOIN);
    struct lent *a = lend("a", j.first.n, j.first.b, j.first.n), *b = lend("b", bundle.n, bundle.b, bundle.n);
    struct lent *out = lend("out", j.places, NULL, 0), *filled = lend("filled", sizeof length, NULL, 0);
    refusal = second_join(j.first.b, j.first.n, bundle.b, bundle.n, out->second, j.places, &length);
    if (refusal == 0)
        memcpy(filled->second, &length, sizeof length);
    end(skarrowith_bundle_join(a->to, j.first.n, b->to, bundle.n, out->to, j.places, filled->to), answer_for(refusal));
}

void compare_all_positions(void)
{
    bundle.n = read_example();
    for (unsigned position = 0; position < 256; position++) {
        sweep_filled(bundle.n, position);
        choose_into(position, bundle.n);
    }
}

void compare_bundle(void)
{
    some_bundle();
    check();
    row();
    list();
    contents_of();
    contents_row();
    contents_next();
    salvage();
    add(&adds);
    add(&inserts);
    sweep();
    choose();
    join();
}
