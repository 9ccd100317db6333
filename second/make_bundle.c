/* Random run bundles: such that keep every rule, and such with a rule broken. */
#include "make_bundle.h"

#include "chance.h"
#include "join.h"
#include "make_line.h"
#include "make_telegram.h"
#include "number.h"
#include "salvage.h"

#include <string.h>

/* Rows with their bodies, still apart. */
static struct {
    struct second_row row[SECOND_ROWS];
    size_t rows;
    uint8_t bodies[BYTES_MOST];
    size_t size;
} run;

struct bundle bundle;

static size_t run_length(void)
{
    return 2 + 12 * run.rows + run.size;
}

void begin_run(void)
{
    run.rows = run.size = 0;
}

void add_row(unsigned position, unsigned direction, uint32_t time, const struct line *l)
{
    struct second_row row = {position, direction, time, 0, 2 * l->n};
    run.row[run.rows++] = row;
    for (size_t i = 0; i < l->n; i++, run.size += 2)
        second_put_number(run.bodies + run.size, 2, l->c[i]);
}

void join_run(void)
{
    size_t place = 2 + 12 * run.rows;
    second_put_number(bundle.b, 2, run.rows);
    for (size_t i = 0; i < run.rows; i++) {
        run.row[i].offset = (uint32_t)place;
        second_put_row(bundle.b + 2 + 12 * i, &run.row[i]);
        place += run.row[i].length;
    }
    memcpy(bundle.b + 2 + 12 * run.rows, run.bodies, run.size);
    bundle.n = place;
    bundle.rows = run.rows;
}

static void repeat_character(struct line *l, unsigned c, unsigned many)
{
    for (l->n = 0; l->n < many;)
        add_character(l, c);
}

/* A body of a row: a wake-up or nearly one, a line, a damaged one, or noise. */
static void some_body(struct line *l)
{
    if (once_in(6)) {
        repeat_character(l, 0x55, once_in(2) ? between(457, 460) : between(500, 502));
        if (once_in(4))
            flip(l, 1);
        return;
    }
    write_good(l, some_kind());
    if (once_in(4))
        damaged_line(l);
    for (size_t i = 0; i < l->n; i++)
        l->c[i] &= 0x1FF;
    if (l->n == 0 || l->n > SECOND_BODY / 2)
        repeat_character(l, 0x1E5, 1);
}

static unsigned some_position(void)
{
    return once_in(4) ? 1 + 47 * below(2) : between(1, 48);
}

uint32_t run_time(void)
{
    return run.rows == 0 ? 0 : run.row[run.rows - 1].time;
}

uint32_t later_row(void)
{
    uint32_t last = run_time(), left = UINT32_MAX - last;
    uint32_t more = once_in(3) ? 0 : once_in(20) ? (uint32_t)of_any_width() : below(5000);
    return last + (more > left ? left : more);
}

/* A few rows, each with a body of its own. */
static void few_rows(unsigned rows)
{
    struct line l = {{0}, 0};
    while (rows-- > 0) {
        unsigned position = some_position(), direction = below(2);
        uint32_t time = later_row();
        some_body(&l);
        add_row(position, direction, time, &l);
    }
}

/* A body of rows that come many at a time. */
static void common_body(struct line *l)
{
    if (once_in(4))
        repeat_character(l, 0x55, between(459, 502));
    else if (once_in(3))
        repeat_character(l, 0x1E5, 1);
    else {
        unsigned c = below(512);
        repeat_character(l, c, between(1, once_in(2) ? 20 : 120));
    }
}

/*
 * Rows alike, up to a number of rows or of bytes, of which no more are left then than a row needs: the last body
 * is shortened or made longer.
 */
static void many_rows(size_t rows, size_t bytes)
{
    struct line l = {{0}, 0};
    while (run.rows < rows && run_length() + 14 <= bytes) {
        unsigned position = some_position(), direction = below(2), step = once_in(2) ? 0 : below(5000);
        uint32_t time = later_row();
        common_body(&l);
        for (unsigned many = between(1, 200); many > 0 && run.rows < rows && run_length() + 14 <= bytes; many--) {
            size_t most = (bytes - run_length() - 12) / 2;
            if (most < l.n || (most < l.n + 7 && most <= SECOND_BODY / 2))
                repeat_character(&l, l.c[0], (unsigned)most);
            add_row(position, direction, time, &l);
            time += time > UINT32_MAX - step ? 0 : step;
        }
    }
}

/* A bundle that keeps every rule but perhaps 30: few rows, or many of them, up to 512 rows or so many bytes. */
static void good_bundle(size_t bytes)
{
    size_t rows = once_in(2) ? SECOND_ROWS : between(7, 511);
    begin_run();
    if (!once_in(12))
        few_rows(once_in(8) ? 0 : between(1, 6));
    else
        many_rows(rows, once_in(2) ? bytes : between(3000, 65536));
    join_run();
}

/* A field of some row. */
static void break_field(uint8_t *row)
{
    unsigned sort = below(5), at = sort == 4 ? between(10, 11) : sort == 3 ? between(6, 9) : between(2, 5);
    if (sort == 0)
        row[0] = (uint8_t)(once_in(2) ? 49 * below(2) : below(256));
    else if (sort == 1)
        row[1] = (uint8_t)between(1, 3);
    else
        row[at] ^= (uint8_t)one_bit(0, 7);
}

void break_bundle(void)
{
    unsigned rows = (unsigned)bundle.rows, n = (unsigned)bundle.n, at;
    switch (below(8)) {
    case 0: /* cut */
        bundle.n = once_in(3) ? below(3) : once_in(2) ? n - between(0, n < 14 ? n : 14) : below(n + 1);
        break;
    case 1: /* longer */
        for (unsigned more = between(1, 14); more > 0; more--)
            bundle.b[bundle.n++] = (uint8_t)(once_in(2) ? 0 : below(256));
        break;
    case 2: /* another count */
        second_put_number(bundle.b, 2, once_in(2) ? rows + 1 - 2 * below(2) : once_in(2) ? between(510, 515) : below(65536));
        break;
    case 3: /* a body's character */
        at = 2 + 12 * rows + (run.size == 0 ? 0 : below((unsigned)run.size));
        bundle.b[at] = (uint8_t)below(4);
        break;
    case 4: /* flips */
        for (unsigned flips = between(1, 4); flips > 0; flips--) {
            at = below(n);
            bundle.b[at] ^= (uint8_t)one_bit(0, 7);
        }
        break;
    default:
        if (rows > 0)
            break_field(bundle.b + 2 + 12 * below(rows));
    }
}

void some_bundle(void)
{
    good_bundle(once_in(3) ? 65538 : 65536);
    if (once_in(2))
        break_bundle();
    if (once_in(10) && bundle.n > 0)
        break_bundle();
}

/* What stands behind a bundle in its buffer: as many places as a new row needs, or nearly, or any number. */
static void add_places(size_t needed)
{
    unsigned c = below(0x10000);
    size_t more = needed;
    switch (below(8)) {
    case 0:
        more = needed - 1;
        break;
    case 1:
        more = needed - 2 * between(1, 6);
        break;
    case 2:
        more = below(2000);
        break;
    case 3:
    case 4:
        more = needed + between(1, 40);
    }
    for (; more > 0; more--, bundle.n++)
        bundle.b[bundle.n] = (uint8_t)(bundle.n % 2 == 0 ? c : c >> 8);
}

/* A body that is to be added, n bytes of it; one or more of its rules may be broken. */
static size_t new_body(uint8_t *to)
{
    struct line l = {{0}, 0};
    size_t n;
    some_body(&l);
    if (once_in(12))
        flip_one(&l, one_bit(9, 15));
    if (once_in(20))
        repeat_character(&l, l.c[0], once_in(2) ? 0 : between(501, 504));
    for (size_t i = 0; i < l.n; i++)
        second_put_number(to + 2 * i, 2, l.c[i]);
    n = 2 * l.n;
    return once_in(20) ? n + 1 - 2 * (n > 0) : n;
}

uint64_t some_row(void)
{
    unsigned rows = (unsigned)bundle.rows;
    return once_in(30) ? chance() : once_in(6) || rows == 0 ? rows : below(rows);
}

unsigned some_row_position(void)
{
    if (bundle.rows > 0 && !once_in(4))
        return bundle.b[2 + 12 * below((unsigned)bundle.rows)];
    return once_in(2) ? below(256) : some_position();
}

size_t some_salvage(void)
{
    static uint8_t out[SECOND_BUNDLE];
    struct second_salvaged told = {0, 0, 0, 0};
    size_t contents;
    some_bundle();
    contents = 2 + 12 * bundle.rows;
    if (once_in(2) && bundle.n > contents)
        bundle.n = contents + below((unsigned)(bundle.n - contents) + 1);
    if (once_in(20) || second_salvage(bundle.b, bundle.n, out, sizeof out, &told) != 0)
        return below(4000);
    return told.filled + (once_in(2) ? 0 : once_in(4) ? below(40) : 0) - once_in(4);
}

void some_addition(struct addition *a, unsigned broken)
{
    size_t n = new_body(a->body);
    a->row = (struct second_row){0, 0, 0, 0, n};
    a->row.position = once_in(20) ? 49 * below(2) : some_position();
    a->row.direction = once_in(20) ? between(2, 255) : below(2);
    good_bundle(65536 - 12 - n - 2 + (once_in(3) ? 4 * below(2) : 2)); /* what the new row fills up, or nearly */
    if (once_in(broken))
        break_bundle();
    a->filled = bundle.n;
    a->row.time = later_row();
    if (once_in(12))
        a->row.time = once_in(2) ? run_time() - 1 : (uint32_t)chance();
    add_places(12 + n);
    if (once_in(12))
        a->filled = once_in(2) ? bundle.n + below(3) : once_in(2) ? a->filled + 1 - 2 * below(2) : of_any_width();
}

void some_insertion(struct addition *a, unsigned broken)
{
    some_addition(a, broken);
    if (bundle.rows > 0 && bundle.rows <= SECOND_ROWS && !once_in(5))
        a->row.time = (uint32_t)second_number(bundle.b + 2 + 12 * below((unsigned)bundle.rows) + 2, 4) + (once_in(2) ? 0 : 2 * below(2) - 1);
}

void some_sweep(struct sweeping *s, unsigned broken)
{
    good_bundle(65536);
    if (once_in(broken))
        break_bundle();
    s->filled = bundle.n;
    s->position = once_in(3) ? 0 : once_in(8) ? between(47, 50) : some_row_position();
    add_places(between(12, 60));
    if (once_in(12))
        s->filled = once_in(2) ? bundle.n + below(3) : once_in(2) ? s->filled + 1 - 2 * below(2) : of_any_width();
}

/* As many places as are needed, or nearly; where it is refused, any. */
static size_t nearly(int refusal, size_t length)
{
    if (refusal != 0)
        return below(4000);
    return length + (once_in(2) ? 0 : below(40)) - once_in(6);
}

static void one_bundle(unsigned broken)
{
    good_bundle(65536);
    if (once_in(broken))
        break_bundle();
}

void some_choice(struct choice *c, unsigned broken)
{
    static uint8_t out[SECOND_BUNDLE];
    size_t length = 0;
    int refusal;
    one_bundle(broken);
    c->position = once_in(10) ? 50 * below(2) : once_in(8) ? between(47, 50) : some_row_position();
    refusal = second_of_position(bundle.b, bundle.n, c->position, out, sizeof out, &length);
    c->places = nearly(refusal, length);
}

void some_join(struct joining *j, unsigned broken)
{
    static uint8_t out[SECOND_BUNDLE];
    size_t length = 0;
    int refusal;
    one_bundle(broken);
    j->first = bundle;
    if (!once_in(6)) /* else it is joined to itself */
        one_bundle(broken);
    refusal = second_join(j->first.b, j->first.n, bundle.b, bundle.n, out, sizeof out, &length);
    j->places = nearly(refusal, length);
}
