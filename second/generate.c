/*
 * Random cases for docs/CASES.md: `generate NAME SEED COUNT` prints COUNT cases of the capability NAME.
 * The same seed gives the same cases on every machine.
 */
#include "chance.h"
#include "make_bundle.h"
#include "make_capture.h"
#include "make_cjt.h"
#include "make_line.h"
#include "make_repeat.h"
#include "make_replay.h"
#include "make_serial.h"
#include "make_telegram.h"
#include "make_verdict.h"
#include "number.h"

#include <inttypes.h>
#include <stdio.h>
#include <stdlib.h>
#include <string.h>

static void print_characters(const struct line *l)
{
    for (size_t i = 0; i < l->n; i++)
        printf(" %03" PRIX16, l->c[i]);
}

static void generate_read(void)
{
    struct line l = {{0}, 0};
    some_line(&l);
    printf("read");
    print_characters(&l);
}

static void generate_find(void)
{
    struct line capture = {{0}, 0};
    some_capture(&capture);
    printf("find");
    print_characters(&capture);
}

static void generate_either(void)
{
    struct line mbus = {{0}, 0}, optical = {{0}, 0};
    some_two_captures(&mbus, &optical);
    printf("either mbus");
    print_characters(&mbus);
    printf(" optical");
    print_characters(&optical);
}

static void generate_unmark(void)
{
    static struct marked m;
    some_marked(&m);
    printf("unmark +%zu", some_room(&m));
    for (size_t i = 0; i < m.n; i++)
        printf(" %02X", m.b[i]);
}

static void print_entry(const struct second_entry *e)
{
    printf(" %02X %02X", e->structure, e->unit);
    if (e->sort != SECOND_TIME)
        printf(" %s %+" PRId64, e->sort == SECOND_BINARY ? "binary" : "number", e->count);
    else
        printf(" time +%u +%u +%u +%u +%u +%u +%u", e->moment[0], e->moment[1], e->moment[2], e->moment[3], e->moment[4],
               e->moment[5], e->moment[6]);
}

/* The whole telegram, with its first entries as many as told. */
static void print_telegram(const struct second_telegram *t, size_t entries)
{
    static const char *const kinds[] = {"ack", "read", "enter", "leave", "data"};
    printf(" %s %02X %02X +%" PRIu32 " %04X", kinds[t->kind], t->address, t->method, t->number, t->maker);
    printf(" %02X %02X %02X %02X +%" PRIu64, t->version, t->type, t->access, t->status, t->count);
    for (size_t i = 0; i < entries; i++)
        print_entry(&t->entries[i]);
}

static void generate_write(void)
{
    uint16_t out[SECOND_LONGEST];
    size_t length = 0, places, entries = SECOND_ENTRIES;
    struct second_telegram t = good_telegram(some_kind());
    if (once_in(2))
        break_telegram(&t);
    if (second_write(&t, out, SECOND_LONGEST, &length) != 0)
        length = below(SECOND_LONGEST + 1);
    places = once_in(3) ? length : once_in(2) ? length + between(1, 20) : length - (length > 0);
    if (once_in(10))
        places = below(100);
    if (once_in(2) && t.count < SECOND_ENTRIES)
        entries = (size_t)t.count;
    printf("write +%zu", places);
    print_telegram(&t, entries);
}

static void generate_length(void)
{
    struct line l = {{0}, 0};
    some_first(&l);
    printf("length");
    print_characters(&l);
}

static void generate_after(void)
{
    static struct timed_capture made;
    some_timed_capture(&made);
    printf("after +%" PRIu64 " times", made.t);
    for (size_t i = 0; i < made.times_n; i++)
        printf(" +%" PRIu64, made.times[i]);
    printf(" capture");
    print_characters(&made.characters);
}

static void generate_wake(void)
{
    uint64_t count = some_wake(), places = some_wake_places(count);
    printf("wake +%" PRIu64 " +%" PRIu64, count, places);
}

static void generate_gap(void)
{
    uint64_t wake_end, begin;
    some_gap(&wake_end, &begin);
    printf("gap %" PRIX64 " %" PRIX64, wake_end, begin);
}

static void generate_error(void)
{
    uint64_t c[4];
    some_counts(c);
    printf("error +%" PRIu64 " +%" PRIu64 " +%" PRIu64 " +%" PRIu64, c[0], c[1], c[2], c[3]);
}

static void generate_meaning(void)
{
    printf("meaning %02X", below(256));
}

static void generate_resistance(void)
{
    printf("resistance +%" PRIu32, some_hundredths());
}

static void generate_temperature(void)
{
    printf("temperature +%" PRIu32, some_milliohm());
}

/* ---- histories, each step chosen by how the exchange or the meter stands */

static void exchange_step(struct second_exchange *x)
{
    struct second_telegram t, reply;
    struct line l = {{0}, 0};
    uint64_t at = exchange_time(x);
    unsigned sort = below(8);
    if (x->state != SECOND_WAITING && !once_in(4))
        sort = 7;
    if (sort < 4) {
        reply_line(&l, &x->request);
        printf(" heard +%" PRIu64, at);
        print_characters(&l);
        second_heard(x, l.c, l.n, at, &reply);
    } else if (sort < 7) {
        printf(" tick +%" PRIu64, at);
        second_tick(x, at);
    } else {
        t = some_send(x);
        printf(" ended +%" PRIu64, at);
        print_telegram(&t, 0);
        second_send_ended(x, &t, at);
    }
}

static void generate_exchange(void)
{
    struct second_exchange x;
    second_no_exchange(&x);
    printf("exchange");
    for (unsigned steps = between(1, 16); steps > 0; steps--) {
        exchange_step(&x);
        if ((x.state == SECOND_WELL || x.state == SECOND_FAILED) && once_in(4))
            return;
    }
}

static void meter_step(struct second_meter *m)
{
    struct second_telegram answer;
    struct line l = {{0}, 0};
    int does_answer;
    uint64_t t = meter_time(m), volume, energy;
    if (once_in(3)) {
        volume = some_amount(m->use[0]);
        energy = some_amount(m->use[1]);
        printf(" measure +%" PRIu64 " +%" PRIu64 " +%" PRIu64, t, volume, energy);
        second_measure(m, t, volume, energy);
        return;
    }
    request_line(&l, m->address);
    printf(" heard +%" PRIu64, t);
    print_characters(&l);
    second_meter_heard(m, l.c, l.n, t, &does_answer, &answer);
}

static void generate_meter(void)
{
    struct second_meter m;
    struct second_telegram template = meter_template();
    unsigned address = once_in(4) ? 0xFE : below(256);
    printf("meter setup %02X", address);
    print_telegram(&template, SECOND_ENTRIES);
    if (second_set_up(&m, address, &template) != 0)
        return;
    m.last = first_time(); /* no step has been, so this holds the first one to nothing */
    for (unsigned steps = between(1, 12); steps > 0; steps--)
        meter_step(&m);
}

/* ---- run bundles */

static uint32_t number_at(const uint8_t *b, size_t bytes)
{
    return (uint32_t)second_number(b, bytes);
}

/* How many rows from here on are alike: only the time goes up, by one step, and the offset, by the length. */
static size_t rows_alike(const uint8_t *row, size_t most, uint32_t *step)
{
    size_t many = 1;
    *step = most > 1 ? number_at(row + 14, 4) - number_at(row + 2, 4) : 0;
    for (; many < most; many++, row += 12) {
        if (memcmp(row, row + 12, 2) != 0 || memcmp(row + 10, row + 22, 2) != 0)
            break;
        if (number_at(row + 14, 4) - number_at(row + 2, 4) != *step)
            break;
        if (number_at(row + 18, 4) - number_at(row + 6, 4) != number_at(row + 10, 2))
            break;
    }
    return many;
}

static size_t characters_alike(const uint8_t *b, size_t n)
{
    size_t many = n > 1;
    while (many > 0 && 2 * many + 2 <= n && memcmp(b, b + 2 * many, 2) == 0)
        many++;
    return many;
}

/* Bytes that begin with the contents of some rows, perhaps; what is alike is told as a stretch. */
static void print_bytes(const uint8_t *b, size_t n, size_t rows)
{
    uint32_t step = 0;
    for (size_t at = 0; at < n;) {
        size_t left = n < 2 + 12 * rows ? (n - at) / 12 : at < 2 + 12 * rows ? (2 + 12 * rows - at) / 12 : 0;
        size_t many = at % 12 == 2 && left > 0 ? rows_alike(b + at, left, &step) : 0;
        if (many > 1) {
            printf(" rows +%zu %02X %02X +%" PRIu32, many, b[at], b[at + 1], number_at(b + at + 2, 4));
            printf(" +%" PRIu32 " +%" PRIu32 " +%" PRIu32, number_at(b + at + 6, 4), number_at(b + at + 10, 2), step);
            at += 12 * many;
            continue;
        }
        many = characters_alike(b + at, n - at);
        if (many > 3) {
            printf(" fill +%zu %03" PRIX32, many, number_at(b + at, 2));
            at += 2 * many;
        } else
            printf(" %02X", b[at++]);
    }
}

static void print_bundle(void)
{
    some_bundle();
    print_bytes(bundle.b, bundle.n, bundle.rows);
}

static void generate_check(void)
{
    printf("check");
    print_bundle();
}

static void generate_list(void)
{
    printf("list");
    print_bundle();
}

static void print_row(const char *name)
{
    some_bundle();
    printf("%s +%" PRIu64, name, some_row());
    print_bytes(bundle.b, bundle.n, bundle.rows);
}

static void generate_row(void)
{
    print_row("row");
}

static void generate_body(void)
{
    print_row("body");
}

static void generate_kept(void)
{
    print_row("kept");
}

static void generate_next(void)
{
    some_bundle();
    unsigned position = some_row_position();
    printf("next +%u +%" PRIu64, position, once_in(3) ? 0 : some_row());
    print_bytes(bundle.b, bundle.n, bundle.rows);
}

static void generate_salvage(void)
{
    size_t places = some_salvage();
    printf("salvage +%zu", places);
    print_bytes(bundle.b, bundle.n, bundle.rows);
}

static void print_addition(const char *name, const struct addition *a)
{
    printf("%s +%" PRIu64 " +%u +%u +%" PRIu32, name, a->filled, a->row.position, a->row.direction, a->row.time);
    printf(" body");
    print_bytes(a->body, a->row.length, 0);
    printf(" buffer");
    print_bytes(bundle.b, bundle.n, bundle.rows);
}

static void generate_add(void)
{
    static struct addition a;
    some_addition(&a, 8);
    print_addition("add", &a);
}

static void generate_insert(void)
{
    static struct addition a;
    some_insertion(&a, 8);
    print_addition("insert", &a);
}

static void generate_sweep(void)
{
    struct sweeping s;
    some_sweep(&s, 8);
    printf("sweep +%" PRIu64 " +%u", s.filled, s.position);
    print_bytes(bundle.b, bundle.n, bundle.rows);
}

static void generate_of_position(void)
{
    struct choice c;
    some_choice(&c, 8);
    printf("ofposition +%zu +%u", c.places, c.position);
    print_bytes(bundle.b, bundle.n, bundle.rows);
}

static void generate_join(void)
{
    static struct joining j;
    some_join(&j, 12);
    printf("join +%zu first", j.places);
    print_bytes(j.first.b, j.first.n, j.first.rows);
    printf(" second");
    print_bytes(bundle.b, bundle.n, bundle.rows);
}

static void generate_replay(void)
{
    struct replay r;
    some_replay(&r);
    printf("replay +%u +%" PRIu64 " +%" PRIu64 " +%" PRIu64, r.position, r.s1, r.s2, r.elapsed);
    print_bytes(bundle.b, bundle.n, bundle.rows);
}

static void print_exchanges(const char *name)
{
    some_exchanges(12);
    printf("%s", name);
    print_bytes(bundle.b, bundle.n, bundle.rows);
}

static void generate_verdicts(void)
{
    print_exchanges("verdicts");
}

static void generate_kept_verdicts(void)
{
    print_exchanges("keptverdicts");
}

static void generate_verdict(void)
{
    some_exchanges(12);
    printf("verdict +%" PRIu64, some_row());
    print_bytes(bundle.b, bundle.n, bundle.rows);
}

static void generate_repeats(void)
{
    size_t places;
    some_repeats();
    places = bundle.rows > 600 ? 600 : bundle.rows;
    if (once_in(4))
        places = once_in(2) ? places + between(1, 20) : places - (places > 0);
    printf("repeats +%zu", places > 600 ? 600 : places);
    print_bytes(bundle.b, bundle.n, bundle.rows);
}

/* ---- CJ/T 188 */

static void generate_cjtread(void)
{
    struct line l = {{0}, 0};
    some_cjt_line(&l);
    printf("cjtread");
    print_characters(&l);
}

static void print_cjt(const struct second_cjt *t)
{
    static const char *const numbers[] = {"cold", "heat", "power", "flow", "volume", "inlet", "outlet", "hours"};
    printf(" %s %02X", t->kind == SECOND_CJT_ANSWER ? "answer" : "request", t->type);
    if (t->is_broadcast)
        printf(" broadcast serial %02X", t->serial);
    else
        printf(" meter +%" PRIu64 " serial %02X", t->address, t->serial);
    if (t->kind == SECOND_CJT_REQUEST)
        return;
    for (int which = 0; which < SECOND_CJT_NUMBERS; which++) {
        printf(" %s +%" PRIu32, numbers[which], t->numbers[which]);
        if (which < SECOND_CJT_CODES)
            printf(" %02X", t->codes[which]);
    }
    printf(" clock +%u +%u +%u", t->clock[0], t->clock[1], t->clock[2]);
    printf(" +%u +%u +%u state %02X %02X", t->clock[3], t->clock[4], t->clock[5], t->state[0], t->state[1]);
}

static void generate_cjtwrite(void)
{
    struct second_cjt t = good_cjt();
    size_t length = t.kind == SECOND_CJT_ANSWER ? SECOND_CJT_LONGEST : 16, places = length;
    if (once_in(2))
        break_cjt(&t);
    if (once_in(3))
        places = length - 1 + below(3);
    if (once_in(10))
        places = below(80);
    printf("cjtwrite +%zu", places);
    print_cjt(&t);
}

static void generate_cjtenergy(void)
{
    uint32_t count;
    unsigned code;
    some_cjt_energy(&count, &code);
    printf("cjtenergy +%" PRIu32 " %02X", count, code);
}

/* What is no case. */
static void generate_bad(const char *name)
{
    static const char *const ends[] = {" ",  "  1E5", " 1e5", " +",    " +1A", " +18446744073709551616",
                                       " x", " 1E5 ", " -1",  "\t1E5", "\r",   " 00000000000000000",
                                       "a",  " 10000", " +5", "", " -0", " -", " -1A", " -9223372036854775809"};
    printf("%s", once_in(8) ? " " : "");
    printf("%s", once_in(8) ? "1E5" : name);
    printf("%s", ends[below(20)]);
    if (once_in(40))
        for (int i = 0; i < 4096; i++)
            printf(" 0");
}

int main(int argc, char **argv)
{
    static const struct {
        const char *name;
        void (*generate)(void);
    } capabilities[] = {
        {"read", generate_read},   {"write", generate_write}, {"find", generate_find},         {"wake", generate_wake},
        {"gap", generate_gap},     {"error", generate_error}, {"exchange", generate_exchange}, {"meter", generate_meter},
        {"check", generate_check}, {"row", generate_row},     {"body", generate_body},         {"add", generate_add},
        {"list", generate_list},   {"kept", generate_kept},   {"next", generate_next},         {"salvage", generate_salvage},
        {"resistance", generate_resistance}, {"temperature", generate_temperature},
        {"either", generate_either}, {"meaning", generate_meaning},
        {"insert", generate_insert}, {"unmark", generate_unmark},
        {"length", generate_length}, {"after", generate_after},
        {"replay", generate_replay},
        {"verdicts", generate_verdicts}, {"keptverdicts", generate_kept_verdicts}, {"verdict", generate_verdict},
        {"repeats", generate_repeats},
        {"sweep", generate_sweep},
        {"ofposition", generate_of_position},
        {"join", generate_join},
        {"cjtread", generate_cjtread},       {"cjtwrite", generate_cjtwrite},       {"cjtenergy", generate_cjtenergy},
    };
    if (argc != 4)
        return fprintf(stderr, "usage: generate NAME SEED COUNT\n"), 2;
    seed_chance(strtoull(argv[2], NULL, 10));
    for (size_t i = 0; i < sizeof capabilities / sizeof capabilities[0]; i++) {
        if (strcmp(argv[1], capabilities[i].name) != 0)
            continue;
        for (uint64_t left = strtoull(argv[3], NULL, 10); left > 0; left--) {
            if (once_in(50))
                generate_bad(argv[1]);
            else
                capabilities[i].generate();
            putchar('\n');
        }
        return 0;
    }
    return fprintf(stderr, "generate: no capability %s\n", argv[1]), 2;
}
