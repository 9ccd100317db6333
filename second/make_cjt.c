/* Random CJ/T 188 lines: accepted ones, near misses of every refusal, flips, cut and joined lines, noise; telegrams; energies. */
#include "make_cjt.h"

#include "chance.h"
#include "make_line.h"

#include <stdlib.h>
#include <string.h>

const unsigned char cjt_codes[CJT_CODES] = {0x02, 0x05, 0x08, 0x0A, 0x01, 0x0B, 0x0E, 0x11,
                                            0x13, 0x14, 0x17, 0x1A, 0x29, 0x2C, 0x32, 0x35};

/* Where a line has what; an answer alone has what stands behind the serial number. */
enum { TYPE = 1, ADDRESS = 2, CONTROL = 9, LENGTH = 10, MARK = 11, COLD = 14, INLET = 39, CLOCK = 48, STATE = 55 };

/* ---- telegrams */

/* A number of so many digits, most often a short one, or at an edge. */
static uint64_t some_number(unsigned digits)
{
    uint64_t most = 1, n;
    while (digits-- > 0)
        most *= 10;
    n = of_any_width();
    return once_in(8) ? 0 : once_in(8) ? most - 1 : n % most;
}

static unsigned good_code(int which)
{
    switch (which) {
    case SECOND_CJT_COLD:
    case SECOND_CJT_HEAT:
        return cjt_codes[below(9)];
    case SECOND_CJT_POWER:
        return cjt_codes[between(9, 11)];
    case SECOND_CJT_VOLUME:
        return cjt_codes[between(12, 13)];
    default:
        return cjt_codes[between(14, 15)];
    }
}

/* Years about which the calendar has something to say, ends of centuries, and any others. */
static unsigned some_year(void)
{
    static const unsigned years[] = {0, 4, 100, 400, 1900, 1996, 2000, 2026, 2100, 9996, 9999};
    return once_in(3) ? years[below(11)] : once_in(2) ? 100 * below(100) : below(10000);
}

/* A date that may not exist: a 29 February, or near the end of a month, most often. */
static void some_date(unsigned clock[SECOND_CJT_PARTS])
{
    clock[0] = some_year();
    clock[1] = between(1, 12);
    clock[2] = once_in(2) ? between(28, 31) : once_in(4) ? below(2) : between(1, 28);
    if (once_in(3)) {
        clock[1] = 2;
        clock[2] = 29;
    }
}

static void good_clock(unsigned clock[SECOND_CJT_PARTS])
{
    some_date(clock);
    clock[2] = clock[2] == 0 ? 1 : clock[2] > 28 ? 28 : clock[2];
    if (clock[1] != 2 && once_in(3))
        clock[2] = between(29, (clock[1] + clock[1] / 8) % 2 == 1 ? 31 : 30);
    if (clock[1] == 2 && clock[0] % 4 == 0 && (clock[0] % 100 != 0 || clock[0] % 400 == 0) && once_in(2))
        clock[2] = 29;
    clock[3] = once_in(4) ? 23 : below(24);
    clock[4] = once_in(4) ? 59 : below(60);
    clock[5] = once_in(4) ? 59 : below(60);
}

struct second_cjt good_cjt(void)
{
    struct second_cjt t;
    memset(&t, 0, sizeof t);
    t.kind = once_in(3) ? SECOND_CJT_REQUEST : SECOND_CJT_ANSWER;
    t.type = 0x20 + below(7);
    t.type += t.type > 0x23;
    t.serial = below(256);
    t.is_broadcast = t.kind == SECOND_CJT_REQUEST && once_in(3);
    if (!t.is_broadcast)
        t.address = some_number(14);
    if (t.kind == SECOND_CJT_REQUEST)
        return t;
    for (int which = 0; which < SECOND_CJT_NUMBERS; which++)
        t.numbers[which] = (uint32_t)some_number(which < SECOND_CJT_CODES ? 8 : 6);
    for (int which = 0; which < SECOND_CJT_CODES; which++)
        t.codes[which] = good_code(which);
    good_clock(t.clock);
    t.state[0] = below(256);
    t.state[1] = below(256);
    return t;
}

static unsigned some_type(void)
{
    static const unsigned types[] = {0x1F, 0x24, 0x28, 0x29, 0x00, 0x10};
    return once_in(4) ? below(256) : types[below(6)];
}

static unsigned some_code(void)
{
    return once_in(4) ? below(256) : cjt_codes[below(CJT_CODES)];
}

static void break_clock(unsigned clock[SECOND_CJT_PARTS])
{
    unsigned part = below(SECOND_CJT_PARTS);
    some_date(clock);
    switch (part) {
    case 0:
        clock[0] = between(9998, 10003);
        return;
    case 1:
        clock[1] = once_in(2) ? 0 : between(12, 14);
        return;
    case 2:
        return;
    default:
        clock[part] = part == 3 ? between(22, 25) : between(58, 61);
    }
    if (once_in(3))
        clock[part] = below(256);
}

void break_cjt(struct second_cjt *t)
{
    unsigned which = below(t->kind == SECOND_CJT_REQUEST ? 2 : 6), value;
    switch (which) {
    case 0:
        t->type = some_type();
        break;
    case 1: /* to all stays so: another address would be no record */
        if (!t->is_broadcast)
            t->address = once_in(3) ? chance() : UINT64_C(100000000000000) + below(3) - 1;
        break;
    case 2:
        value = below(SECOND_CJT_CODES);
        t->numbers[value] = once_in(3) ? (uint32_t)chance() : 99999999 + below(3);
        break;
    case 3:
        value = between(SECOND_CJT_INLET, SECOND_CJT_HOURS);
        t->numbers[value] = once_in(3) ? (uint32_t)chance() : 999999 + below(3);
        break;
    case 4:
        value = below(SECOND_CJT_CODES);
        t->codes[value] = some_code();
        break;
    default:
        break_clock(t->clock);
    }
}

/* ---- lines as bytes */

static void put_good(struct bytes *b)
{
    uint16_t line[SECOND_CJT_LONGEST];
    struct second_cjt t = good_cjt();
    size_t n = 0;
    if (second_cjt_write(&t, line, SECOND_CJT_LONGEST, &n) != 0)
        abort();
    for (b->n = 0; b->n < n;)
        push(b, line[b->n] & 0xFFu);
}

/* Puts the sum right. */
static void seal(struct bytes *b)
{
    b->b[b->n - 2] = (unsigned char)second_sum(b->b, b->n - 2);
}

static void some_digit_wrong(unsigned char *byte)
{
    unsigned digit = between(10, 15);
    *byte = (unsigned char)(once_in(2) ? (*byte & 0x0F) | digit << 4 : (*byte & 0xF0) | digit);
}

/* 001's broadcast, whose control is 33 and whose length is 00. */
static void put_control_33(struct bytes *b)
{
    static const unsigned char told[] = {0x68, 0x20, 0xAA, 0xAA, 0xAA, 0xAA, 0xAA, 0xAA, 0xAA, 0x33, 0x00, 0x61, 0x16};
    memcpy(b->b, told, sizeof told);
    b->n = sizeof told;
}

static void miss_shape(struct bytes *b)
{
    static const unsigned char lengths[] = {0x00, 0x02, 0x04, 0x03, 0x2D, 0x2E, 0x2F, 0x32};
    unsigned many = between(1, 3);
    switch (below(6)) {
    case 0:
        b->b[0] = (unsigned char)(once_in(2) ? 0x69 : below(256));
        break;
    case 1:
        b->b[b->n - 1] = (unsigned char)(once_in(2) ? 0x17 : below(256));
        break;
    case 2: /* as many bytes as the length says, or not */
        b->b[LENGTH] = lengths[below(8)];
        if (once_in(2))
            b->n = 13u + b->b[LENGTH];
        b->b[b->n - 1] = 0x16;
        break;
    case 3:
        b->n -= many;
        b->b[b->n - 1] = 0x16;
        break;
    case 4:
        while (many-- > 0)
            push(b, 0x16);
        break;
    default:
        put_control_33(b);
    }
}

static void miss_type_or_address(struct bytes *b)
{
    unsigned at = ADDRESS + below(7);
    switch (below(5)) {
    case 0:
        b->b[TYPE] = (unsigned char)some_type();
        break;
    case 1:
        some_digit_wrong(b->b + at);
        break;
    case 2: /* broadcast, which an answer may not have */
        memset(b->b + ADDRESS, 0xAA, 7);
        break;
    case 3: /* six AA, the seventh any digits */
        memset(b->b + ADDRESS, 0xAA, 7);
        b->b[at] = (unsigned char)(once_in(2) ? 0x00 : 0x11);
        break;
    default:
        b->b[at] = 0xAA;
    }
}

static void miss_mark(struct bytes *b)
{
    static const unsigned char controls[] = {0x01, 0x81, 0x33, 0x04, 0xC1, 0x41, 0x00, 0x03};
    switch (below(4)) {
    case 0:
        b->b[MARK] = (unsigned char)(once_in(2) ? 0x2F : once_in(2) ? 0x3F : below(256));
        break;
    case 1:
        b->b[MARK + 1] = (unsigned char)(once_in(2) ? 0x91 : below(256));
        break;
    case 2:
        b->b[MARK] = 0x90;
        b->b[MARK + 1] = 0x1F;
        break;
    default:
        b->b[CONTROL] = controls[below(8)];
    }
}

/* Two digits of the clock or more that may be none of a date or time of day. */
static void miss_clock(unsigned char *clock)
{
    static const unsigned char twos[] = {0x00, 0x12, 0x13, 0x23, 0x24, 0x28, 0x29, 0x30, 0x31, 0x32, 0x59, 0x60, 0x99};
    unsigned date[SECOND_CJT_PARTS], at = below(5);
    if (once_in(3)) {
        clock[at] = twos[below(13)];
        return;
    }
    some_date(date);
    for (int part = 2; part > 0; part--)
        clock[5 - part] = (unsigned char)(date[part] / 10 << 4 | date[part] % 10);
    clock[5] = (unsigned char)(date[0] / 10 % 10 << 4 | date[0] % 10);
    clock[6] = (unsigned char)(date[0] / 1000 << 4 | date[0] / 100 % 10);
}

/* The place of a byte of digits: of a value, of a temperature, the hours or the clock. */
static unsigned digits_place(void)
{
    unsigned value = below(SECOND_CJT_CODES), byte = below(4), behind = between(INLET, STATE - 1);
    return once_in(2) ? COLD + 5 * value + byte : behind;
}

/* 84 and 85, of an answer */
static void miss_told(struct bytes *b, unsigned refusal)
{
    unsigned value = below(SECOND_CJT_CODES), at = digits_place();
    if (b->n < SECOND_CJT_LONGEST)
        return;
    if (refusal == 85)
        b->b[COLD + 5 * value + 4] = (unsigned char)some_code();
    else if (once_in(2))
        miss_clock(b->b + CLOCK);
    else if (once_in(4)) /* F in the highest place, which in an M-Bus entry would be a minus */
        b->b[COLD + 5 * value + 3] |= 0xF0;
    else
        some_digit_wrong(b->b + at);
}

static void miss(struct bytes *b, unsigned refusal)
{
    unsigned char *sum;
    switch (refusal) {
    case 80:
        miss_shape(b);
        break;
    case 82:
        miss_type_or_address(b);
        break;
    case 83:
        miss_mark(b);
        break;
    case 84:
    case 85:
        miss_told(b, refusal);
        break;
    default:
        break;
    }
    seal(b);
    sum = b->b + b->n - 2;
    if (refusal == 81) /* the sum from the type byte on, or any other */
        *sum = (unsigned char)(*sum + (once_in(2) ? 0x100 - 0x68 : between(1, 255)));
}

/* One rule broken, or two of them, that of the higher number first. */
static void put_miss(struct bytes *b)
{
    unsigned first = between(80, 85), second = between(80, 85);
    put_good(b);
    while (first > 83 && b->n < SECOND_CJT_LONGEST)
        put_good(b);
    if (once_in(6)) {
        miss(b, first > second ? first : second);
        first = first > second ? second : first;
    }
    if (b->n >= 13)
        miss(b, first);
}

/* ---- lines as characters */

static void add_bytes(struct line *l, const struct bytes *b)
{
    for (size_t i = 0; i < b->n; i++)
        add_byte(l, b->b[i]);
}

/* None to seven FE bytes: as many as are skipped, or a few more. */
static void add_front(struct line *l)
{
    unsigned many = once_in(3) ? 0 : once_in(2) ? between(4, 7) : below(8);
    while (many-- > 0)
        add_byte(l, 0xFE);
}

static void add_noise(struct line *l)
{
    unsigned n = below(once_in(3) ? 200 : 70);
    if (once_in(2))
        add_byte(l, 0x68);
    while (n-- > 0)
        add_byte(l, once_in(6) ? 0xFE : below(256));
}

void write_good_cjt(struct line *l)
{
    struct bytes b = {{0}, 0};
    put_good(&b);
    l->n = 0;
    add_bytes(l, &b);
}

/* A good line with something before it, behind it or missing: two lines, a line cut, FE bytes in the wrong place. */
static void change_length(struct line *l)
{
    struct line good;
    write_good_cjt(&good);
    for (size_t i = 0; i < good.n; i++)
        add_character(l, good.c[i]);
    switch (below(4)) {
    case 0:
        l->n = below((unsigned)l->n + 1);
        break;
    case 1:
        add_front(l);
        break;
    case 2:
        add_front(l);
        for (size_t i = 0; i < good.n; i++)
            add_character(l, good.c[i]);
        break;
    default:
        if (good.n < l->n)
            memmove(l->c, l->c + 1, --l->n * sizeof l->c[0]);
    }
}

void some_cjt_line(struct line *l)
{
    struct bytes b = {{0}, 0};
    unsigned sort = below(16);
    l->n = 0;
    if (sort == 0) { /* a line of the other protocol */
        some_line(l);
        return;
    }
    add_front(l);
    if (sort == 1)
        add_noise(l);
    else if (sort == 2)
        change_length(l);
    else if (sort < 10) {
        put_miss(&b);
        add_bytes(l, &b);
    } else {
        put_good(&b);
        add_bytes(l, &b);
    }
    if (sort == 15)
        flip(l, between(1, 4));
    if (once_in(16) && l->n > 0)
        flip_one(l, one_bit(8, 15));
}

/* ---- energies */

void some_cjt_energy(uint32_t *count, unsigned *code)
{
    static const unsigned hundreds[] = {1, 10, 100, 100, 1000};
    *code = once_in(8) ? below(256) : once_in(6) ? cjt_codes[below(CJT_CODES)] : once_in(3) ? 0x01 : cjt_codes[below(9)];
    *count = (uint32_t)some_number(8);
    *count -= *count % hundreds[below(5)];
    if (once_in(8))
        *count = 99999998 + below(4);
    if (once_in(16))
        *count = (uint32_t)of_any_width();
}
