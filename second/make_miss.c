/* Near misses: an accepted line with one rule broken, the rules before it kept. */
#include "make_miss.h"

#include "chance.h"
#include "make_telegram.h"

#include <string.h>

static unsigned other_than(unsigned byte)
{
    return (byte + between(1, 255)) & 0xFF;
}

static void miss_count(struct line *l)
{
    size_t many = between(1, 3);
    if (once_in(2) && l->n > many)
        l->n -= many;
    else if (once_in(2))
        while (many-- > 0)
            add_byte(l, below(256));
    else if (l->n >= 6) {
        set_byte(l, 1, byte_of(l, 1) + (once_in(2) ? 1 : 255));
        set_byte(l, 2, byte_of(l, 1));
    }
}

static void miss_sum(struct line *l)
{
    size_t cs = l->n - 2;
    unsigned from_start = 0;
    for (size_t i = 0; i < cs; i++)
        from_start += byte_of(l, i);
    set_byte(l, cs, once_in(2) ? other_than(byte_of(l, cs)) : from_start);
}

/* 4 to 8 */
static void miss_frame(struct line *l, unsigned refusal)
{
    unsigned at;
    switch (refusal) {
    case 4:
        set_byte(l, 0, below(256));
        break;
    case 5:
        miss_count(l);
        break;
    case 6:
        at = between(2, 3);
        if (l->n >= 6)
            set_byte(l, at, below(256));
        break;
    case 7:
        set_byte(l, l->n - 1, below(256));
        break;
    default:
        if (l->n >= 5)
            miss_sum(l);
    }
}

static void miss_form(struct line *l)
{
    struct bytes body = {{0}, 0};
    size_t n = between(0, 20);
    if (l->n == 5) {
        set_byte(l, 1, other_than(0x5B));
        set_byte(l, 3, byte_of(l, 1) + byte_of(l, 2));
        return;
    }
    unframe(l, &body);
    if (body.n < 4 || once_in(3))
        for (body.n = 0; body.n < n;)
            push(&body, body.n == 0 ? (once_in(2) ? 0x53 : 0x08) : body.n == 2 ? (once_in(2) ? 0x50 : 0x72) : below(256));
    else {
        unsigned at = once_in(3) ? 3 : once_in(2) ? 2 : 0, beside = body.b[at] + (once_in(2) ? 1 : 255);
        body.b[at] = (unsigned char)(once_in(2) ? beside : below(256));
    }
    frame(l, &body);
}

static void miss_header(struct bytes *body)
{
    unsigned char *h = body->b + 3;
    unsigned at, maker;
    switch (below(5)) {
    case 0: /* a minus */
        h[3] |= 0xF0;
        break;
    case 1:
        at = below(4);
        h[at] = (unsigned char)(once_in(2) ? (h[at] & 0x0F) | between(10, 15) << 4 : (h[at] & 0xF0) | between(10, 15));
        break;
    case 2:
        maker = once_in(3) ? some_maker(1, 26) | 0x8000 : once_in(2) ? some_maker(0, 27) : some_maker(26, 31);
        h[4] = (unsigned char)maker;
        h[5] = (unsigned char)(maker >> 8);
        break;
    case 3:
        h[7] = (unsigned char)below(once_in(2) ? 16 : 256);
        break;
    default:
        at = between(10, 11);
        h[at] = (unsigned char)one_bit(0, 7);
    }
}

/* The place of an entry that is no time, or that is one. */
static size_t entry_place(const struct bytes *body, int is_time)
{
    size_t places[8], n = 0, at = 15;
    while (at + 1 < body->n && n < 8) {
        int time = body->b[at + 1] == 0x6D;
        if (time == is_time)
            places[n++] = at;
        at += 2 + bytes_of(body->b[at]);
    }
    return n == 0 ? 15 : places[below((unsigned)n)];
}

static size_t energy_place(const struct bytes *body)
{
    size_t at = 15;
    while (at + 1 < body->n && !second_measures(body->b[at + 1], SECOND_ENERGY))
        at += 2 + bytes_of(body->b[at]);
    return at;
}

static void miss_moment(unsigned char *v)
{
    unsigned which = below(4), day = once_in(4) ? 0 : between(27, 31), month = once_in(3) ? 2 : below(16);
    unsigned year = below(104);
    switch (below(6)) {
    case 0:
        v[which / 2] = (unsigned char)between(58, 64);
        break;
    case 1:
        v[2] = (unsigned char)((v[2] & 0xE0) | between(22, 31));
        break;
    case 2: /* near a month's end, or near the century's */
        v[3] = (unsigned char)((year & 7) << 5 | day);
        v[4] = (unsigned char)(year >> 3 << 4 | month);
        break;
    case 3: /* the date stays, the year may not */
        year = between(96, 127);
        v[3] = (unsigned char)((year & 7) << 5 | (v[3] & 31));
        v[4] = (unsigned char)(year >> 3 << 4 | (v[4] & 15));
        break;
    case 4:
        v[which / 2] |= which % 2 == 0 ? 0x40 : 0x80;
        break;
    default:
        v[5] = (unsigned char)one_bit(0, 7);
    }
}

/* 12: digits over nine, and minus signs; those in the highest place are right for some quantities. */
static void miss_digits(unsigned char *v, size_t width)
{
    size_t at = below((unsigned)width);
    switch (below(5)) {
    case 0:
        v[at] = (unsigned char)(once_in(2) ? between(0xA0, 0xFF) : v[at] | between(10, 15));
        break;
    case 1: /* minus zero */
        memset(v, 0, width);
        v[width - 1] = 0xF0;
        break;
    case 2: /* a minus in a lower place, beside one in the highest or not */
        v[width - 1] |= once_in(2) ? 0xF0 : 0;
        v[at] |= at == width - 1 || once_in(2) ? 0x0F : 0xF0;
        break;
    case 3: /* no minus in the highest place */
        v[width - 1] = (unsigned char)((v[width - 1] & 0x0F) | between(10, 14) << 4);
        break;
    default: /* a minus for any quantity */
        v[width - 1] |= 0xF0;
    }
}

/* 12: below zero for any quantity, by the top bit of the last byte, or -1. */
static void miss_binary(unsigned char *v, size_t width)
{
    if (once_in(2))
        memset(v, 0xFF, width);
    else
        v[width - 1] |= 0x80;
}

/* 11 */
static void miss_entry(struct bytes *body)
{
    static const unsigned char none[] = {0x05, 0x08, 0x0D, 0x00, 0x09, 0x0F}, others[] = {0x04, 0x07, 0x01, 0x02, 0x03, 0x0E};
    size_t at = entry_place(body, once_in(4)), zeros = below(8);
    switch (below(8)) {
    case 0:
        push(body, below(16));
        break;
    case 1:
        body->b[at] = (unsigned char)below(once_in(2) ? 16 : 256);
        break;
    case 2:
        body->b[at + 1] = (unsigned char)below(128);
        break;
    case 3:
        body->n -= between(1, 9);
        break;
    case 4:
        body->b[at] = none[below(6)];
        break;
    case 5: /* 6D takes only 06 */
        body->b[entry_place(body, 1)] = others[below(6)];
        break;
    case 6: /* six bytes of binary as a time, and the other way round */
        body->b[at] = 0x06;
        body->b[at + 1] = (unsigned char)(body->b[at + 1] == 0x6D ? 0x59 : 0x6D);
        break;
    default:
        push(body, once_in(2) ? 0x06 : once_in(2) ? 0x07 : 0x0A);
        push(body, once_in(2) ? 0x6D : 0x00);
        while (zeros-- > 0)
            push(body, 0);
    }
}

static void repeat_entry(struct bytes *body, size_t from)
{
    size_t n = 2 + bytes_of(body->b[from]);
    for (size_t i = 0; i < n; i++)
        push(body, body->b[from + i]);
}

/* Wh and J in one telegram. */
static void repeat_energy(struct bytes *body)
{
    size_t last = body->n;
    repeat_entry(body, energy_place(body));
    body->b[last + 1] ^= 8;
}

static void drop_entry(struct bytes *body)
{
    size_t from = entry_place(body, once_in(4));
    size_t n = 2 + bytes_of(body->b[from]);
    memmove(body->b + from, body->b + from + n, body->n - from - n);
    body->n -= n;
}

/* 10 to 16, on the body of a data line */
static void miss_body(struct bytes *body, unsigned refusal)
{
    size_t at = entry_place(body, 0);
    switch (refusal) {
    case 10:
        miss_header(body);
        break;
    case 11:
        miss_entry(body);
        break;
    case 12:
        if (body->b[at] < 0x08)
            miss_binary(body->b + at + 2, bytes_of(body->b[at]));
        else
            miss_digits(body->b + at + 2, bytes_of(body->b[at]));
        break;
    case 13:
        miss_moment(body->b + entry_place(body, 1) + 2);
        break;
    case 14:
    case 15: /* no refusal any more: so one of an eighth entry more */
        if (once_in(4))
            repeat_energy(body);
        else if (once_in(2))
            repeat_entry(body, entry_place(body, once_in(4)));
        else
            body->b[at + 1] = body->b[entry_place(body, 0) + 1];
        break;
    default:
        drop_entry(body);
    }
}

void near_miss(struct line *l)
{
    struct bytes body;
    unsigned refusal = between(2, 17);
    write_good(l, refusal > 9 ? SECOND_DATA : refusal == 9 && once_in(2) ? SECOND_ENTER : some_kind());
    if (refusal == 2)
        flip_one(l, one_bit(9, 15));
    else if (refusal == 3)
        flip_one(l, one_bit(0, 8));
    else if (refusal < 9)
        miss_frame(l, refusal);
    else if (refusal == 9)
        miss_form(l);
    else {
        unframe(l, &body);
        if (refusal < 17)
            miss_body(&body, refusal);
        if (refusal == 17 || once_in(8)) { /* a second rule, or a change that no rule forbids */
            unsigned at = below((unsigned)body.n);
            body.b[at] = (unsigned char)below(256);
        }
        frame(l, &body);
    }
}
