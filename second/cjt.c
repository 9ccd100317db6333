/*
 * CJ/T 188, from document 02 (2026-08) and documents 001 and 002. A line is stripped of its parity bits and of the FE bytes in
 * front; the data of an answer is walked along by the list in 001.
 */
#include "cjt.h"

#include "line.h"
#include "number.h"

#include <stdlib.h>
#include <string.h>

/* Where the bytes of a frame stand, and those of a frame that are no data. */
enum { TYPE = 1, ADDRESS = 2, CONTROL = 9, LENGTH = 10, DATA = 11, AROUND = 13 };

enum { FRONT = 0xFE, FRONT_MOST = 5, REQUEST_DATA = 0x03, ANSWER_DATA = 0x2E, NO_RECORD = 101 };

/* ---- units */

/* The codes of energy, with the power of ten of the unit in Wh or in J. */
static const struct {
    unsigned char code;
    int is_joule, power;
} energies[] = {
    {0x02, 0, 0}, {0x05, 0, 3}, {0x08, 0, 6}, {0x0A, 0, 8},
    {0x01, 1, 0}, {0x0B, 1, 3}, {0x0E, 1, 6}, {0x11, 1, 9}, {0x13, 1, 11},
};

enum { ENERGIES = sizeof energies / sizeof energies[0] };

static int energy_at(unsigned code)
{
    int i = 0;
    while (i < ENERGIES && energies[i].code != code)
        i++;
    return i;
}

static int has_unit(int which, unsigned code)
{
    switch (which) {
    case SECOND_CJT_COLD:
    case SECOND_CJT_HEAT:
        return energy_at(code) < ENERGIES;
    case SECOND_CJT_POWER:
        return code == 0x14 || code == 0x17 || code == 0x1A;
    case SECOND_CJT_FLOW:
        return code == 0x32 || code == 0x35;
    default:
        return code == 0x29 || code == 0x2C;
    }
}

/* ---- digits */

/* Whether n bytes are all digits, low byte first, and the number that they spell. */
static int spells(const unsigned char *b, size_t n, uint64_t *number)
{
    *number = 0;
    for (size_t digit = 2 * n; digit-- > 0;) {
        unsigned one = digit % 2 == 1 ? b[digit / 2] >> 4 : b[digit / 2] & 15;
        if (one > 9)
            return 0;
        *number = 10 * *number + one;
    }
    return 1;
}

/* The last 2n digits of a number. */
static void spell(unsigned char *to, size_t n, uint64_t number)
{
    for (; n > 0; n--, number /= 100)
        *to++ = (unsigned char)(number % 10 | number / 10 % 10 << 4);
}

static size_t width_of(int which)
{
    return which < SECOND_CJT_CODES ? 4 : 3;
}

/* ---- the clock: fourteen digits YYYYMMDDhhmmss */

static int is_leap(unsigned year)
{
    return year % (year % 100 == 0 ? 400u : 4u) == 0;
}

static int clock_runs(const unsigned clock[SECOND_CJT_PARTS])
{
    unsigned year = clock[0], month = clock[1], day = clock[2], days = 31;
    if (month == 4 || month == 6 || month == 9 || month == 11)
        days = 30;
    if (month == 2)
        days = is_leap(year) ? 29 : 28;
    return month >= 1 && month <= 12 && day >= 1 && day <= days && clock[3] < 24 && clock[4] < 60 && clock[5] < 60;
}

static int clock_from(const unsigned char *b, unsigned clock[SECOND_CJT_PARTS])
{
    uint64_t all;
    if (!spells(b, 7, &all))
        return 0;
    for (int part = SECOND_CJT_PARTS - 1; part > 0; part--, all /= 100)
        clock[part] = (unsigned)(all % 100);
    clock[0] = (unsigned)all;
    return clock_runs(clock);
}

/* ---- reading */

static int is_broadcast(const unsigned char *address)
{
    for (int i = 0; i < 7; i++)
        if (address[i] != 0xAA)
            return 0;
    return 1;
}

/* The 43 bytes behind the serial number. A wrong unit counts only where every digit is right. */
static int answer_from(const unsigned char *d, struct second_cjt *t)
{
    int refusal = 0;
    uint64_t number;
    for (int which = 0; which < SECOND_CJT_NUMBERS; which++) {
        if (!spells(d, width_of(which), &number))
            return 84;
        t->numbers[which] = (uint32_t)number;
        d += width_of(which);
        if (which >= SECOND_CJT_CODES)
            continue;
        t->codes[which] = *d++;
        if (!has_unit(which, t->codes[which]))
            refusal = 85;
    }
    if (!clock_from(d, t->clock))
        return 84;
    t->state[0] = d[7];
    t->state[1] = d[8];
    return refusal;
}

/* A frame whose shape and sum are right. */
static int telegram_from(const unsigned char *b, struct second_cjt *t)
{
    int is_answer = b[LENGTH] == ANSWER_DATA;
    memset(t, 0, sizeof *t);
    t->kind = is_answer ? SECOND_CJT_ANSWER : SECOND_CJT_REQUEST;
    t->type = b[TYPE];
    if (t->type < 0x20 || t->type > 0x27 || t->type == 0x24)
        return 82;
    t->is_broadcast = !is_answer && is_broadcast(b + ADDRESS);
    if (!t->is_broadcast && !spells(b + ADDRESS, 7, &t->address))
        return 82;
    t->address = t->is_broadcast ? 0 : t->address;
    if (b[DATA] != 0x1F || b[DATA + 1] != 0x90 || b[CONTROL] != (is_answer ? 0x81 : 0x01))
        return 83;
    t->serial = b[DATA + 2];
    return is_answer ? answer_from(b + DATA + 3, t) : 0;
}

static int is_frame(const unsigned char *b, size_t n)
{
    if (n < AROUND || b[0] != 0x68 || b[n - 1] != 0x16)
        return 0;
    return (b[LENGTH] == REQUEST_DATA || b[LENGTH] == ANSWER_DATA) && n == AROUND + (size_t)b[LENGTH];
}

int second_cjt_read(const uint16_t *line, size_t n, struct second_cjt *t)
{
    unsigned char b[SECOND_CJT_LONGEST];
    int is_odd = 0;
    size_t front = 0;
    if (n == 0)
        return 1;
    for (size_t i = 0; i < n; i++) {
        if (line[i] > 511)
            return 2;
        is_odd |= line[i] != second_character(line[i]);
    }
    if (is_odd)
        return 3;
    while (front < n && (line[front] & 0xFF) == FRONT)
        front++;
    if (front > FRONT_MOST || n - front > sizeof b)
        return 80;
    for (size_t i = front; i < n; i++)
        b[i - front] = (unsigned char)line[i];
    n -= front;
    if (!is_frame(b, n))
        return 80;
    return second_sum(b, n - 2) == b[n - 2] ? telegram_from(b, t) : 81;
}

/* ---- writing: what is put together is the line only if it reads as the telegram */

static size_t put_answer(unsigned char *to, const struct second_cjt *t)
{
    unsigned char *d = to;
    uint64_t clock = t->clock[0];
    for (int which = 0; which < SECOND_CJT_NUMBERS; which++) {
        spell(d, width_of(which), t->numbers[which]);
        d += width_of(which);
        if (which < SECOND_CJT_CODES)
            *d++ = (unsigned char)t->codes[which];
    }
    for (int part = 1; part < SECOND_CJT_PARTS; part++)
        clock = 100 * clock + t->clock[part];
    spell(d, 7, clock);
    d[7] = (unsigned char)t->state[0];
    d[8] = (unsigned char)t->state[1];
    return (size_t)(d + 9 - to);
}

static size_t put_frame(unsigned char *b, const struct second_cjt *t)
{
    int is_answer = t->kind == SECOND_CJT_ANSWER;
    size_t n = DATA + 3;
    b[0] = 0x68;
    b[TYPE] = (unsigned char)t->type;
    spell(b + ADDRESS, 7, t->address);
    if (t->is_broadcast)
        memset(b + ADDRESS, 0xAA, 7);
    b[CONTROL] = is_answer ? 0x81 : 0x01;
    b[DATA] = 0x1F;
    b[DATA + 1] = 0x90;
    b[DATA + 2] = (unsigned char)t->serial;
    if (is_answer)
        n += put_answer(b + n, t);
    b[LENGTH] = (unsigned char)(n - DATA);
    b[n] = (unsigned char)second_sum(b, n);
    b[n + 1] = 0x16;
    return n + 2;
}

static int same(const struct second_cjt *a, const struct second_cjt *b)
{
    return a->kind == b->kind && a->type == b->type && a->serial == b->serial && a->is_broadcast == b->is_broadcast &&
           a->address == b->address && memcmp(a->numbers, b->numbers, sizeof a->numbers) == 0 &&
           memcmp(a->codes, b->codes, sizeof a->codes) == 0 && memcmp(a->clock, b->clock, sizeof a->clock) == 0 &&
           memcmp(a->state, b->state, sizeof a->state) == 0;
}

int second_cjt_write(const struct second_cjt *t, uint16_t *out, size_t places, size_t *length)
{
    unsigned char b[SECOND_CJT_LONGEST];
    uint16_t line[SECOND_CJT_LONGEST];
    struct second_cjt back;
    size_t n = put_frame(b, t);
    for (size_t i = 0; i < n; i++)
        line[i] = second_character(b[i]);
    if (second_cjt_read(line, n, &back) != 0 || !same(t, &back))
        return 20;
    if (places < n)
        return 21;
    memcpy(out, line, n * sizeof line[0]);
    *length = n;
    return 0;
}

/* ---- an energy as an M-Bus entry */

int second_cjt_energy(uint32_t count, unsigned code, unsigned *unit, uint64_t *number)
{
    int which = energy_at(code), last, lowest, nearest = 0;
    if (count > 99999999)
        return 84;
    if (which == ENERGIES)
        return 85;
    last = energies[which].power - 2; /* two decimals */
    lowest = energies[which].is_joule ? 0 : -3;
    for (int n = 1; n < 8; n++)
        if (abs(lowest + n - last) < abs(lowest + nearest - last))
            nearest = n;
    *unit = (unsigned)nearest + (energies[which].is_joule ? 8 : 0);
    *number = count;
    for (; last > lowest + nearest; last--)
        *number *= 10;
    for (; last < lowest + nearest; last++, *number /= 10)
        if (*number % 10 != 0)
            return 86;
    return 0;
}

/* ---- the record */

/* Where the state, the address and what only an answer has stand; then the codes, the other numbers and the clock. */
enum { STATE = 4, UNUSED = 6, METER = 8, TOLD = 16, CODED = 8, PLAIN = 56, UNUSED_TOO = 68, CLOCK = 72 };

static size_t number_place(int which)
{
    return which < SECOND_CJT_CODES ? TOLD + CODED * (size_t)which : PLAIN + 4 * (size_t)(which - SECOND_CJT_CODES);
}

static int any_of(const uint8_t *b, size_t from, size_t to)
{
    for (; from < to; from++)
        if (b[from] != 0)
            return 1;
    return 0;
}

void second_put_cjt(uint8_t *to, const struct second_cjt *t)
{
    memset(to, 0, SECOND_CJT_SIZE);
    to[0] = (uint8_t)t->kind;
    to[1] = (uint8_t)t->type;
    to[2] = (uint8_t)t->serial;
    to[3] = t->is_broadcast != 0;
    to[STATE] = (uint8_t)t->state[0];
    to[STATE + 1] = (uint8_t)t->state[1];
    second_put_number(to + METER, 8, t->address);
    for (int which = 0; which < SECOND_CJT_NUMBERS; which++)
        second_put_number(to + number_place(which), 4, t->numbers[which]);
    for (int which = 0; which < SECOND_CJT_CODES; which++)
        to[number_place(which) + 4] = (uint8_t)t->codes[which];
    second_put_number(to + CLOCK, 2, t->clock[0]);
    for (int part = 1; part < SECOND_CJT_PARTS; part++)
        to[CLOCK + 1 + part] = (uint8_t)t->clock[part];
}

/* Bytes that are 0 in every record, and those that this kind leaves 0. */
static int has_zeros(const uint8_t *b)
{
    for (int which = 0; which < SECOND_CJT_CODES; which++)
        if (any_of(b, number_place(which) + 5, number_place(which) + CODED))
            return 0;
    if (any_of(b, UNUSED, METER) || any_of(b, UNUSED_TOO, CLOCK) || b[SECOND_CJT_SIZE - 1] != 0)
        return 0;
    if (b[0] == SECOND_CJT_REQUEST && (any_of(b, STATE, UNUSED) || any_of(b, TOLD, SECOND_CJT_SIZE)))
        return 0;
    return b[3] == 0 || (b[0] == SECOND_CJT_REQUEST && !any_of(b, METER, TOLD));
}

int second_take_cjt(const uint8_t *b, size_t n, struct second_cjt *t)
{
    memset(t, 0, sizeof *t);
    if (n != SECOND_CJT_SIZE || b[0] < 1 || b[0] > 2 || b[3] > 1 || !has_zeros(b))
        return NO_RECORD;
    t->kind = (enum second_cjt_kind)b[0];
    t->type = b[1];
    t->serial = b[2];
    t->is_broadcast = b[3];
    t->state[0] = b[STATE];
    t->state[1] = b[STATE + 1];
    t->address = second_number(b + METER, 8);
    for (int which = 0; which < SECOND_CJT_NUMBERS; which++)
        t->numbers[which] = (uint32_t)second_number(b + number_place(which), 4);
    for (int which = 0; which < SECOND_CJT_CODES; which++)
        t->codes[which] = b[number_place(which) + 4];
    t->clock[0] = (unsigned)second_number(b + CLOCK, 2);
    for (int part = 1; part < SECOND_CJT_PARTS; part++)
        t->clock[part] = b[CLOCK + 1 + part];
    return 0;
}
