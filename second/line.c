/* Reading, writing and search, from document 01. Works on bytes: a line is stripped of its parity bits first. */
#include "line.h"

#include "number.h"

#include <string.h>

/* The table of quantities: whoever asks what a unit byte is asks here. Powers go up with the unit bytes of a row. */
static const struct second_unit_row rows[] = {
    {0x00, 0x07, SECOND_ENERGY, 1, -3, 1, 0}, /* Wh */
    {0x08, 0x0F, SECOND_ENERGY, 2, 0, 1, 0},  /* J (2026-06) */
    {0x10, 0x17, SECOND_VOLUME, 3, -6, 1, 0}, /* m3 */
    {0x28, 0x2F, SECOND_POWER, 4, -3, 0, 0},  /* W */
    {0x38, 0x3F, SECOND_FLOW, 5, -6, 0, 1},   /* m3/h */
    {0x58, 0x5B, SECOND_INLET, 6, -3, 1, 1},  /* degrees */
    {0x5C, 0x5F, SECOND_OUTLET, 6, -3, 1, 1}, /* degrees */
    {0x6D, 0x6D, SECOND_MOMENT, 0, 0, 1, 0},
};

/* The bytes of a value, and what they are; structure 06 is a point in time where the unit is 6D. */
static const struct {
    unsigned structure;
    size_t width;
    enum second_sort sort;
} structures[] = {
    {0x01, 1, SECOND_BINARY},  {0x02, 2, SECOND_BINARY},  {0x03, 3, SECOND_BINARY},  {0x04, 4, SECOND_BINARY},
    {0x06, 6, SECOND_BINARY},  {0x07, 8, SECOND_BINARY},  {0x0A, 2, SECOND_DECIMAL}, {0x0B, 3, SECOND_DECIMAL},
    {0x0C, 4, SECOND_DECIMAL}, {0x0E, 6, SECOND_DECIMAL},
};

enum {
    ROWS = sizeof rows / sizeof rows[0],
    STRUCTURES = sizeof structures / sizeof structures[0],
    HEADER_AT = 3,
    ENTRIES_AT = 15,
    MOST_DIGITS = 12,
    MINUS = 0xF,
    TIME_UNIT = 0x6D,
    TIME_STRUCTURE = 0x06,
    FRAME_MOST = 255 + 6 /* no longer line gets past refusal 5 */
};

/* A place in the list; STRUCTURES where there is no such structure. */
static size_t place_of(unsigned structure)
{
    size_t s = 0;
    while (s < STRUCTURES && structures[s].structure != structure)
        s++;
    return s;
}

const struct second_unit_row *second_unit_row_of(unsigned unit)
{
    for (size_t i = 0; i < ROWS; i++)
        if (rows[i].first <= unit && unit <= rows[i].last)
            return &rows[i];
    return NULL;
}

int second_measures(unsigned unit, enum second_quantity quantity)
{
    const struct second_unit_row *row = second_unit_row_of(unit);
    return row != NULL && row->quantity == quantity;
}

static int is_odd(unsigned character)
{
    int odd = 0;
    for (; character != 0; character &= character - 1)
        odd = !odd;
    return odd;
}

uint16_t second_character(unsigned byte)
{
    byte &= 0xFF;
    return (uint16_t)(is_odd(byte) ? byte | 0x100 : byte);
}

unsigned second_sum(const unsigned char *bytes, size_t n)
{
    unsigned sum = 0;
    while (n > 0)
        sum += bytes[--n];
    return sum & 0xFF;
}

/* The number that packed digits, low byte first, spell; -1 where one is over nine. */
static int64_t digits(const unsigned char *bytes, size_t n)
{
    int64_t value = 0;
    while (n > 0) {
        unsigned two = bytes[--n];
        if (two >> 4 > 9 || (two & 15) > 9)
            return -1;
        value = value * 100 + (two >> 4) * 10 + (two & 15);
    }
    return value;
}

/*
 * The value of an entry in digits: as they stand, or F in the highest place and the size in the places below (2026-07). Says
 * whether it has one; 0 has no minus.
 */
static int value_from(const unsigned char *b, size_t width, int may_be_negative, int64_t *value)
{
    unsigned char size[MOST_DIGITS / 2];
    int is_negative = b[width - 1] >> 4 == MINUS;
    memcpy(size, b, width);
    if (is_negative)
        size[width - 1] &= 0x0F;
    *value = digits(size, width);
    if (*value < 0 || (is_negative && (*value == 0 || !may_be_negative)))
        return 0;
    if (is_negative)
        *value = -*value;
    return 1;
}

static unsigned days_in(unsigned year, unsigned month)
{
    static const unsigned char days[] = {31, 28, 31, 30, 31, 30, 31, 31, 30, 31, 30, 31};
    int leap = (year % 4 == 0 && year % 100 != 0) || year % 400 == 0;
    return month == 2 && leap ? 29 : days[month - 1];
}

/* Takes the six bytes of a point in time apart; says whether it keeps 01's rule. Any weekday does (2026-03). */
static int moment_from(const unsigned char *b, unsigned moment[SECOND_PARTS])
{
    unsigned year = (unsigned)(b[3] >> 5 | (b[4] >> 4) << 3), month = b[4] & 15, day = b[3] & 31, hour = b[2] & 31;
    if (b[0] > 59 || b[1] > 59 || hour > 23 || b[5] != 0)
        return 0;
    if (year > 99 || month < 1 || month > 12 || day < 1 || day > days_in(2000 + year, month))
        return 0;
    const unsigned parts[SECOND_PARTS] = {year, month, day, hour, b[1], b[0], b[2] >> 5};
    memcpy(moment, parts, sizeof parts);
    return 1;
}

/* One entry at the start of what is left of the body. Its width goes to *taken. */
static int entry_from(const unsigned char *b, size_t left, struct second_entry *e, size_t *taken)
{
    if (left < 2)
        return 11;
    size_t s = place_of(b[0]);
    const struct second_unit_row *row = second_unit_row_of(b[1]);
    if (s == STRUCTURES || row == NULL || (b[1] == TIME_UNIT && b[0] != TIME_STRUCTURE) || left - 2 < structures[s].width)
        return 11;
    e->structure = b[0];
    e->unit = b[1];
    e->sort = b[1] == TIME_UNIT ? SECOND_TIME : structures[s].sort;
    *taken = 2 + structures[s].width;
    int may_be_negative = row->may_be_negative;
    if (e->sort == SECOND_TIME)
        return moment_from(b + 2, e->moment) ? 0 : 13;
    if (e->sort == SECOND_DECIMAL)
        return value_from(b + 2, structures[s].width, may_be_negative, &e->count) ? 0 : 12;
    e->count = second_signed(b + 2, structures[s].width);
    return e->count < 0 && !may_be_negative ? 12 : 0;
}

static int entries_from(const unsigned char *body, size_t n, struct second_telegram *t)
{
    int seen[SECOND_QUANTITIES] = {0};
    for (size_t at = ENTRIES_AT, taken; at < n; at += taken) {
        struct second_entry e = {0};
        int refusal = entry_from(body + at, n - at, &e, &taken);
        if (refusal != 0)
            return refusal;
        enum second_quantity q = second_unit_row_of(e.unit)->quantity;
        if (seen[q])
            return 14;
        seen[q] = 1;
        t->entries[t->count++] = e; /* there are as many places as quantities, and this one is new */
    }
    for (size_t i = 0; i < ROWS; i++)
        if (rows[i].required && !seen[rows[i].quantity])
            return 16;
    return 0;
}

static int header_from(const unsigned char *b, struct second_telegram *t)
{
    int64_t number = digits(b, 4);
    unsigned maker = b[4] | (unsigned)b[5] << 8;
    if (number < 0 || maker > 0x7FFF)
        return 10;
    for (int shift = 0; shift <= 10; shift += 5) {
        unsigned letter = maker >> shift & 31;
        if (letter < 1 || letter > 26)
            return 10;
    }
    if ((b[7] != 0x04 && (b[7] < 0x0B || b[7] > 0x0D)) || b[10] != 0 || b[11] != 0)
        return 10;
    t->number = (uint32_t)number;
    t->maker = maker;
    t->version = b[6];
    t->type = b[7];
    t->access = b[8];
    t->status = b[9];
    return 0;
}

/* A long form from C up to before CS, of which nothing is known but its sum. */
static int body_from(const unsigned char *b, size_t n, struct second_telegram *t)
{
    if (n == 4 && b[0] == 0x53 && b[2] == 0x50 && (b[3] == 0x00 || (b[3] >= 0x90 && b[3] <= 0x92))) {
        t->kind = b[3] == 0 ? SECOND_LEAVE : SECOND_ENTER;
        t->address = b[1];
        t->method = b[3];
        return 0;
    }
    if (n < ENTRIES_AT || b[0] != 0x08 || b[2] != 0x72)
        return 9;
    t->kind = SECOND_DATA;
    t->address = b[1];
    int refusal = header_from(b + HEADER_AT, t);
    return refusal != 0 ? refusal : entries_from(b, n, t);
}

static int short_form(const unsigned char *b, struct second_telegram *t)
{
    if (b[4] != 0x16)
        return 7;
    if (b[3] != second_sum(b + 1, 2))
        return 8;
    if (b[1] != 0x5B)
        return 9;
    t->kind = SECOND_READ;
    t->address = b[2];
    return 0;
}

static int long_form(const unsigned char *b, size_t n, struct second_telegram *t)
{
    if (b[1] != b[2] || b[3] != 0x68)
        return 6;
    if (b[n - 1] != 0x16)
        return 7;
    if (b[n - 2] != second_sum(b + 4, n - 6))
        return 8;
    return body_from(b + 4, n - 6, t);
}

static int count_is_right(unsigned start, const uint16_t *line, size_t n)
{
    if (start == 0xE5)
        return n == 1;
    if (start == 0x10)
        return n == 5;
    return n >= 6 && n == (line[1] & 0xFFu) + 6;
}

static int telegram_from(const uint16_t *line, size_t n, struct second_telegram *t)
{
    unsigned char bytes[FRAME_MOST];
    unsigned start;
    size_t i;
    if (n == 0)
        return 1;
    for (i = 0; i < n; i++)
        if (line[i] > 511)
            return 2;
    for (i = 0; i < n; i++)
        if (is_odd(line[i]))
            return 3;
    start = line[0] & 0xFF;
    if (start != 0xE5 && start != 0x10 && start != 0x68)
        return 4;
    if (!count_is_right(start, line, n))
        return 5;
    for (i = 0; i < n; i++)
        bytes[i] = (unsigned char)(line[i] & 0xFF);
    t->kind = SECOND_ACK;
    return start == 0xE5 ? 0 : start == 0x10 ? short_form(bytes, t) : long_form(bytes, n, t);
}

int second_read(const uint16_t *line, size_t n, struct second_telegram *t)
{
    memset(t, 0, sizeof *t);
    int refusal = telegram_from(line, n, t);
    if (refusal != 0)
        memset(t, 0, sizeof *t);
    return refusal;
}

/* The other way round writes whatever the fields give, cut to size: second_write reads it back and compares. */

static size_t put_digits(unsigned char *b, size_t width, uint64_t value)
{
    for (size_t i = 0; i < width; i++, value /= 100)
        b[i] = (unsigned char)(value / 10 % 10 << 4 | value % 10);
    return width;
}

/* Where the size does not leave the highest place free, the sign goes over a digit: what is read back is another number. */
static size_t put_value(unsigned char *b, size_t width, int64_t value)
{
    put_digits(b, width, value < 0 ? 0 - (uint64_t)value : (uint64_t)value);
    if (value < 0 && width > 0)
        b[width - 1] = (unsigned char)((b[width - 1] & 0x0F) | MINUS << 4);
    return width;
}

static size_t put_entry(unsigned char *b, const struct second_entry *e)
{
    const unsigned *m = e->moment;
    size_t s = place_of(e->structure), width = s == STRUCTURES ? 0 : structures[s].width;
    b[0] = (unsigned char)e->structure;
    b[1] = (unsigned char)e->unit;
    if (e->sort == SECOND_DECIMAL)
        return 2 + put_value(b + 2, width, e->count);
    if (e->sort == SECOND_BINARY) {
        second_put_number(b + 2, width, (uint64_t)e->count);
        return 2 + width;
    }
    b[2] = (unsigned char)m[5];
    b[3] = (unsigned char)m[4];
    b[4] = (unsigned char)((m[3] & 31) | m[6] << 5);
    b[5] = (unsigned char)((m[2] & 31) | m[0] << 5);
    b[6] = (unsigned char)((m[1] & 15) | m[0] >> 3 << 4);
    b[7] = 0;
    return 8;
}

static size_t put_data(unsigned char *b, const struct second_telegram *t)
{
    size_t at = HEADER_AT;
    b[0] = 0x08;
    b[1] = (unsigned char)t->address;
    b[2] = 0x72;
    at += put_digits(b + at, 4, t->number);
    b[at++] = (unsigned char)t->maker;
    b[at++] = (unsigned char)(t->maker >> 8);
    b[at++] = (unsigned char)t->version;
    b[at++] = (unsigned char)t->type;
    b[at++] = (unsigned char)t->access;
    b[at++] = (unsigned char)t->status;
    b[at++] = 0;
    b[at++] = 0;
    for (size_t i = 0; i < t->count && i < SECOND_ENTRIES; i++)
        at += put_entry(b + at, &t->entries[i]);
    return at;
}

static size_t put_body(unsigned char *b, const struct second_telegram *t)
{
    if (t->kind == SECOND_DATA)
        return put_data(b, t);
    b[0] = 0x53;
    b[1] = (unsigned char)t->address;
    b[2] = 0x50;
    b[3] = (unsigned char)t->method;
    return 4;
}

static size_t put_line(unsigned char *b, const struct second_telegram *t)
{
    size_t n;
    if (t->kind == SECOND_ACK) {
        b[0] = 0xE5;
        return 1;
    }
    if (t->kind == SECOND_READ) {
        b[0] = 0x10;
        b[1] = 0x5B;
        b[2] = (unsigned char)t->address;
        n = 3;
    } else {
        n = 4 + put_body(b + 4, t);
        b[0] = b[3] = 0x68;
        b[1] = b[2] = (unsigned char)(n - 4);
    }
    b[n] = (unsigned char)(t->kind == SECOND_READ ? second_sum(b + 1, 2) : second_sum(b + 4, n - 4));
    b[n + 1] = 0x16;
    return n + 2;
}

static int same_entry(const struct second_entry *a, const struct second_entry *b)
{
    if (a->structure != b->structure || a->unit != b->unit || a->sort != b->sort)
        return 0;
    return a->sort == SECOND_TIME ? memcmp(a->moment, b->moment, sizeof a->moment) == 0 : a->count == b->count;
}

static int same_telegram(const struct second_telegram *a, const struct second_telegram *b)
{
    for (size_t i = 0; i < SECOND_ENTRIES; i++)
        if (!same_entry(&a->entries[i], &b->entries[i]))
            return 0;
    return a->kind == b->kind && a->address == b->address && a->method == b->method && a->number == b->number &&
           a->maker == b->maker && a->version == b->version && a->type == b->type && a->access == b->access &&
           a->status == b->status && a->count == b->count;
}

int second_write(const struct second_telegram *t, uint16_t *out, size_t places, size_t *length)
{
    unsigned char bytes[FRAME_MOST]; /* what is no telegram may be longer than every line: seven values of eight bytes */
    uint16_t line[FRAME_MOST];
    struct second_telegram back;
    size_t n = put_line(bytes, t);
    for (size_t i = 0; i < n; i++)
        line[i] = second_character(bytes[i]);
    if (second_read(line, n, &back) != 0 || !same_telegram(t, &back))
        return 20;
    if (places < n)
        return 21;
    memcpy(out, line, n * sizeof line[0]);
    *length = n;
    return 0;
}

/* Tries every place and every length: nothing here relies on a line's own length byte. */
int second_find(const uint16_t *capture, size_t n, size_t *place, size_t *length)
{
    struct second_telegram t;
    for (size_t at = 0; at < n; at++)
        for (size_t count = 1; count <= n - at && count <= FRAME_MOST; count++)
            if (second_read(capture + at, count, &t) == 0) {
                *place = at;
                *length = count;
                return 0;
            }
    return 18;
}

/* Every place of M-Bus, then every place of optical: the first at which a line begins is the answer. */
int second_either(const uint16_t *mbus, size_t mbus_n, const uint16_t *optical, size_t optical_n, struct second_live *live)
{
    const uint16_t *const captures[] = {mbus, optical};
    const size_t counts[] = {mbus_n, optical_n};
    for (live->optical = 0; live->optical < 2; live->optical++)
        if (second_find(captures[live->optical], counts[live->optical], &live->place, &live->length) == 0)
            return 0;
    return 18;
}
