/* Random telegrams: such that can be written, and such with a rule broken. */
#include "make_telegram.h"

#include "chance.h"

#include <string.h>

unsigned bytes_of(unsigned structure)
{
    static const unsigned char bytes[16] = {0, 1, 2, 3, 4, 0, 6, 8, 0, 0, 2, 3, 4, 0, 6, 0};
    return structure < 16 ? bytes[structure] : 0;
}

/* Of a structure that may be none. */
static unsigned digits_of(unsigned structure)
{
    return bytes_of(structure) == 0 ? 12 : 2 * bytes_of(structure);
}

static uint64_t power_of_ten(unsigned n)
{
    uint64_t power = 1;
    while (n-- > 0)
        power *= 10;
    return power;
}

/* A size of so many digits: small, nearly the largest, or any. */
static int64_t size_for(unsigned digits)
{
    uint64_t end = power_of_ten(digits);
    switch (below(4)) {
    case 0:
        return below(100);
    case 1:
        return (int64_t)(end - 1 - below(2));
    default:
        return (int64_t)(chance() % end);
    }
}

/* Binary of so many bytes, not below zero: small, nearly the largest, or of any width. */
static int64_t binary_for(unsigned bytes)
{
    int64_t largest = INT64_MAX >> (64 - 8 * bytes);
    switch (below(4)) {
    case 0:
        return below(3);
    case 1:
        return largest - below(2);
    default:
        return (int64_t)(of_any_width() & (uint64_t)largest);
    }
}

/* Flow, inlet and outlet are as often as not below zero: in digits the sign has the place of one, and zero has none. */
static int64_t count_for(unsigned structure, unsigned unit)
{
    int is_negative = second_unit_row_of(unit)->may_be_negative && once_in(2);
    int64_t size;
    if (structure < 0x08) {
        size = binary_for(bytes_of(structure));
        return is_negative ? -size - 1 : size;
    }
    size = size_for(digits_of(structure) - (is_negative ? 1 : 0));
    return is_negative && size == 0 ? -1 : is_negative ? -size : size;
}

static void good_moment(unsigned m[SECOND_PARTS])
{
    static const unsigned char days[] = {31, 28, 31, 30, 31, 30, 31, 31, 30, 31, 30, 31};
    m[0] = below(100);
    m[1] = between(1, 12);
    m[2] = once_in(3) ? days[m[1] - 1] : between(1, 28);
    if (m[0] % 4 == 0 && m[1] == 2 && once_in(2))
        m[2] = 29;
    m[3] = once_in(4) ? 23 : below(24);
    m[4] = once_in(4) ? 59 : below(60);
    m[5] = once_in(4) ? 59 : below(60);
    m[6] = once_in(2) ? 0 : below(8); /* as often as not one that contradicts the date */
}

/* One of the unit bytes of a quantity. */
static unsigned some_unit(enum second_quantity quantity)
{
    unsigned units[256], n = 0;
    for (unsigned unit = 0; unit < 256; unit++)
        if (second_measures(unit, quantity))
            units[n++] = unit;
    return units[n == 1 ? 0 : below(n)];
}

/* An entry of a quantity, 0 to 6 in 01's order, of some structure or of this one, which is binary. */
static struct second_entry good_entry(unsigned quantity, unsigned wanted)
{
    static const unsigned char digits[] = {0x0A, 0x0B, 0x0C, 0x0E}, binary[] = {0x01, 0x02, 0x03, 0x04, 0x06, 0x07};
    struct second_entry e = {0};
    e.unit = some_unit(quantity);
    if (quantity == SECOND_MOMENT) {
        e.structure = 0x06;
        e.sort = SECOND_TIME;
        good_moment(e.moment);
        return e;
    }
    e.sort = wanted != 0 || once_in(2) ? SECOND_BINARY : SECOND_DECIMAL;
    e.structure = wanted != 0 ? wanted : e.sort == SECOND_BINARY ? binary[below(6)] : digits[below(4)];
    e.count = count_for(e.structure, e.unit);
    return e;
}

static void swap_entries(struct second_telegram *t, unsigned i, unsigned j)
{
    struct second_entry e = t->entries[i];
    t->entries[i] = t->entries[j];
    t->entries[j] = e;
}

unsigned some_maker(unsigned first, unsigned last)
{
    unsigned maker = between(first, last) << 10;
    maker |= between(first, last) << 5;
    return maker | between(first, last);
}

static void good_data(struct second_telegram *t)
{
    static const unsigned char types[] = {0x04, 0x0B, 0x0C, 0x0D};
    unsigned wanted = once_in(12) ? 0x01 : once_in(12) ? 0x07 : 0; /* the shortest lines and the longest, now and then */
    t->number = (uint32_t)(chance() % 100000000);
    t->maker = some_maker(1, 26);
    t->version = below(256);
    t->type = types[below(4)];
    t->access = below(256);
    t->status = below(256);
    for (unsigned q = 0; q < 7; q++)
        if ((q != 2 && q != 3) || once_in(2))
            t->entries[t->count++] = good_entry(q, wanted);
    for (unsigned i = (unsigned)t->count - 1; i > 0; i--)
        swap_entries(t, i, below(i + 1));
}

struct second_telegram good_telegram(enum second_kind kind)
{
    struct second_telegram t;
    memset(&t, 0, sizeof t);
    t.kind = kind;
    if (kind != SECOND_ACK)
        t.address = once_in(3) ? 0xFE : below(256);
    if (kind == SECOND_ENTER)
        t.method = between(0x90, 0x92);
    if (kind == SECOND_DATA)
        good_data(&t);
    return t;
}

enum second_kind some_kind(void)
{
    return once_in(2) ? SECOND_DATA : (enum second_kind)below(5);
}

/* ---- with a rule broken */

/* At the ends of what so many bytes hold, with a sign and without one; or below zero for any quantity. */
static int64_t edge_binary(unsigned bytes)
{
    int64_t largest = INT64_MAX >> (64 - 8 * bytes);
    switch (below(5)) {
    case 0:
        return largest - below(2);
    case 1:
        return bytes == 8 ? INT64_MIN : largest + 1 + below(2);
    case 2:
        return bytes == 8 ? INT64_MIN + 1 : -largest - 1 - below(2);
    case 3:
        return bytes == 8 ? -2 : 2 * largest + 1 + below(2);
    default:
        return -1;
    }
}

/* At the ends of what digits hold, and at what they would hold were the sign none of them; or below zero for any quantity. */
static int64_t edge_count(unsigned structure)
{
    int64_t end = (int64_t)power_of_ten(digits_of(structure)), lowest = -(end / 10);
    switch (below(6)) {
    case 0:
        return end - below(2);
    case 1:
        return lowest + below(2);
    case 2:
        return 1 - end - below(2);
    case 3:
        return once_in(2) ? INT64_MIN : INT64_MAX;
    case 4:
        return -1;
    default:
        return -(int64_t)below(100);
    }
}

static void break_entry(struct second_entry *e)
{
    unsigned part = below(SECOND_PARTS), bytes = bytes_of(e->structure);
    uint64_t any;
    switch (below(8)) {
    case 0:
        e->structure = below(16);
        break;
    case 1:
        e->unit = once_in(4) ? e->unit ^ 8 : below(128); /* Wh for J, perhaps */
        break;
    case 2:
        e->sort = (enum second_sort)below(3);
        break;
    case 3:
        e->count = e->structure < 0x08 && bytes > 0 ? edge_binary(bytes) : edge_count(e->structure);
        break;
    case 4:
        any = of_any_width();
        e->count = once_in(2) ? (int64_t)(any >> 1) : -(int64_t)(any >> 1) - 1;
        break;
    case 5:
        e->moment[part] = once_in(4) ? below(256) : between(23, 32);
        break;
    case 6:
        e->moment[6] = once_in(2) ? between(7, 9) : below(256);
        break;
    default:
        e->moment[part] = once_in(2) ? 0 : between(59, 100);
    }
}

static void break_header(struct second_telegram *t)
{
    switch (below(4)) {
    case 0:
        t->number = once_in(2) ? (uint32_t)chance() : 100000000 - below(2);
        break;
    case 1:
        t->maker = once_in(2) ? some_maker(0, 27) : t->maker | 0x8000;
        break;
    case 2:
        t->type = below(once_in(2) ? 16 : 256);
        break;
    default:
        t->method = between(0x8F, 0x93);
    }
}

void break_telegram(struct second_telegram *t)
{
    unsigned many = t->count == 0 ? 1 : (unsigned)t->count, at = below(many);
    switch (below(8)) {
    case 0:
        break_header(t);
        break;
    case 1:
        t->count = once_in(2) ? below(10) : once_in(2) ? UINT64_MAX : t->count - 1;
        break;
    case 2: /* a quantity twice, or another order */
        t->entries[at] = t->entries[below(many)];
        break;
    case 3: /* a required one missing, if it was the last */
        t->entries[many - 1].structure = t->entries[many - 1].unit = 0;
        t->count -= once_in(2);
        break;
    case 4: /* a place past the count that is not blank */
        break_entry(&t->entries[between(many - 1, 6)]);
        break;
    case 5:
        t->kind = (enum second_kind)below(5);
        break;
    case 6:
        t->address = below(256);
        t->method = once_in(2) ? 0 : below(256);
        break;
    default:
        break_entry(&t->entries[at]);
    }
}

struct second_telegram some_send(const struct second_exchange *x)
{
    struct second_telegram t = x->request;
    if (x->state != SECOND_RESEND || once_in(10))
        return good_telegram(once_in(12) ? some_kind() : (enum second_kind)between(1, 3));
    switch (below(10)) {
    case 0:
        t.address ^= 1u << below(8);
        break;
    case 1:
        t.method = once_in(2) ? between(0x90, 0x92) : below(256);
        break;
    case 2:
        t.kind = some_kind();
        break;
    default:
        break;
    }
    return t;
}

struct second_telegram meter_template(void)
{
    struct second_telegram t = good_telegram(SECOND_DATA);
    t.access = once_in(2) ? 255 - below(3) : t.access;
    for (size_t i = 0; i < t.count; i++)
        if (t.entries[i].unit < 0x18 && !once_in(40)) {
            t.entries[i].structure = 0x0C;
            t.entries[i].sort = SECOND_DECIMAL;
            t.entries[i].count = count_for(0x0C, t.entries[i].unit);
        }
    if (once_in(20))
        break_telegram(&t);
    return t;
}
