/* Lines and telegrams of document 01, for the second program. */
#ifndef SECOND_LINE_H
#define SECOND_LINE_H

#include <stddef.h>
#include <stdint.h>

enum second_kind { SECOND_ACK, SECOND_READ, SECOND_ENTER, SECOND_LEAVE, SECOND_DATA };

/* What an entry's value is: packed digits, a point in time, or binary (document 02, 2026-06). */
enum second_sort { SECOND_DECIMAL, SECOND_TIME, SECOND_BINARY };

/* The quantities in the order of 01's table. */
enum second_quantity {
    SECOND_ENERGY,
    SECOND_VOLUME,
    SECOND_POWER,
    SECOND_FLOW,
    SECOND_INLET,
    SECOND_OUTLET,
    SECOND_MOMENT,
    SECOND_QUANTITIES
};

/* A row of the table: its unit bytes, the unit (0 none, 1 Wh, 2 J, 3 m3, 4 W, 5 m3/h, 6 degrees Celsius), the first one's power of ten,
   whether data must have the quantity, and whether it may be below zero (2026-07). */
struct second_unit_row {
    unsigned first, last;
    enum second_quantity quantity;
    unsigned unit;
    int power, required, may_be_negative;
};

enum { SECOND_ENTRIES = 7, SECOND_PARTS = 7, SECOND_LONGEST = 89 };

struct second_entry {
    unsigned structure, unit;
    enum second_sort sort;
    int64_t count;                 /* where it is no time */
    unsigned moment[SECOND_PARTS]; /* year, month, day, hour, minute, second, weekday, where it is one */
};

struct second_telegram {
    enum second_kind kind;
    unsigned address, method;
    uint32_t number;
    unsigned maker, version, type, access, status;
    uint64_t count;
    struct second_entry entries[SECOND_ENTRIES];
};

/* A character that carries a byte: the byte, and in bit 8 what makes the parity even. */
uint16_t second_character(unsigned byte);

/* The byte of a long form's CS: the sum of some bytes, modulo 256. */
unsigned second_sum(const unsigned char *bytes, size_t n);

/* The row that has the unit byte, or null; and whether it is one of the quantity. */
const struct second_unit_row *second_unit_row_of(unsigned unit);
int second_measures(unsigned unit, enum second_quantity quantity);

/* Each answers 0, or the number of a refusal; what it hands out counts only after 0. */
int second_read(const uint16_t *line, size_t n, struct second_telegram *t);
int second_write(const struct second_telegram *t, uint16_t *out, size_t places, size_t *length);
int second_find(const uint16_t *capture, size_t n, size_t *place, size_t *length);

/* The line of whichever of two captures has one (document 02, 2026-01): whether it is the optical one, and where in it. */
struct second_live {
    int optical;
    size_t place, length;
};

int second_either(const uint16_t *mbus, size_t mbus_n, const uint16_t *optical, size_t optical_n, struct second_live *live);

#endif
