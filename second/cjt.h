/* CJ/T 188 lines and telegrams, of 2026-08 in document 02, for the second program. */
#ifndef SECOND_CJT_H
#define SECOND_CJT_H

#include <stddef.h>
#include <stdint.h>

enum second_cjt_kind { SECOND_CJT_REQUEST = 1, SECOND_CJT_ANSWER = 2 };

/* What an answer tells: numbers, of which the first five have a unit code, then the clock from year to second. */
enum {
    SECOND_CJT_COLD,
    SECOND_CJT_HEAT,
    SECOND_CJT_POWER,
    SECOND_CJT_FLOW,
    SECOND_CJT_VOLUME,
    SECOND_CJT_CODES,
    SECOND_CJT_INLET = SECOND_CJT_CODES,
    SECOND_CJT_OUTLET,
    SECOND_CJT_HOURS,
    SECOND_CJT_NUMBERS,
    SECOND_CJT_PARTS = 6,
    SECOND_CJT_LONGEST = 59,
    SECOND_CJT_SIZE = 80
};

/* A request has 0 in all that only an answer has. */
struct second_cjt {
    enum second_cjt_kind kind;
    unsigned type, serial;
    int is_broadcast; /* then the address is 0 */
    uint64_t address;
    uint32_t numbers[SECOND_CJT_NUMBERS];
    unsigned codes[SECOND_CJT_CODES], clock[SECOND_CJT_PARTS], state[2];
};

/* Each answers 0, or the number of a refusal; what it hands out counts only after 0. */
int second_cjt_read(const uint16_t *line, size_t n, struct second_cjt *t);
int second_cjt_write(const struct second_cjt *t, uint16_t *out, size_t places, size_t *length);

/* An energy as an M-Bus entry of structure 0E: its unit byte, and the number that its twelve digits spell. */
int second_cjt_energy(uint32_t count, unsigned code, unsigned *unit, uint64_t *number);

/* The record of include/skarrowith.h, byte for byte; 101 where the bytes are none. */
void second_put_cjt(uint8_t *to, const struct second_cjt *t);
int second_take_cjt(const uint8_t *b, size_t n, struct second_cjt *t);

#endif
