/*
 * A history of steps on a state that the two programs keep: in a record that the archive alone writes, and in the second
 * program's own struct.
 */
#ifndef HISTORY_H
#define HISTORY_H

#include "call.h"

#include "../second/exchange.h"
#include "../second/meter.h"

union state {
    struct second_exchange exchange;
    struct second_meter meter;
};

/* What is known of one kind of state. */
struct history {
    size_t size;    /* of its record */
    unsigned steps; /* at the most */

    /* Makes a fresh state and its record, by a call where one is needed; says whether that was accepted. */
    int (*begin)(uint8_t *record, union state *state);

    /* One step of any kind on the record; `refusal` is one that goes before the step's. */
    struct lent *(*step)(const uint8_t *record, size_t size, int refusal, union state *state);

    /* What the step left has the state's values in its fields. */
    void (*hold)(const struct lent *left, const union state *state);

    /* The state that the bytes are the record of; 0, or 101. */
    int (*take)(const uint8_t *record, size_t size, union state *state);

    /* Puts a record's fields into their ranges, or just past them, each for itself. */
    void (*mix)(uint8_t *record);

    int (*has_ended)(const union state *state);
};

/* One history from its beginning; beside it steps on records of another's making. */
void compare_history(const struct history *h);

#endif
