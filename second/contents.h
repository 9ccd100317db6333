/* The contents of a run bundle kept in columns, 2026-10 of document 02, for the second program. */
#ifndef SECOND_CONTENTS_H
#define SECOND_CONTENTS_H

#include "bundle.h"

struct second_contents {
    uint64_t count;
    uint8_t positions[SECOND_ROWS], directions[SECOND_ROWS];
    uint32_t times[SECOND_ROWS], offsets[SECOND_ROWS];
    uint16_t lengths[SECOND_ROWS];
};

/* Each answers 0, or the number of a refusal; what it hands out counts only after 0. */
int second_contents(const uint8_t *bundle, size_t n, struct second_contents *c);
int second_contents_row(const struct second_contents *c, uint64_t index, struct second_row *row);
int second_contents_next(const struct second_contents *c, unsigned position, uint64_t from, size_t *index);

#endif
