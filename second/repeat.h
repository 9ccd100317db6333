/* Rows of a run bundle that repeat a reading, for the second program. */
#ifndef SECOND_REPEAT_H
#define SECOND_REPEAT_H

#include <stddef.h>
#include <stdint.h>

/*
 * Place i of rows takes 0, or 1 + the number of the lowest row before row i that was heard and is data with the same meter
 * number and the same entries; the count of rows goes beside them. Answers 0, or the number of a refusal.
 */
int second_repeats(const uint8_t *bundle, size_t n, uint16_t *rows, size_t places, size_t *count);

#endif
