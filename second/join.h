/* The rows of one position, and two run bundles joined, for the second program. */
#ifndef SECOND_JOIN_H
#define SECOND_JOIN_H

#include "bundle.h"

/* Each answers 0 and has written a bundle into the first places, or answers the number of a refusal and has changed nothing. */
int second_of_position(const uint8_t *bundle, size_t n, unsigned position, uint8_t *out, size_t places, size_t *length);
int second_join(const uint8_t *a, size_t m, const uint8_t *b, size_t n, uint8_t *out, size_t places, size_t *length);

#endif
