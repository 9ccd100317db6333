/* The error of indication of document 01, for the second program. */
#ifndef SECOND_INDICATION_H
#define SECOND_INDICATION_H

#include <stdint.h>

/* Answers 0 and the error in tenths of a percent, or the number of a refusal. */
int second_error(uint64_t m1, uint64_t m2, uint64_t s1, uint64_t s2, int64_t *tenths);

#endif
