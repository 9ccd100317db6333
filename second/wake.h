/* The wake-up and the gap after it, of document 01, for the second program. */
#ifndef SECOND_WAKE_H
#define SECOND_WAKE_H

#include <stddef.h>
#include <stdint.h>

/* Each answers 0, or the number of a refusal. Times are in bit times. */
int second_wake(uint64_t count, uint16_t *out, size_t places);
int second_gap(uint64_t wake_end, uint64_t command_begin);

#endif
