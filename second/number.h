/* Numbers in bytes, low byte first, for the second program. */
#ifndef SECOND_NUMBER_H
#define SECOND_NUMBER_H

#include <stddef.h>
#include <stdint.h>

uint64_t second_number(const uint8_t *b, size_t bytes);

/* In two's complement: 1 to 8 bytes, the top bit of the last of which counts below zero. */
int64_t second_signed(const uint8_t *b, size_t bytes);

void second_put_number(uint8_t *to, size_t bytes, uint64_t n);

#endif
