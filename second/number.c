/* Numbers in bytes, low byte first. */
#include "number.h"

uint64_t second_number(const uint8_t *b, size_t bytes)
{
    uint64_t n = 0;
    while (bytes > 0)
        n = n << 8 | b[--bytes];
    return n;
}

int64_t second_signed(const uint8_t *b, size_t bytes)
{
    uint64_t half = UINT64_C(1) << (8 * bytes - 1), n = second_number(b, bytes);
    return n < half ? (int64_t)n : (int64_t)(n - half) - (int64_t)(half - 1) - 1;
}

void second_put_number(uint8_t *to, size_t bytes, uint64_t n)
{
    for (; bytes > 0; bytes--, n >>= 8)
        *to++ = (uint8_t)n;
}
