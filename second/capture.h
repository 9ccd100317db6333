/* What a capture has: the length of a line that comes in, and the first line after a time. */
#ifndef SECOND_CAPTURE_H
#define SECOND_CAPTURE_H

#include <stddef.h>
#include <stdint.h>

enum { SECOND_NOT_YET = -1 };

/* 0 and the length of the accepted line that begins so, SECOND_NOT_YET, or 18 where none does. */
int second_line_length(const uint16_t *first, size_t n, size_t *length);

/* Where the first line begins that began at or after a time, and when it did. */
struct second_timed {
    size_t place, length;
    uint64_t time;
};

/* 0, or 18. A character without a time began never. */
int second_find_after(const uint16_t *capture, size_t n, const uint64_t *times, size_t times_n, uint64_t t,
                      struct second_timed *found);

#endif
