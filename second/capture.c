/* The length of a line that comes in, by what each length would ask for; and the first line after a time, place by place. */
#include "capture.h"

#include "line.h"

enum { FRAME = 6, COUNTED_MOST = 255, WHOLE_MOST = COUNTED_MOST + FRAME };

/* The byte that a line of so many characters has at a place; -1 where it may be any, -2 where there is no such line. */
static int asked_at(size_t length, size_t place)
{
    int counted = (int)length - FRAME;
    if (length == 1)
        return 0xE5;
    if (length == 5)
        return place == 0 ? 0x10 : -1;
    if (counted < 0)
        return -2;
    switch (place) {
    case 0:
    case 3:
        return 0x68;
    case 1:
    case 2:
        return counted;
    default:
        return -1;
    }
}

/* A line of this length may have these first characters; what stands behind its end is no part of it. */
static int may_be(size_t length, const uint16_t *first, size_t n)
{
    if (asked_at(length, 0) == -2)
        return 0;
    for (size_t i = 0; i < n && i < length; i++) {
        int asked = asked_at(length, i);
        if (first[i] != second_character(first[i]) || (asked >= 0 && (first[i] & 0xFF) != asked))
            return 0;
    }
    return 1;
}

int second_line_length(const uint16_t *first, size_t n, size_t *length)
{
    size_t left = 0, last = 0;
    for (size_t one = 1; one <= WHOLE_MOST; one++)
        if (may_be(one, first, n)) {
            left++;
            last = one;
        }
    if (left > 1)
        return SECOND_NOT_YET;
    if (left == 0)
        return 18;
    *length = last;
    return 0;
}

int second_find_after(const uint16_t *capture, size_t n, const uint64_t *times, size_t times_n, uint64_t t,
                      struct second_timed *found)
{
    struct second_telegram telegram;
    for (size_t at = 0; at < n; at++) {
        if (at >= times_n || times[at] < t)
            continue;
        for (size_t length = 1; length <= n - at && length <= WHOLE_MOST; length++)
            if (second_read(capture + at, length, &telegram) == 0) {
                *found = (struct second_timed){at, length, times[at]};
                return 0;
            }
    }
    return 18;
}
