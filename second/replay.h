/* The real-time method from the record, of document 02's request 2026-04, for the second program. */
#ifndef SECOND_REPLAY_H
#define SECOND_REPLAY_H

#include <stddef.h>
#include <stdint.h>

/*
 * The error by formula C.1 of 000 in tenths of a percent, from the first and last answers of a position that count, with the
 * standard's volumes in millilitres and its elapsed milliseconds. Answers 0, or the number of a refusal.
 */
int second_replay(const uint8_t *bundle, size_t n, unsigned position, uint64_t s1, uint64_t s2, uint64_t elapsed,
                  int64_t *tenths);

#endif
