/* Room in a long run, 2026-12 of document 02, for the second program. */
#ifndef SECOND_SWEEP_H
#define SECOND_SWEEP_H

#include "bundle.h"

/* Answers 0 and has swept the buffer, or answers the number of a refusal and has changed nothing. */
int second_sweep(uint8_t *buffer, size_t places, uint64_t filled, unsigned position, size_t *length);

#endif
