/* Setting the resistance box, of 2026-13 in document 02, for the second program. */
#ifndef SECOND_RESISTANCE_H
#define SECOND_RESISTANCE_H

#include <stdint.h>

/* Each answers 0 and the number, or the number of a refusal. */
int second_resistance(uint32_t hundredths, uint32_t *milliohm);
int second_temperature(uint32_t milliohm, uint32_t *hundredths);

#endif
