/* 000's data example (5.4.3), the line that tests, counts and the example bundle start from; and a CJ/T 188 answer. */
#ifndef SECOND_EXAMPLE_H
#define SECOND_EXAMPLE_H

#include <stddef.h>
#include <stdint.h>

enum { SECOND_EXAMPLE = 63, SECOND_CJT_EXAMPLE = 59 };

extern const unsigned char second_example[SECOND_EXAMPLE];

/* Every value that 001 lists, its cold as the example there; the battery is low and the inlet sensor faulty. */
extern const unsigned char second_cjt_example[SECOND_CJT_EXAMPLE];

/* The characters of 000's. */
void second_example_line(uint16_t line[SECOND_EXAMPLE]);

#endif
