/* The picture of a run, for the second program. */
#ifndef SECOND_PICTURE_H
#define SECOND_PICTURE_H

#include <stddef.h>
#include <stdint.h>
#include <stdio.h>

/* Prints the picture of a bundle as SVG; answers 0, or the number of the bundle's refusal, and then nothing is printed. */
int second_picture(const uint8_t *bundle, size_t n, FILE *to);

#endif
