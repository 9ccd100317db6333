/* From a serial port to characters, from termios(3), for the second program. */
#ifndef SECOND_SERIAL_H
#define SECOND_SERIAL_H

#include <stddef.h>
#include <stdint.h>

/* Makes characters of marked bytes, at most so many; answers how many, and how many bytes were used. */
size_t second_unmark(const uint8_t *bytes, size_t n, uint16_t *characters, size_t places, size_t *used);

#endif
