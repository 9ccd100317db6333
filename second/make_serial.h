/* Random bytes as a serial port passes them on, and as none does. */
#ifndef SECOND_MAKE_SERIAL_H
#define SECOND_MAKE_SERIAL_H

#include <stddef.h>
#include <stdint.h>

enum { MARKED_MOST = 2000 };

struct marked {
    uint8_t b[MARKED_MOST];
    size_t n, characters; /* as many as were marked, 0 where the bytes are any */
};

/* A line or a capture marked, whole or cut; or bytes of which many are 00 and FF. */
void some_marked(struct marked *m);

/* Room for about so many characters. */
size_t some_room(const struct marked *m);

#endif
