/* Characters from a serial port: the archive against the second program. */
#ifndef COMPARE_SERIAL_H
#define COMPARE_SERIAL_H

/* Makes one call. */
void compare_unmark(void);

#endif
