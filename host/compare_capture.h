/* A line that comes in, and the first line after a time: the archive against the second program. */
#ifndef COMPARE_CAPTURE_H
#define COMPARE_CAPTURE_H

/* Each makes one call. */
void compare_length(void);
void compare_after(void);

#endif
