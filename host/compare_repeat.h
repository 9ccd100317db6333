/* Rows that repeat a reading: the archive against the second program. */
#ifndef COMPARE_REPEAT_H
#define COMPARE_REPEAT_H

/* A bundle in which answers come again, and now and then one of any sort. */
void compare_repeat(void);

#endif
