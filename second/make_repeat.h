/* Random run bundles in which answers come again, for rows that repeat a reading. */
#ifndef SECOND_MAKE_REPEAT_H
#define SECOND_MAKE_REPEAT_H

/* Makes the bundle that make_bundle.h declares. */
void some_repeats(void);

#endif
