/* Lines, search, words, unit bytes, wake-up, gap and error of indication: the archive against the second program. */
#ifndef COMPARE_LINE_H
#define COMPARE_LINE_H

#include "../second/make_frame.h"

/* Each makes one call. */
void compare_check_line(void);
void compare_words(void);
void compare_meaning(void);
void compare_find(void);
void compare_either(void);
void compare_read(void);
void compare_write(void);
void compare_request(void);
void compare_wake(void);
void compare_gap(void);
void compare_error(void);

/* Every unit byte, with memory of every size up to twice what is needed. */
void compare_all_meanings(void);

/* One to three different bits of the nine are turned over: no such line is accepted. */
void flip_different(struct line *l);

/* Says how many lines with flips were checked; whether there were some with one, two and three. */
int flips_seen(void);

#endif
