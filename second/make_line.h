/* Random lines: accepted ones, near misses, flips, noise, captures, and lines for an exchange or a meter to hear. */
#ifndef SECOND_MAKE_LINE_H
#define SECOND_MAKE_LINE_H

#include "make_frame.h"

/* Each makes a line of its own, but for captures, which begin with what is there, and damage, which may. */
void some_line(struct line *l);
void some_capture(struct line *capture);
void some_two_captures(struct line *mbus, struct line *optical);
void reply_line(struct line *l, const struct second_telegram *request);
void request_line(struct line *l, unsigned address);
void damaged_line(struct line *l);

#endif
