/* Near misses: an accepted line with one rule broken, the rules before it kept. */
#ifndef SECOND_MAKE_MISS_H
#define SECOND_MAKE_MISS_H

#include "make_frame.h"

void near_miss(struct line *l);

#endif
