/* Random first characters of a line, and captures with the times at which their characters began. */
#ifndef SECOND_MAKE_CAPTURE_H
#define SECOND_MAKE_CAPTURE_H

#include "make_frame.h"

struct timed_capture {
    struct line characters;
    uint64_t times[1024 + 8], t;
    size_t times_n;
};

void some_first(struct line *first);
void some_timed_capture(struct timed_capture *capture);

#endif
