/* The cases of lines, what a unit byte means, wake-up, gap and error of indication. */
#ifndef CASES_LINES_H
#define CASES_LINES_H

#include <stdint.h>

/* The most places that are lent to a writer, and what each holds before it is called. */
enum { PLACES_MOST = 600, MARKER = 0xFFFF };

/* What is lent to a writer before it is called, and an outcome of writing: the length or the refusal, and what stands there. */
void clear_places(uint16_t *buffer, uint64_t places);
void say_places(int refusal, uint64_t length, const uint16_t *buffer, uint64_t places);

/* Each answers the case and says yes, or prints nothing and says that it is bad. */
int answer_read(void);
int answer_write(void);
int answer_find(void);
int answer_either(void);
int answer_meaning(void);
int answer_wake(void);
int answer_gap(void);
int answer_error(void);

#endif
