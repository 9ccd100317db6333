/* Telegrams as words, and refusals. */
#ifndef CASES_TELEGRAMS_H
#define CASES_TELEGRAMS_H

#include "../second/line.h"

/* Says whether the case is good so far. */
int take_telegram(struct second_telegram *t);

/* Says a refusal, where it is one; says whether it is. */
int refused(int refusal);

void say_telegram(const struct second_telegram *t);

#endif
