/* The simulated meter of document 01, for the second program. */
#ifndef SECOND_METER_H
#define SECOND_METER_H

#include "line.h"

struct second_meter {
    unsigned address;
    struct second_telegram template;  /* with the access number as it stands */
    uint64_t use[2], verification[2]; /* totals: volume, energy */
    int is_verifying;
    unsigned method;     /* in verification */
    uint64_t instructed; /* in verification: the last instruction's time */
    int has_stepped;
    uint64_t last; /* where it has stepped: the last step's time */
};

/* Each answers 0, or the number of a refusal, which leaves the meter as it stood. Times are in bit times. */
int second_set_up(struct second_meter *m, unsigned address, const struct second_telegram *template);
int second_measure(struct second_meter *m, uint64_t t, uint64_t volume, uint64_t energy);

/* A line heard: also says whether the meter answers, and what. */
int second_meter_heard(struct second_meter *m, const uint16_t *line, size_t n, uint64_t t, int *does_answer,
                       struct second_telegram *answer);

#endif
