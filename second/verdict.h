/* The verdict of each row of a run, for the second program. */
#ifndef SECOND_VERDICT_H
#define SECOND_VERDICT_H

#include "contents.h"

enum second_verdict {
    SECOND_WAKE_UP = 1,
    SECOND_FIRST_SEND,
    SECOND_SENT_AGAIN,
    SECOND_UNSENT,
    SECOND_COUNTS,
    SECOND_LEFT_OVER,
    SECOND_TOO_LATE,
    SECOND_BEHIND,
    SECOND_DAMAGED_LINE,
    SECOND_OTHER_KIND,
    SECOND_UNASKED
};

/* The number is that of the line's refusal where it was not sent or is damaged, and else 0. */
struct second_judged {
    enum second_verdict verdict;
    int number;
};

/*
 * One for each row: of a bundle; of columns and the bytes that their bodies lie in; and that of one row. Each answers 0, or
 * the number of a refusal; what it hands out counts only after 0.
 */
int second_verdicts(const uint8_t *bundle, size_t n, struct second_judged judged[SECOND_ROWS], size_t *rows);
int second_contents_verdicts(const struct second_contents *c, const uint8_t *bundle, size_t n,
                             struct second_judged judged[SECOND_ROWS], size_t *rows);
int second_verdict(const uint8_t *bundle, size_t n, uint64_t index, struct second_judged *judged);

#endif
