/* The verdicts of rows: the archive against the second program. */
#ifndef COMPARE_VERDICT_H
#define COMPARE_VERDICT_H

void compare_verdict(void);

/* Says whether every verdict was seen. */
int verdicts_seen(void);

#endif
