/* The cases of run bundles. */
#ifndef CASES_BUNDLES_H
#define CASES_BUNDLES_H

/* Each answers the case and says yes, or prints nothing and says that it is bad. */
int answer_check(void);
int answer_row(void);
int answer_body(void);
int answer_kept(void);
int answer_next(void);
int answer_add(void);
int answer_insert(void);
int answer_sweep(void);
int answer_salvage(void);
int answer_of_position(void);
int answer_join(void);
int answer_list(void);
int answer_verdicts(void);
int answer_kept_verdicts(void);
int answer_verdict(void);
int answer_replay(void);
int answer_repeats(void);

#endif
