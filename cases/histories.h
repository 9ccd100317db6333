/* The cases of exchanges and simulated meters. */
#ifndef CASES_HISTORIES_H
#define CASES_HISTORIES_H

/* Each answers the case and says yes, or prints nothing and says that it is bad. */
int answer_exchange(void);
int answer_meter(void);

#endif
