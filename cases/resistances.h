/* The cases of the resistance box. */
#ifndef CASES_RESISTANCES_H
#define CASES_RESISTANCES_H

/* Each answers the case and says yes, or prints nothing and says that it is bad. */
int answer_resistance(void);
int answer_temperature(void);

#endif
