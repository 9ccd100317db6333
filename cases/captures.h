/* The cases of a line that comes in, and of the first line after a time. */
#ifndef CASES_CAPTURES_H
#define CASES_CAPTURES_H

/* Each answers the case and says yes, or prints nothing and says that it is bad. */
int answer_length(void);
int answer_after(void);

#endif
