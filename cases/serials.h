/* The cases of characters from a serial port. */
#ifndef CASES_SERIALS_H
#define CASES_SERIALS_H

/* Answers the case and says yes, or prints nothing and says that it is bad. */
int answer_unmark(void);

#endif
