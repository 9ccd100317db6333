/* The cases of CJ/T 188. */
#ifndef CASES_CJTS_H
#define CASES_CJTS_H

/* Each answers the case and says yes, or prints nothing and says that it is bad. */
int answer_cjtread(void);
int answer_cjtwrite(void);
int answer_cjtenergy(void);

#endif
