/* CJ/T 188: the archive against the second program. */
#ifndef COMPARE_CJT_H
#define COMPARE_CJT_H

/* Each makes one call. */
void compare_cjt_check(void);
void compare_cjt_read(void);
void compare_cjt_write(void);
void compare_cjt_energy(void);

/* Every byte at every place of an answer, FE bytes in front of it, the ends of months, and energies of every code. */
void compare_all_cjt(void);

#endif
