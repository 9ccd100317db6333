/* Random CJ/T 188 lines, telegrams and energies. */
#ifndef SECOND_MAKE_CJT_H
#define SECOND_MAKE_CJT_H

#include "cjt.h"
#include "make_frame.h"

/* The codes that 001 and 002 list: first those of energy, then of power, volume and flow. */
enum { CJT_CODES = 16 };
extern const unsigned char cjt_codes[CJT_CODES];

/* A telegram that can be written, and one with a field that may be out of its rule. */
struct second_cjt good_cjt(void);
void break_cjt(struct second_cjt *t);

/* An accepted line without FE bytes in front, and any line. */
void write_good_cjt(struct line *l);
void some_cjt_line(struct line *l);

/* An energy to be turned into an entry. */
void some_cjt_energy(uint32_t *count, unsigned *code);

#endif
