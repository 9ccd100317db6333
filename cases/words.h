/* A case of docs/CASES.md as words. */
#ifndef CASES_WORDS_H
#define CASES_WORDS_H

#include <stddef.h>
#include <stdint.h>

enum { WORDS_MOST = 4096 };

/* Takes a line of standard input apart, c being its first byte; says whether every word is good. */
int take_line(int c);

/* Each takes what comes next and says whether the case is good so far. */
int take(uint64_t *number, uint64_t most);
int take_signed(int64_t *number);
int take_name(const char *name);
int take_characters(uint16_t *characters, size_t *n);

/* A number that may be left out at the end of a list, and is 0 then. */
int take_or_end(uint64_t *number, uint64_t most);

/* Whether a list goes on here: it ends at a name and at the end of the line. */
int goes_on(void);

/* Whether every word has been taken. */
int is_whole(void);

/* The place of the next word, and the way back to one. */
size_t next_place(void);
void go_back(size_t place);

#endif
