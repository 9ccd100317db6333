/* A run as the library tells it, row by row, and the words for what it tells. */
#ifndef RUN_H
#define RUN_H

#include "program.h"

enum { ROWS_MOST = 512, POSITIONS_MOST = 48 };

/* A row with its line and its verdict. */
struct shown {
    struct skarrowith_row row;
    struct skarrowith_row_verdict verdict;
    size_t repeats;  /* 0, or 1 + the lowest earlier row with the same meter number and reading */
    uint32_t answer; /* what reading its line answers */
    struct skarrowith_telegram telegram;
};

struct run {
    size_t count;
    struct shown rows[ROWS_MOST];
};

/* Answers 0, or why the bundle is refused. */
uint32_t take_run(const struct bundle *bundle, struct run *run);

/* Whether a row has data, which a wake-up and a refused line do not. */
int has_data(const struct shown *shown);

/* The entry of a quantity in a row's data, which has at most one, with what its unit byte means; null where it has none. */
const struct skarrowith_entry *entry_of(const struct shown *shown, uint8_t quantity, struct skarrowith_meaning *meaning);

/* Words, each in a field of its own. */
typedef char field[WORDS_MOST];
void put_seconds(char *out, uint32_t time);
void put_line(char *out, const struct shown *shown);
void put_verdict(char *out, const struct skarrowith_row_verdict *verdict);
void put_value(char *out, const struct shown *shown, uint8_t quantity);

/* One line of fields, in columns or with commas between them; and a line of headings likewise. */
enum { COLUMNS_MOST = 13 };
struct column {
    const char *heading;
    int width;
};
void print_fields(int csv, int count, const struct column *columns, field *fields);
void print_headings(int csv, int count, const struct column *columns);

/* accounts.c: a line for each position that has rows. */
void print_accounts(const struct run *run, int csv);

#endif
