/* Random run bundles: such that keep every rule, and such with a rule broken. */
#ifndef SECOND_MAKE_BUNDLE_H
#define SECOND_MAKE_BUNDLE_H

#include "bundle.h"
#include "make_frame.h"

enum { BYTES_MOST = 70000, NEW_BODY_MOST = 2050 };

/* The bytes of a bundle, or of a buffer that begins with one, and how many rows its contents have. */
struct bundle {
    uint8_t b[BYTES_MOST];
    size_t n, rows;
};

extern struct bundle bundle;

void some_bundle(void);

/* A bundle row by row: none yet, one more, the last one's time, a time that is not below it, and all put together. */
void begin_run(void);
void add_row(unsigned position, unsigned direction, uint32_t time, const struct line *l);
uint32_t run_time(void);
uint32_t later_row(void);
void join_run(void);

/* Breaks one rule of the bundle, or none by luck. */
void break_bundle(void);

/* A row's number, most often of one that is there. */
uint64_t some_row(void);

/* A position, most often that of some row. */
unsigned some_row_position(void);

/* A bundle, most often cut short or with a row broken; a number of places for what is kept of it, often enough or nearly. */
size_t some_salvage(void);

/* A row that is to be added to the bundle, and how many bytes the bundle is said to fill; one in so many bundles is broken. */
struct addition {
    struct second_row row;
    uint8_t body[NEW_BODY_MOST];
    uint64_t filled;
};

void some_addition(struct addition *a, unsigned broken);

/* The same at any time: most often that of some row, or one more or less. */
void some_insertion(struct addition *a, unsigned broken);

/* Which position is swept from the bundle, and how many bytes it is said to fill; one in so many bundles is broken. */
struct sweeping {
    unsigned position;
    uint64_t filled;
};

void some_sweep(struct sweeping *s, unsigned broken);

/* A position whose rows are asked for, and a number of places for them, often enough or nearly; one in so many bundles is broken. */
struct choice {
    unsigned position;
    size_t places;
};

void some_choice(struct choice *c, unsigned broken);

/* A first bundle, to which the bundle is joined as the second, and a number of places for both. */
struct joining {
    struct bundle first;
    size_t places;
};

void some_join(struct joining *j, unsigned broken);

#endif
