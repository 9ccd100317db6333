/* Lines put together: from characters, from bytes, from the body of a long form, and from random telegrams; and flips. */
#ifndef SECOND_MAKE_FRAME_H
#define SECOND_MAKE_FRAME_H

#include "line.h"

struct line {
    uint16_t c[1024];
    size_t n;
};

struct bytes {
    unsigned char b[255];
    size_t n;
};

void add_character(struct line *l, unsigned c);
void add_byte(struct line *l, unsigned byte);
unsigned byte_of(const struct line *l, size_t i);
void set_byte(struct line *l, size_t i, unsigned byte);
void push(struct bytes *s, unsigned byte);

/* The long form with a body, and the body of a long form. */
void frame(struct line *l, const struct bytes *body);
void unframe(const struct line *l, struct bytes *body);

/* The line that reads as the telegram, and one of a random telegram. */
void write_telegram(struct line *l, const struct second_telegram *t);
void write_good(struct line *l, enum second_kind kind);

/* Flips bits of characters of the line that is there. */
void flip(struct line *l, unsigned flips);
void flip_one(struct line *l, unsigned bit);

#endif
