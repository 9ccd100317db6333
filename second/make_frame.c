/* Lines put together from characters, bytes and telegrams, and flips. */
#include "make_frame.h"

#include "chance.h"
#include "make_telegram.h"

#include <stdlib.h>

/* ---- lists of characters and of bytes */

void add_character(struct line *l, unsigned c)
{
    if (l->n < sizeof l->c / sizeof l->c[0])
        l->c[l->n++] = (uint16_t)c;
}

void add_byte(struct line *l, unsigned byte)
{
    add_character(l, second_character(byte));
}

unsigned byte_of(const struct line *l, size_t i)
{
    return l->c[i] & 0xFFu;
}

void set_byte(struct line *l, size_t i, unsigned byte)
{
    l->c[i] = second_character(byte);
}

void push(struct bytes *s, unsigned byte)
{
    if (s->n < sizeof s->b)
        s->b[s->n++] = (unsigned char)byte;
}

void frame(struct line *l, const struct bytes *body)
{
    l->n = 0;
    add_byte(l, 0x68);
    add_byte(l, (unsigned)body->n);
    add_byte(l, (unsigned)body->n);
    add_byte(l, 0x68);
    for (size_t i = 0; i < body->n; i++)
        add_byte(l, body->b[i]);
    add_byte(l, second_sum(body->b, body->n));
    add_byte(l, 0x16);
}

void unframe(const struct line *l, struct bytes *body)
{
    body->n = 0;
    for (size_t i = 4; i + 2 < l->n; i++)
        push(body, byte_of(l, i));
}

/* ---- lines */

/* A line that reads as the telegram. */
void write_telegram(struct line *l, const struct second_telegram *t)
{
    if (second_write(t, l->c, sizeof l->c / sizeof l->c[0], &l->n) != 0)
        abort();
}

void write_good(struct line *l, enum second_kind kind)
{
    struct second_telegram t = good_telegram(kind);
    write_telegram(l, &t);
}

/* Flips a bit of some character. */
void flip_one(struct line *l, unsigned bit)
{
    l->c[below((unsigned)l->n)] ^= (uint16_t)bit;
}

void flip(struct line *l, unsigned flips)
{
    while (flips-- > 0)
        flip_one(l, one_bit(0, 8));
}
