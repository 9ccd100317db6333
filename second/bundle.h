/* The run bundle and its listing, of document 01, for the second program. */
#ifndef SECOND_BUNDLE_H
#define SECOND_BUNDLE_H

#include <stddef.h>
#include <stdint.h>
#include <stdio.h>

enum { SECOND_BUNDLE = 65536, SECOND_ROWS = 512, SECOND_BODY = 1004 };

struct second_row {
    unsigned position, direction;
    uint32_t time, offset;
    size_t length;
};

/* A row as it stands in a bundle, 12 bytes. */
void second_put_row(uint8_t *to, const struct second_row *row);

/* Each answers 0, or the number of a refusal; what it hands out counts only after 0. */
int second_check(const uint8_t *bundle, size_t n, size_t *rows);
int second_row(const uint8_t *bundle, size_t n, uint64_t index, struct second_row *row);

/*
 * Adds a row and its body to the bundle that fills the first bytes of a buffer; the row's own offset is not looked at.
 * A refusal leaves the buffer as it was.
 */
int second_add(uint8_t *buffer, size_t places, uint64_t filled, struct second_row row, const uint8_t *body,
               size_t *length);

/* The same behind the last row whose time is not above the new one's. */
int second_insert(uint8_t *buffer, size_t places, uint64_t filled, struct second_row row, const uint8_t *body,
                  size_t *length);

/* Prints the listing's word for the line of a row. */
void second_word(const uint8_t *bundle, const struct second_row *row, FILE *to);

/* Prints the listing, each line ended by a byte of the caller's choice. */
void second_list(const uint8_t *bundle, size_t n, FILE *to, int end);

#endif
