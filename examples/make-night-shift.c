/* Writes the run bundle of a short night shift (01, "The run bundle") to standard output:
 *   cc -std=c99 -o make-night-shift examples/make-night-shift.c second/example.c second/line.c second/bundle.c second/number.c
 *   ./make-night-shift >examples/night-shift.bundle
 * Positions 3 and 7 are woken, put into verification, read and let go. Position 3's first answer is damaged on
 * the line and asked for again. Position 6 is read once; its answer stays in the driver's buffer and is handed over
 * again at position 7, where it begins before the first send at that position has ended. */
#include "../second/bundle.h"
#include "../second/example.h"
#include "../second/line.h"
#include "../second/number.h"

#include <string.h>

enum { MOST_ROWS = 32, MOST_BODIES = 16384 };

static struct second_row rows[MOST_ROWS];
static uint8_t bodies[MOST_BODIES];
static size_t count, filled;

/* a row with so many bytes, repeated up to a number of characters; the character at `damaged` arrives with one bit flipped */
static void row(unsigned position, int heard, uint32_t time, const uint8_t *bytes, size_t size, size_t characters, int damaged)
{
    rows[count++] = (struct second_row){position, (unsigned)heard, time, (uint32_t)filled, 2 * characters};
    for (size_t i = 0; i < characters; i++, filled += 2)
        second_put_number(bodies + filled, 2, second_character(bytes[i % size]) ^ ((int)i == damaged ? 4u : 0u));
}

static void wake(unsigned position, uint32_t time, size_t characters)
{
    static const uint8_t byte[] = {0x55};
    row(position, 0, time, byte, sizeof byte, characters, -1);
}

static void ack(unsigned position, uint32_t time)
{
    static const uint8_t byte[] = {0xE5};
    row(position, 1, time, byte, sizeof byte, sizeof byte, -1);
}

static void ask_read(unsigned position, uint32_t time, uint8_t address)
{
    const uint8_t b[] = {0x10, 0x5B, address, (uint8_t)(0x5B + address), 0x16};
    row(position, 0, time, b, sizeof b, sizeof b, -1);
}

/* enter a verification by a method, or leave it with method 00 */
static void command(unsigned position, uint32_t time, uint8_t address, uint8_t method)
{
    const uint8_t b[] = {0x68, 4, 4, 0x68, 0x53, address, 0x50, method, (uint8_t)(0x53 + address + 0x50 + method), 0x16};
    row(position, 0, time, b, sizeof b, sizeof b, -1);
}

/* data: 000's example with another address, meter number, access number, and last digits of energy and volume */
static void data(unsigned position, uint32_t time, uint8_t address, uint8_t access, uint8_t digits, int damaged)
{
    uint8_t b[SECOND_EXAMPLE];
    memcpy(b, second_example, sizeof b);
    b[5] = b[7] = address;
    b[15] = access;
    b[21] = b[27] = digits;
    b[61] = (uint8_t)second_sum(b + 4, 57);
    row(position, 1, time, b, sizeof b, sizeof b, damaged);
}

int main(void)
{
    uint8_t contents[2 + 12 * MOST_ROWS];

    wake(3, 1000, 480);
    command(3, 6400, 0xFE, 0x90);
    ack(3, 6700);
    ask_read(3, 7200, 0xFE);
    data(3, 7450, 3, 4, 0x40, 21);
    ask_read(3, 8600, 0xFE);
    data(3, 8850, 3, 5, 0x40, -1);

    ask_read(6, 9800, 6);
    data(6, 10050, 6, 9, 0x15, -1);

    wake(7, 12000, 459);
    /* the answer of position 6 once more: it began 20 bit times after the read did, and the read's five characters take 55 */
    ask_read(7, 17200, 0xFE);
    data(7, 17220, 6, 9, 0x15, -1);
    ask_read(7, 18600, 0xFE);
    data(7, 18850, 7, 1, 0x20, -1);
    command(7, 19800, 7, 0x91);
    ack(7, 20100);
    ask_read(7, 23000, 7);
    data(7, 23250, 7, 2, 0x21, -1);
    command(7, 24200, 7, 0x00);
    ack(7, 24500);
    command(3, 25000, 0xFE, 0x00);
    ack(3, 25300);

    second_put_number(contents, 2, count);
    for (size_t i = 0; i < count; i++) {
        rows[i].offset += (uint32_t)(2 + 12 * count); /* of a body that stands behind all rows */
        second_put_row(contents + 2 + 12 * i, &rows[i]);
    }
    fwrite(contents, 1, 2 + 12 * count, stdout);
    fwrite(bodies, 1, filled, stdout);
    return fflush(stdout) != 0;
}
