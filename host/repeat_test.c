/* Calls the look for repeated readings as a bench host does: answers are put together, and the rows that repeat one named. */
#include "skarrowith.h"

#include "../second/example.h"

#include <stdio.h>
#include <string.h>

enum { ROWS_MOST = 512, LEFT = 0xABCD };

static uint8_t bundle[SKARROWITH_BUNDLE_MOST];
static size_t filled, count;
static struct skarrowith_telegram data;

/* What is lent for the numbers, with a place on each side. */
static uint16_t lent[1 + ROWS_MOST + 1];

static unsigned long right, wrong;

static void expect(const char *name, long long got, long long answer)
{
    if (got == answer) {
        right++;
        return;
    }
    printf("repeat test: %s: %lld, and not %lld\n", name, got, answer);
    wrong++;
}

static void begin(void)
{
    memset(bundle, 0, sizeof bundle);
    filled = 2;
}

static void row(uint8_t position, uint8_t direction, const uint16_t *line, size_t characters)
{
    const uint8_t *body = (const uint8_t *)line;
    expect("a row", skarrowith_bundle_add(bundle, sizeof bundle, &filled, position, direction, 0, body, 2 * characters), 0);
}

/* The telegram as it stands, sent or heard at a position. */
static void answer(uint8_t position, uint8_t direction)
{
    uint16_t line[SKARROWITH_LINE_MOST];
    row(position, direction, line, skarrowith_write_line(&data, sizeof data, line, SKARROWITH_LINE_MOST));
}

static uint32_t look(size_t places)
{
    for (size_t i = 0; i < sizeof lent / sizeof lent[0]; i++)
        lent[i] = LEFT;
    count = LEFT;
    return skarrowith_repeats(bundle, filled, lent + 1, places, &count);
}

static void told(const char *name, const uint16_t *numbers, size_t rows)
{
    expect(name, look(ROWS_MOST), 0);
    expect("the count of rows", (long long)count, (long long)rows);
    for (size_t i = 0; i < rows; i++)
        expect(name, lent[1 + i], numbers[i]);
    expect("the place before", lent[0], LEFT);
    expect("the place behind", lent[1 + rows], LEFT);
}

static void refused(const char *name, uint32_t got, unsigned number)
{
    expect(name, got, SKARROWITH_REFUSED + number);
    expect("the count of rows", (long long)count, LEFT);
    for (size_t i = 0; i < sizeof lent / sizeof lent[0]; i++)
        expect("lent memory", lent[i], LEFT);
}

/* The night shift's fault: the answer of position 3 is heard at position 7 too, and then once more at position 3. */
static void test_named(void)
{
    static const uint16_t numbers[] = {0, 0, 0, 1, 0, 0, 5, 1};
    struct skarrowith_telegram first = data;
    begin();
    answer(3, SKARROWITH_HEARD);
    answer(3, SKARROWITH_SENT); /* a row that was sent is no reading */
    data.entries[0].value.count++;
    answer(3, SKARROWITH_HEARD); /* another energy */
    data = first;
    data.access++;
    data.status = 4;
    data.address = 9;
    answer(7, SKARROWITH_HEARD); /* the same reading under another access number */
    data.number++;
    answer(7, SKARROWITH_HEARD); /* another meter */
    data = first;
    data.entries[6].value.time.second ^= 1;
    answer(3, SKARROWITH_HEARD); /* another time */
    data = first;
    data.number++;
    answer(9, SKARROWITH_HEARD); /* that other meter again */
    data = first;
    answer(3, SKARROWITH_HEARD);
    told("named rows", numbers, 8);
}

/* What is no data is named by nothing, and an empty bundle has no rows. */
static void test_no_reading(void)
{
    static const uint16_t none[] = {0, 0, 0, 0};
    uint16_t line[SECOND_EXAMPLE], acks[] = {0x1E5, 0x1E5};
    second_example_line(line);
    line[8] ^= 0x100; /* an odd parity */
    begin();
    told("an empty bundle", none, 0);
    row(1, SKARROWITH_HEARD, acks, 1);
    row(2, SKARROWITH_HEARD, acks, 1);
    row(1, SKARROWITH_HEARD, line, SECOND_EXAMPLE);
    row(1, SKARROWITH_HEARD, line, SECOND_EXAMPLE);
    told("no readings", none, 4);
}

static void test_refusals(void)
{
    begin();
    answer(1, SKARROWITH_HEARD);
    answer(2, SKARROWITH_HEARD);
    refused("a place too few", look(1), 21);
    refused("no place", look(0), 21);
    expect("enough places", look(2), 0);
    filled--;
    refused("a bundle cut, and a place too few", look(1), 35);
    filled = 1;
    refused("one byte", look(ROWS_MOST), 31);
    expect("no bytes", skarrowith_repeats(NULL, 0, lent, 1, &count), SKARROWITH_REFUSED + 31);
}

int main(void)
{
    uint16_t line[SECOND_EXAMPLE];
    second_example_line(line);
    expect("000's data line", skarrowith_read_line(line, SECOND_EXAMPLE, &data, sizeof data), SKARROWITH_DATA);
    test_named();
    test_no_reading();
    test_refusals();
    if (wrong == 0)
        printf("repeat test: %lu answers are right\n", right);
    return wrong != 0;
}
