/* Asks for the verdicts of rows as a run screen does: of a bundle and of columns, all and one, and is refused by each number. */
#include "skarrowith.h"

#include "../second/example.h"

#include <stdio.h>
#include <string.h>

enum { POSITION = 7, OTHER = 8, ASKED = 0xFE, CHARACTER = 11, MARK = 0xA5, ROWS = 15 };

#define VERDICT sizeof(struct skarrowith_row_verdict)

static uint8_t bundle[SKARROWITH_BUNDLE_MOST];
static size_t filled = 2;
static struct skarrowith_contents contents;

/* What is lent for verdicts, with one place more than there are rows. */
static struct skarrowith_row_verdict lent[ROWS + 1];
static size_t count;

static unsigned long right, wrong;

static void expect(const char *name, unsigned long got, unsigned long answer)
{
    if (got == answer) {
        right++;
        return;
    }
    printf("verdict test: %s: %lu, and not %lu\n", name, got, answer);
    wrong++;
}

static void row(uint8_t position, uint8_t direction, uint32_t time, const uint16_t *line, size_t characters)
{
    const uint8_t *body = (const uint8_t *)line;
    expect("a row", skarrowith_bundle_add(bundle, sizeof bundle, &filled, position, direction, time, body, 2 * characters), 0);
}

/* Answers when the send has ended. */
static uint32_t send(uint8_t position, uint32_t time, uint8_t kind, uint8_t method)
{
    uint16_t line[SKARROWITH_LINE_MOST];
    size_t characters = skarrowith_write_request(kind, ASKED, method, line, SKARROWITH_LINE_MOST);
    row(position, SKARROWITH_SENT, time, line, characters);
    return (uint32_t)(time + CHARACTER * characters);
}

/* 000's data, with one character flipped where it is told. */
static void hear_data(uint8_t position, uint32_t time, unsigned flipped)
{
    uint16_t line[SECOND_EXAMPLE];
    second_example_line(line);
    line[20] ^= (uint16_t)flipped;
    row(position, SKARROWITH_HEARD, time, line, SECOND_EXAMPLE);
}

static void ack(uint8_t position, uint8_t direction, uint32_t time)
{
    const uint16_t line[] = {0x1E5};
    row(position, direction, time, line, 1);
}

static void wake(uint32_t time)
{
    uint16_t line[459];
    expect("a wake-up", skarrowith_write_wake(459, line, 459), 0);
    row(POSITION, SKARROWITH_SENT, time, line, 459);
}

/* Each verdict once or more. */
static const struct skarrowith_row_verdict told[ROWS] = {
    {SKARROWITH_VERDICT_WAKE, 0},         {SKARROWITH_VERDICT_FIRST_SEND, 0}, {SKARROWITH_VERDICT_LEFT_OVER, 0},
    {SKARROWITH_VERDICT_DAMAGED, 3},      {SKARROWITH_VERDICT_RESEND, 0},     {SKARROWITH_VERDICT_WRONG_KIND, 0},
    {SKARROWITH_VERDICT_RESEND, 0},       {SKARROWITH_VERDICT_FIRST_SEND, 0}, {SKARROWITH_VERDICT_COUNTS, 0},
    {SKARROWITH_VERDICT_SECOND, 0},       {SKARROWITH_VERDICT_COUNTS, 0},     {SKARROWITH_VERDICT_REFUSED, 42},
    {SKARROWITH_VERDICT_UNASKED, 0},      {SKARROWITH_VERDICT_FIRST_SEND, 0}, {SKARROWITH_VERDICT_LATE, 0},
};

static void make_run(void)
{
    uint32_t end;
    wake(0);
    end = send(POSITION, 6000, SKARROWITH_READ, 0);
    hear_data(POSITION, end - 1, 0);
    hear_data(POSITION, end, 1);
    end = send(POSITION, 7000, SKARROWITH_READ, 0);
    ack(POSITION, SKARROWITH_HEARD, end + 450);
    end = send(POSITION, 8000, SKARROWITH_READ, 0);
    send(OTHER, 8000, SKARROWITH_ENTER, 0x92);
    hear_data(POSITION, end + 450, 0);
    hear_data(POSITION, end + 450, 0);
    ack(OTHER, SKARROWITH_HEARD, end + 450);
    ack(POSITION, SKARROWITH_SENT, 9000);
    hear_data(POSITION, 9100, 0);
    end = send(OTHER, 9200, SKARROWITH_LEAVE, 0);
    ack(OTHER, SKARROWITH_HEARD, end + 451);
}

static void blank(void)
{
    memset(lent, MARK, sizeof lent);
    count = 999;
}

/* Nothing that was lent has changed. */
static void unchanged(const char *name)
{
    const uint8_t *b = (const uint8_t *)lent;
    size_t others = 0;
    for (size_t i = 0; i < sizeof lent; i++)
        others += b[i] != MARK;
    expect(name, others, 0);
    expect(name, count, 999);
}

static void refused(const char *name, uint32_t answer, unsigned number)
{
    expect(name, answer, SKARROWITH_REFUSED + number);
    unchanged(name);
    blank();
}

static int is_told(size_t i, size_t place)
{
    return lent[place].verdict == told[i].verdict && lent[place].number == told[i].number;
}

static void all_rows(void)
{
    blank();
    expect("all verdicts", skarrowith_verdicts(bundle, filled, lent, ROWS * VERDICT, &count), 0);
    expect("how many", count, ROWS);
    for (size_t i = 0; i < ROWS; i++)
        expect("a verdict", is_told(i, i), 1);
    expect("the place behind them", lent[ROWS].verdict, MARK << 8 | MARK);
}

static void one_row(void)
{
    for (size_t i = 0; i < ROWS; i++) {
        blank();
        expect("one verdict", skarrowith_verdict(bundle, filled, i, lent, VERDICT), 0);
        expect("the verdict", is_told(i, 0), 1);
        expect("the place behind it", lent[1].verdict, MARK << 8 | MARK);
    }
    blank();
    refused("no such row", skarrowith_verdict(bundle, filled, ROWS, lent, VERDICT), 39);
    refused("no row by far", skarrowith_verdict(bundle, filled, (size_t)-1, lent, VERDICT), 39);
    refused("no room for one", skarrowith_verdict(bundle, filled, 0, lent, VERDICT - 1), 21);
    refused("no room, and no bundle", skarrowith_verdict(bundle, 1, 0, NULL, 0), 21);
    refused("one of no bundle", skarrowith_verdict(bundle, 1, 0, lent, VERDICT), 31);
}

static void little_room(void)
{
    uint8_t none[2] = {0, 0};
    blank();
    refused("a byte too few", skarrowith_verdicts(bundle, filled, lent, ROWS * VERDICT - 1, &count), 21);
    refused("no room", skarrowith_verdicts(bundle, filled, NULL, 0, &count), 21);
    refused("cut", skarrowith_verdicts(bundle, filled - 2, lent, sizeof lent, &count), 35);
    refused("cut, and no room", skarrowith_verdicts(bundle, filled - 2, NULL, 0, &count), 35);
    expect("no rows", skarrowith_verdicts(none, 2, NULL, 0, &count), 0);
    expect("none", count, 0);
}

static uint32_t ask(void)
{
    return skarrowith_contents_verdicts(&contents, sizeof contents, bundle, filled, lent, sizeof lent, &count);
}

/* Drops row i of the columns. */
static void drop(size_t i)
{
    size_t left = (size_t)--contents.count - i;
    memmove(contents.positions + i, contents.positions + i + 1, left);
    memmove(contents.directions + i, contents.directions + i + 1, left);
    memmove(contents.times + i, contents.times + i + 1, 4 * left);
    memmove(contents.offsets + i, contents.offsets + i + 1, 4 * left);
    memmove(contents.lengths + i, contents.lengths + i + 1, 2 * left);
}

static void columns(void)
{
    expect("columns", skarrowith_contents_of(bundle, filled, &contents, sizeof contents), 0);
    blank();
    expect("all from columns", ask(), 0);
    expect("how many from columns", count, ROWS);
    for (size_t i = 0; i < ROWS; i++)
        expect("a verdict from columns", is_told(i, i), 1);
    for (size_t i = ROWS; i > 0; i--)
        if (contents.positions[i - 1] == OTHER)
            drop(i - 1);
    drop(1);
    blank();
    expect("rows left out", ask(), 0);
    expect("how many are left", count, ROWS - 5);
    expect("the left-over answer, without its read", lent[1].verdict, SKARROWITH_VERDICT_UNASKED);
    expect("the resend, without its first send", lent[3].verdict, SKARROWITH_VERDICT_FIRST_SEND);
    expect("what counted counts", lent[6].verdict, SKARROWITH_VERDICT_COUNTS);
}

static void broken_columns(void)
{
    static struct skarrowith_contents whole;
    blank();
    whole = contents;
    refused("a byte less",
            skarrowith_contents_verdicts(&contents, sizeof contents - 1, bundle, filled, lent, sizeof lent, &count), 101);
    contents.count = 513;
    refused("513 rows", ask(), 101);
    contents = whole;
    contents.positions[9] = 0;
    contents.offsets[0] = 0xFFFFFFFF;
    refused("position 0, before a body past the end", ask(), 34);
    contents.positions[9] = 49;
    refused("position 49", ask(), 34);
    contents = whole;
    contents.directions[3] = 2;
    refused("direction 2", ask(), 34);
    contents = whole;
    contents.lengths[3] = 3;
    refused("half a character", ask(), 34);
    contents = whole;
    contents.times[3] = 1;
    refused("a time that falls", ask(), 34);
    contents = whole;
    contents.offsets[0] = 0xFFFFFFFF;
    refused("a body past the end", ask(), 35);
    contents = whole;
    size_t last = contents.offsets[9] + contents.lengths[9];
    refused("a byte of a body missing",
            skarrowith_contents_verdicts(&contents, sizeof contents, bundle, last - 1, lent, sizeof lent, &count), 35);
    refused("no room", skarrowith_contents_verdicts(&contents, sizeof contents, bundle, last, lent, VERDICT, &count), 21);
    expect("no more than its bodies", skarrowith_contents_verdicts(&contents, sizeof contents, bundle, last, lent, sizeof lent, &count), 0);
}

int main(void)
{
    make_run();
    all_rows();
    one_row();
    little_room();
    columns();
    broken_columns();
    printf("verdict test: %lu right, %lu wrong\n", right, wrong);
    return wrong != 0;
}
