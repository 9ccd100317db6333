/* CJ/T 188: the archive against the second program. */
#include "compare_cjt.h"

#include "call.h"
#include "compare_line.h"
#include "skarrowith.h"
#include "structs.h"

#include "../second/chance.h"
#include "../second/cjt.h"
#include "../second/example.h"
#include "../second/make_cjt.h"
#include "../second/number.h"

#include <string.h>

enum { ENTRY_SIZE = 16 };

/* ---- calls, with what the second program says of them */

static uint32_t hold_check(const struct line *l, size_t len)
{
    uint8_t bytes[sizeof l->c];
    struct second_cjt t;
    int refusal = len % 2 == 1 ? 17 : second_cjt_read(l->c, l->n, &t);
    uint32_t proved;
    for (size_t i = 0; i < l->n; i++)
        second_put_number(bytes + 2 * i, 2, l->c[i]);
    begin(CJT_CHECK_LINE);
    struct lent *line = lend("bytes", len, bytes, len);
    proved = skarrowith_cjt_check_line(line->to, len);
    end(proved, refusal == 0 ? (uint32_t)t.kind : answer_for(refusal));
    return proved;
}

/* What the line has against it is told before a place that is too short. */
static void hold_read(const struct line *l, size_t size)
{
    struct second_cjt t;
    int refusal = second_cjt_read(l->c, l->n, &t);
    if (refusal == 0 && size < SECOND_CJT_SIZE)
        refusal = 21;
    begin(CJT_READ_LINE);
    struct lent *line = lend("line", 2 * l->n, l->c, 2 * l->n), *telegram = lend("telegram", size, NULL, 0);
    if (refusal == 0)
        second_put_cjt(telegram->second, &t);
    end(skarrowith_cjt_read_line(line->to, l->n, telegram->to, size), refusal == 0 ? (uint32_t)t.kind : answer_for(refusal));
    if (refusal == 0)
        hold_cjt(telegram, &t);
}

static void hold_write(const uint8_t *record, size_t size, size_t places)
{
    struct second_cjt t;
    uint16_t line[SECOND_CJT_LONGEST];
    size_t length = 0;
    int refusal = second_take_cjt(record, size, &t);
    if (refusal == 0)
        refusal = second_cjt_write(&t, line, places, &length);
    begin(CJT_WRITE_LINE);
    struct lent *telegram = lend("telegram", size, record, size), *out = lend("line", 2 * places, NULL, 0);
    if (refusal == 0)
        memcpy(out->second, line, 2 * length);
    end(skarrowith_cjt_write_line(telegram->to, size, out->to, places), refusal == 0 ? (uint32_t)length : answer_for(refusal));
}

static void hold_energy(uint32_t count, unsigned code, size_t size)
{
    unsigned unit = 0;
    uint64_t number = 0;
    int refusal = size < ENTRY_SIZE ? 21 : second_cjt_energy(count, code, &unit, &number);
    begin(CJT_ENERGY_ENTRY);
    struct lent *entry = lend("entry", size, NULL, 0);
    if (refusal == 0) {
        memset(entry->second, 0, ENTRY_SIZE);
        entry->second[0] = 0x0E;
        entry->second[1] = (uint8_t)unit;
        second_put_number(entry->second + 8, 8, number);
    }
    tell("count", count);
    tell("code", code);
    end(skarrowith_cjt_energy_entry(count, (uint8_t)code, entry->to, size), answer_for(refusal));
}

/* ---- random calls */

void compare_cjt_check(void)
{
    struct line l = {{0}, 0};
    int is_flipped = once_in(4);
    if (is_flipped) {
        write_good_cjt(&l);
        flip_different(&l);
    } else
        some_cjt_line(&l);
    size_t len = 2 * l.n - (l.n > 0 && once_in(32));
    if (hold_check(&l, len) < SKARROWITH_REFUSED && is_flipped)
        fail("a line with flips is accepted");
}

void compare_cjt_read(void)
{
    struct line l = {{0}, 0};
    some_cjt_line(&l);
    hold_read(&l, some_places(SECOND_CJT_SIZE));
}

/* Another kind or broadcast, a byte that must be 0, or any other. */
static void spoil_field(uint8_t *record)
{
    static const uint8_t zeros[] = {6, 7, 21, 22, 23, 29, 37, 47, 55, 68, 69, 70, 71, 79};
    unsigned at = once_in(4) ? 0 : once_in(4) ? 3 : once_in(2) ? zeros[below(14)] : below(SECOND_CJT_SIZE);
    record[at] = (uint8_t)(once_in(2) ? below(4) : below(256));
}

void compare_cjt_write(void)
{
    uint8_t record[SECOND_CJT_SIZE + 8] = {0};
    struct second_cjt t = good_cjt();
    size_t size = SECOND_CJT_SIZE, places = some_places(t.kind == SECOND_CJT_ANSWER ? SECOND_CJT_LONGEST : 16);
    if (once_in(2))
        break_cjt(&t);
    second_put_cjt(record, &t);
    if (once_in(4))
        size = spoil(record, size);
    else if (once_in(4))
        spoil_field(record);
    hold_write(record, size, places);
}

void compare_cjt_energy(void)
{
    uint32_t count;
    unsigned code;
    some_cjt_energy(&count, &code);
    hold_energy(count, code, some_places(ENTRY_SIZE));
}

/* ---- calls one by one */

enum { SUM = SECOND_CJT_EXAMPLE - 2 };

/* A line of these bytes, behind so many FE bytes: checked and read. */
static void hold_line(const unsigned char *b, unsigned front)
{
    struct line l = {{0}, 0};
    while (front-- > 0)
        add_byte(&l, 0xFE);
    for (size_t i = 0; i < SECOND_CJT_EXAMPLE; i++)
        add_byte(&l, b[i]);
    hold_check(&l, 2 * l.n);
    hold_read(&l, SECOND_CJT_SIZE);
}

/* Every byte at one place of the example answer, the sum right, where it is not the sum itself. */
static void hold_place(size_t at)
{
    unsigned char b[SECOND_CJT_EXAMPLE];
    memcpy(b, second_cjt_example, sizeof b);
    for (unsigned byte = 0; byte < 256; byte++) {
        b[at] = (unsigned char)byte;
        if (at != SUM)
            b[SUM] = (unsigned char)second_sum(b, SUM);
        hold_line(b, 0);
    }
}

/* The last days of every month of some years, read, and written from a record. */
static void hold_days(unsigned year)
{
    unsigned char b[SECOND_CJT_EXAMPLE];
    uint8_t record[SECOND_CJT_SIZE];
    struct second_cjt t = good_cjt();
    while (t.kind != SECOND_CJT_ANSWER)
        t = good_cjt();
    memcpy(b, second_cjt_example, sizeof b);
    b[53] = (unsigned char)(year / 10 % 10 << 4 | year % 10);
    b[54] = (unsigned char)(year / 1000 << 4 | year / 100 % 10);
    t.clock[0] = year;
    for (unsigned month = 0; month <= 13; month++)
        for (unsigned day = 28; day <= 32; day++) {
            b[52] = (unsigned char)(month / 10 << 4 | month % 10);
            b[51] = (unsigned char)(day / 10 << 4 | day % 10);
            b[SUM] = (unsigned char)second_sum(b, SUM);
            hold_line(b, 0);
            t.clock[1] = month;
            t.clock[2] = day;
            second_put_cjt(record, &t);
            hold_write(record, sizeof record, SECOND_CJT_LONGEST);
        }
}

static void hold_energies(unsigned code)
{
    static const uint32_t counts[] = {0, 1, 10, 99, 100, 101, 110, 212234, 12345600, 99999900, 99999999, 100000000, UINT32_MAX};
    for (size_t i = 0; i < sizeof counts / sizeof counts[0]; i++)
        hold_energy(counts[i], code, ENTRY_SIZE);
}

void compare_all_cjt(void)
{
    static const unsigned years[] = {0, 1, 4, 100, 200, 400, 1600, 1900, 1999, 2000, 2024, 2026, 2100, 2400, 9600, 9900, 9996, 9999};
    for (size_t at = 0; at < SECOND_CJT_EXAMPLE; at++)
        hold_place(at);
    for (unsigned front = 0; front < 9; front++)
        hold_line(second_cjt_example, front);
    for (size_t i = 0; i < sizeof years / sizeof years[0]; i++)
        hold_days(years[i]);
    for (unsigned code = 0; code < 256; code++)
        hold_energies(code);
}
