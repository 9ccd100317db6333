/* Calls CJ/T 188 as a bench host does: 001's lines, the fields of the struct, records that are none, memory of every size. */
#include "skarrowith.h"

#include "../second/example.h"
#include "../second/line.h"
#include "../second/number.h"

#include <stdio.h>
#include <string.h>

enum { REQUEST = 16, MOST = 80, CHARACTERS_MOST = 2 * MOST };

/* 001's request to meter 12345678 of maker 1111, and its broadcast, which has no data. */
static const unsigned char request[REQUEST] = {0x68, 0x20, 0x78, 0x56, 0x34, 0x12, 0x00, 0x11,
                                               0x11, 0x01, 0x03, 0x1F, 0x90, 0x03, 0x74, 0x16};
static const unsigned char broadcast[] = {0x68, 0x20, 0xAA, 0xAA, 0xAA, 0xAA, 0xAA, 0xAA, 0xAA, 0x33, 0x00, 0x61, 0x16};

static uint16_t line[MOST];
static size_t count;
static struct skarrowith_cjt_telegram told, untouched;
static unsigned long right, wrong;

static void expect(const char *name, unsigned long long got, unsigned long long answer)
{
    if (got == answer) {
        right++;
        return;
    }
    printf("CJ/T 188 test: %s: %llu, and not %llu\n", name, got, answer);
    wrong++;
}

static void expect_refused(const char *name, uint32_t got, unsigned refusal)
{
    expect(name, got, SKARROWITH_REFUSED + refusal);
}

/* The line of some bytes, behind so many FE bytes. */
static void put(const unsigned char *bytes, size_t n, size_t front)
{
    for (count = 0; count < front; count++)
        line[count] = second_character(0xFE);
    for (size_t i = 0; i < n; i++)
        line[count++] = second_character(bytes[i]);
}

/* The line, checked as bytes and read as characters: both say the same. */
static void expect_line(const char *name, uint32_t answer)
{
    uint8_t bytes[CHARACTERS_MOST];
    for (size_t i = 0; i < count; i++)
        second_put_number(bytes + 2 * i, 2, line[i]);
    told = untouched;
    expect(name, skarrowith_cjt_check_line(bytes, 2 * count), answer);
    expect(name, skarrowith_cjt_read_line(line, count, &told, sizeof told), answer);
    if (answer >= SKARROWITH_REFUSED)
        expect("a refused line touches nothing", memcmp(&told, &untouched, sizeof told) == 0, 1);
}

static void test_lines(void)
{
    unsigned char b[SECOND_CJT_EXAMPLE];
    for (size_t front = 0; front < 8; front++) {
        put(request, sizeof request, front);
        expect_line("001's request", front < 6 ? SKARROWITH_CJT_REQUEST : SKARROWITH_REFUSED + SKARROWITH_CJT_WRONG_FRAME);
        put(second_cjt_example, SECOND_CJT_EXAMPLE, front);
        expect_line("the answer", front < 6 ? SKARROWITH_CJT_ANSWER : SKARROWITH_REFUSED + SKARROWITH_CJT_WRONG_FRAME);
    }
    put(broadcast, sizeof broadcast, 5);
    expect_line("001's broadcast, control 33", SKARROWITH_REFUSED + SKARROWITH_CJT_WRONG_FRAME);
    memcpy(b, second_cjt_example, sizeof b);
    b[57] = (unsigned char)(b[57] - 0x68);
    put(b, sizeof b, 0);
    expect_line("the sum from the type byte on", SKARROWITH_REFUSED + SKARROWITH_CJT_WRONG_SUM);
    put(request, sizeof request, 1);
    line[0] ^= 0x100;
    expect_line("an odd FE", SKARROWITH_REFUSED + SKARROWITH_ODD_PARITY);
    line[count - 1] |= 0x200;
    expect_line("a last character over 511", SKARROWITH_REFUSED + SKARROWITH_WRONG_CHARACTER);
    count = 0;
    expect_line("no line", SKARROWITH_REFUSED + SKARROWITH_EMPTY_LINE);
}

static void test_bytes(void)
{
    static const uint8_t fe[] = {0xFE, 1, 0xFE};
    expect_refused("one byte", skarrowith_cjt_check_line(fe, 1), SKARROWITH_ODD_BYTES);
    expect_refused("an odd number of bytes", skarrowith_cjt_check_line(fe, 3), SKARROWITH_ODD_BYTES);
    expect_refused("FE alone", skarrowith_cjt_check_line(fe, 2), SKARROWITH_CJT_WRONG_FRAME);
    expect_refused("no bytes", skarrowith_cjt_check_line(NULL, 0), SKARROWITH_EMPTY_LINE);
    expect_refused("no characters", skarrowith_cjt_read_line(NULL, 0, NULL, 0), SKARROWITH_EMPTY_LINE);
}

static void expect_value(const char *name, struct skarrowith_cjt_value value, uint32_t number, uint8_t code)
{
    expect(name, value.count, number);
    expect(name, value.code, code);
}

static void test_fields(void)
{
    put(request, sizeof request, 5);
    skarrowith_cjt_read_line(line, count, &told, sizeof told);
    expect("kind", told.kind, SKARROWITH_CJT_REQUEST);
    expect("address", told.address, 11110012345678u);
    expect("serial", told.serial, 3);
    expect("no broadcast", told.broadcast, 0);
    put(second_cjt_example, SECOND_CJT_EXAMPLE, 0);
    skarrowith_cjt_read_line(line, count, &told, sizeof told);
    expect("kind", told.kind, SKARROWITH_CJT_ANSWER);
    expect("type", told.type, 0x20);
    expect("address", told.address, 11110012345678u);
    expect_value("cold", told.cold, 212234, SKARROWITH_CJT_KWH);
    expect_value("heat", told.heat, 12345678, SKARROWITH_CJT_KWH);
    expect_value("power", told.power, 1250, SKARROWITH_CJT_KW);
    expect_value("flow", told.flow, 12500, SKARROWITH_CJT_M3_H);
    expect_value("volume", told.volume, 658709, SKARROWITH_CJT_M3);
    expect("inlet", told.inlet, 7812);
    expect("outlet", told.outlet, 6534);
    expect("hours", told.hours, 2143);
    expect("year", told.clock.year, 2018);
    expect("month", told.clock.month, 7);
    expect("day", told.clock.day, 23);
    expect("hour", told.clock.hour, 15);
    expect("minute", told.clock.minute, 51);
    expect("second", told.clock.second, 28);
    expect("first state", told.state[0], 4);
    expect("second state", told.state[1], 2);
}

/* Where there is too little room for the telegram, what is wrong with the line is told first. */
static void test_room(void)
{
    put(second_cjt_example, SECOND_CJT_EXAMPLE, 0);
    told = untouched;
    expect_refused("79 bytes", skarrowith_cjt_read_line(line, count, &told, sizeof told - 1), SKARROWITH_TOO_FEW_PLACES);
    expect("79 bytes are not touched", memcmp(&told, &untouched, sizeof told) == 0, 1);
    expect_refused("no room", skarrowith_cjt_read_line(line, count, NULL, 0), SKARROWITH_TOO_FEW_PLACES);
    expect_refused("no room, and a line cut", skarrowith_cjt_read_line(line, count - 1, NULL, 0), SKARROWITH_CJT_WRONG_FRAME);
}

/* The telegram of the example, written with so many places. */
static uint32_t written(size_t size, uint16_t *out, size_t places)
{
    memset(out, 0xA5, MOST * sizeof *out);
    return skarrowith_cjt_write_line(&told, size, places == 0 ? NULL : out, places);
}

static void test_writing(void)
{
    uint16_t out[MOST];
    put(second_cjt_example, SECOND_CJT_EXAMPLE, 5);
    skarrowith_cjt_read_line(line, count, &told, sizeof told);
    expect("the answer written", written(sizeof told, out, MOST), SECOND_CJT_EXAMPLE);
    expect("without its FE bytes", memcmp(out, line + 5, SECOND_CJT_EXAMPLE * sizeof *out) == 0, 1);
    expect("nothing beyond", out[SECOND_CJT_EXAMPLE], 0xA5A5);
    expect("just enough places", written(sizeof told, out, SKARROWITH_CJT_LINE_MOST), SECOND_CJT_EXAMPLE);
    expect_refused("58 places", written(sizeof told, out, 58), SKARROWITH_TOO_FEW_PLACES);
    expect("58 places are not touched", out[0], 0xA5A5);
    expect_refused("no places", written(sizeof told, out, 0), SKARROWITH_TOO_FEW_PLACES);
    told.type = 0x24;
    expect_refused("type 24, and no places", written(sizeof told, out, 0), SKARROWITH_UNWRITABLE);
    told = (struct skarrowith_cjt_telegram){.kind = SKARROWITH_CJT_REQUEST, .type = 0x20, .serial = 3, .broadcast = 1};
    expect("a request to all", written(sizeof told, out, MOST), REQUEST);
    expect("AA", out[8], second_character(0xAA));
    told.broadcast = 0;
    told.address = 100000000000000u;
    expect_refused("fifteen digits", written(sizeof told, out, MOST), SKARROWITH_UNWRITABLE);
}

/* A request with a 9 in one byte, and no places: a serial number and an address of 2^40 times 9 can be written, type 9 cannot. */
static unsigned refusal_of_nine(size_t at)
{
    int is_serial = at == 2, is_type = at == 1, is_address = at >= 8 && at < 16;
    return is_serial || (is_address && at < 14) ? 21 : is_type || is_address ? 20 : 101;
}

/* What is no record, whatever else is wrong with it. */
static void test_records(void)
{
    static const uint8_t zeros[] = {6, 7, 21, 22, 23, 29, 30, 31, 37, 38, 39, 45, 46, 47, 53, 54, 55, 68, 69, 70, 71, 79};
    struct skarrowith_cjt_telegram answer, asked = {.kind = SKARROWITH_CJT_REQUEST, .type = 0x20};
    uint16_t out[MOST];
    put(second_cjt_example, SECOND_CJT_EXAMPLE, 0);
    skarrowith_cjt_read_line(line, count, &answer, sizeof answer);
    told = answer;
    expect_refused("79 bytes", written(sizeof told - 1, out, MOST), SKARROWITH_NO_RECORD);
    expect_refused("no bytes", skarrowith_cjt_write_line(NULL, 0, out, MOST), SKARROWITH_NO_RECORD);
    for (size_t i = 0; i < sizeof zeros; i++) {
        told = answer;
        ((uint8_t *)&told)[zeros[i]] = 1;
        expect_refused("a byte that is not 0", written(sizeof told, out, 0), SKARROWITH_NO_RECORD);
    }
    for (size_t at = 0; at < sizeof asked; at++) {
        told = asked;
        ((uint8_t *)&told)[at] = 9;
        expect_refused("a request with a 9", written(sizeof told, out, 0), refusal_of_nine(at));
    }
    told = answer;
    told.kind = 0;
    expect_refused("kind 0", written(sizeof told, out, MOST), SKARROWITH_NO_RECORD);
    told = answer;
    told.broadcast = 1;
    expect_refused("an answer to all", written(sizeof told, out, MOST), SKARROWITH_NO_RECORD);
    told.address = 0;
    expect_refused("an answer to all, address 0", written(sizeof told, out, MOST), SKARROWITH_NO_RECORD);
    told = asked;
    told.broadcast = told.address = 1;
    expect_refused("a request to all with an address", written(sizeof told, out, MOST), SKARROWITH_NO_RECORD);
}

static void expect_entry(uint32_t number, uint8_t code, uint8_t unit, uint64_t digits)
{
    struct skarrowith_entry entry;
    memset(&entry, 0xA5, sizeof entry);
    expect("an energy", skarrowith_cjt_energy_entry(number, code, &entry, sizeof entry), 0);
    expect("structure", entry.structure, 0x0E);
    expect("sort", entry.sort, SKARROWITH_DECIMAL);
    expect("unit byte", entry.unit, unit);
    expect("digits", (uint64_t)entry.value.count, digits);
    for (size_t i = 0; i < sizeof entry.zero; i++)
        expect("zero", entry.zero[i], 0);
}

/* The entry stands in 000's data line in place of its energy. */
static void test_in_data(void)
{
    struct skarrowith_telegram data, back;
    uint16_t example[SECOND_EXAMPLE], out[SKARROWITH_LINE_MOST];
    second_example_line(example);
    expect("000's line", skarrowith_read_line(example, SECOND_EXAMPLE, &data, sizeof data), SKARROWITH_DATA);
    skarrowith_cjt_energy_entry(99999999, SKARROWITH_CJT_100_MWH, &data.entries[0], sizeof data.entries[0]);
    uint32_t n = skarrowith_write_line(&data, sizeof data, out, SKARROWITH_LINE_MOST);
    expect("two bytes more", n, SECOND_EXAMPLE + 2);
    expect("read back", skarrowith_read_line(out, n, &back, sizeof back), SKARROWITH_DATA);
    expect("the same", memcmp(&data, &back, sizeof back) == 0, 1);
}

static void test_energies(void)
{
    struct skarrowith_entry entry;
    expect_entry(212234, SKARROWITH_CJT_WH, 0x01, 212234);
    expect_entry(212234, SKARROWITH_CJT_KWH, 0x04, 212234);
    expect_entry(212234, SKARROWITH_CJT_MWH, 0x07, 212234);
    expect_entry(212234, SKARROWITH_CJT_100_MWH, 0x07, 21223400);
    expect_entry(212200, SKARROWITH_CJT_J, 0x08, 2122);
    expect_entry(212234, SKARROWITH_CJT_KJ, 0x09, 212234);
    expect_entry(212234, SKARROWITH_CJT_MJ, 0x0C, 212234);
    expect_entry(212234, SKARROWITH_CJT_GJ, 0x0F, 212234);
    expect_entry(99999999, SKARROWITH_CJT_100_GJ, 0x0F, 9999999900u);
    memset(&entry, 0xA5, sizeof entry);
    expect_refused("decimals of J", skarrowith_cjt_energy_entry(212234, SKARROWITH_CJT_J, &entry, sizeof entry), SKARROWITH_CJT_NOT_EXACT);
    expect_refused("power", skarrowith_cjt_energy_entry(1, SKARROWITH_CJT_KW, &entry, sizeof entry), SKARROWITH_CJT_WRONG_UNIT);
    expect_refused("nine digits", skarrowith_cjt_energy_entry(100000000, SKARROWITH_CJT_KW, &entry, sizeof entry), SKARROWITH_CJT_WRONG_DIGITS);
    expect_refused("fifteen bytes", skarrowith_cjt_energy_entry(100000000, 0, &entry, sizeof entry - 1), SKARROWITH_TOO_FEW_PLACES);
    expect_refused("no place", skarrowith_cjt_energy_entry(1, SKARROWITH_CJT_KWH, NULL, 0), SKARROWITH_TOO_FEW_PLACES);
    for (size_t i = 0; i < sizeof entry; i++)
        expect("a refusal touches nothing", ((uint8_t *)&entry)[i], 0xA5);
}

int main(void)
{
    memset(&untouched, 0xA5, sizeof untouched);
    test_lines();
    test_bytes();
    test_fields();
    test_room();
    test_writing();
    test_records();
    test_energies();
    test_in_data();
    if (wrong == 0)
        printf("CJ/T 188 test: %lu answers are right\n", right);
    return wrong != 0;
}
