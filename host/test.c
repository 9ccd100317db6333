/* Calls the archive as a bench host does: document 01's values, and what only the host form has. */
#include "skarrowith.h"

#include "../second/example.h"
#include "../second/line.h"
#include "../second/number.h"

#include <stdio.h>
#include <string.h>

struct value {
    const char *name;
    uint32_t answer;
    size_t len;
    const uint8_t *bytes;
};

static const uint8_t ack[] = {0xE5, 1};
static const uint8_t odd_parity[] = {0xE5, 0};
static const uint8_t read_fe[] = {0x10, 1, 0x5B, 1, 0xFE, 1, 0x59, 0, 0x16, 1};
static const uint8_t wrong_sum[] = {0x10, 1, 0x5B, 1, 0xFE, 1, 0x58, 1, 0x16, 1};
static const uint8_t enter_90[] = {0x68, 1, 4, 1, 4, 1, 0x68, 1, 0x53, 0, 0xFE, 1, 0x50, 0, 0x90, 0, 0x31, 1, 0x16, 1};
static const uint8_t leave[] = {0x68, 1, 4, 1, 4, 1, 0x68, 1, 0x53, 0, 0xFE, 1, 0x50, 0, 0x00, 0, 0xA1, 1, 0x16, 1};
static const uint8_t too_high[] = {0xE5, 3};
static const uint8_t high_byte_first[] = {1, 0xE5};
static const uint8_t too_many[] = {0xE5, 1, 0xE5, 1};

static int wrong;
static unsigned long right;

static void hold(const char *name, int64_t got, int64_t right_one)
{
    if (got != right_one) {
        printf("test: %s: %lld, and not %lld\n", name, (long long)got, (long long)right_one);
        wrong = 1;
    } else {
        right++;
    }
}

static void expect(const char *name, uint32_t answer, const uint8_t *bytes, size_t len)
{
    uint32_t got = skarrowith_check_line(bytes, len);
    if (got != answer) {
        printf("test: %s: %lu, and not %lu\n", name, (unsigned long)got, (unsigned long)answer);
        wrong = 1;
    } else {
        right++;
    }
}

/* The words for a number and their zero byte, given so many places: what they hold, and nothing beyond. */
static void expect_words(uint32_t number, size_t places, uint32_t answer, const char *words)
{
    char out[260], whole[260];
    uint32_t got;
    memset(out, '#', sizeof out);
    memset(whole, '#', sizeof whole);
    memcpy(whole, words, strlen(words) + (answer < SKARROWITH_REFUSED));
    got = skarrowith_refusal_text(number, places == 0 ? NULL : out, places);
    if (got != answer || memcmp(out, whole, sizeof out) != 0) {
        printf("test: words for %lu: %lu, and not %lu: %.40s\n", (unsigned long)number, (unsigned long)got, (unsigned long)answer, out);
        wrong = 1;
    } else {
        right++;
    }
}

/* Documents 01 and 02 have words for these numbers, and the library for two of its own. */
static int has_words(uint32_t n)
{
    return (n >= 1 && n <= 21 && n != 15 && n != 19) || (n >= 30 && n <= 43) || (n >= 50 && n <= 52) || (n >= 60 && n <= 65) ||
           (n >= 70 && n <= 72) || (n >= 80 && n <= 86) || n == 90 || n == 91 || n == 100 || n == 101;
}

static void expect_all_words(void)
{
    char out[SKARROWITH_TEXT_MOST];
    for (uint32_t n = 0; n < 1000; n++) {
        uint32_t got = skarrowith_refusal_text(n, out, sizeof out), asked = n < SKARROWITH_REFUSED ? n : n - SKARROWITH_REFUSED;
        int fine = has_words(asked) ? got > 0 && got < SKARROWITH_REFUSED && strlen(out) == got && strchr(out, '\n') == NULL
                                    : got == SKARROWITH_REFUSED + SKARROWITH_NO_SUCH_NUMBER;
        if (!fine) {
            printf("test: words for %lu: %lu\n", (unsigned long)n, (unsigned long)got);
            wrong = 1;
        }
    }
}

/* The version of the library that is linked is the header's, and the header's text says the same. */
static void expect_version(void)
{
    char text[32];
    snprintf(text, sizeof text, "%u.%u.%u", SKARROWITH_VERSION_MAJOR, SKARROWITH_VERSION_MINOR, SKARROWITH_VERSION_PATCH);
    hold("the version", skarrowith_version(), SKARROWITH_VERSION);
    hold("its number", SKARROWITH_VERSION, 65536 + 256);
    hold("its text", strcmp(text, SKARROWITH_VERSION_TEXT), 0);
}

/* The header's limits, methods and address are those by which the library goes. (host/meter_test.c has the return to use.) */
static void expect_names(void)
{
    static uint16_t line[SKARROWITH_WAKE_MOST + 1];
    struct skarrowith_exchange x = {0};
    const uint64_t end = 1000;
    hold("the least gap", skarrowith_gap(end, end + SKARROWITH_GAP_LEAST), 0);
    hold("less", skarrowith_gap(end, end + SKARROWITH_GAP_LEAST - 1), SKARROWITH_REFUSED + SKARROWITH_GAP_TOO_SHORT);
    hold("the greatest gap", skarrowith_gap(end, end + SKARROWITH_GAP_MOST), 0);
    hold("more", skarrowith_gap(end, end + SKARROWITH_GAP_MOST + 1), SKARROWITH_REFUSED + SKARROWITH_GAP_TOO_LONG);
    for (size_t count = SKARROWITH_WAKE_LEAST - 1; count <= SKARROWITH_WAKE_MOST + 1; count++)
        hold("a wake-up", skarrowith_write_wake(count, line, SKARROWITH_WAKE_MOST + 1),
             count < SKARROWITH_WAKE_LEAST || count > SKARROWITH_WAKE_MOST ? SKARROWITH_REFUSED + SKARROWITH_WAKE_WRONG_COUNT : 0);
    for (unsigned method = 0; method < 256; method++)
        hold("an enter", skarrowith_write_request(SKARROWITH_ENTER, SKARROWITH_BROADCAST, (uint8_t)method, line, 10),
             method == SKARROWITH_START_STOP || method == SKARROWITH_SIMULATED_FLOW || method == SKARROWITH_REAL_TIME
                 ? 10 : SKARROWITH_REFUSED + SKARROWITH_UNWRITABLE);
    hold("a read of all", skarrowith_exchange_send_ended(&x, sizeof x, SKARROWITH_READ, SKARROWITH_BROADCAST, 0, end), SKARROWITH_WAITING);
    hold("the window", skarrowith_exchange_tick(&x, sizeof x, end + SKARROWITH_REPLY_TIME), SKARROWITH_WAITING);
    hold("past it", skarrowith_exchange_tick(&x, sizeof x, end + SKARROWITH_REPLY_TIME + 1), SKARROWITH_RESEND);
}

/* What a unit byte means, in memory of so many bytes: what it then holds, and nothing beyond. */
static void expect_meaning(unsigned unit, size_t size, uint32_t answer, const char *record)
{
    uint8_t out[8], whole[8];
    memset(out, '#', sizeof out);
    memset(whole, '#', sizeof whole);
    if (answer == 0)
        memcpy(whole, record, 4);
    hold("a meaning", skarrowith_entry_meaning((uint8_t)unit, size == 0 ? NULL : (struct skarrowith_meaning *)out, size), answer);
    hold("its record", memcmp(out, whole, sizeof out), 0);
}

/* The ends of each row of the table and what stands beside them, and the entries of 000's data line. */
static void expect_meanings(void)
{
    static const struct {
        unsigned first, last;
        uint8_t quantity, unit;
        int power;
    } table[] = {
        {0x00, 0x07, SKARROWITH_ENERGY, SKARROWITH_WH, -3},   {0x08, 0x0F, SKARROWITH_ENERGY, SKARROWITH_J, 0},
        {0x10, 0x17, SKARROWITH_VOLUME, SKARROWITH_M3, -6},   {0x28, 0x2F, SKARROWITH_POWER, SKARROWITH_W, -3},
        {0x38, 0x3F, SKARROWITH_FLOW, SKARROWITH_M3_H, -6},   {0x58, 0x5B, SKARROWITH_INLET, SKARROWITH_DEGREE, -3},
        {0x5C, 0x5F, SKARROWITH_OUTLET, SKARROWITH_DEGREE, -3}, {0x6D, 0x6D, SKARROWITH_POINT_IN_TIME, SKARROWITH_NO_UNIT, 0},
    };
    static const unsigned none[] = {0x18, 0x27, 0x30, 0x37, 0x40, 0x57, 0x60, 0x6C, 0x6E, 0x7F, 0x80, 0xFF};
    struct skarrowith_meaning m;
    for (size_t i = 0; i < sizeof table / sizeof table[0]; i++)
        for (unsigned unit = table[i].first; unit <= table[i].last; unit++) {
            hold("a unit byte", skarrowith_entry_meaning((uint8_t)unit, &m, sizeof m), 0);
            hold("its quantity", m.quantity, table[i].quantity);
            hold("its unit", m.unit, table[i].unit);
            hold("its power", m.power, table[i].power + (int)(unit - table[i].first));
            hold("its last byte", m.zero, 0);
        }
    for (size_t i = 0; i < sizeof none / sizeof none[0]; i++)
        for (size_t size = 0; size <= 8; size++)
            expect_meaning(none[i], size, SKARROWITH_REFUSED + SKARROWITH_WRONG_ENTRY, NULL);
    for (size_t size = 0; size <= 8; size++)
        expect_meaning(0x11, size, size < 4 ? SKARROWITH_REFUSED + SKARROWITH_TOO_FEW_PLACES : 0, "\1\3\xFB\0");
}

/* Both interfaces of a position: which capture has the line, and where; what was lent for it where it is too short or neither has one. */
static void expect_either(const char *name, uint32_t answer, const uint16_t *mbus, size_t mbus_count, const uint16_t *optical, size_t optical_count,
                          size_t size, uint64_t place, uint64_t length)
{
    struct skarrowith_found found = {99, 99};
    uint32_t got = skarrowith_find_either(mbus, mbus_count, optical, optical_count, size == 0 ? NULL : &found, size);
    if (got != answer || found.place != place || found.length != length) {
        printf("test: %s: %lu, and not %lu, at %lu\n", name, (unsigned long)got, (unsigned long)answer, (unsigned long)found.place);
        wrong = 1;
    } else {
        right++;
    }
}

static void expect_both_interfaces(void)
{
    static const uint16_t noise[] = {0x000, 0x0FF, 0x0E5}, late[] = {0x000, 0x0FF, 0x1E5}, at_once[] = {0x1E5};
    const size_t whole = sizeof(struct skarrowith_found);
    expect_either("M-Bus later, optical at once", SKARROWITH_MBUS, late, 3, at_once, 1, whole, 2, 1);
    expect_either("M-Bus alone", SKARROWITH_MBUS, at_once, 1, NULL, 0, whole, 0, 1);
    expect_either("optical alone", SKARROWITH_OPTICAL, noise, 3, late, 3, whole, 2, 1);
    expect_either("no M-Bus capture", SKARROWITH_OPTICAL, NULL, 0, at_once, 1, whole, 0, 1);
    expect_either("one capture for both", SKARROWITH_MBUS, late, 3, late, 3, whole, 2, 1);
    expect_either("neither", SKARROWITH_REFUSED + SKARROWITH_NO_LINE, noise, 3, noise, 3, whole, 99, 99);
    expect_either("no captures", SKARROWITH_REFUSED + SKARROWITH_NO_LINE, NULL, 0, NULL, 0, whole, 99, 99);
    expect_either("neither, and no place for it", SKARROWITH_REFUSED + SKARROWITH_NO_LINE, noise, 3, noise, 3, 0, 99, 99);
    expect_either("fifteen bytes", SKARROWITH_REFUSED + SKARROWITH_TOO_FEW_PLACES, late, 3, at_once, 1, whole - 1, 99, 99);
    expect_either("no place", SKARROWITH_REFUSED + SKARROWITH_TOO_FEW_PLACES, noise, 3, at_once, 1, 0, 99, 99);
}

static void expect_length(const char *name, uint32_t answer, const uint16_t *first, size_t count, size_t length)
{
    size_t told = 99;
    uint32_t got = skarrowith_line_length(first, count, &told);
    if (got != answer || told != length) {
        printf("test: %s, %zu characters: %lu, and not %lu, with %zu\n", name, count, (unsigned long)got, (unsigned long)answer, told);
        wrong = 1;
    } else {
        right++;
    }
}

/* 000's data line comes in, and another line behind it. */
static void expect_coming_in(void)
{
    static uint16_t line[SECOND_EXAMPLE + 3];
    static const uint16_t odd[] = {0x0E5}, noise[] = {0x168, 0x0FF}, no_read[] = {0x110, 0x05A};
    second_example_line(line);
    line[SECOND_EXAMPLE] = 0x1E5;
    line[SECOND_EXAMPLE + 1] = 0x0E5;
    line[SECOND_EXAMPLE + 2] = 0xFFFF;
    expect_length("nothing", SKARROWITH_NOT_YET, NULL, 0, 99);
    expect_length("odd parity", SKARROWITH_REFUSED + SKARROWITH_NO_LINE, odd, 1, 99);
    expect_length("68 FF", 0, noise, 2, 261);
    expect_length("10 5A", 0, no_read, 2, 5);
    expect_length("10", 0, no_read, 1, 5);
    expect_length("the first of data", SKARROWITH_NOT_YET, line, 1, 99);
    for (size_t count = 2; count <= SECOND_EXAMPLE + 3; count++)
        expect_length("data", 0, line, count, SECOND_EXAMPLE);
    for (size_t i = 0; i < SECOND_EXAMPLE; i++) {
        line[i] ^= 256;
        expect_length("data with an odd parity", SKARROWITH_REFUSED + SKARROWITH_NO_LINE, line, SECOND_EXAMPLE, 99);
        line[i] ^= 256;
    }
}

static void expect_after(const char *name, uint32_t answer, const uint64_t *times, size_t times_count, uint64_t t, size_t size,
                         struct skarrowith_found_after where)
{
    static const uint16_t capture[] = {0x1E5, 0x0FF, 0x1E5, 0x1E5};
    struct skarrowith_found_after found = {99, 99, 99};
    uint32_t got = skarrowith_find_line_after(capture, 4, times, times_count, t, size == 0 ? NULL : &found, size);
    if (got != answer || found.place != where.place || found.length != where.length || found.time != where.time) {
        printf("test: %s: %lu, and not %lu, at %lu\n", name, (unsigned long)got, (unsigned long)answer, (unsigned long)found.place);
        wrong = 1;
    } else {
        right++;
    }
}

/* An ack that was left in a buffer, noise, and two acks. */
static void expect_after_a_time(void)
{
    static const uint64_t times[] = {900, 1000, 1011, 1022, 1033}, falling[] = {900, 1000, 999, 1000};
    const struct skarrowith_found_after none = {99, 99, 99};
    const size_t whole = sizeof none;
    expect_after("from 0 on", 0, times, 4, 0, whole, (struct skarrowith_found_after){0, 1, 900});
    expect_after("from the send's end on", 0, times, 4, 1000, whole, (struct skarrowith_found_after){2, 1, 1011});
    expect_after("from its beginning on", 0, times, 4, 1011, whole, (struct skarrowith_found_after){2, 1, 1011});
    expect_after("from one later on", 0, times, 4, 1012, whole, (struct skarrowith_found_after){3, 1, 1022});
    expect_after("too late for all", SKARROWITH_REFUSED + SKARROWITH_NO_LINE, times, 5, 1023, whole, none);
    expect_after("a time that falls", 0, falling, 4, 1000, whole, (struct skarrowith_found_after){3, 1, 1000});
    expect_after("two times", SKARROWITH_REFUSED + SKARROWITH_NO_LINE, times, 2, 1000, whole, none);
    expect_after("no times", SKARROWITH_REFUSED + SKARROWITH_NO_LINE, NULL, 0, 0, whole, none);
    expect_after("no times, and no place for it", SKARROWITH_REFUSED + SKARROWITH_NO_LINE, NULL, 0, 0, 0, none);
    expect_after("23 bytes", SKARROWITH_REFUSED + SKARROWITH_TOO_FEW_PLACES, times, 4, 1000, whole - 1, none);
    expect_after("no place", SKARROWITH_REFUSED + SKARROWITH_TOO_FEW_PLACES, times, 4, 0, 0, none);
}

/* 2 and 3 at every place of lines of every count up to 300: a late odd parity comes before an early wrong first byte, and a late
 * character over 511 before an early odd parity. */
static void expect_one_pass(void)
{
    enum { MOST = 300 };
    uint8_t bytes[2 * MOST];
    for (size_t count = 1; count <= MOST; count++) {
        for (size_t i = 0; i < count; i++)
            second_put_number(bytes + 2 * i, 2, second_character((unsigned)(0x11 + 37 * i) & 0xFF));
        expect("a wrong first byte", SKARROWITH_REFUSED + SKARROWITH_WRONG_FIRST_BYTE, bytes, 2 * count);
        for (size_t i = 0; i < count; i++) {
            bytes[2 * i + 1] ^= 1;
            expect("an odd parity and a wrong first byte", SKARROWITH_REFUSED + SKARROWITH_ODD_PARITY, bytes, 2 * count);
            bytes[2 * i + 1] ^= 1;
            bytes[1] ^= 1;
            bytes[2 * i + 1] ^= 2;
            expect("a character over 511 and an odd first", SKARROWITH_REFUSED + SKARROWITH_WRONG_CHARACTER, bytes, 2 * count);
            bytes[2 * i + 1] ^= 2;
            bytes[1] ^= 1;
        }
    }
}

/* Where 000's data line has its meter number and the values of energy and inlet, and which entries these are. */
enum { NUMBER_AT = 7, ENERGY_AT = 21, INLET_AT = 33, ENERGY = 0, INLET = 2 };

/* 000's data line with other bytes somewhere, its sum right. */
static void changed_example(uint16_t line[SECOND_EXAMPLE], size_t at, const uint8_t *value, size_t n)
{
    uint8_t b[SECOND_EXAMPLE];
    memcpy(b, second_example, sizeof b);
    memcpy(b + at, value, n);
    b[SECOND_EXAMPLE - 2] = (uint8_t)second_sum(b + 4, SECOND_EXAMPLE - 6);
    for (size_t i = 0; i < SECOND_EXAMPLE; i++)
        line[i] = second_character(b[i]);
}

/* A minus in the highest place, read and written back. */
static void expect_minus(const char *name, const uint8_t value[3], int64_t count)
{
    uint16_t line[SECOND_EXAMPLE], out[SKARROWITH_LINE_MOST];
    struct skarrowith_telegram t;
    changed_example(line, INLET_AT, value, 3);
    hold(name, skarrowith_read_line(line, SECOND_EXAMPLE, &t, sizeof t), SKARROWITH_DATA);
    hold(name, t.entries[INLET].value.count, count);
    hold(name, skarrowith_write_line(&t, sizeof t, out, SKARROWITH_LINE_MOST), SECOND_EXAMPLE);
    hold(name, memcmp(line, out, sizeof line), 0);
}

/* A line that is refused because of these bytes in it. */
static void expect_no_minus(const char *name, size_t at, const uint8_t *value, size_t n, uint32_t refusal)
{
    uint16_t line[SECOND_EXAMPLE];
    struct skarrowith_telegram t;
    changed_example(line, at, value, n);
    hold(name, skarrowith_read_line(line, SECOND_EXAMPLE, &t, sizeof t), SKARROWITH_REFUSED + refusal);
}

/* 000's data with another count in one of its entries: the characters written, or the refusal. */
static void expect_count(const char *name, size_t entry, int64_t count, uint32_t answer)
{
    uint16_t line[SECOND_EXAMPLE], out[SKARROWITH_LINE_MOST];
    struct skarrowith_telegram t;
    second_example_line(line);
    skarrowith_read_line(line, SECOND_EXAMPLE, &t, sizeof t);
    t.entries[entry].value.count = count;
    hold(name, skarrowith_write_line(&t, sizeof t, out, SKARROWITH_LINE_MOST), answer);
}

static void expect_signs(void)
{
    expect_minus("an inlet of -1.50", (const uint8_t[]){0x50, 0x01, 0xF0}, -150);
    expect_minus("the smallest inlet", (const uint8_t[]){0x99, 0x99, 0xF9}, -99999);
    expect_minus("the largest inlet", (const uint8_t[]){0x99, 0x99, 0x99}, 999999);
    expect_no_minus("minus zero", INLET_AT, (const uint8_t[]){0x00, 0x00, 0xF0}, 3, SKARROWITH_WRONG_VALUE);
    expect_no_minus("F in the second digit", INLET_AT, (const uint8_t[]){0x50, 0x01, 0x0F}, 3, SKARROWITH_WRONG_VALUE);
    expect_no_minus("A in the highest place", INLET_AT, (const uint8_t[]){0x50, 0x01, 0xA0}, 3, SKARROWITH_WRONG_VALUE);
    expect_no_minus("an energy with a minus", ENERGY_AT, (const uint8_t[]){0x45, 0x23, 0x71, 0xF6}, 4, SKARROWITH_WRONG_VALUE);
    expect_no_minus("a meter number with a minus", NUMBER_AT, (const uint8_t[]){0x78, 0x56, 0x34, 0xF2}, 4, SKARROWITH_WRONG_HEADER);
    expect_count("-99999 beside a sign", INLET, -99999, SECOND_EXAMPLE);
    expect_count("-100000 beside a sign", INLET, -100000, SKARROWITH_REFUSED + SKARROWITH_UNWRITABLE);
    expect_count("the smallest of 64 bits", INLET, INT64_MIN, SKARROWITH_REFUSED + SKARROWITH_UNWRITABLE);
    expect_count("the largest of 64 bits", INLET, INT64_MAX, SKARROWITH_REFUSED + SKARROWITH_UNWRITABLE);
    expect_count("an energy of 0", ENERGY, 0, SECOND_EXAMPLE);
    expect_count("an energy below 0", ENERGY, -1, SKARROWITH_REFUSED + SKARROWITH_UNWRITABLE);
}

/* All 512 characters as a serial port passes them on, in two pieces cut at every place: what is left of the first is lent again. */
static void expect_unmarking(void)
{
    static uint8_t bytes[3 * 512];
    static uint16_t characters[512];
    size_t n = 0;
    for (unsigned c = 0; c < 512; c++) {
        if (second_character(c % 256) != c || c == 0x0FF)
            bytes[n++] = 0xFF;
        if (second_character(c % 256) != c)
            bytes[n++] = 0;
        bytes[n++] = (uint8_t)c;
    }
    for (size_t cut = 0; cut <= n; cut++) {
        size_t used, made, rest, more, c = 0;
        memset(characters, 0, sizeof characters);
        uint32_t first = skarrowith_unmark(bytes, cut, characters, 512, &used, &made);
        uint32_t second = skarrowith_unmark(bytes + used, n - used, characters + made, 512 - made, &rest, &more);
        while (c < 512 && characters[c] == c)
            c++;
        if (first == 0 && second == 0 && used <= cut && cut - used < 3 && used + rest == n && made + more == 512 && c == 512) {
            right++;
            continue;
        }
        printf("test: unmarking, cut at %lu: character %lu\n", (unsigned long)cut, (unsigned long)c);
        wrong = 1;
    }
}

/* 000's data line with its inlet in binary, in a structure and so many bytes: read, and written back. */
static void expect_binary(const char *name, uint8_t structure, const uint8_t *value, size_t n, int64_t count)
{
    enum { BEHIND = INLET_AT + 3, REST = SECOND_EXAMPLE - 2 - BEHIND };
    uint8_t b[SKARROWITH_LINE_MOST];
    uint16_t line[SKARROWITH_LINE_MOST], out[SKARROWITH_LINE_MOST];
    struct skarrowith_telegram t;
    size_t end = INLET_AT + n + REST;
    memcpy(b, second_example, INLET_AT);
    b[INLET_AT - 2] = structure;
    memcpy(b + INLET_AT, value, n);
    memcpy(b + INLET_AT + n, second_example + BEHIND, REST);
    b[1] = b[2] = (uint8_t)(end - 4);
    b[end] = (uint8_t)second_sum(b + 4, end - 4);
    b[end + 1] = 0x16;
    for (size_t i = 0; i < end + 2; i++)
        line[i] = second_character(b[i]);
    hold(name, skarrowith_read_line(line, end + 2, &t, sizeof t), SKARROWITH_DATA);
    hold(name, t.entries[INLET].sort, SKARROWITH_BINARY);
    hold(name, t.entries[INLET].value.count, count);
    hold(name, skarrowith_write_line(&t, sizeof t, out, SKARROWITH_LINE_MOST), (int64_t)end + 2);
    hold(name, memcmp(line, out, 2 * (end + 2)), 0);
}

/* A telegram of six binary values and a time, its inlet of another structure, sort and count: what writing it answers. */
static void expect_sort(const char *name, uint8_t structure, uint8_t sort, int64_t count, uint32_t answer)
{
    static const uint8_t units[] = {0x03, 0x11, 0x59, 0x5D, 0x2D, 0x3B};
    const struct skarrowith_moment moment = {.year = 18, .month = 7, .day = 23};
    struct skarrowith_telegram t = {.kind = SKARROWITH_DATA, .number = 12345678, .maker = 0x4E89, .meter_type = 4, .count = 7};
    uint16_t line[SKARROWITH_LINE_MOST];
    for (size_t i = 0; i < sizeof units; i++)
        t.entries[i] = (struct skarrowith_entry){.structure = 0x07, .unit = units[i], .sort = SKARROWITH_BINARY, .value.count = 1};
    t.entries[6] = (struct skarrowith_entry){.structure = 0x06, .unit = 0x6D, .sort = SKARROWITH_TIME, .value.time = moment};
    t.entries[INLET].structure = structure;
    t.entries[INLET].sort = sort;
    t.entries[INLET].value.count = count;
    hold(name, skarrowith_write_line(&t, sizeof t, line, SKARROWITH_LINE_MOST), answer);
}

static void expect_binaries(void)
{
    expect_binary("1.06 in one byte", 0x01, (const uint8_t[]){0x6A}, 1, 106);
    expect_binary("-1.50 in two bytes", 0x02, (const uint8_t[]){0x6A, 0xFF}, 2, -150);
    expect_binary("-1.50 in three bytes", 0x03, (const uint8_t[]){0x6A, 0xFF, 0xFF}, 3, -150);
    expect_binary("-1.50 in four bytes", 0x04, (const uint8_t[]){0x6A, 0xFF, 0xFF, 0xFF}, 4, -150);
    expect_binary("1.50 in six bytes", 0x06, (const uint8_t[]){0x96, 0, 0, 0, 0, 0}, 6, 150);
    expect_binary("the smallest in eight bytes", 0x07, (const uint8_t[]){0, 0, 0, 0, 0, 0, 0, 0x80}, 8, INT64_MIN);
    expect_binary("the largest in eight bytes", 0x07, (const uint8_t[]){255, 255, 255, 255, 255, 255, 255, 127}, 8, INT64_MAX);
    expect_sort("the longest line", 0x07, SKARROWITH_BINARY, INT64_MIN, SKARROWITH_LINE_MOST);
    expect_sort("one byte", 0x01, SKARROWITH_BINARY, -128, SKARROWITH_LINE_MOST - 7);
    expect_sort("one byte, too small", 0x01, SKARROWITH_BINARY, -129, SKARROWITH_REFUSED + SKARROWITH_UNWRITABLE);
    expect_sort("one byte, too large", 0x01, SKARROWITH_BINARY, 128, SKARROWITH_REFUSED + SKARROWITH_UNWRITABLE);
    expect_sort("digits in a binary structure", 0x07, SKARROWITH_DECIMAL, 1, SKARROWITH_REFUSED + SKARROWITH_UNWRITABLE);
    expect_sort("binary in digits", 0x0C, SKARROWITH_BINARY, 1, SKARROWITH_REFUSED + SKARROWITH_UNWRITABLE);
    expect_sort("digits among binary", 0x0C, SKARROWITH_DECIMAL, 1, SKARROWITH_LINE_MOST - 4);
    expect_sort("a time in a measured unit", 0x06, SKARROWITH_TIME, 0, SKARROWITH_REFUSED + SKARROWITH_UNWRITABLE);
    expect_sort("structure 05", 0x05, SKARROWITH_BINARY, 1, SKARROWITH_REFUSED + SKARROWITH_UNWRITABLE);
    expect_sort("no sort", 0x07, 3, 1, SKARROWITH_REFUSED + SKARROWITH_NO_RECORD);
}

int main(void)
{
    static const struct value values[] = {
        {"ack", SKARROWITH_ACK, sizeof ack, ack},
        {"odd parity", SKARROWITH_REFUSED + SKARROWITH_ODD_PARITY, sizeof odd_parity, odd_parity},
        {"the empty line", SKARROWITH_REFUSED + SKARROWITH_EMPTY_LINE, 0, NULL},
        {"read", SKARROWITH_READ, sizeof read_fe, read_fe},
        {"wrong sum", SKARROWITH_REFUSED + SKARROWITH_WRONG_CHECKSUM, sizeof wrong_sum, wrong_sum},
        {"enter", SKARROWITH_ENTER, sizeof enter_90, enter_90},
        {"leave", SKARROWITH_LEAVE, sizeof leave, leave},
        {"a character over 511", SKARROWITH_REFUSED + SKARROWITH_WRONG_CHARACTER, sizeof too_high, too_high},
        {"high byte first", SKARROWITH_REFUSED + SKARROWITH_WRONG_CHARACTER, sizeof high_byte_first, high_byte_first},
        {"two acks", SKARROWITH_REFUSED + SKARROWITH_WRONG_COUNT, sizeof too_many, too_many},
        {"one byte", SKARROWITH_REFUSED + SKARROWITH_ODD_BYTES, 1, ack},
        {"an odd number of bytes", SKARROWITH_REFUSED + SKARROWITH_ODD_BYTES, 3, too_many},
    };
    uint16_t line[SECOND_EXAMPLE];
    uint8_t data[2 * SECOND_EXAMPLE];
    size_t count = sizeof values / sizeof values[0];
    for (size_t i = 0; i < count; i++)
        expect(values[i].name, values[i].answer, values[i].bytes, values[i].len);
    second_example_line(line);
    for (size_t i = 0; i < SECOND_EXAMPLE; i++)
        second_put_number(data + 2 * i, 2, line[i]);
    expect("000's data line", SKARROWITH_DATA, data, sizeof data);
    data[2 * 15] ^= 3;
    data[2 * 16] ^= 3;
    expect("the same, four flips", SKARROWITH_DATA, data, sizeof data);
    data[2 * 16] ^= 1;
    expect("the same, five flips", SKARROWITH_REFUSED + SKARROWITH_ODD_PARITY, data, sizeof data);
    expect_version();
    expect_names();
    expect_meanings();
    expect_both_interfaces();
    expect_signs();
    expect_unmarking();
    expect_coming_in();
    expect_after_a_time();
    expect_binaries();
    expect_one_pass();
    expect_words(1, 260, 17, "the line is empty");
    expect_words(8, 15, 14, "checksum wrong");
    expect_words(SKARROWITH_REFUSED + SKARROWITH_WRONG_CHECKSUM, 15, 14, "checksum wrong");
    expect_words(8, 14, SKARROWITH_REFUSED + SKARROWITH_TOO_FEW_PLACES, "");
    expect_words(8, 0, SKARROWITH_REFUSED + SKARROWITH_TOO_FEW_PLACES, "");
    expect_words(72, 260, 83, "meter: set up with data the writer refuses, or energy or volume not in structure 0C");
    expect_words(63, 260, 30, "replay: fewer than two answers");
    expect_words(80, 260, 45, "CJ/T 188: frame shape, or length not 03 or 2E");
    expect_words(SKARROWITH_REFUSED + 86, 260, 30, "CJ/T 188: conversion not exact");
    expect_words(79, 260, SKARROWITH_REFUSED + SKARROWITH_NO_SUCH_NUMBER, "");
    expect_words(87, 260, SKARROWITH_REFUSED + SKARROWITH_NO_SUCH_NUMBER, "");
    expect_words(90, 260, 34, "temperature over 20,000 hundredths");
    expect_words(91, 260, 44, "resistance below the first or above the last");
    expect_words(21, 260, 55, "output: fewer places, or bytes of a record, than needed");
    expect_words(SKARROWITH_REFUSED + SKARROWITH_NO_SUCH_NUMBER, 260, 24, "no words for this number");
    expect_words(SKARROWITH_REFUSED + 43, 260, 31, "a different request at a resend");
    expect_words(SKARROWITH_NO_RECORD, 260, 95,
                 "no record: another size, kind or sort, a byte that must be 0, or a state to which no steps lead");
    expect_words(99, 260, SKARROWITH_REFUSED + SKARROWITH_NO_SUCH_NUMBER, "");
    expect_words(102, 260, SKARROWITH_REFUSED + SKARROWITH_NO_SUCH_NUMBER, "");
    expect_words(15, 260, SKARROWITH_REFUSED + SKARROWITH_NO_SUCH_NUMBER, "");
    expect_words(SKARROWITH_REFUSED + 15, 260, SKARROWITH_REFUSED + SKARROWITH_NO_SUCH_NUMBER, "");
    expect_words(19, 260, SKARROWITH_REFUSED + SKARROWITH_NO_SUCH_NUMBER, "");
    expect_words(4294967295u, 260, SKARROWITH_REFUSED + SKARROWITH_NO_SUCH_NUMBER, "");
    expect_all_words();
    if (!wrong)
        printf("test: %lu answers are right\n", right);
    return wrong;
}
