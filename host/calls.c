/*
 * Calls one function a number of times on one input, for host/count, which counts the instructions.
 *   calls WHO WHAT TIMES [PLACES]    WHO: proved, second or none; WHAT: a name in `rows`, of which host/figures has most;
 *                                    PLACES: of a capture, 4096
 *   calls stack WHAT                 prints how many bytes of stack one call of the proved function touches
 * Fails by 3 where WHO has no such function, or none to be held against: the second program's search tries every length.
 */
#define _XOPEN_SOURCE 700
#include "skarrowith.h"

#include "../second/bundle.h"
#include "../second/cjt.h"
#include "../second/example.h"
#include "../second/line.h"
#include "../second/meaning.h"
#include "../second/number.h"
#include "../second/replay.h"
#include "../second/resistance.h"
#include "../second/serial.h"
#include "../second/verdict.h"

#include <stdio.h>
#include <stdlib.h>
#include <string.h>
#include <ucontext.h>

enum { MOST = SECOND_BUNDLE, ROWS = SECOND_ROWS };

static uint8_t bytes[2 * MOST], half[MOST], text[MOST];
static uint16_t characters[MOST], other[MOST]; /* the other capture holds zeros, of which none begins a line */
static size_t count, halves, places = 4096, told, made;
static uint32_t number;
static int64_t tenths;
static struct skarrowith_found found;
static struct skarrowith_found_after found_after;
static uint64_t times[MOST]; /* when the characters began: each 11 after the one before it */
static struct skarrowith_telegram telegram;
static struct skarrowith_exchange waiting, exchange;
static struct skarrowith_meter set_up, meter;
static struct skarrowith_contents contents;
static struct skarrowith_salvaged salvaged;
static struct skarrowith_row_verdict verdicts[ROWS];
static uint8_t drawn[SKARROWITH_PICTURE_MOST];
static struct skarrowith_cjt_telegram cjt;
static struct skarrowith_entry entry;
static struct skarrowith_meaning meaning;

/* ---- what is called */

static uint32_t check(void) { return skarrowith_check_line(bytes, 2 * count); }
static uint32_t words(void) { return skarrowith_refusal_text(9, (char *)text, sizeof text); }
static uint32_t meaning_of(void) { return skarrowith_entry_meaning(0x11, &meaning, sizeof meaning); }
static uint32_t read_line(void) { return skarrowith_read_line(characters, count, &telegram, sizeof telegram); }
static uint32_t write_line(void) { return skarrowith_write_line(&telegram, sizeof telegram, characters, MOST); }
static uint32_t find(void) { return skarrowith_find_line(characters, count, &found, sizeof found); }

/* The line is in the M-Bus capture, beside a long optical one; or in the optical one, and as many characters of M-Bus have none. */
static uint32_t find_on_mbus(void) { return skarrowith_find_either(characters, count, other, places, &found, sizeof found); }
static uint32_t find_on_optical(void) { return skarrowith_find_either(other, count, characters, count, &found, sizeof found); }

static uint32_t line_length(void) { return skarrowith_line_length(characters, 3, &told); }
static uint32_t line_length_of_all(void) { return skarrowith_line_length(characters, count, &told); }

/* All of it began in time, or none of it. */
static uint32_t find_after(void) { return skarrowith_find_line_after(characters, count, times, count, 0, &found_after, sizeof found_after); }

static uint32_t find_too_early(void)
{
    return skarrowith_find_line_after(characters, count, times, count, UINT64_MAX, &found_after, sizeof found_after);
}

/* 256 bytes that came with right parity. */
static uint32_t unmark(void) { return skarrowith_unmark(bytes, count, characters, MOST, &told, &made); }
static uint32_t unmark_by_second(void) { return (uint32_t)second_unmark(bytes, count, characters, MOST, &told); }

/* A step from a copy, so that each call finds the same state. */
static uint32_t exchange_resent(void)
{
    exchange = waiting;
    return skarrowith_exchange_send_ended(&exchange, sizeof exchange, SKARROWITH_READ, SKARROWITH_BROADCAST, 0, 2000);
}

static uint32_t exchange_heard(void)
{
    exchange = waiting;
    return skarrowith_exchange_heard(&exchange, sizeof exchange, characters, count, 1100, &telegram, sizeof telegram);
}

static uint32_t meter_heard(void)
{
    meter = set_up;
    return skarrowith_meter_heard(&meter, sizeof meter, characters, count, 1100, &telegram, sizeof telegram);
}

static uint32_t meter_set_up(void) { return skarrowith_meter_set_up(&meter, sizeof meter, 5, &telegram, sizeof telegram); }

static uint32_t meter_measure(void)
{
    meter = set_up;
    return skarrowith_meter_measure(&meter, sizeof meter, 1, 1, 1100);
}

static uint32_t resistance(void) { return skarrowith_resistance(5019, &number); }
static uint32_t temperature(void) { return skarrowith_temperature(1200000, &number); }
static uint32_t check_cjt(void) { return skarrowith_cjt_check_line(bytes, 2 * count); }
static uint32_t read_cjt(void) { return skarrowith_cjt_read_line(characters, count, &cjt, sizeof cjt); }
static uint32_t write_cjt(void) { return skarrowith_cjt_write_line(&cjt, sizeof cjt, characters, MOST); }
static uint32_t cjt_entry(void) { return skarrowith_cjt_energy_entry(212234, SKARROWITH_CJT_100_MWH, &entry, sizeof entry); }
static uint32_t check_bundle(void) { return skarrowith_bundle_check(bytes, count, &told); }
static uint32_t make_contents(void) { return skarrowith_contents_of(bytes, count, &contents, sizeof contents); }

/* The last body is cut off: 511 rows are kept. */
static uint32_t salvage_bundle(void)
{
    return skarrowith_bundle_salvage(bytes, count - 2, text, sizeof text, &salvaged, sizeof salvaged);
}

/* Of 48 positions one is named: the bodies move by a few hundred bytes. */
static uint32_t sweep_bundle(void)
{
    told = count;
    return skarrowith_bundle_sweep(bytes, sizeof bytes, &told, 7);
}

/* One position of 48; and a bundle of 256 rows joined to one of as many, whose rows come in turn. */
static uint32_t choose_bundle(void) { return skarrowith_bundle_of_position(bytes, count, 7, text, sizeof text, &told); }
static uint32_t join_bundle(void) { return skarrowith_bundle_join(bytes, count, half, halves, text, sizeof text, &told); }

/* A position that no row has: all rows are passed over. */
static uint32_t scan_none(void) { return skarrowith_contents_next(&contents, sizeof contents, 49, 0, &told); }

/* All rows of one position, one after the other. */
static uint32_t scan_all(void)
{
    uint32_t rows = 0;
    for (size_t from = 0; skarrowith_contents_next(&contents, sizeof contents, 7, from, &told) == 0; from = told + 1)
        rows++;
    return rows;
}

/* The same by plain C over the rows of the file, 12 bytes each. */
static size_t next_in_file(uint8_t position, size_t from)
{
    while (from < ROWS && bytes[2 + 12 * from] != position)
        from++;
    return from;
}

static uint32_t scan_none_in_file(void) { return (uint32_t)next_in_file(49, 0); }

static uint32_t scan_all_in_file(void)
{
    uint32_t rows = 0;
    for (size_t from = 0; (from = next_in_file(7, from)) < ROWS; from++)
        rows++;
    return rows;
}

static uint32_t list_bundle(void) { return skarrowith_bundle_list(bytes, count, text, sizeof text, &told); }
static uint32_t replay_for(uint8_t p) { return skarrowith_replay_error(bytes, count, p, 0, 1000, 1000, &tenths, 1); }
static uint32_t replay_bundle(void) { return replay_for(7); }
static uint32_t pass_bundle(void) { return replay_for(8); }
static uint32_t judge_bundle(void) { return skarrowith_verdicts(bytes, count, verdicts, sizeof verdicts, &told); }

static uint32_t judge_contents(void)
{
    return skarrowith_contents_verdicts(&contents, sizeof contents, bytes, count, verdicts, sizeof verdicts, &told);
}

static uint32_t repeat_bundle(void) { return skarrowith_repeats(bytes, count, characters, MOST, &told); }
static uint32_t draw_bundle(void) { return skarrowith_picture(bytes, count, drawn, sizeof drawn, &told); }

static uint32_t none(void) { return (uint32_t)count; }

static uint32_t read_by_second(void)
{
    struct second_telegram t;
    int refusal = second_read(characters, count, &t);
    return refusal == 0 ? (uint32_t)t.kind + 1 : 256 + (uint32_t)refusal;
}

static uint32_t judge_by_second(void)
{
    static struct second_judged judged[SECOND_ROWS];
    return (uint32_t)second_verdicts(bytes, count, judged, &told);
}

static uint32_t replay_by_second(void) { return (uint32_t)second_replay(bytes, count, 7, 0, 1000, 1000, &tenths); }

static uint32_t read_cjt_by_second(void)
{
    struct second_cjt t;
    int refusal = second_cjt_read(characters, count, &t);
    return refusal == 0 ? (uint32_t)t.kind : 256 + (uint32_t)refusal;
}

static uint32_t meaning_by_second(void)
{
    struct second_meaning m;
    return (uint32_t)second_entry_meaning(0x11, &m);
}

/* By the formula, without a table. */
static uint32_t resistance_by_second(void) { return (uint32_t)second_resistance(5019, &number); }

/* ---- on what */

static void set(size_t i, uint16_t c)
{
    characters[i] = c;
    bytes[2 * i] = (uint8_t)(c & 0xFF);
    bytes[2 * i + 1] = (uint8_t)(c >> 8);
}

static void put(const uint8_t *b, size_t n)
{
    for (count = 0; count < n; count++)
        set(count, second_character(b[count]));
}

static const uint8_t ack[] = {0xE5}, request[] = {0x10, 0x5B, 0xFE, 0x59, 0x16};
static const uint8_t enter[] = {0x68, 4, 4, 0x68, 0x53, 0xFE, 0x50, 0x90, 0x31, 0x16};

static void put_ack(void) { put(ack, sizeof ack); }
static void put_request(void) { put(request, sizeof request); }
static void put_enter(void) { put(enter, sizeof enter); }
static void put_data(void) { put(second_example, sizeof second_example); }

static void put_cjt(void) { put(second_cjt_example, sizeof second_cjt_example); }

static void put_cjt_telegram(void)
{
    put_cjt();
    read_cjt();
}

/* The longest line of a meter that answers in binary, 89 characters: 000's header, six values of eight bytes, and the time. */
static void put_binary(void)
{
    static const uint8_t units[] = {0x0B, 0x11, 0x59, 0x5D, 0x2D, 0x3B};
    static const uint8_t value[] = {0x07, 0, 0x78, 0x56, 0x34, 0x12, 0x45, 0x23, 0x71, 0x06};
    enum { HEADER_END = 19, TIME_AT = 53, TIME = 8 };
    uint8_t b[SKARROWITH_LINE_MOST];
    size_t at = HEADER_END;
    memcpy(b, second_example, at);
    for (size_t i = 0; i < sizeof units; i++, at += sizeof value) {
        memcpy(b + at, value, sizeof value);
        b[at + 1] = units[i];
    }
    memcpy(b + at, second_example + TIME_AT, TIME);
    at += TIME;
    b[1] = b[2] = (uint8_t)(at - 4);
    b[at] = (uint8_t)second_sum(b + 4, at - 4);
    b[at + 1] = 0x16;
    put(b, at + 2);
}

/* A read that waits for 000's data line, and a meter with that line as its template that is asked by a read. */
static void put_waiting(void)
{
    put_data();
    skarrowith_exchange_send_ended(&waiting, sizeof waiting, SKARROWITH_READ, SKARROWITH_BROADCAST, 0, 1000);
}

/* A read that asks for a resend. */
static void put_asking(void)
{
    put_waiting();
    skarrowith_exchange_tick(&waiting, sizeof waiting, 1451);
}

static void put_meter(void)
{
    put_data();
    skarrowith_read_line(characters, count, &telegram, sizeof telegram);
    skarrowith_meter_set_up(&set_up, sizeof set_up, 5, &telegram, sizeof telegram);
    put_request();
}

static void put_odd_last(void)
{
    put_data();
    set(count - 1, characters[count - 1] ^ 256);
}

/* The longest line that gets past 5: 000's example with zeros behind it, lengths and sum right. */
static void put_longest(void)
{
    uint8_t b[261] = {0};
    memcpy(b, second_example, sizeof second_example - 2);
    b[1] = b[2] = 255;
    b[259] = (uint8_t)second_sum(b + 4, 255);
    b[260] = 0x16;
    put(b, sizeof b);
}

static void put_noise_500(void)
{
    for (count = 0; count < 500; count++)
        set(count, second_character((unsigned)count * 37 + 11));
}

/* Nine random bits a place; an ack among them would end the search, and is left out. */
static void put_noise(void)
{
    uint32_t state = 1;
    for (count = 0; count < places; count++) {
        state = state * 1664525u + 1013904223u;
        characters[count] = (state >> 23) == 0x1E5 ? 0 : (uint16_t)(state >> 23);
    }
}

/* The times of a capture without pauses. */
static void put_times(void)
{
    for (size_t i = 0; i < count; i++)
        times[i] = 1000 + SKARROWITH_BIT_TIMES_PER_CHARACTER * i;
}

static void put_timed_data(void)
{
    put_data();
    put_times();
}

static void put_timed_noise(void)
{
    put_noise();
    put_times();
}

static void put_starts(void)
{
    for (count = 0; count < places; count++)
        characters[count] = 0x168;
}

static void put_timed_starts(void)
{
    put_starts();
    put_times();
}

static void put_acks(void)
{
    for (count = 0; count < places; count++)
        characters[count] = 0x1E5;
    put_times();
}

/* Noise that began in time before each ack, and acks that all began too early: a place found and passed over in every two. */
static void put_falling(void)
{
    for (count = 0; count < places; count++) {
        characters[count] = count % 2 == 0 ? 0 : 0x1E5;
        times[count] = count % 2 == 0 ? UINT64_MAX : 0;
    }
}

/* So many rows so far apart: a read request and 000's data line in turn, at one position or at all of them. */
static void put_rows(unsigned rows, unsigned position, unsigned apart)
{
    static uint8_t lines[2][2 * SECOND_EXAMPLE];
    size_t lengths[2], at = 2 + 12 * rows;
    put_request();
    memcpy(lines[0], bytes, lengths[0] = 2 * count);
    put_data();
    memcpy(lines[1], bytes, lengths[1] = 2 * count);
    second_put_number(bytes, 2, rows);
    for (unsigned i = 0; i < rows; i++) {
        struct second_row row = {position == 0 ? 1 + i % 48 : position, i % 2, apart * i, (uint32_t)at, lengths[i % 2]};
        second_put_row(bytes + 2 + 12 * i, &row);
        memcpy(bytes + at, lines[i % 2], lengths[i % 2]);
        at += lengths[i % 2];
    }
    count = at;
}

static void put_unmarked(void)
{
    count = 256;
    for (size_t i = 0; i < count; i++)
        bytes[i] = (uint8_t)(i % 255);
}

static void put_bundle(void) { put_rows(ROWS, 0, 1000); }

/* The same with room for a row more. */
static void put_511(void) { put_rows(ROWS - 1, 0, 1000); }

/* Every second row of the bundle as a bundle of its own. */
static size_t put_half(uint8_t *to, size_t from)
{
    size_t at = 2 + 12 * (ROWS / 2);
    second_put_number(to, 2, ROWS / 2);
    for (size_t i = from; i < ROWS; i += 2) {
        const uint8_t *row = bytes + 2 + 12 * i;
        uint8_t *next = to + 2 + 12 * (i / 2);
        size_t length = second_number(row + 10, 2);
        memcpy(to + at, bytes + second_number(row + 6, 4), length);
        memcpy(next, row, 12);
        second_put_number(next + 6, 4, at);
        at += length;
    }
    return at;
}

static void put_halves(void)
{
    put_bundle();
    count = put_half(text, 0);
    halves = put_half(half, 1);
    memcpy(bytes, text, count);
}

static void put_contents(void)
{
    put_bundle();
    make_contents();
}

/* Every answer begins in time; the last one's clock stands at a second later than the others'. */
static void put_talk(void)
{
    uint8_t *last;
    put_rows(ROWS, 7, 100);
    last = bytes + count - 2 * SECOND_EXAMPLE;
    second_put_number(last + 2 * 55, 2, second_character(0x1D));
    second_put_number(last + 2 * 61, 2, second_character(0x03));
}

static void put_kept_talk(void)
{
    put_talk();
    make_contents();
}

/* A character of a body that carries a byte. */
static void put_byte(uint8_t *body, size_t place, unsigned byte) { second_put_number(body + 2 * place, 2, second_character(byte % 256)); }

/* 512 answers of one meter without power and flow, each with another energy: every row is held against all before it. */
static void put_readings(void)
{
    static uint8_t line[2 * SECOND_EXAMPLE];
    size_t at = 2 + 12 * ROWS, length;
    put_data();
    read_line();
    telegram.count = 5;
    telegram.entries[0].value.count = 0;
    telegram.entries[4] = telegram.entries[6];
    memset(telegram.entries + 5, 0, 2 * sizeof telegram.entries[0]);
    length = write_line();
    for (size_t c = 0; c < length; c++)
        second_put_number(line + 2 * c, 2, characters[c]);
    second_put_number(bytes, 2, ROWS);
    for (unsigned i = 0; i < ROWS; i++, at += 2 * length) {
        struct second_row row = {1 + i % 48, 1, 1000 * i, (uint32_t)at, 2 * length};
        unsigned low = 16 * (i / 10 % 10) + i % 10, high = i / 100;
        second_put_row(bytes + 2 + 12 * i, &row);
        memcpy(bytes + at, line, 2 * length);
        put_byte(bytes + at, 21, low);
        put_byte(bytes + at, 22, high);
        put_byte(bytes + at, length - 2, characters[length - 2] + low + high);
    }
    count = at;
}

/* A run that is full of wake-ups: one of 459 characters before each read, 68 of both. */
static void put_woken(void)
{
    static uint8_t wake[918], line[2 * sizeof request];
    put_request();
    memcpy(line, bytes, sizeof line);
    for (size_t i = 0; i < sizeof wake; i += 2)
        wake[i] = 0x55;
    memset(bytes, 0, 2);
    count = 2;
    for (uint32_t time = 0;; time++) {
        uint8_t position = (uint8_t)(1 + time % 48);
        if (skarrowith_bundle_add(bytes, MOST, &count, position, 0, time, wake, sizeof wake) != 0)
            return;
        skarrowith_bundle_add(bytes, MOST, &count, position, 0, time, line, sizeof line);
    }
}

/* No position is named: the wake-ups go. */
static uint32_t sweep_woken(void)
{
    told = count;
    return skarrowith_bundle_sweep(bytes, sizeof bytes, &told, 0);
}

/* A row more: behind all, and behind the first one alone. */
static const uint8_t heard[] = {0xE5, 0x01};

static uint32_t add_row(void)
{
    told = count;
    return skarrowith_bundle_add(bytes, MOST, &told, 7, 1, UINT32_MAX, heard, sizeof heard);
}

static uint32_t insert_row(void)
{
    told = count;
    return skarrowith_bundle_insert(bytes, MOST, &told, 7, 1, 0, heard, sizeof heard);
}

static const struct {
    const char *name;
    void (*make)(void);
    uint32_t (*proved)(void), (*second)(void);
} rows[] = {
    {"ack", put_ack, check, read_by_second},
    {"read", put_request, check, read_by_second},
    {"enter", put_enter, check, read_by_second},
    {"data", put_data, check, read_by_second},
    {"longest", put_longest, check, read_by_second},
    {"odd-last", put_odd_last, check, read_by_second},
    {"noise-500", put_noise_500, check, read_by_second},
    {"words", put_ack, words, NULL},
    {"meaning", put_ack, meaning_of, meaning_by_second},
    {"read-data", put_data, read_line, read_by_second},
    {"binary", put_binary, check, read_by_second},
    {"read-binary", put_binary, read_line, read_by_second},
    {"hear-data", put_waiting, exchange_heard, NULL},
    {"resent", put_asking, exchange_resent, NULL},
    {"meter-read", put_meter, meter_heard, NULL},
    {"write-data", put_meter, write_line, NULL},
    {"set-up", put_meter, meter_set_up, NULL},
    {"measure", put_meter, meter_measure, NULL},
    {"search-data", put_data, find, NULL},
    {"either-mbus", put_data, find_on_mbus, NULL},
    {"either-optical", put_data, find_on_optical, NULL},
    {"unmark", put_unmarked, unmark, unmark_by_second},
    {"find-noise", put_noise, find, NULL},
    {"find-starts", put_starts, find, NULL},
    {"length-three", put_data, line_length, NULL},
    {"length-all", put_data, line_length_of_all, NULL},
    {"after-data", put_timed_data, find_after, NULL},
    {"find-after-noise", put_timed_noise, find_after, NULL},
    {"find-after-starts", put_timed_starts, find_after, NULL},
    {"find-early", put_acks, find_too_early, NULL},
    {"find-falling", put_falling, find_too_early, NULL},
    {"resistance", put_ack, resistance, resistance_by_second},
    {"temperature", put_ack, temperature, NULL},
    {"cjt-answer", put_cjt, check_cjt, read_cjt_by_second},
    {"cjt-read", put_cjt, read_cjt, read_cjt_by_second},
    {"cjt-write", put_cjt_telegram, write_cjt, NULL},
    {"cjt-energy", put_ack, cjt_entry, NULL},
    {"check-bundle", put_bundle, check_bundle, NULL},
    {"list-bundle", put_bundle, list_bundle, NULL},
    {"contents-bundle", put_bundle, make_contents, NULL},
    {"salvage-bundle", put_bundle, salvage_bundle, NULL},
    {"sweep-bundle", put_bundle, sweep_bundle, NULL},
    {"woken-bundle", put_woken, sweep_woken, NULL},
    {"choose-bundle", put_bundle, choose_bundle, NULL},
    {"join-bundle", put_halves, join_bundle, NULL},
    {"add-bundle", put_511, add_row, NULL},
    {"insert-bundle", put_511, insert_row, NULL},
    {"scan-none", put_contents, scan_none, scan_none_in_file},
    {"scan-all", put_contents, scan_all, scan_all_in_file},
    {"replay-bundle", put_talk, replay_bundle, replay_by_second},
    {"pass-bundle", put_talk, pass_bundle, NULL},
    {"verdicts-bundle", put_talk, judge_bundle, judge_by_second},
    {"columns-bundle", put_kept_talk, judge_contents, NULL},
    {"repeat-bundle", put_readings, repeat_bundle, NULL},
    {"picture-bundle", put_talk, draw_bundle, NULL},
};

/* ---- the stack: painted, lent to one call, and looked at */

static uint8_t stack[1 << 20];
static ucontext_t here, there;
static uint32_t (*who)(void);
static volatile uint32_t answer;

static void once(void) { answer = who(); }

static size_t touched(uint32_t (*function)(void))
{
    size_t free = 0;
    who = function;
    memset(stack, 0xA5, sizeof stack);
    getcontext(&there);
    there.uc_stack.ss_sp = stack;
    there.uc_stack.ss_size = sizeof stack;
    there.uc_link = &here;
    makecontext(&there, once, 0);
    swapcontext(&here, &there);
    while (free < sizeof stack && stack[free] == 0xA5)
        free++;
    return sizeof stack - free;
}

int main(int argc, char **argv)
{
    size_t row = 0, last = sizeof rows / sizeof rows[0];
    if (argc < 3)
        return 2;
    while (row < last && strcmp(rows[row].name, argv[2]) != 0)
        row++;
    if (row == last)
        return 2;
    if (argc > 4)
        places = (size_t)strtoul(argv[4], NULL, 10);
    if (places > MOST)
        return 2;
    rows[row].make();
    if (strcmp(argv[1], "stack") == 0) {
        printf("%lu\n", (unsigned long)(touched(rows[row].proved) - touched(none)));
        return 0;
    }
    if (argc < 4)
        return 2;
    who = strcmp(argv[1], "proved") == 0 ? rows[row].proved : strcmp(argv[1], "second") == 0 ? rows[row].second : none;
    if (who == NULL)
        return 3;
    for (long times = strtol(argv[3], NULL, 10); times > 0; times--)
        answer = who();
    printf("%lu\n", (unsigned long)answer);
    return 0;
}
