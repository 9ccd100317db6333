/*
 * Skarrowith: lines, exchanges, simulated meters, run bundles and the resistance box of a heat-meter verification bench,
 * and the lines of its CJ/T 188 meters.
 *
 * The functions are proved to keep the written rules (docs/RULES.md of the source) for every input, of any length: they
 * read and write only the memory that they are lent, keep no state, call nothing but memcpy and memset, and always return.
 * They may be called from any thread. What is lent to one call for writing must not overlap with anything else that it is lent.
 *
 * Answers. Every function answers one number, skarrowith_version the version and every other as follows. Below 256 it is the
 * answer, 0 where there is nothing to say; SKARROWITH_REFUSED plus n is refusal n. On a refusal nothing that was lent has
 * changed, and otherwise only the places that are named have. Where several refusals apply, the library's own (100, 101) go
 * first and then the lowest number, but for seven rules:
 *   - 17, an odd number of bytes, goes before 1 to 16, and before 80 to 85;
 *   - reading a CJ/T 188 line gives 80 to 85 before 21;
 *   - 11 to 14 are tried entry by entry from the left, in each entry the lowest first, and 16 after the last entry;
 *   - a wake-up gives 52 before 21;
 *   - adding to a bundle gives all that it has against the old bundle, 30 to 37, before 34, 37 and 38 for the new row;
 *   - a sweep and the replay give all that they have against the bundle, 30 to 37, before 34 for the position; the replay
 *     then gives 63, 64, 65, 61, 62;
 *   - where a place for each row is asked for, and of a picture, 30 to 37 for the bundle go before 21.
 *
 * Lent memory is a pointer and the number of its places; with 0 of them the pointer may be null. Output that is too short
 * for what is to be written is refused by 21; a longer one is changed in its first places alone. A count that is answered
 * beside (rows, count, i, filled, written, milliohm, hundredths, length, used, made) is written through a pointer to it, which may
 * not be null. Memory for uint16_t, uint32_t, uint64_t, int64_t and size_t is aligned as C aligns these types; bytes and records
 * may stand at any address.
 *
 * Stack, as measured. skarrowith_bundle_list takes 28,000 bytes, skarrowith_picture 27,000, those on verdicts 11,000,
 * skarrowith_replay_error 6,300, the simulated meter up to 5,900, skarrowith_repeats 3,500, skarrowith_exchange_heard 2,400,
 * skarrowith_read_line 2,000, every other function fewer than 1,600.
 *
 * Lines. But for the two checks of a line and the bodies of a bundle, which are bytes, a line is its characters: each a
 * uint16_t with the byte received in the low eight bits and the parity bit received as bit 8. Lengths and places count
 * characters. Times are counted in bit times of 1/2400 s.
 *
 * Records. A struct below is its record, byte for byte (x86-64 is little-endian, and no struct has padding of the
 * compiler's). Each is lent with its size in bytes, sizeof x. Memory for a record that is written may be longer, and is
 * refused by 21 if it is shorter. What is read must be a record, else it is refused by SKARROWITH_NO_RECORD: it has exactly
 * its size; bytes named zero are 0; a telegram's kind is 1 to 5 and the sort of each of its seven entries 0 to 2. No other
 * field of a telegram is asked about there: one with a count of 9 or a month 13 is a record, and what is done with it says
 * the rest (writing refuses it by 20, set-up by 72). An exchange and a meter are records only if some history of steps leads
 * to them; 24 zeros are the record of no exchange. Columns are records if their count is not over 512. A CJ/T 188 telegram
 * has a kind 1 or 2 and broadcast 0 or 1; broadcast 1 has address 0 and is no answer's; a request has 0 in all that only an
 * answer has. No other field of it is asked about there, and writing refuses the rest by 20.
 *
 * `make` builds it and `make install` installs it; it is linked into an x86-64 program as
 * `pkg-config --cflags --libs skarrowith` says.
 */
#ifndef SKARROWITH_H
#define SKARROWITH_H

#include <stddef.h>
#include <stdint.h>

#ifdef __cplusplus
extern "C" {
#endif

/* The version of this header, as a number and as text. */
#define SKARROWITH_VERSION_MAJOR 1u
#define SKARROWITH_VERSION_MINOR 1u
#define SKARROWITH_VERSION_PATCH 0u
#define SKARROWITH_VERSION (SKARROWITH_VERSION_MAJOR * 65536u + SKARROWITH_VERSION_MINOR * 256u + SKARROWITH_VERSION_PATCH)
#define SKARROWITH_VERSION_TEXT "1.1.0"

/* Answers the version of the library that is linked: 65536 times major, 256 times minor, and patch. */
uint32_t skarrowith_version(void);

/*
 * Refusals
 *
 * A refusal is answered as SKARROWITH_REFUSED plus its number: a test reads `answer == SKARROWITH_REFUSED + SKARROWITH_NO_LINE`.
 * Beside each stand the words that skarrowith_refusal_text writes; docs/REFUSALS.md of the source says who gives it and when.
 */
#define SKARROWITH_REFUSED 256u

/* A line. */
#define SKARROWITH_EMPTY_LINE 1u /* the line is empty */
#define SKARROWITH_WRONG_CHARACTER 2u /* a character is over 511 */
#define SKARROWITH_ODD_PARITY 3u /* a parity is odd */
#define SKARROWITH_WRONG_FIRST_BYTE 4u /* first byte not E5, 10 or 68 */
#define SKARROWITH_WRONG_COUNT 5u /* count not 1 after E5, not 5 after 10, under 6 or not second byte + 6 after 68 */
#define SKARROWITH_WRONG_LENGTHS 6u /* second and third byte differ, or fourth is not 68 */
#define SKARROWITH_WRONG_END 7u /* read, enter, leave or data shape does not end in 16 */
#define SKARROWITH_WRONG_CHECKSUM 8u /* checksum wrong */
#define SKARROWITH_WRONG_FORM 9u /* short form: C not 5B. Long form: neither L = 4 with C 53, CI 50 and an S above,
                                    nor L >= 15 with C 08 and CI 72 */
#define SKARROWITH_WRONG_HEADER 10u /* header rule broken */
#define SKARROWITH_WRONG_ENTRY 11u /* one byte left, unknown structure or unit, wrong pair, or value past the end */
#define SKARROWITH_WRONG_VALUE 12u /* a BCD digit over 9 in an entry, or a negative value where none is allowed */
#define SKARROWITH_WRONG_TIME 13u /* time rule broken */
#define SKARROWITH_QUANTITY_TWICE 14u /* quantity already seen */
#define SKARROWITH_QUANTITY_MISSING 16u /* a required quantity missing */
#define SKARROWITH_ODD_BYTES 17u /* host form only, before 1: odd number of bytes */
#define SKARROWITH_NO_LINE 18u /* search: no accepted line begins anywhere */
#define SKARROWITH_UNWRITABLE 20u /* writer: no accepted line reads as this telegram */
#define SKARROWITH_TOO_FEW_PLACES 21u /* output: fewer places, or bytes of a record, than needed */

/* The run bundle. */
#define SKARROWITH_BUNDLE_TOO_LONG 30u /* bundle: too long */
#define SKARROWITH_BUNDLE_TOO_SHORT 31u /* bundle: under two bytes */
#define SKARROWITH_BUNDLE_WRONG_COUNT 32u /* bundle: count over 512 */
#define SKARROWITH_BUNDLE_CONTENTS_CUT 33u /* bundle: contents cut */
#define SKARROWITH_BUNDLE_WRONG_ROW 34u /* bundle: a position, direction or length out of its range,
                                           or a time below the row before */
#define SKARROWITH_BUNDLE_WRONG_OFFSET 35u /* bundle: an offset wrong or a body past the end */
#define SKARROWITH_BUNDLE_BYTES_LEFT 36u /* bundle: bytes left over */
#define SKARROWITH_BUNDLE_WRONG_CHARACTER 37u /* bundle: a character over 511 */
#define SKARROWITH_BUNDLE_FULL 38u /* bundle: adding: 512 rows, or the new bundle exceeds the buffer or 65,536 */
#define SKARROWITH_BUNDLE_NO_SUCH_ROW 39u /* bundle: no such row */

/* The exchange, the wake-up and the gap after it. */
#define SKARROWITH_EXCHANGE_TIME_BACK 40u /* exchange: time earlier than the last step's */
#define SKARROWITH_EXCHANGE_NOT_CALLED_FOR 41u /* exchange: step not called for in this state */
#define SKARROWITH_EXCHANGE_NO_REQUEST 42u /* start with ack or data */
#define SKARROWITH_EXCHANGE_OTHER_REQUEST 43u /* a different request at a resend */
#define SKARROWITH_GAP_TOO_SHORT 50u /* command begins less than 33 after the wake-up's end, or before it */
#define SKARROWITH_GAP_TOO_LONG 51u /* command begins more than 330 after the wake-up's end */
#define SKARROWITH_WAKE_WRONG_COUNT 52u /* wake-up count outside 459-502 */

/* The error of indication, and the replay of a bundle. */
#define SKARROWITH_COUNT_TOO_LARGE 60u /* a count over 10^12 */
#define SKARROWITH_METER_COUNT_FALLS 61u /* meter count falls */
#define SKARROWITH_STANDARD_COUNT_NOT_RISING 62u /* standard's count does not rise */
#define SKARROWITH_REPLAY_TOO_FEW_ANSWERS 63u /* replay: fewer than two answers */
#define SKARROWITH_REPLAY_VOLUME_TOO_LARGE 64u /* replay: any of the four volumes over 10^9 ml */
#define SKARROWITH_REPLAY_WRONG_INTERVAL 65u /* replay: either interval not above 0 or over 1,800,000 ms */

/* The simulated meter. */
#define SKARROWITH_METER_TIME_BACK 70u /* meter: time goes back */
#define SKARROWITH_METER_TOTAL_TOO_LARGE 71u /* meter: a total would pass 99,999,999 */
#define SKARROWITH_METER_WRONG_TEMPLATE 72u /* meter: set up with data the writer refuses,
                                               or energy or volume not in structure 0C */

/* A CJ/T 188 line, and an energy of such a meter. */
#define SKARROWITH_CJT_WRONG_FRAME 80u /* CJ/T 188: frame shape, or length not 03 or 2E */
#define SKARROWITH_CJT_WRONG_SUM 81u /* CJ/T 188: sum */
#define SKARROWITH_CJT_WRONG_ADDRESS 82u /* CJ/T 188: type or address, AA with 2E included */
#define SKARROWITH_CJT_WRONG_MARK 83u /* CJ/T 188: data mark, or control not that length's */
#define SKARROWITH_CJT_WRONG_DIGITS 84u /* CJ/T 188: digits or clock */
#define SKARROWITH_CJT_WRONG_UNIT 85u /* CJ/T 188: unit */
#define SKARROWITH_CJT_NOT_EXACT 86u /* CJ/T 188: conversion not exact */

/* The resistance box. */
#define SKARROWITH_TEMPERATURE_TOO_HIGH 90u /* temperature over 20,000 hundredths */
#define SKARROWITH_RESISTANCE_OUTSIDE 91u /* resistance below the first or above the last */

/* The library's own, which go before all others. What a record is stands above, under Records. */
#define SKARROWITH_NO_SUCH_NUMBER 100u /* no words for this number */
#define SKARROWITH_NO_RECORD 101u /* no record: another size, kind or sort, a byte that must be 0,
                                     or a state to which no steps lead */

/* The five telegrams: what checking and reading answer for a line that is accepted. */
#define SKARROWITH_ACK 1u
#define SKARROWITH_READ 2u
#define SKARROWITH_ENTER 3u
#define SKARROWITH_LEAVE 4u
#define SKARROWITH_DATA 5u

/*
 * Checks a line that was received.
 *
 * bytes: two for each character, low byte first. A character is the byte received, with the parity bit received as
 *        bit 8; so the first of the two is the byte, and the second is 0 or 1. They are not changed.
 * len:   the number of bytes. An odd number is refused by 17. Length 0 is the empty line and refused by 1.
 *
 * Answers SKARROWITH_ACK to SKARROWITH_DATA, or SKARROWITH_REFUSED plus 17, or plus 1 to 14 or 16: the lowest that applies,
 * 11 to 14 entry by entry from the left.
 */
uint32_t skarrowith_check_line(const uint8_t *bytes, size_t len);

/* Room that is enough for the words of every refusal and the zero byte behind them. */
#define SKARROWITH_TEXT_MOST 256u

/*
 * Writes the words for a refusal, for an operator to read.
 *
 * number: a refusal number, 1 to 91, 100 or 101, or SKARROWITH_REFUSED plus one, as it was answered.
 * out:    len places. The words are ASCII, in one piece and shorter than 256 bytes, and a zero byte ends them. Places beyond it
 *         stay as they were.
 *
 * Answers how many bytes the words have, the zero byte not counted, or refuses by 100 (there are no words for this number) or
 * 21 (there is no room for the words and their zero byte).
 */
uint32_t skarrowith_refusal_text(uint32_t number, char *out, size_t len);

/*
 * Lines
 */

/* The most characters of a line that is written. */
#define SKARROWITH_LINE_MOST 89u

/* The address that asks every meter. */
#define SKARROWITH_BROADCAST 0xFEu

/* The methods of an enter. */
#define SKARROWITH_START_STOP 0x90u
#define SKARROWITH_SIMULATED_FLOW 0x91u
#define SKARROWITH_REAL_TIME 0x92u

/*
 * The line clock: the bit times of a second and of a character, and in bit times the least and the greatest gap between a
 * wake-up's end and the command after it (13.75 and 137.5 ms), the window in which a reply to a send begins (187.5 ms), and how
 * long a meter in verification stays there without an instruction (30 min).
 */
#define SKARROWITH_BIT_TIMES_PER_SECOND 2400u
#define SKARROWITH_BIT_TIMES_PER_CHARACTER 11u
#define SKARROWITH_GAP_LEAST 33u
#define SKARROWITH_GAP_MOST 330u
#define SKARROWITH_REPLY_TIME 450u
#define SKARROWITH_RETURN_TIME 4320000u

/* The least and the most characters of a wake-up. */
#define SKARROWITH_WAKE_LEAST 459u
#define SKARROWITH_WAKE_MOST 502u

/*
 * A point in time. Year 0 to 99 means 2000 to 2099. weekday is the one the meter sends: 1 for Monday to 7 for Sunday, 0 for
 * not said. It is not compared with the date; over 7 it is refused by 20 when it is written.
 */
struct skarrowith_moment {
    uint8_t year, month, day, hour, minute, second, weekday;
    uint8_t zero;
};

/* What an entry's value is: packed digits, a point in time, or binary. */
#define SKARROWITH_DECIMAL 0
#define SKARROWITH_TIME 1
#define SKARROWITH_BINARY 2

/*
 * An entry: its value is a count, of which the unit byte gives the power of ten, or a point in time.
 *
 * The structure says what sort of value it is. 0A, 0B, 0C and 0E are packed digits: value.count, with SKARROWITH_DECIMAL. 01,
 * 02, 03, 04, 06 and 07 are binary, 1, 2, 3, 4, 6 and 8 bytes in two's complement: value.count, with SKARROWITH_BINARY. 06 with
 * the unit 6D is a point in time: value.time, with SKARROWITH_TIME; 6D has no other structure. An entry of another sort is
 * refused by 20 when it is written. The unit bytes of energy are 00 to 07 for Wh and 08 to 0F for J: one quantity, which a
 * telegram has once.
 *
 * A count may be below 0 for inlet, outlet and flow, and for nothing else. In digits the sign takes the place of the highest
 * one (a line has F there), so that a count below 0 has a digit fewer than the structure: -150 is the inlet -1.50 degrees in
 * unit 59, and structure 0A holds -999 to 9999, 02 holds -32768 to 32767. A count below 0 elsewhere, a minus zero and a digit
 * over 9 are refused by 12 when a line is read; a count that no line has is refused by 20 when it is written.
 */
struct skarrowith_entry {
    uint8_t structure, unit, sort;
    uint8_t zero[5];
    union {
        int64_t count;
        struct skarrowith_moment time;
    } value;
};

/* The quantities: the rows of the table by which an entry's unit byte is read. Energy in Wh and in J is one quantity. */
#define SKARROWITH_ENERGY 0u
#define SKARROWITH_VOLUME 1u
#define SKARROWITH_POWER 2u
#define SKARROWITH_FLOW 3u
#define SKARROWITH_INLET 4u
#define SKARROWITH_OUTLET 5u
#define SKARROWITH_POINT_IN_TIME 6u

/* Their units: none for a point in time, Wh or J, cubic metres, W, cubic metres in an hour, degrees Celsius. */
#define SKARROWITH_NO_UNIT 0u
#define SKARROWITH_WH 1u
#define SKARROWITH_J 2u
#define SKARROWITH_M3 3u
#define SKARROWITH_W 4u
#define SKARROWITH_M3_H 5u
#define SKARROWITH_DEGREE 6u

/*
 * What a unit byte means, 4 bytes: an entry's value is its count times ten to the power, in the unit. So a count with the unit
 * byte 11 hex is a volume in 10^-5 m3: SKARROWITH_VOLUME, SKARROWITH_M3 and -5. The power of a point in time is 0.
 */
struct skarrowith_meaning {
    uint8_t quantity, unit;
    int8_t power;
    uint8_t zero;
};

/* Says what a unit byte means. Answers 0, or refuses by 11 where no quantity has this unit byte, or 21. */
uint32_t skarrowith_entry_meaning(uint8_t unit, struct skarrowith_meaning *meaning, size_t size);

/*
 * A telegram, 136 bytes. kind is SKARROWITH_ACK to SKARROWITH_DATA; method is that of an enter. What the kind does
 * not use is 0, and so are the entries past the count: a telegram of other values is a record, and refused by 20 when it
 * is written as a line, as is one with a count over seven.
 */
struct skarrowith_telegram {
    uint8_t kind, address, method, version;
    uint32_t number;
    uint16_t maker;
    uint8_t meter_type, access, status;
    uint8_t zero[3];
    uint64_t count;
    struct skarrowith_entry entries[7];
};

/* Where a line was found: 16 bytes. */
struct skarrowith_found {
    uint64_t place, length;
};

/*
 * Finds the lowest place in a capture at which an accepted line begins, and its length. Answers 0, or refuses by 18
 * where none begins, or 21.
 */
uint32_t skarrowith_find_line(const uint16_t *capture, size_t count, struct skarrowith_found *found, size_t size);

/* The length of a line that comes in is not yet known: the second character says it. */
#define SKARROWITH_NOT_YET 1u

/*
 * How many characters the accepted line has that begins with these, so that a host reads no character too many and waits
 * for none. length is not null. Answers 0 and the length, which stays the same when more characters come, those behind the
 * line's end too; SKARROWITH_NOT_YET, before the first character and after a first 68; or refuses by 18 where no accepted
 * line begins so. A length that is told is the only one that an accepted line can have here; whether the line is accepted
 * is for reading to say, once it is there.
 */
uint32_t skarrowith_line_length(const uint16_t *first, size_t count, size_t *length);

/* Where a line was found, and when its first character began: 24 bytes. */
struct skarrowith_found_after {
    uint64_t place, length, time;
};

/*
 * The same as skarrowith_find_line among the lines whose first character began at t or later: times[i] is when capture[i]
 * began. With the end of the last send as t, what was left in a buffer and noise are passed over, and the first line is
 * found that this send may count. A character without a time begins no line; times beyond the capture are not looked at;
 * times may fall. Answers 0, or refuses by 18 where none begins, or 21.
 */
uint32_t skarrowith_find_line_after(const uint16_t *capture, size_t count, const uint64_t *times, size_t times_count,
                                    uint64_t t, struct skarrowith_found_after *found, size_t size);

/* The interfaces of a position: which capture has the line. */
#define SKARROWITH_MBUS 1u
#define SKARROWITH_OPTICAL 2u

/*
 * Finds the line of whichever capture of a position has one: the first accepted line of the M-Bus capture, or, only where
 * that has none, of the optical one, which is not looked at before. The line is found->length characters of the caller's own
 * capture, from found->place on. Answers SKARROWITH_MBUS or SKARROWITH_OPTICAL, or refuses by 18 where neither has one, or 21.
 */
uint32_t skarrowith_find_either(const uint16_t *mbus, size_t mbus_count, const uint16_t *optical, size_t optical_count,
                                struct skarrowith_found *found, size_t size);

/* Reads a line. Answers SKARROWITH_ACK to SKARROWITH_DATA, or refuses by 1 to 14, 16 or 21. */
uint32_t skarrowith_read_line(const uint16_t *line, size_t count, struct skarrowith_telegram *telegram, size_t size);

/*
 * Writes the line of a telegram into the first places. Answers the number of its characters, at most 89, or refuses by
 * 101, 20 (no accepted line reads as this telegram) or 21.
 */
uint32_t skarrowith_write_line(const struct skarrowith_telegram *telegram, size_t size, uint16_t *line, size_t places);

/*
 * Writes a request: SKARROWITH_READ, SKARROWITH_ENTER with its method, or SKARROWITH_LEAVE, to an address, SKARROWITH_BROADCAST
 * for all. method is 0 for a read and a leave. SKARROWITH_ACK with address and method 0 is written too. Answers the number of
 * characters, at most 10, or refuses by 20 or 21.
 */
uint32_t skarrowith_write_request(uint8_t kind, uint8_t address, uint8_t method, uint16_t *line, size_t places);

/* Writes a wake-up of 459 to 502 characters. Answers 0, or refuses by 52 or 21. */
uint32_t skarrowith_write_wake(size_t count, uint16_t *line, size_t places);

/*
 * Tests the gap between a wake-up's end and the beginning of the command after it, in bit times of 1/2400 s. Answers 0,
 * or refuses by 50 (too short) or 51 (too long).
 */
uint32_t skarrowith_gap(uint64_t ended, uint64_t begins);

/*
 * The error of indication in tenths of a percent, from the meter's counts m1, m2 and the standard's s1, s2, all in one
 * unit; where there is one standard value it is s2, and s1 is 0. places is the number of int64_t lent, 1 or more.
 * Answers 0, or refuses by 21, 60, 61 or 62.
 */
uint32_t skarrowith_error(uint64_t m1, uint64_t m2, uint64_t s1, uint64_t s2, int64_t *tenths, size_t places);

/*
 * From a serial port
 *
 * With PARENB, INPCK and PARMRK set and IGNPAR, IGNBRK, BRKINT, ISTRIP and PARODD clear (termios(3)), at CS8, a port passes on a
 * byte that came with right parity as itself, but FF as FF FF, and one that came with wrong parity as FF 00 and the byte.
 */

/*
 * Makes characters of such bytes, with the parity bit as it was received: without a mark it is the one that makes the nine
 * bits even, with one the other. A break is passed on as FF 00 00 and reads as 100 hex, a byte 00 with wrong parity. FF before
 * any other byte than 00 and FF is no mark: it reads as 1FF hex, FF with wrong parity, and the byte behind it by itself. So no
 * line is accepted that has one of these in it. A framing error is marked too, and reads as wrong parity.
 *
 * bytes, len:         as they were read.
 * characters, places: takes the characters, in the first places. With as many places as bytes there is always room.
 * used, made:         take how many bytes were used and how many characters made; not null.
 *
 * What is left unused is the beginning of a mark, FF or FF 00 at the end, or what there was no room for: lend it again, in front
 * of what is read next. Any bytes get a result: answers 0, and cannot refuse.
 */
uint32_t skarrowith_unmark(const uint8_t *bytes, size_t len, uint16_t *characters, size_t places, size_t *used, size_t *made);

/*
 * The resistance box
 *
 * The Pt1000 resistance that stands for a probe at a temperature of 0 to 200 degrees Celsius, by IEC 60751: rounded to
 * milliohm at whole degrees, and between them on the straight line. milliohm and hundredths are not null.
 */

/* The highest temperature, in hundredths of a degree Celsius. */
#define SKARROWITH_HUNDREDTHS_MOST 20000u

/* The resistance in milliohm for a temperature in hundredths of a degree. Answers 0, or refuses by 90 (over 20,000). */
uint32_t skarrowith_resistance(uint32_t hundredths, uint32_t *milliohm);

/*
 * The other way round: the highest temperature, in hundredths of a degree, whose resistance is not above this one. Answers
 * 0, or refuses by 91 (under 1,000,000 milliohm, that of 0 degrees, or over 1,758,560, that of 200).
 */
uint32_t skarrowith_temperature(uint32_t milliohm, uint32_t *hundredths);

/*
 * CJ/T 188
 *
 * The other protocol of a bench, for the meters that speak it: the caller knows which one a position has, and calls these
 * functions for it. A line is 68, the type, seven bytes of address, control, length, data, the sum from 68 on, 16. Up to five
 * FE bytes in front of a line that is read are skipped; none are written. Characters are as in Lines, above.
 *
 * Refusals of a line after 1 to 3, the lowest that applies: 80 no such frame, more than five FE bytes in front, or a length
 * that is not 03 or 2E; 81 sum; 82 a type or an address that is none, broadcast in an answer included; 83 data marked other
 * than 1F 90, or a control byte that is not that length's; 84 a digit over nine, or a date or time of day that does not exist;
 * 85 a unit code that this value does not have.
 */

/* The two telegrams: what checking and reading answer for a line that is accepted. */
#define SKARROWITH_CJT_REQUEST 1u
#define SKARROWITH_CJT_ANSWER 2u

/* The most characters of a line that is written: those of an answer. A request has 16. */
#define SKARROWITH_CJT_LINE_MOST 59u

/* The unit codes. Cold and heat have one of the first nine. */
#define SKARROWITH_CJT_WH 0x02
#define SKARROWITH_CJT_KWH 0x05
#define SKARROWITH_CJT_MWH 0x08
#define SKARROWITH_CJT_100_MWH 0x0A
#define SKARROWITH_CJT_J 0x01
#define SKARROWITH_CJT_KJ 0x0B
#define SKARROWITH_CJT_MJ 0x0E
#define SKARROWITH_CJT_GJ 0x11
#define SKARROWITH_CJT_100_GJ 0x13
/* Power. */
#define SKARROWITH_CJT_W 0x14
#define SKARROWITH_CJT_KW 0x17
#define SKARROWITH_CJT_MW 0x1A
/* Volume, in litres and in cubic metres. */
#define SKARROWITH_CJT_L 0x29
#define SKARROWITH_CJT_M3 0x2C
/* Flow, these in an hour. */
#define SKARROWITH_CJT_L_H 0x32
#define SKARROWITH_CJT_M3_H 0x35

/* A value of eight digits, as a count of its last one, and the code of its unit. */
struct skarrowith_cjt_value {
    uint32_t count;
    uint8_t code, zero[3];
};

/* The meter's clock: a Gregorian date of the years 0 to 9999, and a time of day. */
struct skarrowith_cjt_clock {
    uint16_t year;
    uint8_t month, day, hour, minute, second, zero;
};

/*
 * A telegram, 80 bytes. kind is SKARROWITH_CJT_REQUEST or SKARROWITH_CJT_ANSWER; type is the meter's, 20 to 23 or 25 to 27
 * hex; serial is any byte. address is the fourteen digits as a number: 78 56 34 12 00 11 11 on the line is 11110012345678. A
 * request to all meters has broadcast 1 and address 0.
 *
 * The rest is an answer's, and 0 in a request. The last digit of cold, heat, power and volume is a hundredth of the unit, that
 * of flow a ten thousandth; inlet and outlet are in hundredths of a degree Celsius, hours in hours. state is the two state
 * bytes with all their bits, reserved ones included, as the meter sends them.
 */
struct skarrowith_cjt_telegram {
    uint8_t kind, type, serial, broadcast;
    uint8_t state[2], zero[2];
    uint64_t address;
    struct skarrowith_cjt_value cold, heat, power, flow, volume;
    uint32_t inlet, outlet, hours, zero_too;
    struct skarrowith_cjt_clock clock;
};

/*
 * Checks a line that was received: bytes, two for each character, as skarrowith_check_line is handed them. Answers
 * SKARROWITH_CJT_REQUEST or SKARROWITH_CJT_ANSWER, or refuses by 17, 1 to 3 or 80 to 85.
 */
uint32_t skarrowith_cjt_check_line(const uint8_t *bytes, size_t len);

/* Reads a line. Answers SKARROWITH_CJT_REQUEST or SKARROWITH_CJT_ANSWER, or refuses by 1 to 3, 80 to 85, and then 21. */
uint32_t skarrowith_cjt_read_line(const uint16_t *line, size_t count, struct skarrowith_cjt_telegram *telegram, size_t size);

/*
 * Writes the line of a telegram, without FE bytes, into the first places. Answers the number of its characters, 16 or 59, or
 * refuses by 101, 20 (no accepted line reads as this telegram) or 21.
 */
uint32_t skarrowith_cjt_write_line(const struct skarrowith_cjt_telegram *telegram, size_t size, uint16_t *line, size_t places);

/*
 * Turns cold or heat, or an energy of the caller's own, into an M-Bus entry of structure 0E: Wh kinds to Wh, J kinds to J, with
 * the same exact value, and the unit byte whose power of ten is nearest to that of the last digit. Answers 0, or refuses by 21,
 * 84 (a count over 99,999,999), 85 (no code of energy) or 86 (J whose two decimals are not both 0: no unit byte has them).
 */
uint32_t skarrowith_cjt_energy_entry(uint32_t count, uint8_t code, struct skarrowith_entry *entry, size_t size);

/*
 * The exchange
 *
 * One request, at most three sends of it, and how it ends. One record serves for one exchange after another.
 */

/* How an exchange stands: what every step of it answers. */
#define SKARROWITH_WAITING 1u
#define SKARROWITH_RESEND 2u
#define SKARROWITH_WELL 3u
#define SKARROWITH_FAILED 4u

/* Why a send failed: no line in time, a refused line, an accepted line that does not fit. */
#define SKARROWITH_SILENT 1
#define SKARROWITH_DAMAGED 2
#define SKARROWITH_WRONG_KIND 3

/*
 * An exchange, 24 bytes, to be read and not to be changed. All zeros, as in `struct skarrowith_exchange x = {0}`, is none:
 * so a host begins. Else kind, address and method are the request's, method 0 but for an enter; cause is 0 while waiting and
 * after ending well; began is the end of the last send and last the time of the last step.
 *
 * Bytes that no steps give are refused by 101. What they are asked for: kind is 2, 3 or 4, state and cause are numbers above,
 * sends is 1 to 3; last is not before began, and more than 450 after it exactly where the cause is silence; a resend is asked
 * for before the third send, and failed is the third.
 */
struct skarrowith_exchange {
    uint8_t kind, address, method, state, cause, sends;
    uint8_t zero[2];
    uint64_t began, last;
};

/*
 * Times are counted in bit times of 1/2400 s and must not go back from step to step of one exchange (40). A step that the
 * state does not call for, and a line or a tick where there is none, is refused by 41. Every step answers the state,
 * SKARROWITH_WAITING to SKARROWITH_FAILED, or refuses.
 *
 * send_ended: a send has ended at t. Where there is no exchange, or one that has ended, it begins an exchange of that
 *             request, whatever the last one's time; 42 for a kind that is no request. Where a resend is asked for
 *             (SKARROWITH_RESEND) it is the next send; 43 if it is not the request that the exchange was begun with. While
 *             one is waiting no send is called for, whatever it is. method is looked at for an enter only, and may be any
 *             byte there: whether the request can be written is for skarrowith_write_request to say. Refuses by 101, 40,
 *             41, 42 or 43.
 * heard:      a line was heard that began at t. If the exchange then stands SKARROWITH_WELL, its telegram has been written
 *             to reply; if not, reply is as it was. Refuses by 101, 21 (reply), 40 or 41.
 * tick:       no line has begun up to t; more than 450 after the send that is silence. Do not tick past the window while a
 *             line that began inside it is still coming in: first hear it, with the time at which it began. Refuses by 101,
 *             40 or 41.
 */
uint32_t skarrowith_exchange_send_ended(
    struct skarrowith_exchange *exchange, size_t size, uint8_t kind, uint8_t address, uint8_t method, uint64_t t);
uint32_t skarrowith_exchange_heard(struct skarrowith_exchange *exchange, size_t size, const uint16_t *line, size_t count,
    uint64_t t, struct skarrowith_telegram *reply, size_t reply_size);
uint32_t skarrowith_exchange_tick(struct skarrowith_exchange *exchange, size_t size, uint64_t t);

/*
 * The simulated meter
 */

/* A meter's answer where it says nothing. */
#define SKARROWITH_SILENCE 0u

/* A pair of totals, each a count of the last digit that the data template gives it. */
struct skarrowith_pair {
    uint64_t volume, energy;
};

/*
 * A simulated meter, 192 bytes, to be read and not to be changed: a record to which no set-up and history of steps leads
 * is refused by 101. last is the time of the last step, 0 before the first; address is the meter's own. mode is 0 in use
 * and 1 in verification; method and since, the time of the last instruction, are 0 in use. used is the pair of totals in
 * use, verified the one in verification. data is the template as it was given at set-up, but for the access number, which
 * goes up with every read that is answered: data.address is the template's and plays no part, and the totals in its entries
 * are those at set-up. An answer has address, and the totals in force, in their place.
 */
struct skarrowith_meter {
    uint64_t last;
    uint8_t address, mode, method;
    uint8_t zero[5];
    uint64_t since;
    struct skarrowith_pair used, verified;
    struct skarrowith_telegram data;
};

/*
 * Times are counted in bit times of 1/2400 s and must not go back from step to step (70); the first step may carry any.
 * Each step first returns a meter to use that is in verification and has had no instruction for 4,320,000.
 *
 * set_up:  a meter in use, with its own address and a data template, whose address is kept and ignored and whose energy, in
 *          Wh or J, and volume have structure 0C; its other entries may be binary. Answers 0, or refuses by 101 (the
 *          template), 21 (the meter) or 72.
 * heard:   a line was heard at t. Answers SKARROWITH_SILENCE, SKARROWITH_ACK or SKARROWITH_DATA; then the answer's telegram has
 *          been written to answer, which silence leaves as it was. Refuses by 101 (the meter), 21 (answer) or 70.
 * measure: adds to the totals in force, as counts of the template's last digits. Answers 0, or refuses by 101, 70 or 71
 *          (a total would pass 99,999,999).
 */
uint32_t skarrowith_meter_set_up(struct skarrowith_meter *meter, size_t size, uint8_t address,
    const struct skarrowith_telegram *data, size_t data_size);
uint32_t skarrowith_meter_heard(struct skarrowith_meter *meter, size_t size, const uint16_t *line, size_t count,
    uint64_t t, struct skarrowith_telegram *answer, size_t answer_size);
uint32_t skarrowith_meter_measure(
    struct skarrowith_meter *meter, size_t size, uint64_t volume, uint64_t energy, uint64_t t);

/*
 * The run bundle
 *
 * These functions answer 0 when they are done. A bundle is at most 65,536 bytes. Rows count from 0.
 *
 * Refusals of a bundle, lowest first over the whole: 30 too long; 31 under two bytes; 32 count over 512; 33 contents cut;
 * 34 a position, direction or length out of its range, or a time below the row before; 35 an offset wrong or a body past
 * the end; 36 bytes left over; 37 a character over 511.
 */

/* One row. Its body is the `length` bytes from `offset` on of the bundle that was lent, two for each character. */
struct skarrowith_row {
    uint32_t time;     /* the start of its first character, in bit times */
    uint32_t offset;
    uint16_t length;   /* even, 2 to 1,004 */
    uint8_t position;  /* 1 to 48 */
    uint8_t direction; /* SKARROWITH_SENT or SKARROWITH_HEARD */
};

#define SKARROWITH_SENT 0u
#define SKARROWITH_HEARD 1u

/* The most bytes of a bundle, and of a listing. */
#define SKARROWITH_BUNDLE_MOST 65536u
#define SKARROWITH_LISTING_MOST 15901u

/*
 * Checks a bundle.
 *
 * bundle, len: its bytes.
 * rows:        takes the count of rows, 0 to 512; not null.
 *
 * Refuses by 30 to 37.
 */
uint32_t skarrowith_bundle_check(const uint8_t *bundle, size_t len, size_t *rows);

/*
 * Reads one row. To hand on its body is to hand on bundle + row->offset with row->length bytes: nothing is copied.
 *
 * i:         which row; the first is 0.
 * row, size: takes the row; size is sizeof(struct skarrowith_row).
 *
 * Refuses by 21, by 30 to 37, and by 39 if there is no such row. The whole bundle is checked at each call.
 */
uint32_t skarrowith_bundle_row(const uint8_t *bundle, size_t len, size_t i, struct skarrowith_row *row, size_t size);

/*
 * The contents of a bundle kept in columns, for who looks rows up often: 6,152 bytes. Place i of each list is row i; the
 * places past the count are 0.
 */
struct skarrowith_contents {
    uint64_t count; /* of rows, 0 to 512 */
    uint8_t positions[512];
    uint8_t directions[512];
    uint32_t times[512];
    uint32_t offsets[512];
    uint16_t lengths[512];
};

/*
 * Turns the contents of a bundle into columns.
 *
 * contents, size: takes the columns; size is sizeof(struct skarrowith_contents).
 *
 * Refuses by 21, and by 30 to 37 as the check does.
 */
uint32_t skarrowith_contents_of(const uint8_t *bundle, size_t len, struct skarrowith_contents *contents, size_t size);

/*
 * Reads row i from columns, as skarrowith_bundle_row reads it from their bundle, without a check of the bundle. Columns may
 * be of the caller's own making: only the count is asked about, and the row is answered as it stands.
 *
 * Refuses by 101 if size is another or the count is over 512, by 21, and by 39 if there is no such row.
 */
uint32_t skarrowith_contents_row(const struct skarrowith_contents *contents, size_t size, size_t i,
                                 struct skarrowith_row *row, size_t row_size);

/*
 * Finds the next row of a position: the first from row `from` on. To go on behind it, ask from *i + 1.
 *
 * i: takes the row's number; not null.
 *
 * Refuses by 101 if size is another or the count is over 512, and by 39 if there is none.
 */
uint32_t skarrowith_contents_next(const struct skarrowith_contents *contents, size_t size, uint8_t position, size_t from,
                                  size_t *i);

/*
 * Adds a row, last, to the bundle that fills the first bytes of a buffer; the bodies move by 12 and the bytes past the new
 * end stay. An empty bundle to begin with is two bytes of 0.
 *
 * buffer, len: all bytes of the buffer.
 * filled:      how many of them the bundle fills; takes how many it then fills; not null.
 * position, direction, time: those of the new row; no time is below the last row's.
 * body, body_len: its characters, two bytes each, low byte first.
 *
 * Refuses by 30 if the bundle fills more than the buffer has, and by 30 to 37 if the check refuses the old bundle; then for
 * the new row by 34 and 37; then by 38 if there are 512 rows, or the new bundle exceeds the buffer or 65,536 bytes.
 */
uint32_t skarrowith_bundle_add(uint8_t *buffer, size_t len, size_t *filled, uint8_t position, uint8_t direction,
                               uint32_t time, const uint8_t *body, size_t body_len);

/*
 * Inserts a row at its place in time: behind the last row whose time is not above its own, so that a line which is known
 * later than another that began after it need not be held back. Where no row is later it is what adding does; rows of
 * distinct times may be inserted in any order and give one and the same bundle. The bytes past the new end stay.
 *
 * buffer, len: all bytes of the buffer.
 * filled:      how many of them the bundle fills; takes how many it then fills; not null.
 * position, direction, time: those of the new row; any time.
 * body, body_len: its characters, two bytes each, low byte first.
 *
 * Refuses as adding does, but no time is a reason for 34.
 */
uint32_t skarrowith_bundle_insert(uint8_t *buffer, size_t len, size_t *filled, uint8_t position, uint8_t direction,
                                  uint32_t time, const uint8_t *body, size_t body_len);

/*
 * Sweeps the bundle that fills the first bytes of a buffer, so that adding has room again: the wake rows go, sent or heard,
 * and the rows of one position. The others stay in order with their bodies and times, and the bytes past the new end stay.
 *
 * buffer, len: all bytes of the buffer.
 * filled:      how many of them the bundle fills; takes how many it then fills; not null.
 * position:    the one whose rows go, 1 to 48; 0 names none.
 *
 * Refuses by 30 if the bundle fills more than the buffer has, and by 30 to 37 if the check refuses it; then by 34 if the
 * position is over 48.
 */
uint32_t skarrowith_bundle_sweep(uint8_t *buffer, size_t len, size_t *filled, uint8_t position);

/* What became of a damaged bundle: 32 bytes. */
struct skarrowith_salvaged {
    uint64_t kept;    /* rows */
    uint64_t dropped; /* rows */
    uint64_t rule;    /* the lowest of 34, 35 and 37 that the first dropped row breaks; 36 or 0 where all are kept */
    uint64_t filled;  /* the bytes of the new bundle */
};

/*
 * Salvages a bundle that was cut short or damaged behind its contents: the largest number of leading rows that each keep
 * the rules 34, 35 and 37 are written into a second buffer as a bundle of their own, with new offsets. Where a body begins is
 * judged by the damaged bundle's own count of rows: where that count is itself damaged, no row is kept.
 *
 * damaged, len: its bytes; they are not changed.
 * out, out_len: takes the new bundle in its first bytes, and keeps what it has beyond.
 * told, size:   takes what became of it; size is sizeof(struct skarrowith_salvaged). 36 is told where all rows are kept and
 *               bytes are left over behind the last body.
 *
 * Refuses by 21, by 30 to 33 as the check does, and by 38 if the new bundle exceeds the second buffer.
 */
uint32_t skarrowith_bundle_salvage(const uint8_t *damaged, size_t len, uint8_t *out, size_t out_len,
                                   struct skarrowith_salvaged *told, size_t size);

/*
 * Writes the rows of one position into a second buffer as a bundle of their own, in order with their bodies and times.
 * Verdicts, replay and listing of the position are the same there.
 *
 * bundle, len:  its bytes; they are not changed.
 * position:     1 to 48. A position without rows gives an empty bundle.
 * out, out_len: takes the new bundle in its first bytes, and keeps what it has beyond; as many bytes as the bundle has are
 *               always enough. It may not overlap the bundle.
 * filled:       takes how many bytes the new bundle fills; not null.
 *
 * Refuses by 30 to 37 as the check does, then by 34 if the position is none, then by 38 if the new bundle exceeds the second
 * buffer.
 */
uint32_t skarrowith_bundle_of_position(const uint8_t *bundle, size_t len, uint8_t position, uint8_t *out, size_t out_len,
                                       size_t *filled);

/*
 * Joins two bundles: the rows of both by time, of equal times those of a first, with their bodies, as one bundle in a third
 * buffer. The bundles of all positions joined again hold the same rows.
 *
 * a, a_len, b, b_len: their bytes; they are not changed.
 * out, out_len:       takes the new bundle in its first bytes, and keeps what it has beyond: a_len + b_len - 2 bytes. It may
 *                     not overlap either bundle.
 * filled:             takes how many bytes the new bundle fills; not null.
 *
 * Refuses by 30 to 37 as the check does of a, then of b, then by 38 if the new bundle has over 512 rows or 65,536 bytes, or
 * exceeds the third buffer.
 */
uint32_t skarrowith_bundle_join(const uint8_t *a, size_t a_len, const uint8_t *b, size_t b_len, uint8_t *out,
                                size_t out_len, size_t *filled);

/*
 * Lists a bundle as text: a line "position,direction,time,line" and a line for each row, such as "7,heard,0,ack". A bundle
 * that is refused is listed as a line "refused 31", with its number; that is an answer and no refusal of this function.
 *
 * out, out_len: takes the text in its first bytes, and nothing beyond. SKARROWITH_LISTING_MOST bytes are always enough.
 * written:      takes how many bytes the text has, and is not null; no zero byte ends it.
 *
 * Refuses by 21 if there are fewer bytes than the text has. It takes 28,000 bytes of stack.
 */
uint32_t skarrowith_bundle_list(const uint8_t *bundle, size_t len, uint8_t *out, size_t out_len, size_t *written);

/*
 * The real-time method (92), from the record: replays a bundle for one position and gives the error in tenths of a percent,
 * from the first and the last answer that count, the meter's times in them, and what the standard measured meanwhile.
 *
 * Only rows of the position are looked at, and wake-ups of either direction are passed over. A heard row counts if the last
 * row sent before it is an accepted read, it is the first row heard since that begins at or after the end of that send (11
 * bit times a character), it begins at most 450 after that end, and it is data that fits the read.
 *
 * position: 1 to 48.
 * s1, s2:   the standard's volumes in millilitres.
 * elapsed:  the standard's time between them in milliseconds.
 * tenths, places: takes the error; places is the number of int64_t lent, 1 or more.
 *
 * Answers 0, or refuses by 21; by 30 to 37 as the check does; then by 34 for a position outside 1 to 48, 63 if fewer than
 * two answers count, 64 if one of the four volumes is over 10^9 ml, 65 if one of the two intervals is 0, less, or over
 * 1,800,000 ms, 61 if the meter's volume falls, 62 if the standard's does not rise.
 */
uint32_t skarrowith_replay_error(const uint8_t *bundle, size_t len, uint8_t position, uint64_t s1, uint64_t s2,
                                 uint64_t elapsed, int64_t *tenths, size_t places);

/*
 * What became of a row of a run. A row sent is a wake-up, the first send of an exchange, a resend, or refused: by the number
 * of its line's refusal, or by 42 where it is an ack or data. A row heard is a wake-up, or it counts, or is left over (it
 * began before the end of the last send), late (more than 450 after that end), second (behind the one that decided, late or
 * not), damaged by the number of its line's refusal, of the wrong kind, or was not asked for (the last row sent is no accepted
 * request, or there is none: so it is too if it began before the end of a send that is refused). Only rows of its own position matter for a row, and wake-ups are as if they were not there.
 *
 * A resend is the request of the send before it, if that was the first or second of its exchange and has failed: by the line
 * that decided it, or by more than 450 bit times without one when this row begins. Every other request begins an exchange.
 */
struct skarrowith_row_verdict {
    uint16_t verdict; /* one of those below */
    uint16_t number;  /* of the refusal, for SKARROWITH_VERDICT_REFUSED and SKARROWITH_VERDICT_DAMAGED; else 0 */
};

#define SKARROWITH_VERDICT_WAKE 1u
#define SKARROWITH_VERDICT_FIRST_SEND 2u
#define SKARROWITH_VERDICT_RESEND 3u
#define SKARROWITH_VERDICT_REFUSED 4u
#define SKARROWITH_VERDICT_COUNTS 5u
#define SKARROWITH_VERDICT_LEFT_OVER 6u
#define SKARROWITH_VERDICT_LATE 7u
#define SKARROWITH_VERDICT_SECOND 8u
#define SKARROWITH_VERDICT_DAMAGED 9u
#define SKARROWITH_VERDICT_WRONG_KIND 10u
#define SKARROWITH_VERDICT_UNASKED 11u

/*
 * Tells the verdict of row i. Who wants those of many rows asks for all: one call costs the same.
 *
 * verdict, size: takes the verdict; size is sizeof(struct skarrowith_row_verdict).
 *
 * Refuses by 21, by 30 to 37 as the check does, and by 39 if there is no such row.
 */
uint32_t skarrowith_verdict(const uint8_t *bundle, size_t len, size_t i, struct skarrowith_row_verdict *verdict,
                            size_t size);

/*
 * Tells the verdicts of all rows, in one walk.
 *
 * verdicts, size: takes a verdict for each row, in their order, and keeps what it has beyond; size is in bytes, so
 *                 512 * sizeof(struct skarrowith_row_verdict) is always enough.
 * count:          takes how many there are; not null.
 *
 * Refuses by 30 to 37 as the check does, then by 21 if there is no room for all. It takes 11,000 bytes of stack.
 */
uint32_t skarrowith_verdicts(const uint8_t *bundle, size_t len, struct skarrowith_row_verdict *verdicts, size_t size,
                             size_t *count);

/*
 * The same of columns and the bundle that their bodies lie in, without a check of the bundle. Columns may be of the caller's
 * own making, a choice of rows, say: their bodies may lie anywhere in the bundle, which may have more than 65,536 bytes, and a
 * line with a character over 511 is refused by 2.
 *
 * Refuses by 101 if contents_size is another or the count is over 512; then for the rows by 34 as for a bundle's, and by 35
 * if a body lies past the end of the bundle; then by 21.
 */
uint32_t skarrowith_contents_verdicts(const struct skarrowith_contents *contents, size_t contents_size,
                                      const uint8_t *bundle, size_t len, struct skarrowith_row_verdict *verdicts,
                                      size_t size, size_t *count);

/*
 * Finds rows that repeat a reading: two positions, or two times of one position, that gave the same meter number and the
 * same entries, in the same order. So one finds an answer that was taken twice, and a meter that answers in another's place. The rest of the
 * header, which a meter changes by itself, is not compared; nor are position and time, or whether a row counts.
 *
 * rows, places: place i takes 0, or 1 + the number of the lowest row before row i that was heard and is data with the meter
 *               number and the entries of row i, which is such a row too; places is the number of uint16_t lent, of which
 *               512 are always enough. Places past the count of rows stay.
 * count:        takes the count of rows, 0 to 512; not null.
 *
 * Answers 0, or refuses by 30 to 37 as the check does, and then by 21 if there are fewer places than rows.
 */
uint32_t skarrowith_repeats(const uint8_t *bundle, size_t len, uint16_t *rows, size_t places, size_t *count);

/* Bytes that are always enough for a picture. */
#define SKARROWITH_PICTURE_MOST 262144u

/*
 * Draws a bundle as an SVG picture, which opens in any browser: time to the right, a lane for each position that has rows,
 * each row a box as long as its line took, in the colour of its verdict, the reply window behind each first send and each
 * resend (a send that is refused has none), and in words what the row is where the pointer rests on it. A pause is cut short:
 * where a row begins 360 or more after the latest end so far, of a line with the 450 behind it, whole tenths of a second are
 * left out between, so that 120 to 359 stay; what is before the first row is such a pause, from time 0.
 *
 * out, out_len: takes the text in its first bytes, and nothing beyond. SKARROWITH_PICTURE_MOST bytes are always enough.
 * written:      takes how many bytes the text has, and is not null; no zero byte ends it.
 *
 * Refuses by 30 to 37 as the check does, then by 21 if there are fewer bytes than the text has. It takes 27,000 bytes of
 * stack.
 */
uint32_t skarrowith_picture(const uint8_t *bundle, size_t len, uint8_t *out, size_t out_len, size_t *written);

#ifdef __cplusplus
}
#endif

#endif
