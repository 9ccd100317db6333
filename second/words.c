/*
 * The words of document 01's refusal table, and 02's, in ASCII. A row for several numbers is taken apart at its semicolons;
 * those of the bundle say so first, as the other rows say whose they are. 21 is said of every output, a record's too.
 * 100 and 101 are the library's own (include/skarrowith.h).
 */
#include "words.h"

#include <stddef.h>

const char *second_words(unsigned long number)
{
    static const char *const words[] = {
        [1] = "the line is empty",
        [2] = "a character is over 511",
        [3] = "a parity is odd",
        [4] = "first byte not E5, 10 or 68",
        [5] = "count not 1 after E5, not 5 after 10, under 6 or not second byte + 6 after 68",
        [6] = "second and third byte differ, or fourth is not 68",
        [7] = "read, enter, leave or data shape does not end in 16",
        [8] = "checksum wrong",
        [9] = "short form: C not 5B. Long form: neither L = 4 with C 53, CI 50 and an S above, nor L >= 15 with C 08 and CI 72",
        [10] = "header rule broken",
        [11] = "one byte left, unknown structure or unit, wrong pair, or value past the end",
        [12] = "a BCD digit over 9 in an entry, or a negative value where none is allowed",
        [13] = "time rule broken",
        [14] = "quantity already seen",
        [16] = "a required quantity missing",
        [17] = "host form only, before 1: odd number of bytes",
        [18] = "search: no accepted line begins anywhere",
        [20] = "writer: no accepted line reads as this telegram",
        [21] = "output: fewer places, or bytes of a record, than needed",
        [30] = "bundle: too long",
        [31] = "bundle: under two bytes",
        [32] = "bundle: count over 512",
        [33] = "bundle: contents cut",
        [34] = "bundle: a position, direction or length out of its range, or a time below the row before",
        [35] = "bundle: an offset wrong or a body past the end",
        [36] = "bundle: bytes left over",
        [37] = "bundle: a character over 511",
        [38] = "bundle: adding: 512 rows, or the new bundle exceeds the buffer or 65,536",
        [39] = "bundle: no such row",
        [40] = "exchange: time earlier than the last step's",
        [41] = "exchange: step not called for in this state",
        [42] = "start with ack or data",
        [43] = "a different request at a resend",
        [50] = "command begins less than 33 after the wake-up's end, or before it",
        [51] = "command begins more than 330 after the wake-up's end",
        [52] = "wake-up count outside 459-502",
        [60] = "a count over 10^12",
        [61] = "meter count falls",
        [62] = "standard's count does not rise",
        [63] = "replay: fewer than two answers",
        [64] = "replay: any of the four volumes over 10^9 ml",
        [65] = "replay: either interval not above 0 or over 1,800,000 ms",
        [70] = "meter: time goes back",
        [71] = "meter: a total would pass 99,999,999",
        [72] = "meter: set up with data the writer refuses, or energy or volume not in structure 0C",
        [80] = "CJ/T 188: frame shape, or length not 03 or 2E",
        [81] = "CJ/T 188: sum",
        [82] = "CJ/T 188: type or address, AA with 2E included",
        [83] = "CJ/T 188: data mark, or control not that length's",
        [84] = "CJ/T 188: digits or clock",
        [85] = "CJ/T 188: unit",
        [86] = "CJ/T 188: conversion not exact",
        [90] = "temperature over 20,000 hundredths",
        [91] = "resistance below the first or above the last",
        [100] = "no words for this number",
        [101] = "no record: another size, kind or sort, a byte that must be 0, or a state to which no steps lead",
    };
    return number < sizeof words / sizeof words[0] ? words[number] : NULL;
}
