/* Calls the bundle's functions as a bench host does: 01's example, each refusal 30 to 39, and lent memory after each. */
#include "skarrowith.h"

#include <stdio.h>
#include <string.h>

/* Document 01's example: position 7, heard, time 0, an ack. */
static const uint8_t example[16] = {1, 0, 7, 1, 0, 0, 0, 0, 14, 0, 0, 0, 2, 0, 0xE5, 1};
static const uint8_t ack[2] = {0xE5, 1};
static const char listed[] = "position,direction,time,line\n7,heard,0,ack\n";

/* All that is lent for writing, and what it was before a call. */
static struct lent {
    size_t number;
    struct skarrowith_row row;
    uint8_t bytes[SKARROWITH_BUNDLE_MOST + 64];
} lent, before;

static unsigned long right, wrong;

static void expect(const char *name, uint32_t got, uint32_t answer)
{
    if (got == answer) {
        right++;
        return;
    }
    printf("bundle test: %s: %lu, and not %lu\n", name, (unsigned long)got, (unsigned long)answer);
    wrong++;
}

static void remember(void)
{
    memcpy(&before, &lent, sizeof lent);
}

/* The answer is a refusal, and all that was lent is as it was. */
static void refused(const char *name, uint32_t got, unsigned number)
{
    expect(name, got, SKARROWITH_REFUSED + number);
    expect("lent memory after a refusal", memcmp(&before, &lent, sizeof lent) != 0, 0);
}

static uint32_t row_at(const uint8_t *bundle, size_t len, size_t i)
{
    return skarrowith_bundle_row(bundle, len, i, &lent.row, sizeof lent.row);
}

static uint32_t row_of_size(const uint8_t *bundle, size_t len, size_t size)
{
    return skarrowith_bundle_row(bundle, len, 0, &lent.row, size);
}

static uint32_t add(size_t room, uint8_t direction, uint32_t time, const uint8_t *body, size_t n)
{
    return skarrowith_bundle_add(lent.bytes, room, &lent.number, 7, direction, time, body, n);
}

static uint32_t add_ack(size_t room, uint8_t position, uint32_t time)
{
    return skarrowith_bundle_add(lent.bytes, room, &lent.number, position, SKARROWITH_HEARD, time, ack, sizeof ack);
}

static void begin(const uint8_t *bundle, size_t len)
{
    memset(&lent, 0xA5, sizeof lent);
    memcpy(lent.bytes, bundle, len);
    lent.number = len;
    remember();
}

/* A bundle that is refused is refused by every function but the listing, which says so. */
static void refused_bundle(const char *name, unsigned number, const uint8_t *bundle, size_t len)
{
    char text[16];
    int size = sprintf(text, "refused %u\n", number);
    begin(bundle, len);
    refused(name, skarrowith_bundle_check(bundle, len, &lent.number), number);
    refused(name, row_at(bundle, len, 0), number);
    refused(name, row_at(bundle, len, 600), number);
    refused(name, add_ack(sizeof lent.bytes, 0, 0), number);
    refused(name, skarrowith_bundle_sweep(lent.bytes, sizeof lent.bytes, &lent.number, 49), number);
    refused(name, skarrowith_bundle_of_position(bundle, len, 49, lent.bytes, 0, &lent.number), number);
    refused(name, skarrowith_bundle_join(bundle, len, bundle, 0, lent.bytes, 0, &lent.number), number);
    refused(name, skarrowith_bundle_join(example, sizeof example, bundle, len, lent.bytes, 0, &lent.number), number);
    expect(name, skarrowith_bundle_list(bundle, len, lent.bytes, sizeof lent.bytes, &lent.number), 0);
    expect("its text's length", (uint32_t)lent.number, (uint32_t)size);
    expect("its text", memcmp(lent.bytes, text, (size_t)size) != 0, 0);
    expect("nothing beyond", memcmp(lent.bytes + size, before.bytes + size, sizeof lent.bytes - (size_t)size) != 0, 0);
}

static void test_example(void)
{
    struct skarrowith_row same = {0, 14, 2, 7, SKARROWITH_HEARD};
    size_t size = sizeof listed - 1;
    begin(example, sizeof example);
    expect("the example", skarrowith_bundle_check(example, sizeof example, &lent.number), 0);
    expect("its count of rows", (uint32_t)lent.number, 1);
    expect("its row", row_at(example, sizeof example, 0), 0);
    expect("its fields", memcmp(&lent.row, &same, sizeof same) != 0, 0);
    expect("its body", memcmp(example + lent.row.offset, ack, lent.row.length) != 0, 0);
    remember();
    refused("no second row", row_at(example, sizeof example, 1), SKARROWITH_BUNDLE_NO_SUCH_ROW);
    refused("no last row", row_at(example, sizeof example, SIZE_MAX), SKARROWITH_BUNDLE_NO_SUCH_ROW);
    refused("a byte short", row_of_size(example, sizeof example, sizeof lent.row - 1), SKARROWITH_TOO_FEW_PLACES);
    refused("the room before the bundle", row_of_size(example, 1, 0), SKARROWITH_TOO_FEW_PLACES);
    refused("a place too few", skarrowith_bundle_list(example, sizeof example, lent.bytes, size - 1, &lent.number), SKARROWITH_TOO_FEW_PLACES);
    refused("no place", skarrowith_bundle_list(example, sizeof example, NULL, 0, &lent.number), SKARROWITH_TOO_FEW_PLACES);
    expect("its listing", skarrowith_bundle_list(example, sizeof example, lent.bytes, size, &lent.number), 0);
    expect("its length", (uint32_t)lent.number, (uint32_t)size);
    expect("its text", memcmp(lent.bytes, listed, size) != 0, 0);
    expect("nothing beyond", memcmp(lent.bytes + size, before.bytes + size, sizeof lent.bytes - size) != 0, 0);
}

/* The example's columns, and columns of the host's own making. */
static void test_contents(void)
{
    static struct skarrowith_contents contents, blank;
    struct skarrowith_row same = {0, 14, 2, 7, SKARROWITH_HEARD};
    size_t size = sizeof contents;
    expect("the columns' size", (uint32_t)size, 6152);
    begin(example, sizeof example);
    refused("no room for the columns", skarrowith_contents_of(example, sizeof example, &contents, size - 1), SKARROWITH_TOO_FEW_PLACES);
    refused("no bundle", skarrowith_contents_of(example, 1, &contents, size), SKARROWITH_BUNDLE_TOO_SHORT);
    expect("columns as they were", memcmp(&contents, &blank, size) != 0, 0);
    expect("the example's columns", skarrowith_contents_of(example, sizeof example, &contents, size), 0);
    expect("their count", (uint32_t)contents.count, 1);
    expect("the position", contents.positions[0], 7);
    expect("the direction", contents.directions[0], SKARROWITH_HEARD);
    expect("the time", contents.times[0], 0);
    expect("the offset", contents.offsets[0], 14);
    expect("the length", contents.lengths[0], 2);
    expect("no second position", contents.positions[1], 0);
    expect("their row", skarrowith_contents_row(&contents, size, 0, &lent.row, sizeof lent.row), 0);
    expect("its fields", memcmp(&lent.row, &same, sizeof same) != 0, 0);
    expect("position 7", skarrowith_contents_next(&contents, size, 7, 0, &lent.number), 0);
    expect("its row's number", (uint32_t)lent.number, 0);
    remember();
    refused("no second row", skarrowith_contents_row(&contents, size, 1, &lent.row, sizeof lent.row), SKARROWITH_BUNDLE_NO_SUCH_ROW);
    refused("a byte short", skarrowith_contents_row(&contents, size, 0, &lent.row, sizeof lent.row - 1), SKARROWITH_TOO_FEW_PLACES);
    refused("no record before the room", skarrowith_contents_row(&contents, size - 1, 0, &lent.row, 0), SKARROWITH_NO_RECORD);
    refused("no second row of position 7", skarrowith_contents_next(&contents, size, 7, 1, &lent.number), SKARROWITH_BUNDLE_NO_SUCH_ROW);
    refused("no row of position 0", skarrowith_contents_next(&contents, size, 0, 0, &lent.number), SKARROWITH_BUNDLE_NO_SUCH_ROW);
    refused("from the last number", skarrowith_contents_next(&contents, size, 7, SIZE_MAX, &lent.number), SKARROWITH_BUNDLE_NO_SUCH_ROW);
    refused("columns a byte longer", skarrowith_contents_next(&contents, size + 1, 7, 0, &lent.number), SKARROWITH_NO_RECORD);
    memset(&contents, 0xFF, size);
    contents.count = 512;
    expect("512 rows of another's making", skarrowith_contents_row(&contents, size, 511, &lent.row, sizeof lent.row), 0);
    expect("as they stand", lent.row.time, 0xFFFFFFFF);
    expect("position 255", skarrowith_contents_next(&contents, size, 255, 511, &lent.number), 0);
    expect("its row's number", (uint32_t)lent.number, 511);
    contents.count = 513;
    remember();
    refused("513 rows", skarrowith_contents_row(&contents, size, 0, &lent.row, sizeof lent.row), SKARROWITH_NO_RECORD);
    refused("513 rows scanned", skarrowith_contents_next(&contents, size, 255, 0, &lent.number), SKARROWITH_NO_RECORD);
}

static void test_refusals(void)
{
    static const struct {
        const char *name;
        unsigned number;
        size_t len, at;
        uint8_t byte;
    } damaged[] = {
        {"one byte", SKARROWITH_BUNDLE_TOO_SHORT, 1, 0, 1},
        {"count 513", SKARROWITH_BUNDLE_WRONG_COUNT, 16, 1, 2},
        {"contents cut", SKARROWITH_BUNDLE_CONTENTS_CUT, 13, 0, 1},
        {"position 0", SKARROWITH_BUNDLE_WRONG_ROW, 16, 2, 0},
        {"position 49", SKARROWITH_BUNDLE_WRONG_ROW, 16, 2, 49},
        {"direction 2", SKARROWITH_BUNDLE_WRONG_ROW, 16, 3, 2},
        {"length 0", SKARROWITH_BUNDLE_WRONG_ROW, 16, 12, 0},
        {"length 3", SKARROWITH_BUNDLE_WRONG_ROW, 16, 12, 3},
        {"length 1,026", SKARROWITH_BUNDLE_WRONG_ROW, 16, 13, 4},
        {"offset 15", SKARROWITH_BUNDLE_WRONG_OFFSET, 16, 8, 15},
        {"offset 65,550", SKARROWITH_BUNDLE_WRONG_OFFSET, 16, 10, 1},
        {"a body past the end", SKARROWITH_BUNDLE_WRONG_OFFSET, 16, 12, 4},
        {"a byte left over", SKARROWITH_BUNDLE_BYTES_LEFT, 17, 16, 0},
        {"a character over 511", SKARROWITH_BUNDLE_WRONG_CHARACTER, 16, 15, 2},
    };
    static uint8_t bytes[SKARROWITH_BUNDLE_MOST + 1];
    memcpy(bytes, example, sizeof example);
    refused_bundle("65,537 bytes", SKARROWITH_BUNDLE_TOO_LONG, bytes, sizeof bytes);
    refused_bundle("65,536 bytes", SKARROWITH_BUNDLE_BYTES_LEFT, bytes, sizeof bytes - 1);
    refused_bundle("no bytes", SKARROWITH_BUNDLE_TOO_SHORT, bytes, 0);
    for (size_t i = 0; i < sizeof damaged / sizeof damaged[0]; i++) {
        memcpy(bytes, example, sizeof example);
        bytes[damaged[i].at] = damaged[i].byte;
        refused_bundle(damaged[i].name, damaged[i].number, bytes, damaged[i].len);
        bytes[damaged[i].at] = 0;
    }
    begin(bytes, 0);
    refused("no bytes at a null pointer", skarrowith_bundle_check(NULL, 0, &lent.number), SKARROWITH_BUNDLE_TOO_SHORT);
    refused("its row", row_at(NULL, 0, 0), SKARROWITH_BUNDLE_TOO_SHORT);
    refused("a buffer of no bytes", skarrowith_bundle_add(NULL, 0, &lent.number, 7, 1, 0, ack, sizeof ack), SKARROWITH_BUNDLE_TOO_SHORT);
}

static uint32_t insert_ack(uint8_t position, uint32_t time)
{
    return skarrowith_bundle_insert(lent.bytes, sizeof lent.bytes, &lent.number, position, SKARROWITH_HEARD, time, ack, sizeof ack);
}

/* Rows that are inserted in any order stand by their times, one of an equal time behind; where none is later it is adding. */
static void test_insert(void)
{
    static const uint8_t empty[2], positions[] = {48, 7, 9, 1, 3};
    static const uint32_t times[] = {900, 5, 5, 0, 0xFFFFFFFF}, sorted[] = {0, 5, 5, 900, 0xFFFFFFFF};
    static const uint8_t by_time[] = {1, 7, 9, 48, 3};
    static uint8_t added[sizeof lent.bytes];
    begin(empty, sizeof empty);
    for (size_t i = 0; i < sizeof positions; i++)
        expect("an insertion", insert_ack(positions[i], times[i]), 0);
    expect("what they fill", lent.number, 2 + sizeof positions * 14);
    memcpy(added, lent.bytes, sizeof added);
    for (size_t i = 0; i < sizeof by_time; i++) {
        expect("a row", skarrowith_bundle_row(added, 72, i, &lent.row, sizeof lent.row), 0);
        expect("its position", lent.row.position, by_time[i]);
        expect("its time", lent.row.time, sorted[i]);
        expect("its offset", lent.row.offset, 62 + 2 * i);
    }
    expect("a byte past the end", lent.bytes[72], 0xA5);
    begin(empty, sizeof empty);
    for (size_t i = 0; i < sizeof by_time; i++)
        expect("an addition", add_ack(sizeof lent.bytes, by_time[i], sorted[i]), 0);
    expect("the same bundle", memcmp(lent.bytes, added, sizeof added) != 0, 0);
    remember();
    refused("position 0", insert_ack(0, 5), SKARROWITH_BUNDLE_WRONG_ROW);
    refused("an odd body", skarrowith_bundle_insert(lent.bytes, sizeof lent.bytes, &lent.number, 7, 1, 5, ack, 1), SKARROWITH_BUNDLE_WRONG_ROW);
    refused("no room", skarrowith_bundle_insert(lent.bytes, 85, &lent.number, 7, 1, 5, ack, sizeof ack), SKARROWITH_BUNDLE_FULL);
    refused("a buffer of no bytes", skarrowith_bundle_insert(NULL, 0, &lent.number, 7, 1, 5, ack, sizeof ack), SKARROWITH_BUNDLE_TOO_LONG);
}

/* Two rows cut short: what is kept stands in the second buffer, and nothing beyond is touched. */
static void test_salvage(void)
{
    static const uint8_t two[30] = {2, 0, 7, 1, 0, 0, 0, 0, 26, 0, 0, 0, 2, 0, 48,
                                    1, 0x78, 0x56, 0x34, 0x12, 28, 0, 0, 0, 2, 0, 0xE5, 1, 0xE5, 1};
    struct skarrowith_salvaged told;
    expect("the size of what is told", sizeof told, 32);
    begin(two, 0);
    expect("the last body missing", skarrowith_bundle_salvage(two, 28, lent.bytes, 16, &told, sizeof told), 0);
    expect("one row kept", (uint32_t)told.kept, 1);
    expect("one row dropped", (uint32_t)told.dropped, 1);
    expect("its body past the end", (uint32_t)told.rule, SKARROWITH_BUNDLE_WRONG_OFFSET);
    expect("the bytes of the new bundle", (uint32_t)told.filled, 16);
    expect("the example made", memcmp(lent.bytes, example, 16) != 0, 0);
    expect("nothing beyond", memcmp(lent.bytes + 16, before.bytes + 16, sizeof lent.bytes - 16) != 0, 0);
    expect("a whole bundle", skarrowith_bundle_salvage(two, 30, lent.bytes, 30, &told, sizeof told), 0);
    expect("itself", memcmp(lent.bytes, two, 30) != 0, 0);
    expect("no rule broken", (uint32_t)told.rule, 0);
    remember();
    refused("a byte too few", skarrowith_bundle_salvage(two, 30, lent.bytes, 29, &told, sizeof told), SKARROWITH_BUNDLE_FULL);
    refused("no room for what is told", skarrowith_bundle_salvage(two, 1, lent.bytes, 0, &told, sizeof told - 1), SKARROWITH_TOO_FEW_PLACES);
    refused("one byte", skarrowith_bundle_salvage(two, 1, lent.bytes, sizeof lent.bytes, &told, sizeof told), SKARROWITH_BUNDLE_TOO_SHORT);
    refused("contents cut", skarrowith_bundle_salvage(two, 25, lent.bytes, sizeof lent.bytes, &told, sizeof told), SKARROWITH_BUNDLE_CONTENTS_CUT);
}

static void test_adding(void)
{
    static const uint8_t none[2] = {0, 0};
    static const uint8_t wide[2] = {0, 2};
    static const uint8_t two[30] = {2, 0, 7, 1, 0, 0, 0, 0, 26, 0, 0, 0, 2, 0, 48,
                                    1, 0x78, 0x56, 0x34, 0x12, 28, 0, 0, 0, 2, 0, 0xE5, 1, 0xE5, 1};
    uint8_t falls[30];
    begin(none, sizeof none);
    expect("the first row", add_ack(16, 7, 0), 0);
    expect("the bytes filled", (uint32_t)lent.number, 16);
    expect("the example made", memcmp(lent.bytes, example, 16) != 0, 0);
    expect("nothing beyond", memcmp(lent.bytes + 16, before.bytes + 16, sizeof lent.bytes - 16) != 0, 0);
    expect("a second row", add_ack(sizeof lent.bytes, 48, 0x12345678), 0);
    expect("the bytes filled", (uint32_t)lent.number, 30);
    expect("both rows", memcmp(lent.bytes, two, 30) != 0, 0);
    expect("nothing beyond", memcmp(lent.bytes + 30, before.bytes + 30, sizeof lent.bytes - 30) != 0, 0);
    expect("row 1", row_at(lent.bytes, 30, 1), 0);
    expect("its time", lent.row.time, 0x12345678);
    expect("its offset", lent.row.offset, 28);
    expect("its position", lent.row.position, 48);
    remember();
    refused("an earlier time", add_ack(sizeof lent.bytes, 7, 0x12345677), SKARROWITH_BUNDLE_WRONG_ROW);
    refused("position 0", add_ack(sizeof lent.bytes, 0, 0x12345678), SKARROWITH_BUNDLE_WRONG_ROW);
    refused("a field before a character", add(30, 2, 0x12345678, wide, 2), SKARROWITH_BUNDLE_WRONG_ROW);
    refused("no body", add(30, SKARROWITH_SENT, 0x12345678, NULL, 0), SKARROWITH_BUNDLE_WRONG_ROW);
    refused("a character before the room", add(30, SKARROWITH_SENT, 0x12345678, wide, 2), SKARROWITH_BUNDLE_WRONG_CHARACTER);
    refused("a byte too few", add_ack(43, 7, 0x12345678), SKARROWITH_BUNDLE_FULL);
    refused("more than the buffer has", add_ack(29, 7, 0x12345678), SKARROWITH_BUNDLE_TOO_LONG);
    memcpy(falls, two, sizeof falls);
    falls[4] = 0x79;
    falls[5] = 0x56;
    falls[6] = 0x34;
    falls[7] = 0x12;
    refused_bundle("a time that falls", SKARROWITH_BUNDLE_WRONG_ROW, falls, sizeof falls);
}

/* 38 at 512 rows, and where the new bundle would have more than 65,536 bytes though the buffer has room. */
static void test_full(void)
{
    static const uint8_t none[2] = {0, 0};
    static uint8_t body[1004];
    begin(none, sizeof none);
    for (uint32_t i = 0; i < 512; i++)
        expect("one of 512 rows", add_ack(sizeof lent.bytes, 1, i), 0);
    expect("their bytes", (uint32_t)lent.number, 2 + 512 * 14);
    remember();
    refused("513 rows", add_ack(sizeof lent.bytes, 1, 512), SKARROWITH_BUNDLE_FULL);
    expect("the last row", row_at(lent.bytes, 2 + 512 * 14, 511), 0);
    expect("its time", lent.row.time, 511);
    remember();
    refused("no row 512", row_at(lent.bytes, 2 + 512 * 14, 512), SKARROWITH_BUNDLE_NO_SUCH_ROW);
    begin(none, sizeof none);
    for (uint32_t i = 0; i < 64; i++)
        expect("one of 64 rows", add(sizeof lent.bytes, SKARROWITH_SENT, i, body, 1004), 0);
    expect("their bytes", (uint32_t)lent.number, 2 + 64 * 1016);
    remember();
    refused("65,538 bytes", add(sizeof lent.bytes, SKARROWITH_SENT, 64, body, 500), SKARROWITH_BUNDLE_FULL);
    expect("65,536 bytes", add(sizeof lent.bytes, SKARROWITH_SENT, 64, body, 498), 0);
    expect("their bytes", (uint32_t)lent.number, SKARROWITH_BUNDLE_MOST);
    remember();
    refused("one row more", add_ack(sizeof lent.bytes, 1, 64), SKARROWITH_BUNDLE_FULL);
    lent.number = SKARROWITH_BUNDLE_MOST + 1;
    remember();
    refused("65,537 bytes filled", add_ack(sizeof lent.bytes, 1, 64), SKARROWITH_BUNDLE_TOO_LONG);
}

/* A long run: 48 positions are woken in turn and read until adding meets 38; swept, the run goes on where it stood. */
static void test_sweep(void)
{
    static const uint8_t none[2] = {0, 0}, request[10] = {0x10, 1, 0x5B, 1, 0xFE, 1, 0x59, 0, 0x16, 1};
    static uint8_t wake[918];
    uint32_t time = 0, answer = 0, woken = 0;
    const size_t room = sizeof lent.bytes;
    size_t full;
    for (size_t i = 0; i < sizeof wake; i += 2)
        wake[i] = 0x55;
    begin(none, sizeof none);
    for (; answer == 0; woken++) {
        uint8_t position = (uint8_t)(1 + woken % 48);
        uint8_t direction = (uint8_t)(woken % 2);
        expect("a read", skarrowith_bundle_add(lent.bytes, room, &lent.number, position, 0, time++, request, 10), 0);
        answer = skarrowith_bundle_add(lent.bytes, room, &lent.number, position, direction, time++, wake, sizeof wake);
    }
    expect("the run is full", answer, SKARROWITH_REFUSED + SKARROWITH_BUNDLE_FULL);
    expect("its reads", woken, 69);
    full = lent.number;
    remember();
    refused("position 49", skarrowith_bundle_sweep(lent.bytes, room, &lent.number, 49), SKARROWITH_BUNDLE_WRONG_ROW);
    lent.number = room + 1;
    remember();
    refused("more than the buffer has", skarrowith_bundle_sweep(lent.bytes, room, &lent.number, 0), SKARROWITH_BUNDLE_TOO_LONG);
    lent.number = full;
    remember();
    expect("swept of wake-ups", skarrowith_bundle_sweep(lent.bytes, room, &lent.number, 0), 0);
    expect("the reads are left", (uint32_t)lent.number, 2 + 69 * 22);
    full = lent.number;
    expect("nothing beyond", memcmp(lent.bytes + full, before.bytes + full, room - full) != 0, 0);
    expect("row 68", row_at(lent.bytes, lent.number, 68), 0);
    expect("its position", lent.row.position, 21);
    expect("its offset", lent.row.offset, 2 + 69 * 12 + 68 * 10);
    expect("its body", memcmp(lent.bytes + lent.row.offset, request, sizeof request) != 0, 0);
    remember();
    refused("an earlier time", add_ack(room, 1, lent.row.time - 1), SKARROWITH_BUNDLE_WRONG_ROW);
    expect("the run goes on", add(room, SKARROWITH_HEARD, lent.row.time, wake, sizeof wake), 0);
    expect("swept of position 1", skarrowith_bundle_sweep(lent.bytes, room, &lent.number, 1), 0);
    expect("its two reads and the wake-up are gone", (uint32_t)lent.number, 2 + 67 * 22);
    expect("the first row", row_at(lent.bytes, lent.number, 0), 0);
    expect("that of position 2", lent.row.position, 2);
    for (uint8_t position = 2; position <= 48; position++)
        expect("swept", skarrowith_bundle_sweep(lent.bytes, room, &lent.number, position), 0);
    expect("nothing is left", (uint32_t)lent.number, 2);
    expect("any time is accepted", add_ack(room, 7, 0), 0);
    expect("the example made", memcmp(lent.bytes, example, sizeof example) != 0, 0);
}

/* What choosing and joining have against the position and the room, once the bundles are accepted: 512 rows and one more. */
static void refused_after_all(const uint8_t *run, size_t size)
{
    remember();
    refused("position 0", skarrowith_bundle_of_position(run, size, 0, lent.bytes, 0, &lent.number), SKARROWITH_BUNDLE_WRONG_ROW);
    refused("position 49", skarrowith_bundle_of_position(run, size, 49, lent.bytes, 0, &lent.number), SKARROWITH_BUNDLE_WRONG_ROW);
    refused("a byte for a count", skarrowith_bundle_of_position(example, sizeof example, 8, lent.bytes, 1, &lent.number), SKARROWITH_BUNDLE_FULL);
    refused("fifteen bytes", skarrowith_bundle_of_position(example, sizeof example, 7, lent.bytes, 15, &lent.number), SKARROWITH_BUNDLE_FULL);
    refused("29 bytes", skarrowith_bundle_join(example, sizeof example, example, sizeof example, lent.bytes, 29, &lent.number), SKARROWITH_BUNDLE_FULL);
    refused("513 rows", skarrowith_bundle_join(run, size, example, sizeof example, lent.bytes, sizeof lent.bytes, &lent.number), SKARROWITH_BUNDLE_FULL);
}

/* A run of 48 positions, split into theirs and joined again, one position after the other. */
static void test_join(void)
{
    static const uint8_t none[2] = {0, 0};
    static uint8_t run[SKARROWITH_BUNDLE_MOST], part[SKARROWITH_BUNDLE_MOST], all[SKARROWITH_BUNDLE_MOST];
    const size_t room = sizeof lent.bytes;
    size_t size, some, whole = 2;
    begin(none, sizeof none);
    for (uint32_t i = 0; i < 512; i++)
        expect("a row", add_ack(room, (uint8_t)(1 + 7 * i % 48), i), 0);
    size = lent.number;
    memcpy(run, lent.bytes, size);
    refused_after_all(run, size);
    memset(all, 0, 2);
    for (uint8_t position = 1; position <= 48; position++) {
        expect("a position", skarrowith_bundle_of_position(run, size, position, part, sizeof part, &some), 0);
        begin(all, whole);
        expect("joined", skarrowith_bundle_join(all, whole, part, some, lent.bytes, room, &lent.number), 0);
        expect("both but one count", (uint32_t)lent.number, (uint32_t)(whole + some - 2));
        whole = lent.number;
        memcpy(all, lent.bytes, whole);
        expect("nothing beyond", memcmp(lent.bytes + whole, before.bytes + whole, room - whole) != 0, 0);
    }
    expect("the run is whole again", whole == size && memcmp(all, run, size) == 0, 1);
    expect("the first of equal times", skarrowith_bundle_of_position(run, size, 1, part, sizeof part, &some), 0);
    begin(example, sizeof example);
    expect("one time twice", skarrowith_bundle_join(example, sizeof example, part, some, lent.bytes, room, &lent.number), 0);
    expect("is the first bundle's", lent.bytes[2], 7);
    begin(example, sizeof example);
    expect("and turned round", skarrowith_bundle_join(part, some, example, sizeof example, lent.bytes, room, &lent.number), 0);
    expect("the other's", lent.bytes[2], 1);
}

int main(void)
{
    expect("the row's size", sizeof(struct skarrowith_row), 12);
    test_example();
    test_contents();
    test_refusals();
    test_insert();
    test_salvage();
    test_adding();
    test_full();
    test_sweep();
    test_join();
    if (wrong == 0)
        printf("bundle test: %lu answers are right\n", right);
    return wrong != 0;
}
