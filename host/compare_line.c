/* Lines, search, words, unit bytes, wake-up, gap and error of indication: the archive against the second program. */
#include "compare_line.h"

#include "call.h"
#include "skarrowith.h"
#include "structs.h"

#include "../second/chance.h"
#include "../second/indication.h"
#include "../second/make_line.h"
#include "../second/make_telegram.h"
#include "../second/meaning.h"
#include "../second/number.h"
#include "../second/record.h"
#include "../second/wake.h"
#include "../second/words.h"

#include <stdio.h>
#include <string.h>

/* How many lines had one, two and three flips. */
static unsigned long flipped[4];

void flip_different(struct line *l)
{
    unsigned places[3], count = between(1, 3), done = 0;
    flipped[count]++;
    while (done < count) {
        unsigned p = below((unsigned)l->n * 9), i = 0;
        while (i < done && places[i] != p)
            i++;
        if (i < done)
            continue;
        places[done++] = p;
        l->c[p / 9] ^= (uint16_t)(1u << p % 9);
    }
}

static uint32_t second_kind_of(const struct line *l)
{
    struct second_telegram t;
    int refusal = second_read(l->c, l->n, &t);
    return refusal == 0 ? (uint32_t)t.kind + 1 : answer_for(refusal);
}

void compare_check_line(void)
{
    struct line l = {{0}, 0};
    uint8_t bytes[sizeof l.c];
    int is_flipped = once_in(4);
    size_t len;
    uint32_t proved;
    if (is_flipped) {
        write_good(&l, some_kind());
        flip_different(&l);
    } else
        some_line(&l);
    for (size_t i = 0; i < l.n; i++)
        second_put_number(bytes + 2 * i, 2, l.c[i]);
    len = 2 * l.n - (l.n > 0 && once_in(64));
    begin(CHECK_LINE);
    struct lent *line = lend("bytes", len, bytes, len);
    proved = skarrowith_check_line(line->to, len);
    end(proved, len % 2 == 1 ? answer_for(17) : second_kind_of(&l));
    if (is_flipped && proved < SKARROWITH_REFUSED)
        fail("a line with flips is accepted");
}

int flips_seen(void)
{
    printf("compare: %lu, %lu and %lu lines had one, two and three flips\n", flipped[1], flipped[2], flipped[3]);
    return flipped[1] > 0 && flipped[2] > 0 && flipped[3] > 0;
}

void compare_words(void)
{
    uint32_t number = once_in(8) ? (uint32_t)of_any_width() : below(110);
    if (once_in(2))
        number += SKARROWITH_REFUSED;
    const char *words = second_words(number < SKARROWITH_REFUSED ? number : number - SKARROWITH_REFUSED);
    size_t length = words == NULL ? below(100) : strlen(words), places = some_places(length + 1);
    int refusal = words == NULL ? (int)SKARROWITH_NO_SUCH_NUMBER : places < length + 1 ? 21 : 0;
    begin(REFUSAL_TEXT);
    struct lent *out = lend("out", places, NULL, 0);
    if (refusal == 0)
        memcpy(out->second, words, length + 1);
    end(skarrowith_refusal_text((uint32_t)tell("number", number), out->to, places),
        refusal == 0 ? (uint32_t)length : answer_for(refusal));
}

static void hold_meaning(unsigned unit, size_t size)
{
    struct second_meaning m = {0, 0, 0};
    int refusal = second_entry_meaning(unit, &m);
    if (refusal == 0 && size < 4)
        refusal = 21;
    begin(ENTRY_MEANING);
    struct lent *meaning = lend("meaning", size, NULL, 0);
    if (refusal == 0) {
        const uint8_t record[4] = {(uint8_t)m.quantity, (uint8_t)m.unit, (uint8_t)m.power, 0};
        memcpy(meaning->second, record, sizeof record);
    }
    end(skarrowith_entry_meaning((uint8_t)tell("unit", unit), meaning->to, size), answer_for(refusal));
}

void compare_meaning(void)
{
    hold_meaning(below(256), some_places(4));
}

void compare_all_meanings(void)
{
    for (unsigned unit = 0; unit < 256; unit++)
        for (size_t size = 0; size <= 8; size++)
            hold_meaning(unit, size);
}

static struct lent *lend_line(const char *name, const struct line *l)
{
    return lend(name, 2 * l->n, l->c, 2 * l->n);
}

void compare_find(void)
{
    struct line l = {{0}, 0};
    size_t size = some_places(16), place = 0, length = 0;
    int refusal;
    some_capture(&l);
    refusal = second_find(l.c, l.n, &place, &length);
    if (refusal == 0 && size < 16)
        refusal = 21;
    begin(FIND_LINE);
    struct lent *capture = lend_line("capture", &l), *found = lend("found", size, NULL, 0);
    if (refusal == 0) {
        const uint64_t both[2] = {place, length};
        memcpy(found->second, both, sizeof both);
    }
    end(skarrowith_find_line(capture->to, l.n, found->to, size), answer_for(refusal));
}

void compare_either(void)
{
    struct line m = {{0}, 0}, o = {{0}, 0};
    struct second_live live = {0, 0, 0};
    size_t size = some_places(16);
    int refusal;
    some_two_captures(&m, &o);
    refusal = second_either(m.c, m.n, o.c, o.n, &live);
    if (refusal == 0 && size < 16)
        refusal = 21;
    begin(FIND_EITHER);
    struct lent *mbus = lend_line("mbus", &m), *optical = lend_line("optical", &o), *found = lend("found", size, NULL, 0);
    if (refusal == 0) {
        const uint64_t both[2] = {live.place, live.length};
        memcpy(found->second, both, sizeof both);
    }
    end(skarrowith_find_either(mbus->to, m.n, optical->to, o.n, found->to, size),
        refusal == 0 ? (live.optical ? SKARROWITH_OPTICAL : SKARROWITH_MBUS) : answer_for(refusal));
}

void compare_read(void)
{
    struct line l = {{0}, 0};
    struct second_telegram t;
    size_t size = some_places(SECOND_TELEGRAM_SIZE);
    int refusal;
    some_line(&l);
    refusal = second_read(l.c, l.n, &t);
    if (refusal == 0 && size < SECOND_TELEGRAM_SIZE)
        refusal = 21;
    begin(READ_LINE);
    struct lent *line = lend_line("line", &l), *telegram = lend("telegram", size, NULL, 0);
    if (refusal == 0)
        second_put_telegram(telegram->second, &t);
    end(skarrowith_read_line(line->to, l.n, telegram->to, size),
        refusal == 0 ? (uint32_t)t.kind + 1 : answer_for(refusal));
    if (refusal == 0)
        hold_telegram(telegram, &t);
}

/* What a writer of this telegram leaves in the places lent, and answers; `refusal` is one that goes before. */
static uint32_t second_written(int refusal, const struct second_telegram *t, struct lent *out)
{
    uint16_t line[SECOND_LONGEST];
    size_t length = 0;
    if (refusal == 0)
        refusal = second_write(t, line, out->size / 2, &length);
    if (refusal != 0)
        return answer_for(refusal);
    memcpy(out->second, line, 2 * length);
    return (uint32_t)length;
}

/* Places for the telegram's line, about as many as it needs. */
static size_t line_places(const struct second_telegram *t)
{
    uint16_t line[SECOND_LONGEST];
    size_t length = 0;
    if (second_write(t, line, SECOND_LONGEST, &length) != 0)
        length = below(SECOND_LONGEST + 1);
    return some_places(length);
}

void compare_write(void)
{
    uint8_t record[SECOND_TELEGRAM_SIZE + 8] = {0};
    struct second_telegram t = good_telegram(some_kind());
    size_t size = SECOND_TELEGRAM_SIZE, places;
    int refusal;
    if (once_in(2))
        break_telegram(&t);
    places = line_places(&t);
    second_put_telegram(record, &t);
    if (once_in(4))
        size = spoil(record, size);
    refusal = second_take_telegram(record, size, &t);
    begin(WRITE_LINE);
    struct lent *telegram = lend("telegram", size, record, size), *out = lend("line", 2 * places, NULL, 0);
    uint32_t second = second_written(refusal, &t, out);
    end(skarrowith_write_line(telegram->to, size, out->to, places), second);
}

void compare_request(void)
{
    unsigned kind = once_in(8) ? below(256) : between(1, 5), address = once_in(4) ? 0xFE : once_in(8) ? 0 : below(256);
    unsigned method = kind == 3 && !once_in(8) ? between(0x90, 0x92) : once_in(4) ? below(256) : 0;
    struct second_telegram t = second_request(kind, address, method);
    size_t places = line_places(&t);
    begin(WRITE_REQUEST);
    struct lent *out = lend("line", 2 * places, NULL, 0);
    uint32_t second = second_written(0, &t, out);
    tell("kind", kind);
    tell("address", address);
    tell("method", method);
    end(skarrowith_write_request((uint8_t)kind, (uint8_t)address, (uint8_t)method, out->to, places), second);
}

void compare_wake(void)
{
    uint64_t count = some_wake();
    size_t places = (size_t)some_wake_places(count);
    uint16_t line[700];
    int refusal = second_wake(count, line, places);
    begin(WRITE_WAKE);
    struct lent *out = lend("line", 2 * places, NULL, 0);
    if (refusal == 0)
        memcpy(out->second, line, 2 * (size_t)count);
    end(skarrowith_write_wake((size_t)tell("count", count), out->to, places), answer_for(refusal));
}

void compare_gap(void)
{
    uint64_t ended, begins;
    some_gap(&ended, &begins);
    begin(GAP);
    tell("ended", ended);
    tell("begins", begins);
    end(skarrowith_gap(ended, begins), answer_for(second_gap(ended, begins)));
}

void compare_error(void)
{
    uint64_t c[4];
    int64_t error = 0;
    size_t places = once_in(16) ? 0 : between(1, 3);
    int refusal = places == 0 ? 21 : 0;
    some_counts(c);
    if (refusal == 0)
        refusal = second_error(c[0], c[1], c[2], c[3], &error);
    begin(INDICATION);
    struct lent *tenths = lend("tenths", 8 * places, NULL, 0);
    if (refusal == 0)
        memcpy(tenths->second, &error, sizeof error);
    tell("m1", c[0]);
    tell("m2", c[1]);
    tell("s1", c[2]);
    tell("s2", c[3]);
    end(skarrowith_error(c[0], c[1], c[2], c[3], tenths->to, places), answer_for(refusal));
}
