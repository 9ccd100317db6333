/* The simulated meter as a bench host calls it: one verification with 000's data line, and every refusal with its memory. */
#include "skarrowith.h"

#include "../second/example.h"
#include "../second/number.h"

#include <stdio.h>
#include <string.h>

#define OWN 5

static unsigned tried, wrong;
static struct skarrowith_telegram data, answer;
static struct skarrowith_meter meter;

static void expect(const char *what, uint64_t got, uint64_t want)
{
    tried++;
    if (got != want) {
        printf("meter_test: %s: %llu, and not %llu\n", what, (unsigned long long)got, (unsigned long long)want);
        wrong = 1;
    }
}

/* A request heard at t. */
static uint32_t hear(uint8_t kind, uint8_t address, uint8_t method, uint64_t t)
{
    uint16_t line[10];
    uint32_t count = skarrowith_write_request(kind, address, method, line, 10);
    memset(&answer, 0x5A, sizeof answer);
    return skarrowith_meter_heard(&meter, sizeof meter, line, count, t, &answer, sizeof answer);
}

static int answer_untouched(void)
{
    for (size_t i = 0; i < sizeof answer; i++)
        if (((const uint8_t *)&answer)[i] != 0x5A)
            return 0;
    return 1;
}

/* The totals that a read shows: energy is the first of 000's entries and volume the second. */
static void shows(const char *what, uint64_t t, uint64_t volume, uint64_t energy, uint8_t access)
{
    uint16_t line[SKARROWITH_LINE_MOST];
    struct skarrowith_telegram again;
    expect(what, hear(SKARROWITH_READ, SKARROWITH_BROADCAST, 0, t), SKARROWITH_DATA);
    expect(what, answer.entries[0].value.count, energy);
    expect(what, answer.entries[1].value.count, volume);
    expect(what, answer.access, access);
    expect(what, answer.address, OWN);
    uint32_t count = skarrowith_write_line(&answer, sizeof answer, line, SKARROWITH_LINE_MOST);
    expect("its line has 63 characters", count, 63);
    expect("its line is accepted", skarrowith_read_line(line, count, &again, sizeof again), SKARROWITH_DATA);
    expect("its line reads as it", memcmp(&again, &answer, sizeof again) == 0, 1);
}

/* A record with one field changed, and the number by which it is refused. */
struct change {
    const char *what;
    size_t at, width;
    uint64_t value;
    uint32_t number;
};

static void make(void *record, const struct change *c)
{
    second_put_number((uint8_t *)record + c->at, c->width, c->value);
}

/* A set-up that is refused leaves the meter's memory as it was. */
static void no_set_up(const char *what, const struct skarrowith_telegram *given, size_t size, size_t places, uint32_t number)
{
    memset(&meter, 0x5A, sizeof meter);
    expect(what, skarrowith_meter_set_up(&meter, places, OWN, given, size), SKARROWITH_REFUSED + number);
    for (size_t i = 0; i < sizeof meter; i++)
        if (((const uint8_t *)&meter)[i] != 0x5A)
            expect(what, i, sizeof meter);
}

/* Templates: what is no record is 101, and what is one but cannot be set up is 72. Writing refuses the one by 101 too, the other by 20. */
static void set_ups(void)
{
    static const struct change changes[] = {
        {"a template that is no data", offsetof(struct skarrowith_telegram, kind), 1, SKARROWITH_READ, SKARROWITH_METER_WRONG_TEMPLATE},
        {"a kind of 0", offsetof(struct skarrowith_telegram, kind), 1, 0, SKARROWITH_NO_RECORD},
        {"a kind of 6", offsetof(struct skarrowith_telegram, kind), 1, 6, SKARROWITH_NO_RECORD},
        {"a byte named zero that is not", offsetof(struct skarrowith_telegram, zero), 1, 1, SKARROWITH_NO_RECORD},
        {"an entry past the count", offsetof(struct skarrowith_telegram, count), 8, 6, SKARROWITH_METER_WRONG_TEMPLATE},
        {"a count of 9", offsetof(struct skarrowith_telegram, count), 8, 9, SKARROWITH_METER_WRONG_TEMPLATE},
        {"energy as a time's structure", offsetof(struct skarrowith_telegram, entries[0].structure), 1, 0x06, SKARROWITH_METER_WRONG_TEMPLATE},
        {"a sort of 3", offsetof(struct skarrowith_telegram, entries[6].sort), 1, 3, SKARROWITH_NO_RECORD},
        {"a time told as binary", offsetof(struct skarrowith_telegram, entries[6].sort), 1, 2, SKARROWITH_METER_WRONG_TEMPLATE},
        {"month 13", offsetof(struct skarrowith_telegram, entries[6].value.time.month), 1, 13, SKARROWITH_METER_WRONG_TEMPLATE},
        {"weekday 8", offsetof(struct skarrowith_telegram, entries[6].value.time.weekday), 1, 8, SKARROWITH_METER_WRONG_TEMPLATE},
        {"a time's last byte", offsetof(struct skarrowith_telegram, entries[6].value.time.zero), 1, 1, SKARROWITH_NO_RECORD},
    };
    uint16_t line[SKARROWITH_LINE_MOST];
    struct skarrowith_telegram other;
    for (size_t i = 0; i < sizeof changes / sizeof changes[0]; i++) {
        uint32_t written = SKARROWITH_REFUSED + (changes[i].number == SKARROWITH_NO_RECORD ? SKARROWITH_NO_RECORD : SKARROWITH_UNWRITABLE);
        other = data;
        make(&other, &changes[i]);
        expect(changes[i].what, skarrowith_write_line(&other, sizeof other, line, SKARROWITH_LINE_MOST), written);
        no_set_up(changes[i].what, &other, sizeof other, sizeof meter, changes[i].number);
    }
    other = data;
    other.entries[0].structure = 0x0E;
    no_set_up("energy in structure 0E", &other, sizeof other, sizeof meter, SKARROWITH_METER_WRONG_TEMPLATE);
    other.kind = SKARROWITH_ACK;
    no_set_up("too few places before a template that is no data", &other, sizeof other, sizeof meter - 1, SKARROWITH_TOO_FEW_PLACES);
    other.kind = 0;
    no_set_up("no record before too few places", &other, sizeof other, 0, SKARROWITH_NO_RECORD);
    no_set_up("a template of 135 bytes", &data, sizeof data - 1, sizeof meter, SKARROWITH_NO_RECORD);
    no_set_up("a meter of 191 bytes", &data, sizeof data, sizeof meter - 1, SKARROWITH_TOO_FEW_PLACES);
    other = data;
    other.address = 0x99;
    expect("set-up", skarrowith_meter_set_up(&meter, sizeof meter, OWN, &other, sizeof other), 0);
    expect("the template's own address is kept", meter.data.address, 0x99);
    expect("it begins in use", meter.mode, 0);
    expect("with the template's volume", meter.used.volume, 12345678);
    expect("and energy", meter.used.energy, 96712345);
    expect("and nothing verified", meter.verified.volume + meter.verified.energy, 0);
}

/* 02, 2026-03: a weekday that contradicts the date, which was a Monday, is written, read and kept by the meter. */
static void weekdays(void)
{
    uint16_t line[SKARROWITH_LINE_MOST];
    struct skarrowith_telegram other = data, back;
    struct skarrowith_moment *time = &other.entries[6].value.time;
    expect("a point in time keeps its size", sizeof *time, 8);
    for (unsigned day = 0; day <= 7; day++) {
        uint32_t length;
        time->weekday = (uint8_t)day;
        length = skarrowith_write_line(&other, sizeof other, line, SKARROWITH_LINE_MOST);
        expect("a line with a weekday", length, SECOND_EXAMPLE);
        expect("the third byte of the time", line[57] & 0xFF, 32 * day + 15);
        expect("reads", skarrowith_read_line(line, length, &back, sizeof back), SKARROWITH_DATA);
        expect("with its weekday", back.entries[6].value.time.weekday, day);
        expect("a template with it", skarrowith_meter_set_up(&meter, sizeof meter, OWN, &other, sizeof other), 0);
        expect("is kept", meter.data.entries[6].value.time.weekday, day);
    }
}

static void verification(void)
{
    shows("a read in use", 100, 12345678, 96712345, 4);
    expect("a measure in use", skarrowith_meter_measure(&meter, sizeof meter, 10, 20, 200), 0);
    shows("what was measured in use", 300, 12345688, 96712365, 5);
    expect("enter", hear(SKARROWITH_ENTER, OWN, SKARROWITH_SIMULATED_FLOW, 400), SKARROWITH_ACK);
    expect("the ack is a record", answer.kind, SKARROWITH_ACK);
    expect("it is in verification", meter.mode, 1);
    expect("by simulated flow", meter.method, SKARROWITH_SIMULATED_FLOW);
    expect("since the enter", meter.since, 400);
    shows("cleared totals", 500, 0, 0, 6);
    expect("a measure in verification", skarrowith_meter_measure(&meter, sizeof meter, 7, 8, 600), 0);
    expect("a repeated enter", hear(SKARROWITH_ENTER, SKARROWITH_BROADCAST, SKARROWITH_REAL_TIME, 700), SKARROWITH_ACK);
    shows("totals that a repeated enter keeps", 800, 7, 8, 7);
    expect("another address gets silence", hear(SKARROWITH_LEAVE, OWN + 1, 0, 900), 0);
    expect("and no answer", answer_untouched(), 1);
    expect("but the time goes on", meter.last, 900);
    expect("leave", hear(SKARROWITH_LEAVE, SKARROWITH_BROADCAST, 0, 1000), SKARROWITH_ACK);
    expect("it is in use", meter.mode, 0);
    expect("no method", meter.method, 0);
    expect("no last instruction", meter.since, 0);
    shows("the use pair again", 1100, 12345688, 96712365, 8);
    expect("the verification pair stays", meter.verified.volume, 7);
    expect("enter from use", hear(SKARROWITH_ENTER, SKARROWITH_BROADCAST, SKARROWITH_START_STOP, 1200), SKARROWITH_ACK);
    expect("clears it", meter.verified.volume + meter.verified.energy, 0);
    expect("shortly before 30 minutes", skarrowith_meter_measure(&meter, sizeof meter, 1, 1, 1200 + SKARROWITH_RETURN_TIME - 1), 0);
    expect("it is in verification still", meter.mode, 1);
    expect("30 minutes without an instruction", skarrowith_meter_measure(&meter, sizeof meter, 2, 3, 1200 + SKARROWITH_RETURN_TIME), 0);
    expect("it has returned", meter.mode, 0);
    shows("and measures in use", 1300 + SKARROWITH_RETURN_TIME, 12345690, 96712368, 9);
}

/* A step that is refused leaves meter and answer as they were. */
static void no_step(const char *what, size_t size, uint64_t t, size_t places, uint32_t number)
{
    static const uint16_t ack[1] = {0x1E5};
    const struct skarrowith_meter before = meter;
    memset(&answer, 0x5A, sizeof answer);
    expect(what, skarrowith_meter_heard(&meter, size, ack, 1, t, &answer, places), SKARROWITH_REFUSED + number);
    expect(what, answer_untouched(), 1);
    expect(what, memcmp(&meter, &before, sizeof meter) == 0, 1);
}

static void no_measure(const char *what, uint64_t volume, uint64_t energy, uint64_t t, uint32_t number)
{
    const struct skarrowith_meter before = meter;
    expect(what, skarrowith_meter_measure(&meter, sizeof meter, volume, energy, t), SKARROWITH_REFUSED + number);
    expect(what, memcmp(&meter, &before, sizeof meter) == 0, 1);
}

static void no_record(const char *what)
{
    no_step(what, sizeof meter, UINT64_MAX, sizeof answer, SKARROWITH_NO_RECORD);
    no_step(what, sizeof meter, 0, 0, SKARROWITH_NO_RECORD);
    no_measure(what, 1, 1, UINT64_MAX, SKARROWITH_NO_RECORD);
}

static void refusals(void)
{
    static const struct change changes[] = {
        {"a byte named zero that is not", offsetof(struct skarrowith_meter, zero[4]), 1, 1, SKARROWITH_NO_RECORD},
        {"a method in use", offsetof(struct skarrowith_meter, method), 1, SKARROWITH_START_STOP, SKARROWITH_NO_RECORD},
        {"an instruction in use", offsetof(struct skarrowith_meter, since), 8, 1, SKARROWITH_NO_RECORD},
        {"mode 2", offsetof(struct skarrowith_meter, mode), 1, 2, SKARROWITH_NO_RECORD},
        {"an energy below the template's", offsetof(struct skarrowith_meter, used.energy), 8, 96712344, SKARROWITH_NO_RECORD},
        {"a total past the limit", offsetof(struct skarrowith_meter, used.volume), 8, 100000000, SKARROWITH_NO_RECORD},
        {"a verified total past the limit", offsetof(struct skarrowith_meter, verified.energy), 8, 100000000, SKARROWITH_NO_RECORD},
        {"a template that is not fit", offsetof(struct skarrowith_meter, data.entries[0].structure), 1, 0x0E, SKARROWITH_NO_RECORD},
        {"a template that is no record", offsetof(struct skarrowith_meter, data.entries[6].zero[0]), 1, 1, SKARROWITH_NO_RECORD},
    };
    const uint64_t t = meter.last;
    no_step("a time that goes back", sizeof meter, t - 1, sizeof answer, SKARROWITH_METER_TIME_BACK);
    no_measure("a measure whose time goes back", 1, 1, t - 1, SKARROWITH_METER_TIME_BACK);
    no_measure("70 before 71", 99999999, 0, t - 1, SKARROWITH_METER_TIME_BACK);
    no_measure("a volume past the limit", 99999999 - 12345690 + 1, 0, t, SKARROWITH_METER_TOTAL_TOO_LARGE);
    no_measure("an energy of 64 bits", 0, UINT64_MAX, t, SKARROWITH_METER_TOTAL_TOO_LARGE);
    no_step("an answer of 135 bytes", sizeof meter, t, sizeof answer - 1, SKARROWITH_TOO_FEW_PLACES);
    no_step("21 before 70", sizeof meter, t - 1, sizeof answer - 1, SKARROWITH_TOO_FEW_PLACES);
    no_step("a meter of 191 bytes", sizeof meter - 1, t, sizeof answer, SKARROWITH_NO_RECORD);
    no_step("no meter at all", 0, t, sizeof answer, SKARROWITH_NO_RECORD);

    const struct skarrowith_meter good = meter;
    for (size_t i = 0; i < sizeof changes / sizeof changes[0]; i++) {
        meter = good;
        make(&meter, &changes[i]);
        no_record(changes[i].what);
    }
    meter = good;
    meter.mode = 1;
    meter.method = 0x93;
    meter.since = meter.last;
    no_record("method 93");
    meter.method = SKARROWITH_REAL_TIME;
    meter.since = meter.last + 1;
    no_record("an instruction after the last step");
    meter.since = meter.last - SKARROWITH_RETURN_TIME;
    no_record("a meter that has returned");
    meter.since = meter.last - SKARROWITH_RETURN_TIME + 1;
    expect("a meter that has not", skarrowith_meter_measure(&meter, sizeof meter, 0, 0, t), 0);
    expect("is in verification", meter.mode, 1);
}

int main(void)
{
    uint16_t line[SECOND_EXAMPLE];
    second_example_line(line);
    expect("a telegram has 136 bytes", sizeof data, 136);
    expect("a meter has 192 bytes", sizeof meter, 192);
    expect("000's data line", skarrowith_read_line(line, SECOND_EXAMPLE, &data, sizeof data), SKARROWITH_DATA);
    weekdays();
    set_ups();
    verification();
    refusals();
    if (!wrong)
        printf("meter_test: %u answers are right\n", tried);
    return wrong != 0;
}
