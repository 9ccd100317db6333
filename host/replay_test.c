/* Calls the replay as a bench host does: reads and answers are put together, replayed, and refused by each number. */
#include "skarrowith.h"

#include "../second/example.h"

#include <stdio.h>
#include <string.h>

enum { POSITION = 5, ASKED = SKARROWITH_BROADCAST, CHARACTER = SKARROWITH_BIT_TIMES_PER_CHARACTER, WINDOW = SKARROWITH_REPLY_TIME, TIMES = 6 };

static uint8_t bundle[SKARROWITH_BUNDLE_MOST];
static size_t filled;
static struct skarrowith_telegram data;

/* What is lent for the error, with a place on each side. */
static int64_t lent[3];

static unsigned long right, wrong;

static void expect(const char *name, long long got, long long answer)
{
    if (got == answer) {
        right++;
        return;
    }
    printf("replay test: %s: %lld, and not %lld\n", name, got, answer);
    wrong++;
}

static void begin(void)
{
    memset(bundle, 0, sizeof bundle);
    filled = 2;
}

static void row(uint8_t position, uint8_t direction, uint32_t time, const uint16_t *line, size_t count)
{
    const uint8_t *body = (const uint8_t *)line;
    expect("a row", skarrowith_bundle_add(bundle, sizeof bundle, &filled, position, direction, time, body, 2 * count), 0);
}

static size_t send_read(uint32_t time)
{
    uint16_t line[SKARROWITH_LINE_MOST];
    size_t count = skarrowith_write_request(SKARROWITH_READ, ASKED, 0, line, SKARROWITH_LINE_MOST);
    row(POSITION, SKARROWITH_SENT, time, line, count);
    return count;
}

/* An answer with a volume in millilitres and a time of so many seconds past noon. */
static void hear(uint32_t time, uint64_t volume, unsigned seconds)
{
    uint16_t line[SKARROWITH_LINE_MOST];
    struct skarrowith_moment *m = &data.entries[TIMES].value.time;
    data.entries[1].structure = 0x0E; /* twelve digits, of millilitres */
    data.entries[1].unit = 0x10;
    data.entries[1].value.count = volume;
    m->hour = (uint8_t)(12 + seconds / 3600);
    m->minute = (uint8_t)(seconds / 60 % 60);
    m->second = (uint8_t)(seconds % 60);
    row(POSITION, SKARROWITH_HEARD, time, line, skarrowith_write_line(&data, sizeof data, line, SKARROWITH_LINE_MOST));
}

/* Two reads, each answered so long after its end. */
static void talk(uint32_t after, uint64_t first, uint64_t last, unsigned seconds)
{
    begin();
    size_t count = send_read(1000);
    hear((uint32_t)(1000 + CHARACTER * count + after), first, 0);
    count = send_read(30000);
    hear((uint32_t)(30000 + CHARACTER * count + after), last, seconds);
}

static uint32_t replay(uint8_t position, uint64_t s1, uint64_t s2, uint64_t elapsed)
{
    for (size_t i = 0; i < 3; i++)
        lent[i] = 123456789;
    return skarrowith_replay_error(bundle, filled, position, s1, s2, elapsed, lent + 1, 1);
}

static void untouched(void)
{
    for (size_t i = 0; i < 3; i++)
        expect("lent memory", lent[i], 123456789);
}

static void refused(const char *name, uint32_t got, unsigned number)
{
    expect(name, got, SKARROWITH_REFUSED + number);
    untouched();
}

static void told(const char *name, uint32_t got, int64_t tenths)
{
    expect(name, got, 0);
    expect(name, lent[1], tenths);
    expect("the place before", lent[0], 123456789);
    expect("the place behind", lent[2], 123456789);
}

static void test_errors(void)
{
    talk(100, 1000000, 2000500, 10);
    told("half a tenth up", replay(POSITION, 0, 1000000, 10000), 1);
    told("twice the time", replay(POSITION, 0, 1000500, 20000), 1000);
    talk(100, 1000000, 1999500, 10);
    told("half a tenth down", replay(POSITION, 0, 1000000, 10000), -1);
    talk(WINDOW, 0, 1000000000, 1800);
    told("all that is allowed", replay(POSITION, 0, 1000000000, 1800000), 0);
}

static void test_refusals(void)
{
    uint8_t byte = 0;
    talk(WINDOW + 1, 0, 1000, 1);
    refused("answers that come too late", replay(POSITION, 0, 1000, 1000), SKARROWITH_REPLAY_TOO_FEW_ANSWERS);
    talk(0, 5, 1005, 1);
    refused("another position", replay(POSITION + 1, 0, 1000, 1000), SKARROWITH_REPLAY_TOO_FEW_ANSWERS);
    refused("position 0", replay(0, 0, 1000, 1000), SKARROWITH_BUNDLE_WRONG_ROW);
    refused("position 49", replay(49, 0, 1000, 1000), SKARROWITH_BUNDLE_WRONG_ROW);
    refused("a standard over 10^9 ml", replay(POSITION, 0, 1000000001, 1000), SKARROWITH_REPLAY_VOLUME_TOO_LARGE);
    refused("no time at all", replay(POSITION, 0, 1000, 0), SKARROWITH_REPLAY_WRONG_INTERVAL);
    refused("more than half an hour", replay(POSITION, 0, 1000, 1800001), SKARROWITH_REPLAY_WRONG_INTERVAL);
    refused("a standard that does not rise", replay(POSITION, 1000, 1000, 1000), SKARROWITH_STANDARD_COUNT_NOT_RISING);
    talk(0, 1005, 5, 1);
    refused("a meter that falls", replay(POSITION, 0, 1000, 1000), SKARROWITH_METER_COUNT_FALLS);
    talk(0, 5, 1005, 0);
    refused("a clock that stands still", replay(POSITION, 0, 1000, 1000), SKARROWITH_REPLAY_WRONG_INTERVAL);
    filled--;
    refused("a bundle cut", replay(0, 0, 1000, 1000), SKARROWITH_BUNDLE_WRONG_OFFSET);
    begin();
    refused("an empty bundle", replay(POSITION, 0, 1000, 1000), SKARROWITH_REPLAY_TOO_FEW_ANSWERS);
    expect("no place", skarrowith_replay_error(&byte, 1, 0, 0, 0, 0, NULL, 0), SKARROWITH_REFUSED + SKARROWITH_TOO_FEW_PLACES);
    expect("no bytes", skarrowith_replay_error(NULL, 0, 0, 0, 0, 0, lent + 1, 1), SKARROWITH_REFUSED + SKARROWITH_BUNDLE_TOO_SHORT);
}

int main(void)
{
    uint16_t line[SECOND_EXAMPLE];
    second_example_line(line);
    expect("000's data line", skarrowith_read_line(line, SECOND_EXAMPLE, &data, sizeof data), SKARROWITH_DATA);
    test_errors();
    test_refusals();
    if (wrong == 0)
        printf("replay test: %lu answers are right\n", right);
    return wrong != 0;
}
