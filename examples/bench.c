/*
 * Three positions of a bench, from the wake-up to the error on the certificate, with simulated meters in place of real ones and what
 * the resistance box is set to in place of their probes. It compiles as C99 and as C++:
 *
 *   cc -std=c99 -o bench bench.c $(pkg-config --cflags --libs skarrowith)
 *
 * Position 7: the line loses the first answer and damages the second, so the enter is sent three times. An answer that was left in
 * the driver's buffer turns up at the second read; it began before that read had ended, and does not count. Position 8: nothing
 * answers, and after the third send it is given up. Position 9: another meter answers than the one that was put there.
 *
 * What is sent and heard goes into a run bundle. When a line began is what this program says it is: a driver that stamps a line when
 * it was read, and not when its first character began, would have the left-over answer counted, and no library can see that.
 */
#include <skarrowith.h>

#include <stdio.h>
#include <stdlib.h>
#include <string.h>

enum { WAKE_UP = 480, GAP = 100, REPLY_AFTER = 60, OWN_ADDRESS = 5 };

/* A position: where it is, and the meter that was put there; behind it what its line does to the next answers. */
struct position {
    uint8_t number;
    uint32_t meter_number;
    int loses, damages;
};

static uint8_t bundle[SKARROWITH_BUNDLE_MOST]; /* two bytes of 0 are an empty one */
static size_t filled = 2;
static struct skarrowith_exchange exchange; /* zeros: none yet */
static struct skarrowith_meter meter;       /* the one that is simulated */
static struct position at;
static uint16_t left_over[SKARROWITH_LINE_MOST]; /* an answer that is still in the driver's buffer */
static size_t left;
static uint64_t now; /* in bit times of 1/2400 s */

/* Hands on an answer; a refusal, which a bench that keeps the rules does not see, ends the program with its words. */
static uint32_t expect(const char *what, uint32_t answer)
{
    char words[SKARROWITH_TEXT_MOST];
    if (answer < SKARROWITH_REFUSED)
        return answer;
    if (skarrowith_refusal_text(answer, words, sizeof words) >= SKARROWITH_REFUSED)
        words[0] = '\0';
    printf("%s: refused %lu, %s\n", what, (unsigned long)(answer - SKARROWITH_REFUSED), words);
    exit(1);
}

/*
 * Records a line at its place in time: it is known at its end, when another position may have sent since it began. On x86-64 its
 * characters stand in memory as a body has them, two bytes each, low byte first.
 */
static void record(uint8_t direction, uint64_t time, const uint16_t *line, size_t count)
{
    expect("record", skarrowith_bundle_insert(bundle, sizeof bundle, &filled, at.number, direction, (uint32_t)time,
                                              (const uint8_t *)line, 2 * count));
}

static void send(const uint16_t *line, size_t count)
{
    record(SKARROWITH_SENT, now, line, count);
    now += SKARROWITH_BIT_TIMES_PER_CHARACTER * count;
}

static void wake_up(void)
{
    uint16_t line[WAKE_UP];
    expect("wake-up", skarrowith_write_wake(WAKE_UP, line, WAKE_UP));
    send(line, WAKE_UP);
    uint64_t end = now;
    now += GAP;
    expect("gap", skarrowith_gap(end, now));
}

/* What the line brings after a send: the characters of the meter's answer, 0 for silence. A damaged one has a bit flipped. */
static size_t line_brings(const uint16_t *request, size_t count, uint16_t *answer)
{
    struct skarrowith_telegram telegram;
    uint32_t said = skarrowith_meter_heard(&meter, sizeof meter, request, count, now, &telegram, sizeof telegram);
    if (expect("meter", said) == SKARROWITH_SILENCE || at.loses-- > 0)
        return 0;
    size_t length = expect("answer", skarrowith_write_line(&telegram, sizeof telegram, answer, SKARROWITH_LINE_MOST));
    if (at.damages-- > 0)
        answer[0] ^= 4;
    return length;
}

/* A line was heard that began now. Its first character is what the time is of, and not its last. */
static uint32_t hear(const uint16_t *line, size_t count, struct skarrowith_telegram *reply)
{
    record(SKARROWITH_HEARD, now, line, count);
    uint32_t state = skarrowith_exchange_heard(&exchange, sizeof exchange, line, count, now, reply, sizeof *reply);
    now += SKARROWITH_BIT_TIMES_PER_CHARACTER * count;
    return expect("heard", state);
}

/* Nothing was heard in the window of this send. */
static uint32_t hear_nothing(void)
{
    now = exchange.began + SKARROWITH_REPLY_TIME + 1;
    return expect("tick", skarrowith_exchange_tick(&exchange, sizeof exchange, now));
}

/* What was left in the buffer comes out when the driver is read next; it began before, and its time says so. */
static void hear_left_over(uint64_t began, struct skarrowith_telegram *reply)
{
    if (left == 0)
        return;
    record(SKARROWITH_HEARD, began, left_over, left);
    uint32_t said = skarrowith_exchange_heard(&exchange, sizeof exchange, left_over, left, began, reply, sizeof *reply);
    printf("  left-over answer: %s\n", said == SKARROWITH_REFUSED + SKARROWITH_EXCHANGE_TIME_BACK ? "refused by 40, it does not count" : "taken");
    left = 0;
}

/*
 * One exchange to its end: the request is sent, and again as often as the exchange asks for it. Answers SKARROWITH_WELL, and the
 * reply is the meter's; or SKARROWITH_FAILED after the third send, and there is no reply.
 */
static uint32_t ask(uint8_t kind, uint8_t method, struct skarrowith_telegram *reply)
{
    static const char *const causes[] = {"", "silence", "a damaged answer", "an answer that does not fit"};
    uint16_t request[SKARROWITH_LINE_MOST], answer[SKARROWITH_LINE_MOST];
    size_t length = expect("request", skarrowith_write_request(kind, SKARROWITH_BROADCAST, method, request, SKARROWITH_LINE_MOST));
    uint32_t state;
    do {
        uint64_t began = now;
        send(request, length);
        expect("send ended", skarrowith_exchange_send_ended(&exchange, sizeof exchange, kind, SKARROWITH_BROADCAST, method, now));
        hear_left_over(began, reply);
        size_t count = line_brings(request, length, answer);
        now += REPLY_AFTER;
        state = count == 0 ? hear_nothing() : hear(answer, count, reply);
        if (state != SKARROWITH_WELL)
            printf("  %s: %s\n", causes[exchange.cause], state == SKARROWITH_RESEND ? "send again" : "that was the third send");
    } while (state == SKARROWITH_RESEND);
    now += GAP;
    return state;
}

/* A read whose reply comes from the meter that was put here: a certificate is for one meter, and every meter answers to FE. */
static int read_own_meter(struct skarrowith_telegram *reply)
{
    if (ask(SKARROWITH_READ, 0, reply) != SKARROWITH_WELL)
        return 0;
    if (reply->number == at.meter_number)
        return 1;
    printf("  meter %08lu answers, and %08lu was put here\n", (unsigned long)reply->number, (unsigned long)at.meter_number);
    return 0;
}

/* The volume that an answer gives, a count of its last digit; no volume is below 0. */
static uint64_t volume_in(const struct skarrowith_telegram *answer)
{
    struct skarrowith_meaning meaning;
    for (uint64_t i = 0; i < answer->count; i++)
        if (skarrowith_entry_meaning(answer->entries[i].unit, &meaning, sizeof meaning) == 0 && meaning.quantity == SKARROWITH_VOLUME)
            return (uint64_t)answer->entries[i].value.count;
    return 0;
}

/* A position with a clip and a head, of which the clip is not live: which capture has the answer, and how much of it is the line. */
static void say_live(const uint16_t *optical, size_t count)
{
    static const uint16_t mbus[] = {0x000, 0x0FF, 0x000}; /* noise */
    struct skarrowith_found found;
    uint32_t live = expect("live", skarrowith_find_either(mbus, sizeof mbus / sizeof mbus[0], optical, count, &found, sizeof found));
    printf("  live interface: %s, with a line of %lu characters\n", live == SKARROWITH_MBUS ? "M-Bus" : "optical", (unsigned long)found.length);
}

/* The start-stop method with two reads; 1 where there is an error to print on a certificate. */
static int measure(int64_t *tenths)
{
    struct skarrowith_telegram first, second;
    if (!read_own_meter(&first))
        return 0;
    left = expect("left over", skarrowith_write_line(&first, sizeof first, left_over, SKARROWITH_LINE_MOST));
    say_live(left_over, left);
    expect("measure", skarrowith_meter_measure(&meter, sizeof meter, 10005, 40000, now));
    if (!read_own_meter(&second))
        return 0;
    expect("error", skarrowith_error(volume_in(&first), volume_in(&second), 0, 10000, tenths, 1));
    return 1;
}

/* A position from wake-up to leave. One that has entered is let go of whatever came of it. */
static void verify(struct position position)
{
    struct skarrowith_telegram ack;
    int64_t tenths;
    at = position;
    printf("position %d\n", at.number);
    wake_up();
    if (ask(SKARROWITH_ENTER, SKARROWITH_START_STOP, &ack) != SKARROWITH_WELL) {
        printf("  not verified: it did not enter\n");
        return;
    }
    if (measure(&tenths))
        printf("  error of indication: %c%ld.%ld %%\n", tenths < 0 ? '-' : '+', labs((long)tenths) / 10, labs((long)tenths) % 10);
    else
        printf("  not verified\n");
    if (ask(SKARROWITH_LEAVE, 0, &ack) != SKARROWITH_WELL)
        printf("  it did not leave, and returns to use by itself in 30 minutes\n");
}

/* What the resistance box is set to in place of a probe, at a temperature in hundredths of a degree. */
static void set_box(const char *probe, uint32_t hundredths)
{
    uint32_t milliohm;
    expect("box", skarrowith_resistance(hundredths, &milliohm));
    printf("%s at %lu.%02lu degrees: %lu.%03lu ohm\n", probe, (unsigned long)hundredths / 100, (unsigned long)hundredths % 100,
           (unsigned long)milliohm / 1000, (unsigned long)milliohm % 1000);
}

static void add_entry(struct skarrowith_telegram *data, uint8_t structure, uint8_t unit, int64_t count)
{
    data->entries[data->count].structure = structure;
    data->entries[data->count].unit = unit;
    data->entries[data->count++].value.count = count;
}

/* Sets up the simulated meter with a number of its own. */
static void simulate(uint32_t number)
{
    static const struct skarrowith_moment time = {18, 7, 23, 15, 51, 28, 0, 0};
    struct skarrowith_telegram data;
    memset(&data, 0, sizeof data);
    data.kind = SKARROWITH_DATA, data.number = number, data.maker = 0x4E89, data.version = 1, data.meter_type = 4, data.access = 3;
    add_entry(&data, 0x0C, 0x03, 96712345);
    add_entry(&data, 0x0C, 0x11, 12345678);
    add_entry(&data, 0x0B, 0x59, 7812);
    add_entry(&data, 0x0B, 0x5D, 6534);
    add_entry(&data, 0x06, 0x6D, 0);
    data.entries[4].sort = SKARROWITH_TIME;
    data.entries[4].value.time = time;
    expect("set-up", skarrowith_meter_set_up(&meter, sizeof meter, OWN_ADDRESS, &data, sizeof data));
}

int main(void)
{
    static const struct position seven = {7, 12345678, 1, 1}, eight = {8, 12345679, 3, 0}, nine = {9, 12345680, 0, 0};
    static uint8_t listing[SKARROWITH_LISTING_MOST];
    size_t written;
    set_box("inlet", 7812);
    set_box("outlet", 6534);
    simulate(12345678);
    verify(seven);
    simulate(12345679);
    verify(eight);
    simulate(12345999);
    verify(nine);
    expect("listing", skarrowith_bundle_list(bundle, filled, listing, sizeof listing, &written));
    return fwrite(listing, 1, written, stdout) == written ? 0 : 1;
}
