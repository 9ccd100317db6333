/* A run as the library tells it. Which verdict a row has and which rows give the same reading is the library's to say. */
#include "run.h"

#include <inttypes.h>

enum { CHARACTERS_MOST = 502 };

/* Only a body that can be a line is read: a line has at most 261 characters, and a body at most 502. */
static void read_body(const uint8_t *body, struct shown *shown)
{
    uint16_t line[CHARACTERS_MOST];
    size_t characters = shown->row.length / 2;
    for (size_t i = 0; i < characters; i++)
        line[i] = (uint16_t)(body[2 * i] + 256u * body[2 * i + 1]);
    shown->answer = skarrowith_read_line(line, characters, &shown->telegram, sizeof shown->telegram);
}

uint32_t take_run(const struct bundle *bundle, struct run *run)
{
    static struct skarrowith_contents contents;
    static struct skarrowith_row_verdict verdicts[ROWS_MOST];
    static uint16_t repeats[ROWS_MOST];
    uint32_t answer = skarrowith_contents_of(bundle->bytes, bundle->length, &contents, sizeof contents);
    if (answer == 0)
        answer = skarrowith_verdicts(bundle->bytes, bundle->length, verdicts, sizeof verdicts, &run->count);
    if (answer == 0)
        answer = skarrowith_repeats(bundle->bytes, bundle->length, repeats, ROWS_MOST, &run->count);
    for (size_t i = 0; answer == 0 && i < run->count; i++) {
        struct shown *shown = &run->rows[i];
        shown->verdict = verdicts[i];
        shown->repeats = repeats[i];
        answer = skarrowith_contents_row(&contents, sizeof contents, i, &shown->row, sizeof shown->row);
        read_body(bundle->bytes + shown->row.offset, shown);
    }
    return answer;
}

int has_data(const struct shown *shown)
{
    return shown->answer == SKARROWITH_DATA;
}

const struct skarrowith_entry *entry_of(const struct shown *shown, uint8_t quantity, struct skarrowith_meaning *meaning)
{
    for (uint64_t i = 0; has_data(shown) && i < shown->telegram.count; i++)
        if (skarrowith_entry_meaning(shown->telegram.entries[i].unit, meaning, sizeof *meaning) == 0 && meaning->quantity == quantity)
            return &shown->telegram.entries[i];
    return NULL;
}

/* Four places, rounded down: a bit time is a little more than four of the last. */
void put_seconds(char *out, uint32_t time)
{
    uint32_t rest = time % SKARROWITH_BIT_TIMES_PER_SECOND;
    snprintf(out, WORDS_MOST, "%" PRIu32 ".%04" PRIu32, time / SKARROWITH_BIT_TIMES_PER_SECOND, rest * 10000 / SKARROWITH_BIT_TIMES_PER_SECOND);
}

/* A wake-up is told before its line; a line by its kind and address, and an enter by its method. */
void put_line(char *out, const struct shown *shown)
{
    const struct skarrowith_telegram *t = &shown->telegram;
    if (shown->verdict.verdict == SKARROWITH_VERDICT_WAKE)
        snprintf(out, WORDS_MOST, "wake");
    else if (shown->answer >= SKARROWITH_REFUSED)
        snprintf(out, WORDS_MOST, "refused %" PRIu32, shown->answer - SKARROWITH_REFUSED);
    else if (shown->answer == SKARROWITH_ACK)
        snprintf(out, WORDS_MOST, "ack");
    else if (shown->answer == SKARROWITH_ENTER)
        snprintf(out, WORDS_MOST, "enter %02X %s", t->address, method_in_words(t->method));
    else
        snprintf(out, WORDS_MOST, "%s %02X", kind_in_words(t->kind), t->address);
}

void put_verdict(char *out, const struct skarrowith_row_verdict *verdict)
{
    static const char *const words[] = {"", "wake", "first send", "resend", "refused", "counts", "left over", "late", "second",
                                        "damaged", "wrong kind", "unasked"};
    int by = verdict->verdict == SKARROWITH_VERDICT_REFUSED || verdict->verdict == SKARROWITH_VERDICT_DAMAGED;
    int at = snprintf(out, WORDS_MOST, "%s", words[verdict->verdict]);
    if (by)
        snprintf(out + at, WORDS_MOST - (size_t)at, " by %u", verdict->number);
}

/* Degrees Celsius without their unit, which is always the same. */
void put_value(char *out, const struct shown *shown, uint8_t quantity)
{
    struct skarrowith_meaning meaning;
    const struct skarrowith_entry *entry = entry_of(shown, quantity, &meaning);
    out[0] = '\0';
    if (entry != NULL && entry->sort == SKARROWITH_TIME)
        put_moment(out, &entry->value.time);
    else if (entry != NULL && meaning.unit == SKARROWITH_DEGREE)
        put_power(out, entry->value.count, meaning.power);
    else if (entry != NULL)
        put_scaled(out, entry->value.count, &meaning);
}

/* No field has a comma or a quote in it. In columns nothing stands behind the last field that says something. */
void print_fields(int csv, int count, const struct column *columns, field *fields)
{
    while (!csv && count > 1 && fields[count - 1][0] == '\0')
        count--;
    for (int i = 0; i < count; i++) {
        int last = i + 1 == count;
        printf("%-*s%s", csv || last ? 0 : columns[i].width, fields[i], last ? "\n" : csv ? "," : "  ");
    }
}

void print_headings(int csv, int count, const struct column *columns)
{
    field headings[COLUMNS_MOST];
    for (int i = 0; i < count; i++)
        snprintf(headings[i], WORDS_MOST, "%s", columns[i].heading);
    print_fields(csv, count, columns, headings);
}
