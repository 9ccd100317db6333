/* A telegram in words: a line for itself, and one for each of its entries. */
#include "program.h"

#include <inttypes.h>

/* The words of kinds, quantities, units and days, by the numbers of the header. */
static const char *const kinds[] = {"", "ack", "read", "enter", "leave", "data"};
static const char *const quantities[] = {"energy", "volume", "power", "flow", "inlet", "outlet", "time"};
static const char *const units[] = {"", "Wh", "J", "m3", "W", "m3/h", "degrees Celsius"};
static const char *const days[] = {"", "Monday ", "Tuesday ", "Wednesday ", "Thursday ", "Friday ", "Saturday ", "Sunday "};

const char *kind_in_words(uint8_t kind)
{
    return kinds[kind];
}

const char *method_in_words(uint8_t method)
{
    return method == SKARROWITH_START_STOP ? "start-stop" : method == SKARROWITH_SIMULATED_FLOW ? "simulated flow" : "real time";
}

int put_scaled(char *out, int64_t count, const struct skarrowith_meaning *meaning)
{
    int size = put_power(out, count, meaning->power);
    return size + snprintf(out + size, (size_t)(WORDS_MOST - size), " %s", units[meaning->unit]);
}

/* The weekday where it was said. */
int put_moment(char *out, const struct skarrowith_moment *t)
{
    return snprintf(out, WORDS_MOST, "%s%04u-%02u-%02u %02u:%02u:%02u", days[t->weekday], 2000u + t->year, t->month, t->day, t->hour,
                    t->minute, t->second);
}

static void print_entry(const struct skarrowith_entry *entry)
{
    struct skarrowith_meaning meaning;
    char words[WORDS_MOST];
    if (skarrowith_entry_meaning(entry->unit, &meaning, sizeof meaning) != 0)
        return;
    if (entry->sort == SKARROWITH_TIME) {
        put_moment(words, &entry->value.time);
        printf("  %s %s\n", quantities[meaning.quantity], words);
        return;
    }
    put_scaled(words, entry->value.count, &meaning);
    printf("  %s %s (%" PRId64 " x 10^%d%s)\n", quantities[meaning.quantity], words, entry->value.count, meaning.power,
           entry->sort == SKARROWITH_BINARY ? ", binary" : "");
}

static void print_address(const char *from, uint8_t address)
{
    printf(" %s %02X%s", from, address, address == SKARROWITH_BROADCAST ? " (every meter)" : "");
}

static void print_telegram(const struct skarrowith_telegram *t)
{
    fputs(kinds[t->kind], stdout);
    if (t->kind == SKARROWITH_DATA) {
        print_address("from", t->address);
        printf(", meter %08lu, maker %c%c%c, version %u", (unsigned long)t->number, '@' + t->maker / 1024, '@' + t->maker / 32 % 32,
               '@' + t->maker % 32, t->version);
        printf(", meter type %02X, access number %u, status %02X", t->meter_type, t->access, t->status);
    } else if (t->kind != SKARROWITH_ACK) {
        print_address("to", t->address);
        if (t->kind == SKARROWITH_ENTER)
            printf(", method %02X (%s)", t->method, method_in_words(t->method));
    }
    putchar('\n');
    for (uint64_t i = 0; i < t->count; i++)
        print_entry(&t->entries[i]);
}

uint32_t tell_kind(const uint16_t *line, size_t count)
{
    struct skarrowith_telegram telegram;
    uint32_t answer = skarrowith_read_line(line, count, &telegram, sizeof telegram);
    if (answer < SKARROWITH_REFUSED)
        puts(kinds[answer]);
    return answer;
}

uint32_t tell_telegram(const uint16_t *line, size_t count)
{
    struct skarrowith_telegram telegram;
    uint32_t answer = skarrowith_read_line(line, count, &telegram, sizeof telegram);
    if (answer < SKARROWITH_REFUSED)
        print_telegram(&telegram);
    return answer;
}
