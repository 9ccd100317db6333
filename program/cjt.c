/* A CJ/T 188 telegram in words: a line for itself, and one for each value of an answer. */
#include "program.h"

#include <inttypes.h>

static const char *unit_in_words(uint8_t code)
{
    static const struct {
        uint8_t code;
        const char *words;
    } units[] = {
        {SKARROWITH_CJT_WH, "Wh"}, {SKARROWITH_CJT_KWH, "kWh"}, {SKARROWITH_CJT_MWH, "MWh"}, {SKARROWITH_CJT_100_MWH, "x 100 MWh"},
        {SKARROWITH_CJT_J, "J"}, {SKARROWITH_CJT_KJ, "kJ"}, {SKARROWITH_CJT_MJ, "MJ"}, {SKARROWITH_CJT_GJ, "GJ"},
        {SKARROWITH_CJT_100_GJ, "x 100 GJ"}, {SKARROWITH_CJT_W, "W"}, {SKARROWITH_CJT_KW, "kW"}, {SKARROWITH_CJT_MW, "MW"},
        {SKARROWITH_CJT_L, "l"}, {SKARROWITH_CJT_M3, "m3"}, {SKARROWITH_CJT_L_H, "l/h"}, {SKARROWITH_CJT_M3_H, "m3/h"},
    };
    size_t i = 0;
    while (i < sizeof units / sizeof units[0] && units[i].code != code)
        i++;
    return i < sizeof units / sizeof units[0] ? units[i].words : "";
}

static void print_value(const char *quantity, uint32_t count, int power, const char *unit)
{
    char words[WORDS_MOST];
    put_power(words, count, power);
    printf("  %s %s %s\n", quantity, words, unit);
}

static void print_values(const struct skarrowith_cjt_telegram *t)
{
    const struct skarrowith_cjt_clock *clock = &t->clock;
    print_value("cold", t->cold.count, -2, unit_in_words(t->cold.code));
    print_value("heat", t->heat.count, -2, unit_in_words(t->heat.code));
    print_value("power", t->power.count, -2, unit_in_words(t->power.code));
    print_value("flow", t->flow.count, -4, unit_in_words(t->flow.code));
    print_value("volume", t->volume.count, -2, unit_in_words(t->volume.code));
    print_value("inlet", t->inlet, -2, "degrees Celsius");
    print_value("outlet", t->outlet, -2, "degrees Celsius");
    print_value("working time", t->hours, 0, "hours");
    printf("  clock %04u-%02u-%02u %02u:%02u:%02u\n", clock->year, clock->month, clock->day, clock->hour, clock->minute, clock->second);
}

static void print_telegram(const struct skarrowith_cjt_telegram *t)
{
    int answer = t->kind == SKARROWITH_CJT_ANSWER;
    fputs(answer ? "answer from " : "request to ", stdout);
    if (t->broadcast)
        fputs("every meter", stdout);
    else
        printf("%014" PRIu64, t->address);
    printf(", type %02X, serial number %u", t->type, t->serial);
    if (answer)
        printf(", state %02X %02X", t->state[0], t->state[1]);
    putchar('\n');
    if (answer)
        print_values(t);
}

uint32_t tell_cjt_kind(const uint16_t *line, size_t count)
{
    struct skarrowith_cjt_telegram telegram;
    uint32_t answer = skarrowith_cjt_read_line(line, count, &telegram, sizeof telegram);
    if (answer < SKARROWITH_REFUSED)
        puts(answer == SKARROWITH_CJT_ANSWER ? "answer" : "request");
    return answer;
}

uint32_t tell_cjt_telegram(const uint16_t *line, size_t count)
{
    struct skarrowith_cjt_telegram telegram;
    uint32_t answer = skarrowith_cjt_read_line(line, count, &telegram, sizeof telegram);
    if (answer < SKARROWITH_REFUSED)
        print_telegram(&telegram);
    return answer;
}
