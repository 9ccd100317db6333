/*
 * A meter that speaks CJ/T 188, on a position of the same bench: a request and its answer, as a driver hands their characters
 * on, are read; the values are told in words, and its energies become entries of an M-Bus data telegram.
 */
#include <skarrowith.h>

#include <stdio.h>
#include <stdlib.h>

/* A request to meter 12345678 of maker 1111, with five FE bytes in front, which are skipped. */
static const uint16_t request[] = {
    0x1FE, 0x1FE, 0x1FE, 0x1FE, 0x1FE, 0x168, 0x120, 0x078, 0x056, 0x134, 0x012, 0x000, 0x011, 0x011,
    0x101, 0x003, 0x11F, 0x090, 0x003, 0x074, 0x116};

/* The answer to it: 59 characters. */
static const uint16_t answer[] = {
    0x168, 0x120, 0x078, 0x056, 0x134, 0x012, 0x000, 0x011, 0x011, 0x081, 0x02E, 0x11F, 0x090, 0x003,
    0x134, 0x022, 0x021, 0x000, 0x005, 0x078, 0x056, 0x134, 0x012, 0x005, 0x050, 0x012, 0x000, 0x000,
    0x017, 0x000, 0x125, 0x101, 0x000, 0x035, 0x009, 0x087, 0x065, 0x000, 0x12C, 0x012, 0x078, 0x000,
    0x134, 0x065, 0x000, 0x143, 0x021, 0x000, 0x028, 0x151, 0x115, 0x123, 0x107, 0x018, 0x120, 0x104,
    0x102, 0x126, 0x116};

static const struct {
    uint8_t code;
    const char *name;
} units[] = {
    {SKARROWITH_CJT_WH, "Wh"}, {SKARROWITH_CJT_KWH, "kWh"}, {SKARROWITH_CJT_MWH, "MWh"}, {SKARROWITH_CJT_100_MWH, "x 100 MWh"},
    {SKARROWITH_CJT_J, "J"}, {SKARROWITH_CJT_KJ, "kJ"}, {SKARROWITH_CJT_MJ, "MJ"}, {SKARROWITH_CJT_GJ, "GJ"},
    {SKARROWITH_CJT_100_GJ, "x 100 GJ"}, {SKARROWITH_CJT_W, "W"}, {SKARROWITH_CJT_KW, "kW"}, {SKARROWITH_CJT_MW, "MW"},
    {SKARROWITH_CJT_L, "l"}, {SKARROWITH_CJT_M3, "m3"}, {SKARROWITH_CJT_L_H, "l/h"}, {SKARROWITH_CJT_M3_H, "m3/h"},
};

static void say_refusal(const char *what, uint32_t refusal)
{
    char words[SKARROWITH_TEXT_MOST];
    printf("%s: refused %lu", what, (unsigned long)(refusal - SKARROWITH_REFUSED));
    if (skarrowith_refusal_text(refusal, words, sizeof words) < SKARROWITH_REFUSED)
        printf(", %s", words);
    putchar('\n');
}

/* Hands on an answer; a refusal, which these lines do not meet, ends the program with its words. */
static uint32_t expect(const char *what, uint32_t said)
{
    if (said < SKARROWITH_REFUSED)
        return said;
    say_refusal(what, said);
    exit(1);
}

/* The address is fourteen digits: the maker's four, and ten of the meter. */
static void say_whose(const char *what, const struct skarrowith_cjt_telegram *t)
{
    const unsigned long long meters = 10000000000u;
    printf("%s: ", what);
    if (t->broadcast)
        printf("all meters");
    else
        printf("meter %010llu of maker %04llu", (unsigned long long)t->address % meters, (unsigned long long)t->address / meters);
    printf(", type %02X, serial number %u\n", (unsigned)t->type, (unsigned)t->serial);
}

static const char *unit_of(uint8_t code)
{
    for (size_t i = 0; i < sizeof units / sizeof units[0]; i++)
        if (units[i].code == code)
            return units[i].name;
    return "?";
}

/* A count of hundredths, or for a flow of ten thousandths. */
static void say_value(const char *what, struct skarrowith_cjt_value value, int decimals)
{
    unsigned long one = decimals == 4 ? 10000 : 100;
    printf("%s: %lu.%0*lu %s\n", what, value.count / one, decimals, value.count % one, unit_of(value.code));
}

static void say_values(const struct skarrowith_cjt_telegram *t)
{
    const struct skarrowith_cjt_clock *c = &t->clock;
    say_value("cold", t->cold, 2);
    say_value("heat", t->heat, 2);
    say_value("power", t->power, 2);
    say_value("flow", t->flow, 4);
    say_value("volume", t->volume, 2);
    printf("inlet: %lu.%02lu degrees\n", (unsigned long)t->inlet / 100, (unsigned long)t->inlet % 100);
    printf("outlet: %lu.%02lu degrees\n", (unsigned long)t->outlet / 100, (unsigned long)t->outlet % 100);
    printf("at work for %lu hours\n", (unsigned long)t->hours);
    printf("clock: %04u-%02u-%02u %02u:%02u:%02u\n", (unsigned)c->year, (unsigned)c->month, (unsigned)c->day, (unsigned)c->hour,
           (unsigned)c->minute, (unsigned)c->second);
    printf("battery: %s\n", t->state[0] & 4 ? "low" : "fine");
    printf("inlet sensor: %s\n", t->state[1] & 2 ? "faulty" : "fine");
    printf("outlet sensor: %s\n", t->state[1] & 4 ? "faulty" : "fine");
}

/* An energy as an M-Bus entry, with what its unit byte means. */
static void say_entry(const char *what, struct skarrowith_cjt_value energy)
{
    struct skarrowith_entry entry;
    struct skarrowith_meaning meaning;
    uint32_t said = skarrowith_cjt_energy_entry(energy.count, energy.code, &entry, sizeof entry);
    if (said >= SKARROWITH_REFUSED) {
        say_refusal(what, said);
        return;
    }
    expect("meaning", skarrowith_entry_meaning(entry.unit, &meaning, sizeof meaning));
    printf("%s: structure %02X, unit byte %02X, %llu times 10^%d %s\n", what, (unsigned)entry.structure, (unsigned)entry.unit,
           (unsigned long long)entry.value.count, meaning.power, meaning.unit == SKARROWITH_J ? "J" : "Wh");
}

int main(void)
{
    struct skarrowith_cjt_telegram asked, told;
    uint16_t line[SKARROWITH_CJT_LINE_MOST];
    expect("request", skarrowith_cjt_read_line(request, sizeof request / sizeof request[0], &asked, sizeof asked));
    say_whose("request", &asked);
    uint32_t kind = skarrowith_cjt_read_line(answer, sizeof answer / sizeof answer[0], &told, sizeof told);
    if (expect("answer", kind) != SKARROWITH_CJT_ANSWER || told.address != asked.address || told.serial != asked.serial) {
        printf("this does not answer that request\n");
        return 1;
    }
    say_whose("answer", &told);
    say_values(&told);

    say_entry("cold for M-Bus", told.cold);
    say_entry("heat for M-Bus", told.heat);
    say_entry("2122.34 x 100 GJ for M-Bus", (struct skarrowith_cjt_value){.count = 212234, .code = SKARROWITH_CJT_100_GJ});
    say_entry("2122.34 J for M-Bus", (struct skarrowith_cjt_value){.count = 212234, .code = SKARROWITH_CJT_J});

    asked.serial++;
    printf("the next request has %lu characters\n",
           (unsigned long)expect("next", skarrowith_cjt_write_line(&asked, sizeof asked, line, SKARROWITH_CJT_LINE_MOST)));
    return 0;
}
