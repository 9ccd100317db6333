/* The resistance box: the archive against the second program. */
#include "compare_resistance.h"

#include "call.h"
#include "skarrowith.h"

#include "../second/chance.h"
#include "../second/resistance.h"

#include <string.h>

/* Calls both programs with a number; answers the number that the second program gives, 0 for a refusal. */
static uint32_t hold(enum function function, const char *told, uint32_t number, const char *named,
    uint32_t (*proved)(uint32_t, uint32_t *), int (*second)(uint32_t, uint32_t *))
{
    uint32_t found = 0;
    int refusal = second(number, &found);
    begin(function);
    struct lent *place = lend(named, sizeof found, NULL, 0);
    if (refusal == 0)
        memcpy(place->second, &found, sizeof found);
    end(proved((uint32_t)tell(told, number), place->to), answer_for(refusal));
    return found;
}

static uint32_t hold_resistance(uint32_t hundredths)
{
    return hold(RESISTANCE, "hundredths", hundredths, "milliohm", skarrowith_resistance, second_resistance);
}

static uint32_t hold_temperature(uint32_t milliohm)
{
    return hold(TEMPERATURE, "milliohm", milliohm, "hundredths", skarrowith_temperature, second_temperature);
}

void compare_resistance(void)
{
    hold_resistance(some_hundredths());
}

void compare_temperature(void)
{
    hold_temperature(some_milliohm());
}

void compare_all_resistances(void)
{
    for (uint32_t h = 0; h <= 20000; h++) {
        uint32_t milliohm = hold_resistance(h);
        for (uint32_t m = milliohm - 1; m <= milliohm + 1; m++)
            hold_temperature(m);
    }
    hold_resistance(20001);
    hold_resistance(UINT32_MAX);
    hold_temperature(0);
    hold_temperature(UINT32_MAX);
}
