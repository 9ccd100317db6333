/* The cases of the resistance box. */
#include "resistances.h"

#include "telegrams.h"
#include "words.h"

#include "../second/resistance.h"

#include <inttypes.h>
#include <stdio.h>

int answer_resistance(void)
{
    uint64_t hundredths;
    uint32_t milliohm = 0;
    if (!take(&hundredths, UINT32_MAX) || !is_whole())
        return 0;
    if (!refused(second_resistance((uint32_t)hundredths, &milliohm)))
        printf("milliohm +%" PRIu32, milliohm);
    return 1;
}

int answer_temperature(void)
{
    uint64_t milliohm;
    uint32_t hundredths = 0;
    if (!take(&milliohm, UINT32_MAX) || !is_whole())
        return 0;
    if (!refused(second_temperature((uint32_t)milliohm, &hundredths)))
        printf("hundredths +%" PRIu32, hundredths);
    return 1;
}
