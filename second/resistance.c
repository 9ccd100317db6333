/* Setting the resistance box, from document 02: the formula itself for a whole degree, and no table. */
#include "resistance.h"

enum { HUNDREDTHS_MOST = 20000 };

/* 1000 (1 + 3.9083e-3 t - 5.775e-7 t^2) ohm in ten thousandths of a milliohm, rounded to milliohm, halves up. */
static int64_t at_degree(int64_t t)
{
    int64_t fine = INT64_C(10000000000) + INT64_C(39083000) * t - 5775 * t * t;
    return (fine + 5000) / 10000;
}

/* On the straight line from the degree below to the degree above. */
static uint32_t on_the_line(uint32_t hundredths)
{
    int64_t degree = hundredths / 100, low = at_degree(degree), way = (at_degree(degree + 1) - low) * (hundredths % 100);
    int64_t whole = low + way / 100;
    return (uint32_t)(way % 100 >= 50 ? whole + 1 : whole);
}

int second_resistance(uint32_t hundredths, uint32_t *milliohm)
{
    if (hundredths > HUNDREDTHS_MOST)
        return 90;
    *milliohm = on_the_line(hundredths);
    return 0;
}

/* Between a hundredth whose answer is not above and one whose answer is, until they are neighbours. */
int second_temperature(uint32_t milliohm, uint32_t *hundredths)
{
    uint32_t below = 0, above = HUNDREDTHS_MOST + 1;
    if (milliohm < on_the_line(0) || milliohm > on_the_line(HUNDREDTHS_MOST))
        return 91;
    while (above - below > 1) {
        uint32_t middle = below + (above - below) / 2;
        if (on_the_line(middle) > milliohm)
            above = middle;
        else
            below = middle;
    }
    *hundredths = below;
    return 0;
}
