/* The cases of characters from a serial port. */
#include "serials.h"

#include "words.h"

#include "../second/serial.h"

#include <inttypes.h>
#include <stdio.h>

enum { PLACES_MOST = 2100, MARKER = 0xFFFF };

/* Used and made, and what stands in the places up to the last that was changed. */
int answer_unmark(void)
{
    static uint16_t characters[PLACES_MOST];
    static uint8_t bytes[WORDS_MOST];
    uint64_t places, byte;
    size_t n = 0, used = 0, made;
    if (!take(&places, PLACES_MOST))
        return 0;
    while (goes_on()) {
        if (!take(&byte, 255))
            return 0;
        bytes[n++] = (uint8_t)byte;
    }
    if (!is_whole())
        return 0;
    for (size_t i = 0; i < places; i++)
        characters[i] = MARKER;
    made = second_unmark(bytes, n, characters, (size_t)places, &used);
    printf("unmarked +%zu +%zu", used, made);
    while (places > 0 && characters[places - 1] == MARKER)
        places--;
    for (size_t i = 0; i < places; i++)
        printf(" %03" PRIX16, characters[i]);
    return 1;
}
