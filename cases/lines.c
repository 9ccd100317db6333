/* The cases of lines, what a unit byte means, wake-up, gap and error of indication. */
#include "lines.h"

#include "telegrams.h"
#include "words.h"

#include "../second/indication.h"
#include "../second/meaning.h"
#include "../second/wake.h"

#include <inttypes.h>
#include <stdio.h>

static uint16_t characters[WORDS_MOST];

void clear_places(uint16_t *buffer, uint64_t places)
{
    while (places > 0)
        buffer[--places] = MARKER;
}

void say_places(int refusal, uint64_t length, const uint16_t *buffer, uint64_t places)
{
    if (!refused(refusal))
        printf("wrote +%" PRIu64, length);
    while (places > 0 && buffer[places - 1] == MARKER)
        places--;
    for (uint64_t i = 0; i < places; i++)
        printf(" %03" PRIX16, buffer[i]);
}

int answer_read(void)
{
    struct second_telegram t;
    size_t n;
    if (!take_characters(characters, &n) || !is_whole())
        return 0;
    if (!refused(second_read(characters, n, &t)))
        say_telegram(&t);
    return 1;
}

int answer_write(void)
{
    struct second_telegram t;
    uint64_t places;
    size_t length = 0;
    if (!take(&places, PLACES_MOST) || !take_telegram(&t) || !is_whole())
        return 0;
    clear_places(characters, places);
    int refusal = second_write(&t, characters, (size_t)places, &length);
    say_places(refusal, length, characters, places);
    return 1;
}

int answer_find(void)
{
    size_t n, place = 0, length = 0;
    if (!take_characters(characters, &n) || !is_whole())
        return 0;
    if (!refused(second_find(characters, n, &place, &length)))
        printf("found +%zu +%zu", place, length);
    return 1;
}

int answer_either(void)
{
    static uint16_t optical[WORDS_MOST];
    struct second_live live = {0, 0, 0};
    size_t n, optical_n;
    if (!take_name("mbus") || !take_characters(characters, &n))
        return 0;
    if (!take_name("optical") || !take_characters(optical, &optical_n) || !is_whole())
        return 0;
    if (!refused(second_either(characters, n, optical, optical_n, &live)))
        printf("found %s +%zu +%zu", live.optical ? "optical" : "mbus", live.place, live.length);
    return 1;
}

int answer_meaning(void)
{
    struct second_meaning m = {0, 0, 0};
    uint64_t unit;
    if (!take(&unit, 0xFF) || !is_whole())
        return 0;
    if (!refused(second_entry_meaning((unsigned)unit, &m)))
        printf("meaning +%u +%u %+d", m.quantity, m.unit, m.power);
    return 1;
}

int answer_wake(void)
{
    uint64_t count, places;
    if (!take(&count, UINT64_MAX) || !take(&places, PLACES_MOST) || !is_whole())
        return 0;
    clear_places(characters, places);
    say_places(second_wake(count, characters, (size_t)places), count, characters, places);
    return 1;
}

int answer_gap(void)
{
    uint64_t wake_end, begin;
    if (!take(&wake_end, UINT64_MAX) || !take(&begin, UINT64_MAX) || !is_whole())
        return 0;
    if (!refused(second_gap(wake_end, begin)))
        printf("fine");
    return 1;
}

int answer_error(void)
{
    uint64_t counts[4];
    int64_t tenths = 0;
    for (int i = 0; i < 4; i++)
        if (!take(&counts[i], UINT64_MAX))
            return 0;
    if (!is_whole())
        return 0;
    if (!refused(second_error(counts[0], counts[1], counts[2], counts[3], &tenths)))
        printf("error %+" PRId64, tenths);
    return 1;
}
