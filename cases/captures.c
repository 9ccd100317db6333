/* The cases of a line that comes in, and of the first line after a time. */
#include "captures.h"

#include "telegrams.h"
#include "words.h"

#include "../second/capture.h"

#include <inttypes.h>
#include <stdio.h>

static uint16_t characters[WORDS_MOST];

int answer_length(void)
{
    size_t n, length = 0;
    int answer;
    if (!take_characters(characters, &n) || !is_whole())
        return 0;
    answer = second_line_length(characters, n, &length);
    if (answer == SECOND_NOT_YET)
        printf("later");
    else if (!refused(answer))
        printf("length +%zu", length);
    return 1;
}

static int take_times(uint64_t *times, size_t *n)
{
    for (*n = 0; goes_on(); (*n)++)
        if (!take(&times[*n], UINT64_MAX))
            return 0;
    return 1;
}

int answer_after(void)
{
    static uint64_t times[WORDS_MOST];
    struct second_timed found = {0, 0, 0};
    uint64_t t;
    size_t n, times_n;
    if (!take(&t, UINT64_MAX) || !take_name("times") || !take_times(times, &times_n))
        return 0;
    if (!take_name("capture") || !take_characters(characters, &n) || !is_whole())
        return 0;
    if (!refused(second_find_after(characters, n, times, times_n, t, &found)))
        printf("found +%zu +%zu +%" PRIu64, found.place, found.length, found.time);
    return 1;
}
