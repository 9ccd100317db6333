/* The wake-up and the gap after it, from document 01. */
#include "wake.h"

#include "line.h"

int second_wake(uint64_t count, uint16_t *out, size_t places)
{
    if (count < 459 || count > 502)
        return 52;
    if (places < count)
        return 21;
    for (size_t i = 0; i < count; i++)
        out[i] = second_character(0x55);
    return 0;
}

int second_gap(uint64_t wake_end, uint64_t command_begin)
{
    if (command_begin < wake_end || command_begin - wake_end < 33)
        return 50;
    return command_begin - wake_end > 330 ? 51 : 0;
}
