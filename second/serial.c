/*
 * From a serial port to characters, from termios(3), PARMRK: a machine that is fed byte by byte and stands plain, behind
 * \377, or behind \377 \0.
 */
#include "serial.h"

enum stand { PLAIN, BEHIND_377, BEHIND_377_0 };

/* The byte with the parity bit that makes the nine bits even, or odd. */
static uint16_t with_parity(unsigned byte, unsigned odd)
{
    unsigned ones = odd;
    for (unsigned bit = 1; bit < 256; bit *= 2)
        ones += (byte & bit) != 0;
    return (uint16_t)(ones % 2 == 1 ? byte + 256 : byte);
}

size_t second_unmark(const uint8_t *bytes, size_t n, uint16_t *characters, size_t places, size_t *used)
{
    enum stand stand = PLAIN;
    size_t made = 0, next = 0;
    *used = 0;
    while (made < places && next < n) {
        unsigned byte = bytes[next++];
        if (stand == PLAIN && byte == 0377) {
            stand = BEHIND_377;
            continue;
        }
        if (stand == BEHIND_377 && byte == 0) {
            stand = BEHIND_377_0;
            continue;
        }
        if (stand == BEHIND_377 && byte != 0377) {
            /* No port that is set as it should be passes this on: \377 stands alone, and the byte is looked at again. */
            byte = 0377;
            stand = BEHIND_377_0;
            next--;
        }
        characters[made++] = with_parity(byte, stand == BEHIND_377_0);
        stand = PLAIN;
        *used = next;
    }
    return made;
}
