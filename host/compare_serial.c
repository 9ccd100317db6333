/* Characters from a serial port: the archive against the second program. */
#include "compare_serial.h"

#include "call.h"
#include "skarrowith.h"

#include "../second/make_serial.h"
#include "../second/serial.h"

#include <string.h>

void compare_unmark(void)
{
    static struct marked m;
    static uint16_t made_of[MARKED_MOST + 2];
    size_t places, used_of, count;
    some_marked(&m);
    places = some_room(&m);
    count = second_unmark(m.b, m.n, made_of, places, &used_of);
    begin(UNMARK);
    struct lent *bytes = lend("bytes", m.n, m.b, m.n), *characters = lend("characters", 2 * places, NULL, 0);
    struct lent *used = lend("used", sizeof(size_t), NULL, 0), *made = lend("made", sizeof(size_t), NULL, 0);
    memcpy(characters->second, made_of, 2 * count);
    memcpy(used->second, &used_of, sizeof used_of);
    memcpy(made->second, &count, sizeof count);
    end(skarrowith_unmark(bytes->to, m.n, characters->to, places, used->to, made->to), 0);
}
