/* Steps along a history, and beside it. */
#include "history.h"

#include "../second/chance.h"
#include "../second/record.h"

#include <string.h>

enum { RECORD_MOST = SECOND_METER_SIZE };

/* A step on a record of another's making; the history goes on beside it. */
static void step_aside(const struct history *h, const uint8_t *record)
{
    uint8_t other[RECORD_MOST + 8] = {0};
    size_t size = h->size;
    union state state;
    int refusal;
    memcpy(other, record, size);
    if (once_in(2))
        h->mix(other);
    else
        size = spoil(other, size);
    refusal = h->take(other, size, &state);
    h->step(other, size, refusal, &state);
}

void compare_history(const struct history *h)
{
    uint8_t record[RECORD_MOST];
    union state state, read;
    if (!h->begin(record, &state))
        return;
    for (unsigned steps = between(1, h->steps); steps > 0; steps--) {
        struct lent *left = h->step(record, h->size, 0, &state);
        h->hold(left, &state);
        memcpy(record, left->proved, h->size);
        if (h->take(record, h->size, &read) != 0)
            fail("a step gives a record that no step gives");
        if (once_in(3))
            step_aside(h, record);
        if (h->has_ended(&state) && once_in(4))
            return;
    }
}
