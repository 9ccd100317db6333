/* The replay: the archive against the second program. */
#include "compare_replay.h"

#include "call.h"
#include "skarrowith.h"

#include "../second/chance.h"
#include "../second/make_bundle.h"
#include "../second/make_replay.h"
#include "../second/replay.h"

#include <string.h>

static void replay(const struct replay *r)
{
    int64_t tenths = 0;
    size_t places = once_in(12) ? 0 : 1;
    int refusal = places == 0 ? 21 : second_replay(bundle.b, bundle.n, r->position, r->s1, r->s2, r->elapsed, &tenths);
    begin(REPLAY_ERROR);
    struct lent *bytes = lend("bundle", bundle.n, bundle.b, bundle.n);
    struct lent *place = lend("tenths", places * sizeof tenths, NULL, 0);
    tell("position", r->position);
    tell("s1", r->s1);
    tell("s2", r->s2);
    tell("elapsed", r->elapsed);
    if (refusal == 0)
        memcpy(place->second, &tenths, sizeof tenths);
    end(skarrowith_replay_error(bytes->to, bundle.n, (uint8_t)r->position, r->s1, r->s2, r->elapsed, place->to, places),
        answer_for(refusal));
}

void compare_replay(void)
{
    struct replay r;
    some_replay(&r);
    replay(&r);
    if (!once_in(20))
        return;
    some_bundle();
    r.position = between(1, 48);
    replay(&r);
}
