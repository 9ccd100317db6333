/* Random run bundles in which a position is read again and again, for the replay. */
#ifndef SECOND_MAKE_REPLAY_H
#define SECOND_MAKE_REPLAY_H

#include <stdint.h>

/* What the replay is asked, of the bundle that make_bundle.h declares. */
struct replay {
    unsigned position;
    uint64_t s1, s2, elapsed;
};

void some_replay(struct replay *r);

#endif
