/* The replay: the archive against the second program. */
#ifndef COMPARE_REPLAY_H
#define COMPARE_REPLAY_H

/* A bundle of a random talk with one meter, and of any sort. */
void compare_replay(void);

#endif
