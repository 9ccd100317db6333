/* Random run bundles in which exchanges go on at a few positions, for the verdicts of their rows. */
#ifndef SECOND_MAKE_VERDICT_H
#define SECOND_MAKE_VERDICT_H

/* The bundle is the one that make_bundle.h declares; one in so many has a rule broken. */
void some_exchanges(unsigned broken);

#endif
