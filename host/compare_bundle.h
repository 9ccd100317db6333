/* Run bundles, whole and damaged, their rows, columns, salvage, adding, sweep, choosing, joining and listing: the archive against the second program. */
#ifndef COMPARE_BUNDLE_H
#define COMPARE_BUNDLE_H

/* The example bundle salvaged, cut at every length. */
void compare_all_cuts(void);

/* The example bundle swept, every position named in turn. */
void compare_all_positions(void);

void compare_bundle(void);

#endif
