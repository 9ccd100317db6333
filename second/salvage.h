/* A run bundle cut short, 2026-11 of document 02, for the second program. */
#ifndef SECOND_SALVAGE_H
#define SECOND_SALVAGE_H

#include "bundle.h"

struct second_salvaged {
    size_t kept, dropped;
    int rule;
    size_t filled;
};

/* Answers 0 and has written the new bundle, or answers the number of a refusal and has written nothing. */
int second_salvage(const uint8_t *damaged, size_t n, uint8_t *out, size_t places, struct second_salvaged *told);

#endif
