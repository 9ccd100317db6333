/* Histories of simulated meters, the state kept in a record: the archive against the second program. */
#ifndef COMPARE_METER_H
#define COMPARE_METER_H

#include "history.h"

extern const struct history meters;

#endif
