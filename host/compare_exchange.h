/* Histories of exchanges, the state kept in a record: the archive against the second program. */
#ifndef COMPARE_EXCHANGE_H
#define COMPARE_EXCHANGE_H

#include "history.h"

extern const struct history exchanges;

#endif
