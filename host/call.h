/* One call of the header, made twice: of the archive, and of the second program. */
#ifndef CALL_H
#define CALL_H

#include <stddef.h>
#include <stdint.h>

enum function {
    CHECK_LINE,
    REFUSAL_TEXT,
    ENTRY_MEANING,
    FIND_LINE,
    FIND_EITHER,
    UNMARK,
    LINE_LENGTH,
    FIND_LINE_AFTER,
    READ_LINE,
    WRITE_LINE,
    WRITE_REQUEST,
    WRITE_WAKE,
    GAP,
    INDICATION,
    RESISTANCE,
    TEMPERATURE,
    EXCHANGE_SEND_ENDED,
    EXCHANGE_HEARD,
    EXCHANGE_TICK,
    METER_SET_UP,
    METER_HEARD,
    METER_MEASURE,
    BUNDLE_CHECK,
    BUNDLE_ROW,
    BUNDLE_ADD,
    BUNDLE_INSERT,
    BUNDLE_LIST,
    CONTENTS_OF,
    CONTENTS_ROW,
    CONTENTS_NEXT,
    REPLAY_ERROR,
    ROW_VERDICT,
    ROW_VERDICTS,
    CONTENTS_VERDICTS,
    REPEATS,
    PICTURE,
    BUNDLE_SALVAGE,
    BUNDLE_SWEEP,
    BUNDLE_OF_POSITION,
    BUNDLE_JOIN,
    CJT_CHECK_LINE,
    CJT_READ_LINE,
    CJT_WRITE_LINE,
    CJT_ENERGY_ENTRY,
    FUNCTIONS
};

/*
 * Memory that the call is lent: the same bytes twice, with a margin behind them. The archive is handed `to`; what the
 * second program says that the call changes goes into `second`.
 */
struct lent {
    const char *name;
    size_t size;
    void *to; /* may be null where the size is 0 */
    uint8_t *before, *proved, *second;
};

/* A call begins; then what it is lent (n bytes have this content, the rest a pattern), and what numbers it is told. */
void begin(enum function function);
struct lent *lend(const char *name, size_t size, const void *content, size_t n);
uint64_t tell(const char *name, uint64_t number);

/*
 * Ends the call. Both answers, and all that was lent with its margins, must be the same: else the call is shown in full
 * and the program fails.
 */
void end(uint32_t proved, uint32_t second);

/* The host's answer for a refusal; 0 where there is none. */
uint32_t answer_for(int refusal);

/* Fails by saying what should not be, with the call that led to it. */
void fail(const char *what);

/* Most often so many places, now and then one fewer, none, or some more. */
size_t some_places(size_t needed);

/* Does to a record what no step does; answers its size. It has room for 8 more bytes. */
size_t spoil(uint8_t *record, size_t size);

/* Calls are numbered from the seed on; how many have been made. */
void seed_calls(uint64_t seed);
unsigned long calls_made(void);

/* Says how often each function was called; whether every answer and refusal that it can give was seen. */
int all_seen(void);

#endif
