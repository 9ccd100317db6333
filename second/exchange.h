/* The exchange of document 01, and one after another as 2026-09 of document 02 has it, for the second program. */
#ifndef SECOND_EXCHANGE_H
#define SECOND_EXCHANGE_H

#include "line.h"

enum second_state { SECOND_NONE, SECOND_WAITING, SECOND_RESEND, SECOND_WELL, SECOND_FAILED };
enum second_cause { SECOND_SILENT, SECOND_DAMAGED, SECOND_WRONG };

struct second_exchange {
    struct second_telegram request;
    enum second_state state;
    enum second_cause cause; /* of the last failed send, while a resend is asked for and after the third */
    unsigned sends;
    uint64_t began, last; /* the last send's end, and the last step's time */
};

/* There is none, to begin with. */
void second_no_exchange(struct second_exchange *x);

/* Each answers 0, or the number of a refusal, which leaves what there was as it stood. Times are in bit times. */
int second_send_ended(struct second_exchange *x, const struct second_telegram *sent, uint64_t t);
int second_tick(struct second_exchange *x, uint64_t t);

/* The telegram is what the line reads as; it is the reply if the exchange has then ended well. */
int second_heard(struct second_exchange *x, const uint16_t *line, size_t n, uint64_t t, struct second_telegram *reply);

#endif
