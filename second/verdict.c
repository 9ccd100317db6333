/*
 * The verdict of each row of a run. All rows are laid out side by side first; what became of one is then asked by looking
 * back from it: to the last row sent at its position, and along what was heard there since.
 */
#include "verdict.h"

#include "line.h"
#include "number.h"

/* A row: its first character begins, and its last one ends. A send has a place in its exchange: first, second or third. */
struct spoken {
    unsigned position, place;
    int is_sent, is_wake, refusal;
    uint64_t begins, ends;
    enum second_kind kind;
    unsigned address, method;
};

static struct spoken all[SECOND_ROWS];

static int is_wake(const uint8_t *body, size_t characters)
{
    size_t others = 0;
    for (size_t i = 0; i < characters; i++)
        others += body[2 * i] != 0x55 || body[2 * i + 1] != 0;
    return characters > 458 && characters < 503 && others == 0;
}

static void lay_out(struct spoken *s, const struct second_row *row, const uint8_t *bundle)
{
    uint16_t line[SECOND_BODY / 2];
    struct second_telegram t;
    size_t characters = row->length / 2;
    const uint8_t *body = bundle + row->offset;
    for (size_t i = 0; i < characters; i++)
        line[i] = (uint16_t)second_number(body + 2 * i, 2);
    s->position = row->position;
    s->is_sent = row->direction == 0;
    s->is_wake = is_wake(body, characters);
    s->begins = row->time;
    s->ends = s->begins + 11 * characters;
    s->place = 0;
    s->refusal = second_read(line, characters, &t);
    if (s->refusal != 0)
        return;
    s->kind = t.kind;
    s->address = t.address;
    s->method = t.kind == SECOND_ENTER ? t.method : 0;
}

static int asks(const struct spoken *s)
{
    return s->refusal == 0 && (s->kind == SECOND_READ || s->kind == SECOND_ENTER || s->kind == SECOND_LEAVE);
}

static int fits(const struct spoken *asked, const struct spoken *answer)
{
    if (answer->refusal != 0)
        return 0;
    if (asked->kind != SECOND_READ)
        return answer->kind == SECOND_ACK;
    return answer->kind == SECOND_DATA && (asked->address == 0xFE || asked->address == answer->address);
}

/* The last row sent at the position before row i; i itself where there is none. */
static size_t last_send(size_t i)
{
    for (size_t back = i; back > 0; back--) {
        const struct spoken *s = &all[back - 1];
        if (s->position == all[i].position && s->is_sent && !s->is_wake)
            return back - 1;
    }
    return i;
}

/* The first row heard at its position between a send and row i that begins at or after the send's end; i where there is none. */
static size_t first_heard(size_t send, size_t i)
{
    for (size_t next = send + 1; next < i; next++) {
        const struct spoken *s = &all[next];
        if (s->position == all[send].position && !s->is_sent && !s->is_wake && s->begins >= all[send].ends)
            return next;
    }
    return i;
}

/* What was heard answers the send: in time, and it fits. */
static int answers(size_t send, size_t heard)
{
    return all[heard].begins <= all[send].ends + 450 && fits(&all[send], &all[heard]);
}

/* Whether the send before has failed when row i begins. */
static int has_failed(size_t send, size_t i)
{
    size_t heard = first_heard(send, i);
    return heard == i ? all[i].begins > all[send].ends + 450 : !answers(send, heard);
}

/* The place of a request in its exchange. */
static unsigned place_of(size_t i)
{
    size_t send = last_send(i);
    const struct spoken *before = &all[send], *now = &all[i];
    if (send == i || !asks(before) || before->place == 3)
        return 1;
    if (before->kind != now->kind || before->address != now->address || before->method != now->method)
        return 1;
    return has_failed(send, i) ? before->place + 1 : 1;
}

static struct second_judged judge_sent(size_t i)
{
    struct spoken *s = &all[i];
    if (s->refusal != 0)
        return (struct second_judged){SECOND_UNSENT, s->refusal};
    if (!asks(s))
        return (struct second_judged){SECOND_UNSENT, 42};
    s->place = place_of(i);
    return (struct second_judged){s->place == 1 ? SECOND_FIRST_SEND : SECOND_SENT_AGAIN, 0};
}

static struct second_judged judge_heard(size_t i)
{
    size_t send = last_send(i);
    const struct spoken *s = &all[i];
    if (send == i || !asks(&all[send]))
        return (struct second_judged){SECOND_UNASKED, 0};
    if (s->begins < all[send].ends)
        return (struct second_judged){SECOND_LEFT_OVER, 0};
    if (first_heard(send, i) != i)
        return (struct second_judged){SECOND_BEHIND, 0};
    if (s->begins > all[send].ends + 450)
        return (struct second_judged){SECOND_TOO_LATE, 0};
    if (s->refusal != 0)
        return (struct second_judged){SECOND_DAMAGED_LINE, s->refusal};
    return (struct second_judged){fits(&all[send], s) ? SECOND_COUNTS : SECOND_OTHER_KIND, 0};
}

/* All rows are laid out. */
static void judge(struct second_judged judged[SECOND_ROWS], size_t rows)
{
    for (size_t i = 0; i < rows; i++)
        judged[i] = all[i].is_wake   ? (struct second_judged){SECOND_WAKE_UP, 0}
                    : all[i].is_sent ? judge_sent(i)
                                     : judge_heard(i);
}

int second_verdicts(const uint8_t *bundle, size_t n, struct second_judged judged[SECOND_ROWS], size_t *rows)
{
    int refusal = second_check(bundle, n, rows);
    if (refusal != 0)
        return refusal;
    for (size_t i = 0; i < *rows; i++) {
        const uint8_t *r = bundle + 2 + 12 * i;
        struct second_row row = {r[0], r[1], (uint32_t)second_number(r + 2, 4), (uint32_t)second_number(r + 6, 4),
                                 (size_t)second_number(r + 10, 2)};
        lay_out(&all[i], &row, bundle);
    }
    judge(judged, *rows);
    return 0;
}

int second_contents_verdicts(const struct second_contents *c, const uint8_t *bundle, size_t n,
                             struct second_judged judged[SECOND_ROWS], size_t *rows)
{
    if (c->count > SECOND_ROWS)
        return 101;
    for (size_t i = 0; i < c->count; i++) {
        if (c->positions[i] < 1 || c->positions[i] > 48 || c->directions[i] > 1 || (i > 0 && c->times[i] < c->times[i - 1]))
            return 34;
        if (c->lengths[i] % 2 != 0 || c->lengths[i] < 2 || c->lengths[i] > SECOND_BODY)
            return 34;
    }
    for (size_t i = 0; i < c->count; i++)
        if ((uint64_t)c->offsets[i] + c->lengths[i] > n)
            return 35;
    for (size_t i = 0; i < c->count; i++) {
        struct second_row row = {c->positions[i], c->directions[i], c->times[i], c->offsets[i], c->lengths[i]};
        lay_out(&all[i], &row, bundle);
    }
    *rows = (size_t)c->count;
    judge(judged, *rows);
    return 0;
}

int second_verdict(const uint8_t *bundle, size_t n, uint64_t index, struct second_judged *judged)
{
    static struct second_judged rows_judged[SECOND_ROWS];
    size_t rows = 0;
    int refusal = second_verdicts(bundle, n, rows_judged, &rows);
    if (refusal != 0)
        return refusal;
    if (index >= rows)
        return 39;
    *judged = rows_judged[index];
    return 0;
}
