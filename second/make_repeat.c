/* Random run bundles in which answers come again: as they were, with another header, and with one thing changed. */
#include "make_repeat.h"

#include "chance.h"
#include "make_bundle.h"
#include "make_line.h"
#include "make_telegram.h"

/* The rest of the header is another one's: still the same reading. */
static void change_header(struct second_telegram *t)
{
    struct second_telegram other = good_telegram(SECOND_DATA);
    t->address = other.address;
    t->access = other.access;
    t->status = other.status;
    if (once_in(2))
        return;
    t->maker = other.maker;
    t->version = other.version;
    t->type = other.type;
}

/* A value next to what it was, which fits where that did. */
static void change_value(struct second_entry *e)
{
    if (e->sort == SECOND_TIME)
        e->moment[5] = (e->moment[5] + 1) % 60;
    else
        e->count += e->count > 0 ? -1 : 1;
}

/* One thing by which it is another reading: the meter number, a value, or the order of two entries. */
static void change_reading(struct second_telegram *t)
{
    unsigned at = below((unsigned)t->count), other = below((unsigned)t->count);
    struct second_entry entry = t->entries[at];
    switch (below(3)) {
    case 0:
        t->number = (t->number + (once_in(2) ? 1 : 10000000)) % 100000000;
        return;
    case 1:
        change_value(&t->entries[at]);
        return;
    default:
        t->entries[at] = t->entries[other];
        t->entries[other] = entry;
    }
}

/* A row of one of a few readings, or one that gives none. */
static void some_answer(const struct second_telegram *stock, unsigned few)
{
    struct line l = {{0}, 0};
    struct second_telegram t = stock[below(few)];
    unsigned position = between(1, 4), direction = !once_in(6);
    uint32_t time = later_row();
    if (once_in(2))
        change_header(&t);
    if (once_in(4))
        change_reading(&t);
    write_telegram(&l, &t);
    if (once_in(8))
        flip(&l, 1);
    if (once_in(8))
        write_good(&l, some_kind());
    add_row(position, direction, time, &l);
}

void some_repeats(void)
{
    struct second_telegram stock[3];
    unsigned few = between(1, 3);
    for (unsigned i = 0; i < few; i++)
        stock[i] = good_telegram(SECOND_DATA);
    begin_run();
    for (unsigned rows = once_in(10) ? between(12, 40) : below(12); rows > 0; rows--)
        some_answer(stock, few);
    join_run();
    if (once_in(12))
        break_bundle();
}
