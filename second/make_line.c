/* Random lines: accepted ones, flips, noise, captures, and lines for an exchange or a meter to hear. */
#include "make_line.h"

#include "chance.h"
#include "make_miss.h"
#include "make_telegram.h"

static void add_line(struct line *l, const struct line *more)
{
    for (size_t i = 0; i < more->n; i++)
        add_character(l, more->c[i]);
}

static void noise(struct line *l, unsigned most)
{
    static const unsigned char starts[] = {0xE5, 0x10, 0x68};
    unsigned sort = below(4), n = below(most + 1), r;
    struct bytes body = {{0}, 0};
    for (l->n = 0; l->n < n;) {
        r = below(512);
        if (sort == 0)
            add_character(l, r);
        else
            add_byte(l, (l->n == 0 && sort > 1) || once_in(8) ? starts[r % 3] : r);
    }
    if (sort != 3)
        return;
    while (body.n < n && body.n < sizeof body.b)
        push(&body, below(256));
    frame(l, &body);
}

void some_line(struct line *l)
{
    unsigned sort = below(8);
    if (sort < 4)
        near_miss(l);
    else if (sort == 7)
        noise(l, once_in(3) ? 300 : 20);
    else
        write_good(l, some_kind());
    if (sort == 6)
        flip(l, between(1, 4));
}

/* A line that is whole, cut, damaged or preceded by a beginning of its own, with noise around it. */
static void capture_part(struct line *capture)
{
    struct line l = {{0}, 0}, other = {{0}, 0};
    write_good(&l, some_kind());
    switch (below(8)) {
    case 0:
        l.n = below((unsigned)l.n + 1);
        break;
    case 1:
        flip(&l, between(1, 3));
        break;
    case 2:
        near_miss(&l);
        break;
    case 3:
        other = l;
        other.n = below((unsigned)l.n + 1);
        add_line(capture, &other);
        break;
    case 4:
        noise(&l, 20);
        break;
    default:
        break;
    }
    add_line(capture, &l);
}

void some_capture(struct line *capture)
{
    for (unsigned parts = below(5); parts > 0; parts--)
        capture_part(capture);
    if (once_in(4))
        capture->n = below((unsigned)capture->n + 1);
}

/* Two captures of one position: any two, the same line or noise in both, or one of them dead. */
void some_two_captures(struct line *mbus, struct line *optical)
{
    some_capture(mbus);
    if (once_in(4))
        *optical = *mbus;
    else
        some_capture(optical);
    if (once_in(4))
        mbus->n = 0;
    if (once_in(6))
        optical->n = 0;
    if (once_in(3) && mbus->n > 0)
        noise(mbus, (unsigned)mbus->n);
}

void damaged_line(struct line *l)
{
    if (once_in(3))
        noise(l, 12);
    else if (once_in(2))
        near_miss(l);
    else
        flip(l, between(1, 3));
}

/* A line for an exchange to hear: the reply that it waits for, its neighbour, any telegram, or damage. */
void reply_line(struct line *l, const struct second_telegram *request)
{
    struct second_telegram t = good_telegram(request->kind == SECOND_READ ? SECOND_DATA : SECOND_ACK);
    if (once_in(4))
        t = good_telegram(some_kind());
    else if (t.kind == SECOND_DATA && !once_in(4))
        t.address = request->address;
    write_telegram(l, &t);
    if (once_in(3))
        damaged_line(l);
}

/* A line for a meter to hear: an instruction, a request to another meter, any telegram, or damage. */
void request_line(struct line *l, unsigned address)
{
    struct second_telegram t = good_telegram(once_in(8) ? some_kind() : (enum second_kind)between(1, 3));
    if (t.kind != SECOND_ACK && !once_in(4))
        t.address = address;
    write_telegram(l, &t);
    if (once_in(8))
        damaged_line(l);
}
