/* Random first characters of a line, and captures with the times at which their characters began. */
#include "make_capture.h"

#include "chance.h"
#include "make_line.h"
#include "make_telegram.h"

/* A line that comes in: cut, most often after a few characters, with one of the first changed, or with more behind it. */
void some_first(struct line *first)
{
    struct line more = {{0}, 0};
    if (once_in(3))
        some_line(first);
    else
        write_good(first, once_in(2) ? SECOND_DATA : (enum second_kind)below(5));
    if (once_in(4) && first->n > 0)
        first->c[below(first->n < 5 ? (unsigned)first->n : 5)] ^= (uint16_t)one_bit(0, 9);
    if (once_in(4)) {
        some_line(&more);
        for (size_t i = 0; i < more.n && first->n < 600; i++)
            add_character(first, more.c[i]);
    } else if (!once_in(4) && first->n > 5)
        first->n = below(6);
    else if (first->n > 0)
        first->n -= below(2);
}

/* Eleven bit times a character, pauses between, and now and then one that falls. */
static void some_times(struct timed_capture *capture)
{
    uint64_t now = once_in(8) ? of_any_width() : below(20000);
    size_t n = capture->characters.n;
    capture->times_n = n;
    if (once_in(6))
        capture->times_n = below((unsigned)n + 1);
    else if (once_in(6))
        capture->times_n = n + between(1, 8);
    for (size_t i = 0; i < capture->times_n; i++) {
        capture->times[i] = now;
        now += once_in(24) ? between(1, 600) : 11;
        if (once_in(40))
            now -= between(1, 900);
    }
}

void some_timed_capture(struct timed_capture *capture)
{
    capture->characters.n = 0;
    some_capture(&capture->characters);
    some_times(capture);
    capture->t = once_in(6) ? 0 : of_any_width();
    if (capture->times_n > 0 && !once_in(6)) {
        capture->t = capture->times[below((unsigned)capture->times_n)];
        capture->t += below(3);
        capture->t -= below(2);
    }
}
