/* A line that comes in, and the first line after a time: the archive against the second program. */
#include "compare_capture.h"

#include "call.h"
#include "skarrowith.h"

#include "../second/capture.h"
#include "../second/make_capture.h"

#include <string.h>

void compare_length(void)
{
    struct line l = {{0}, 0};
    size_t told = 0;
    int answer;
    some_first(&l);
    answer = second_line_length(l.c, l.n, &told);
    begin(LINE_LENGTH);
    struct lent *first = lend("first", 2 * l.n, l.c, 2 * l.n), *length = lend("length", sizeof told, NULL, 0);
    if (answer == 0)
        memcpy(length->second, &told, sizeof told);
    end(skarrowith_line_length(first->to, l.n, length->to), answer == SECOND_NOT_YET ? SKARROWITH_NOT_YET : answer_for(answer));
}

void compare_after(void)
{
    static struct timed_capture made;
    struct second_timed where = {0, 0, 0};
    size_t size = some_places(24);
    int refusal;
    some_timed_capture(&made);
    refusal = second_find_after(made.characters.c, made.characters.n, made.times, made.times_n, made.t, &where);
    if (refusal == 0 && size < 24)
        refusal = 21;
    begin(FIND_LINE_AFTER);
    struct lent *capture = lend("capture", 2 * made.characters.n, made.characters.c, 2 * made.characters.n);
    struct lent *times = lend("times", 8 * made.times_n, made.times, 8 * made.times_n), *found = lend("found", size, NULL, 0);
    if (refusal == 0) {
        const uint64_t all[3] = {where.place, where.length, where.time};
        memcpy(found->second, all, sizeof all);
    }
    end(skarrowith_find_line_after(capture->to, made.characters.n, times->to, made.times_n, tell("t", made.t), found->to, size),
        answer_for(refusal));
}
