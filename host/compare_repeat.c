/* Rows that repeat a reading: the archive against the second program. */
#include "compare_repeat.h"

#include "call.h"
#include "skarrowith.h"

#include "../second/chance.h"
#include "../second/make_bundle.h"
#include "../second/make_repeat.h"
#include "../second/repeat.h"

#include <string.h>

void compare_repeat(void)
{
    static uint16_t told[SECOND_ROWS];
    size_t rows, count = 0, places;
    int refusal;
    if (once_in(8))
        some_bundle();
    else
        some_repeats();
    rows = bundle.rows < SECOND_ROWS ? bundle.rows : SECOND_ROWS;
    places = some_places(rows);
    begin(REPEATS);
    struct lent *bytes = lend("bundle", bundle.n, bundle.b, bundle.n);
    struct lent *numbers = lend("rows", places * sizeof told[0], NULL, 0);
    struct lent *many = lend("count", sizeof count, NULL, 0);
    refusal = second_repeats(bundle.b, bundle.n, told, places < SECOND_ROWS ? places : SECOND_ROWS, &count);
    if (refusal == 0) {
        memcpy(numbers->second, told, count * sizeof told[0]);
        memcpy(many->second, &count, sizeof count);
    }
    end(skarrowith_repeats(bytes->to, bundle.n, numbers->to, places, many->to), answer_for(refusal));
}
