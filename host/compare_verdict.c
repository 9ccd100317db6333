/* The verdicts of rows, of bundles and of columns: the archive against the second program. */
#include "compare_verdict.h"

#include "call.h"
#include "skarrowith.h"

#include "../second/chance.h"
#include "../second/make_bundle.h"
#include "../second/make_verdict.h"
#include "../second/verdict.h"

#include <stdio.h>
#include <string.h>

enum { VERDICT = sizeof(struct skarrowith_row_verdict), VERDICTS = 12 };

static unsigned long seen[VERDICTS];

static struct second_judged judged[SECOND_ROWS];

/* What is told of so many rows. */
static void put_verdicts(uint8_t *to, const struct second_judged *from, size_t rows)
{
    for (size_t i = 0; i < rows; i++) {
        struct skarrowith_row_verdict v = {(uint16_t)from[i].verdict, (uint16_t)from[i].number};
        memcpy(to + VERDICT * i, &v, VERDICT);
        seen[from[i].verdict]++;
    }
}

static void verdict(void)
{
    size_t i = (size_t)some_row(), size = some_places(VERDICT);
    struct second_judged one = {SECOND_WAKE_UP, 0};
    int refusal = size < VERDICT ? 21 : second_verdict(bundle.b, bundle.n, i, &one);
    begin(ROW_VERDICT);
    struct lent *bytes = lend("bundle", bundle.n, bundle.b, bundle.n), *out = lend("verdict", size, NULL, 0);
    if (refusal == 0)
        put_verdicts(out->second, &one, 1);
    end(skarrowith_verdict(bytes->to, bundle.n, (size_t)tell("i", i), out->to, size), answer_for(refusal));
}

static void verdicts(void)
{
    size_t rows = 0, size;
    int refusal = second_verdicts(bundle.b, bundle.n, judged, &rows);
    size = some_places(VERDICT * (refusal == 0 ? rows : 4));
    if (refusal == 0 && size < VERDICT * rows)
        refusal = 21;
    begin(ROW_VERDICTS);
    struct lent *bytes = lend("bundle", bundle.n, bundle.b, bundle.n), *out = lend("verdicts", size, NULL, 0);
    struct lent *count = lend("count", sizeof rows, NULL, 0);
    if (refusal == 0) {
        put_verdicts(out->second, judged, rows);
        memcpy(count->second, &rows, sizeof rows);
    }
    end(skarrowith_verdicts(bytes->to, bundle.n, out->to, size, count->to), answer_for(refusal));
}

/* The columns of the bundle, where it has any: some rows are left out, or a field is broken. */
static struct second_contents columns;

static void leave_out(size_t i)
{
    size_t left = (size_t)columns.count - i - 1;
    memmove(columns.positions + i, columns.positions + i + 1, left);
    memmove(columns.directions + i, columns.directions + i + 1, left);
    memmove(columns.times + i, columns.times + i + 1, 4 * left);
    memmove(columns.offsets + i, columns.offsets + i + 1, 4 * left);
    memmove(columns.lengths + i, columns.lengths + i + 1, 2 * left);
    columns.count--;
}

static void break_field(size_t i)
{
    switch (below(6)) {
    case 0:
        columns.positions[i] = once_in(2) ? 0 : (uint8_t)between(49, 255);
        break;
    case 1:
        columns.directions[i] = (uint8_t)between(2, 255);
        break;
    case 2:
        columns.times[i] = (uint32_t)chance();
        break;
    case 3:
        columns.lengths[i] = (uint16_t)(once_in(2) ? below(1100) : chance());
        break;
    case 4:
        columns.offsets[i] = (uint32_t)(once_in(2) ? bundle.n - columns.lengths[i] + below(3) : chance());
        break;
    default:
        columns.count = once_in(2) ? 513 : chance();
    }
}

static void some_columns(void)
{
    if (second_contents(bundle.b, bundle.n, &columns) != 0)
        memset(&columns, 0, sizeof columns);
    while (columns.count > 0 && once_in(2))
        leave_out(below((unsigned)columns.count));
    if (columns.count > 0 && once_in(3))
        break_field(below((unsigned)columns.count));
}

static uint8_t record[sizeof(struct skarrowith_contents) + 4096];

static void contents_verdicts(void)
{
    size_t rows = 0, n = sizeof columns, size;
    int refusal;
    some_columns();
    memcpy(record, &columns, sizeof columns);
    if (once_in(12))
        n = some_places(n);
    refusal = n != sizeof columns ? 101 : second_contents_verdicts(&columns, bundle.b, bundle.n, judged, &rows);
    size = some_places(VERDICT * (refusal == 0 ? rows : 4));
    if (refusal == 0 && size < VERDICT * rows)
        refusal = 21;
    begin(CONTENTS_VERDICTS);
    struct lent *in = lend("contents", n, record, n), *bytes = lend("bundle", bundle.n, bundle.b, bundle.n);
    struct lent *out = lend("verdicts", size, NULL, 0), *count = lend("count", sizeof rows, NULL, 0);
    if (refusal == 0) {
        put_verdicts(out->second, judged, rows);
        memcpy(count->second, &rows, sizeof rows);
    }
    end(skarrowith_contents_verdicts(in->to, n, bytes->to, bundle.n, out->to, size, count->to), answer_for(refusal));
}

void compare_verdict(void)
{
    if (once_in(20))
        some_bundle();
    else
        some_exchanges(8);
    verdict();
    verdicts();
    contents_verdicts();
}

int verdicts_seen(void)
{
    int all = 1;
    for (size_t i = SECOND_WAKE_UP; i <= SECOND_UNASKED; i++)
        if (seen[i] == 0) {
            printf("compare: no row has the verdict %zu\n", i);
            all = 0;
        }
    return all;
}
