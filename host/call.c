/* The call that is being made, what it is lent and told, and which answers were seen. */
#include "call.h"

#include "skarrowith.h"

#include "../second/chance.h"
#include "../second/make_bundle.h"

#include <inttypes.h>
#include <stdio.h>
#include <stdlib.h>
#include <string.h>

enum { LENT_MOST = SKARROWITH_PICTURE_MOST + 64, MARGIN = 32, POOL = 4, ANSWERS = 512 };

/* Every function, with answers and refusals of which each must be seen. */
static const struct {
    const char *name, *answers, *refusals;
} functions[FUNCTIONS] = {
    [CHECK_LINE] = {"skarrowith_check_line", "1 2 3 4 5", "1 2 3 4 5 6 7 8 9 10 11 12 13 14 16 17"},
    [REFUSAL_TEXT] = {"skarrowith_refusal_text", "14 17 83", "21 100"},
    [ENTRY_MEANING] = {"skarrowith_entry_meaning", "0", "11 21"},
    [FIND_LINE] = {"skarrowith_find_line", "0", "18 21"},
    [FIND_EITHER] = {"skarrowith_find_either", "1 2", "18 21"},
    [UNMARK] = {"skarrowith_unmark", "0", ""},
    [LINE_LENGTH] = {"skarrowith_line_length", "0 1", "18"},
    [FIND_LINE_AFTER] = {"skarrowith_find_line_after", "0", "18 21"},
    [READ_LINE] = {"skarrowith_read_line", "1 2 3 4 5", "1 2 3 4 5 6 7 8 9 10 11 12 13 14 16 21"},
    [WRITE_LINE] = {"skarrowith_write_line", "1 5 10 63", "20 21 101"},
    [WRITE_REQUEST] = {"skarrowith_write_request", "5 10", "20 21"},
    [WRITE_WAKE] = {"skarrowith_write_wake", "0", "21 52"},
    [GAP] = {"skarrowith_gap", "0", "50 51"},
    [INDICATION] = {"skarrowith_error", "0", "21 60 61 62"},
    [RESISTANCE] = {"skarrowith_resistance", "0", "90"},
    [TEMPERATURE] = {"skarrowith_temperature", "0", "91"},
    [EXCHANGE_SEND_ENDED] = {"skarrowith_exchange_send_ended", "1", "40 41 42 43 101"},
    [EXCHANGE_HEARD] = {"skarrowith_exchange_heard", "2 3 4", "21 40 41 101"},
    [EXCHANGE_TICK] = {"skarrowith_exchange_tick", "1 2 4", "40 41 101"},
    [METER_SET_UP] = {"skarrowith_meter_set_up", "0", "21 72 101"},
    [METER_HEARD] = {"skarrowith_meter_heard", "0 1 5", "21 70 101"},
    [METER_MEASURE] = {"skarrowith_meter_measure", "0", "70 71 101"},
    [BUNDLE_CHECK] = {"skarrowith_bundle_check", "0", "30 31 32 33 34 35 36 37"},
    [BUNDLE_ROW] = {"skarrowith_bundle_row", "0", "21 30 31 32 33 34 35 36 37 39"},
    [BUNDLE_ADD] = {"skarrowith_bundle_add", "0", "30 31 32 33 34 35 36 37 38"},
    [BUNDLE_INSERT] = {"skarrowith_bundle_insert", "0", "30 31 32 33 34 35 36 37 38"},
    [BUNDLE_LIST] = {"skarrowith_bundle_list", "0", "21"},
    [CONTENTS_OF] = {"skarrowith_contents_of", "0", "21 30 31 32 33 34 35 36 37"},
    [CONTENTS_ROW] = {"skarrowith_contents_row", "0", "21 39 101"},
    [CONTENTS_NEXT] = {"skarrowith_contents_next", "0", "39 101"},
    [REPLAY_ERROR] = {"skarrowith_replay_error", "0", "21 30 31 32 33 34 35 36 37 61 62 63 64 65"},
    [ROW_VERDICT] = {"skarrowith_verdict", "0", "21 30 31 32 33 34 35 36 37 39"},
    [ROW_VERDICTS] = {"skarrowith_verdicts", "0", "21 30 31 32 33 34 35 36 37"},
    [CONTENTS_VERDICTS] = {"skarrowith_contents_verdicts", "0", "21 34 35 101"},
    [REPEATS] = {"skarrowith_repeats", "0", "21 30 31 32 33 34 35 36 37"},
    [PICTURE] = {"skarrowith_picture", "0", "21 30 31 32 33 34 35 36 37"},
    [BUNDLE_SALVAGE] = {"skarrowith_bundle_salvage", "0", "21 30 31 32 33 38"},
    [BUNDLE_SWEEP] = {"skarrowith_bundle_sweep", "0", "30 31 32 33 34 35 36 37"},
    [BUNDLE_OF_POSITION] = {"skarrowith_bundle_of_position", "0", "30 31 32 33 34 35 36 37 38"},
    [BUNDLE_JOIN] = {"skarrowith_bundle_join", "0", "30 31 32 33 34 35 36 37 38"},
    [CJT_CHECK_LINE] = {"skarrowith_cjt_check_line", "1 2", "1 2 3 17 80 81 82 83 84 85"},
    [CJT_READ_LINE] = {"skarrowith_cjt_read_line", "1 2", "1 2 3 21 80 81 82 83 84 85"},
    [CJT_WRITE_LINE] = {"skarrowith_cjt_write_line", "16 59", "20 21 101"},
    [CJT_ENERGY_ENTRY] = {"skarrowith_cjt_energy_entry", "0", "21 84 85 86"},
};

static unsigned long seen[FUNCTIONS][ANSWERS], cases;
static uint64_t first;

void seed_calls(uint64_t seed)
{
    first = seed;
    seed_chance(seed);
}

unsigned long calls_made(void)
{
    return cases;
}

/* ---- the call that is being made */

static struct {
    enum function function;
    struct lent lent[POOL];
    size_t lents, numbers;
    struct {
        const char *name;
        uint64_t number;
    } told[8];
} call;

void begin(enum function function)
{
    call.function = function;
    call.lents = call.numbers = 0;
}

struct lent *lend(const char *name, size_t size, const void *content, size_t n)
{
    struct lent *l = &call.lent[call.lents++];
    if (size > LENT_MOST - MARGIN || n > size)
        abort();
    if (l->before == NULL && (l->before = malloc(3 * LENT_MOST)) == NULL)
        abort();
    l->proved = l->before + LENT_MOST;
    l->second = l->proved + LENT_MOST;
    l->name = name;
    l->size = size;
    l->to = size == 0 && once_in(2) ? NULL : l->proved;
    memset(l->before, (int)(0xA5 + cases % 7), size + MARGIN);
    if (n > 0)
        memcpy(l->before, content, n);
    memcpy(l->proved, l->before, size + MARGIN);
    memcpy(l->second, l->before, size + MARGIN);
    return l;
}

uint64_t tell(const char *name, uint64_t number)
{
    call.told[call.numbers].name = name;
    call.told[call.numbers++].number = number;
    return number;
}

uint32_t answer_for(int refusal)
{
    return refusal == 0 ? 0 : SKARROWITH_REFUSED + (uint32_t)refusal;
}

static int is_same(const struct lent *l)
{
    return memcmp(l->proved, l->second, l->size + MARGIN) == 0;
}

static void show_bytes(const char *what, const uint8_t *b, size_t n)
{
    printf("    %s:", what);
    for (size_t i = 0; i < n; i++)
        printf(" %02X", b[i]);
    putchar('\n');
}

void fail(const char *what)
{
    printf("compare: seed %" PRIu64 ", call %lu, %s: %s\n", first, cases, functions[call.function].name, what);
    for (size_t i = 0; i < call.numbers; i++)
        printf("  %s: %" PRIu64 "\n", call.told[i].name, call.told[i].number);
    for (size_t i = 0; i < call.lents; i++) {
        const struct lent *l = &call.lent[i];
        printf("  %s, %zu bytes and %d behind them\n", l->name, l->size, MARGIN);
        show_bytes("lent", l->before, l->size + MARGIN);
        if (is_same(l))
            continue;
        show_bytes("as the archive left it", l->proved, l->size + MARGIN);
        show_bytes("as the second program says", l->second, l->size + MARGIN);
    }
    exit(1);
}

void end(uint32_t proved, uint32_t second)
{
    int same = proved == second;
    for (size_t i = 0; i < call.lents; i++)
        same = same && is_same(&call.lent[i]);
    if (!same) {
        printf("compare: the archive answers %" PRIu32 ", the second program %" PRIu32 "\n", proved, second);
        fail("the two programs differ");
    }
    if (proved >= ANSWERS)
        fail("no answer has this number");
    seen[call.function][proved]++;
    cases++;
}

/* ---- choices that several functions share */

size_t some_places(size_t needed)
{
    switch (below(16)) {
    case 0:
        return needed - (needed > 0);
    case 1:
        return below((unsigned)needed + 1);
    case 2:
    case 3:
    case 4:
        return needed + between(1, 20);
    default:
        return needed;
    }
}

size_t spoil(uint8_t *record, size_t size)
{
    unsigned at = below((unsigned)size);
    switch (below(8)) {
    case 0:
        return size - 1;
    case 1:
        return once_in(2) ? size + between(1, 8) : below((unsigned)size);
    case 2:
        for (size_t i = 0; i < size; i++)
            record[i] = (uint8_t)chance();
        return size;
    case 3:
        record[at] ^= (uint8_t)one_bit(0, 7);
        return size;
    case 4:
        record[at] = (uint8_t)(once_in(2) ? record[at] + 1 : record[at] - 1);
        return size;
    default:
        record[at] = (uint8_t)chance();
        return size;
    }
}

/* ---- what was seen */

/* Says which of the numbers in a list no call was answered by. */
static int were_seen(enum function f, const char *list, unsigned add, const char *as)
{
    int all = 1;
    for (char *rest; *list != '\0'; list = rest) {
        unsigned long number = strtoul(list, &rest, 10);
        if (seen[f][add + number] != 0)
            continue;
        printf("compare: %s never %s %lu\n", functions[f].name, as, number);
        all = 0;
    }
    return all;
}

static void show_refusals(void)
{
    printf("compare: refusals seen:");
    for (unsigned n = 0; n < ANSWERS - SKARROWITH_REFUSED; n++) {
        unsigned long times = 0;
        for (unsigned f = 0; f < FUNCTIONS; f++)
            times += seen[f][SKARROWITH_REFUSED + n];
        if (times > 0)
            printf(" %u", n);
    }
    putchar('\n');
}

int all_seen(void)
{
    int all = 1;
    for (unsigned f = 0; f < FUNCTIONS; f++) {
        unsigned long calls = 0;
        for (unsigned a = 0; a < ANSWERS; a++)
            calls += seen[f][a];
        printf("compare: %8lu %s\n", calls, functions[f].name);
        all &= were_seen((enum function)f, functions[f].answers, 0, "answered");
        all &= were_seen((enum function)f, functions[f].refusals, SKARROWITH_REFUSED, "refused by");
    }
    show_refusals();
    return all;
}
