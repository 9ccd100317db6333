/*
 * skarrowith show: what happened in a run. A line for each row with all that it says and its verdict; then a line for each
 * position, and a warning where a reading was given twice.
 */
#include "run.h"

#include <inttypes.h>

enum { ROW_COLUMNS = 12 };

static const struct column columns[ROW_COLUMNS] = {
    {"row", 3},     {"seconds", 11}, {"position", 8}, {"direction", 9}, {"line", 23},       {"meter", 8},
    {"energy", 16}, {"volume", 14},  {"inlet C", 7},  {"outlet C", 8},    {"meter time", 19}, {"verdict", 0},
};

static void row_fields(const struct run *run, size_t i, field *fields)
{
    static const uint8_t quantities[] = {SKARROWITH_ENERGY, SKARROWITH_VOLUME, SKARROWITH_INLET, SKARROWITH_OUTLET, SKARROWITH_POINT_IN_TIME};
    const struct shown *shown = &run->rows[i];
    snprintf(fields[0], WORDS_MOST, "%zu", i);
    put_seconds(fields[1], shown->row.time);
    snprintf(fields[2], WORDS_MOST, "%u", shown->row.position);
    snprintf(fields[3], WORDS_MOST, "%s", shown->row.direction == SKARROWITH_SENT ? "sent" : "heard");
    put_line(fields[4], shown);
    fields[5][0] = '\0';
    if (has_data(shown))
        snprintf(fields[5], WORDS_MOST, "%08" PRIu32, shown->telegram.number);
    for (size_t q = 0; q < sizeof quantities; q++)
        put_value(fields[6 + q], shown, quantities[q]);
    put_verdict(fields[11], &shown->verdict);
}

static void print_rows(const struct run *run, int csv)
{
    field fields[ROW_COLUMNS];
    print_headings(csv, ROW_COLUMNS, columns);
    for (size_t i = 0; i < run->count; i++) {
        row_fields(run, i, fields);
        print_fields(csv, ROW_COLUMNS, columns, fields);
    }
}

/* An answer that was left in a driver's buffer shows so: another position, or another time, gave it already. */
static void print_warning(const struct run *run, size_t i)
{
    const struct shown *again = &run->rows[i], *before = &run->rows[again->repeats - 1];
    field then, now, verdict;
    put_seconds(then, before->row.time);
    put_seconds(now, again->row.time);
    put_verdict(verdict, &again->verdict);
    printf("warning: row %zu, position %u at %s s (%s), has the meter number %08" PRIu32 " and the reading of row %zu, position %u at %s s\n", i,
           again->row.position, now, verdict, again->telegram.number, again->repeats - 1, before->row.position, then);
}

static void print_warnings(const struct run *run)
{
    for (size_t i = 0; i < run->count; i++)
        if (run->rows[i].repeats != 0)
            print_warning(run, i);
}

/* In columns all three, the rows left out for -t; with commas the rows, or for -t the table. */
int run_show(const struct given *given)
{
    static struct bundle bundle;
    static struct run run;
    int csv = given->option['c'] != NULL, table = given->option['t'] != NULL;
    int status = read_bundle(given, 0, &bundle);
    if (status != DONE)
        return status;
    uint32_t answer = take_run(&bundle, &run);
    if (answer != 0)
        return refuse(bundle.name, answer);
    if (!table)
        print_rows(&run, csv);
    if (!table && !csv)
        putchar('\n');
    if (table || !csv)
        print_accounts(&run, csv);
    if (!csv)
        print_warnings(&run);
    return DONE;
}
