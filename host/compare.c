/*
 * The archive against the second program, in one process: every function of the header on seeded calls, histories of
 * exchanges and meters with their records, and records that no step gives; first every unit byte, the resistance box on every
 * hundredth, the example bundle cut at every length and swept of every position, and a CJ/T 188 answer with every byte at every
 * place. (skarrowith_version, which is asked nothing, is for host/test.c.)
 *   compare [SEED [COUNT]]
 * Makes COUNT calls, or a few more. Prints the first on which they differ in full, and fails; fails too where an answer
 * that a function can give, or a verdict, was not seen, where no line had one, two or three flips, or where one that had is
 * accepted.
 */
#include "call.h"
#include "compare_bundle.h"
#include "compare_capture.h"
#include "compare_cjt.h"
#include "compare_exchange.h"
#include "compare_line.h"
#include "compare_meter.h"
#include "compare_picture.h"
#include "compare_repeat.h"
#include "compare_replay.h"
#include "compare_resistance.h"
#include "compare_serial.h"
#include "compare_verdict.h"

#include "../second/chance.h"

#include <inttypes.h>
#include <stdio.h>
#include <stdlib.h>

static void compare_exchange(void)
{
    compare_history(&exchanges);
}

static void compare_meter(void)
{
    compare_history(&meters);
}

/* What is called, and how often, of so many turns in all. */
static const struct {
    void (*compare)(void);
    unsigned often;
} parts[] = {
    {compare_check_line, 240}, {compare_read, 50},      {compare_write, 50},  {compare_request, 10},
    {compare_find, 5},         {compare_words, 10},     {compare_meaning, 5},     {compare_wake, 10},   {compare_gap, 10},
    {compare_either, 5},       {compare_unmark, 20},       {compare_length, 10},    {compare_after, 5},
    {compare_error, 20},       {compare_exchange, 20},  {compare_meter, 12},  {compare_bundle, 15},
    {compare_resistance, 10},  {compare_temperature, 10}, {compare_replay, 20}, {compare_verdict, 15},
    {compare_repeat, 10},       {compare_picture, 4},
    {compare_cjt_check, 60},   {compare_cjt_read, 40},  {compare_cjt_write, 40}, {compare_cjt_energy, 20},
};

static void compare_some(void)
{
    unsigned turns = 0, turn;
    for (size_t i = 0; i < sizeof parts / sizeof parts[0]; i++)
        turns += parts[i].often;
    turn = below(turns);
    for (size_t i = 0; i < sizeof parts / sizeof parts[0]; i++) {
        if (turn < parts[i].often) {
            parts[i].compare();
            return;
        }
        turn -= parts[i].often;
    }
}

int main(int argc, char **argv)
{
    unsigned long count = argc > 2 ? strtoul(argv[2], NULL, 10) : 600000;
    uint64_t seed = argc > 1 ? strtoull(argv[1], NULL, 10) : 1;
    int all;
    seed_calls(seed);
    compare_all_meanings();
    compare_all_resistances();
    compare_all_cuts();
    compare_all_positions();
    compare_all_cjt();
    while (calls_made() < count)
        compare_some();
    all = all_seen();
    if (!flips_seen() || !verdicts_seen() || !all)
        return 1;
    printf("compare: seed %" PRIu64 ": %lu calls agree\n", seed, calls_made());
    return 0;
}
