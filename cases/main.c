/*
 * Answers the case files of docs/CASES.md from standard input, by the second program's functions or by the library's
 * (host/cases.c). With arguments it knows only the capabilities that they name.
 */
#include "bundles.h"
#include "captures.h"
#include "cjts.h"
#include "histories.h"
#include "lines.h"
#include "resistances.h"
#include "serials.h"
#include "words.h"

#include <stdio.h>
#include <string.h>

static const struct {
    const char *name;
    int (*answer)(void);
} capabilities[] = {
    {"read", answer_read},   {"write", answer_write}, {"find", answer_find},         {"wake", answer_wake},
    {"gap", answer_gap},     {"error", answer_error}, {"exchange", answer_exchange}, {"meter", answer_meter},
    {"check", answer_check}, {"row", answer_row},     {"body", answer_body},         {"add", answer_add},
    {"list", answer_list},   {"kept", answer_kept},   {"next", answer_next},         {"salvage", answer_salvage},
    {"resistance", answer_resistance}, {"temperature", answer_temperature},
    {"either", answer_either}, {"meaning", answer_meaning},
    {"insert", answer_insert}, {"unmark", answer_unmark},
    {"length", answer_length}, {"after", answer_after},
    {"replay", answer_replay},
    {"verdicts", answer_verdicts}, {"keptverdicts", answer_kept_verdicts}, {"verdict", answer_verdict},
    {"repeats", answer_repeats},
    {"sweep", answer_sweep}, {"ofposition", answer_of_position}, {"join", answer_join},
    {"cjtread", answer_cjtread},       {"cjtwrite", answer_cjtwrite},       {"cjtenergy", answer_cjtenergy},
};

static int answer_case(char **known)
{
    for (size_t i = 0; i < sizeof capabilities / sizeof capabilities[0]; i++) {
        if (!take_name(capabilities[i].name))
            continue;
        char **one = known;
        while (*one != NULL && strcmp(*one, capabilities[i].name) != 0)
            one++;
        return (*known == NULL || *one != NULL) && capabilities[i].answer();
    }
    return 0;
}

/* Copies a note to its end. */
static void echo_note(void)
{
    for (int c = '#'; c != '\n' && c != EOF; c = getchar())
        putchar(c);
}

int main(int argc, char **argv)
{
    (void)argc;
    for (int c = getchar(); c != EOF; c = getchar()) {
        if (c == '#')
            echo_note();
        else if (!take_line(c) || !answer_case(argv + 1))
            printf("bad case");
        putchar('\n');
    }
    return ferror(stdin) != 0 || fflush(stdout) != 0;
}
