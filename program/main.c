/*
 * skarrowith: lines and run bundles of a heat-meter verification bench, from the command line. Everything that is decided is decided
 * by the library; this program reads files, calls it and prints.
 */
#include "program.h"

#include <string.h>

static const struct command {
    const char *name, *options, *words, *says;
    int (*run)(const struct given *given);
} commands[] = {
#define COMMAND(name, options, words, says) {#name, options, words, says, run_##name},
#include "commands.h"
#undef COMMAND
};

enum { COMMANDS = sizeof commands / sizeof commands[0] };

static int misused(const char *about, const char *why)
{
    fail(about, why);
    fputs("skarrowith -h says how it is used\n", stderr);
    return FAILED;
}

static int print_usage(FILE *to)
{
    for (int i = 0; i < COMMANDS; i++)
        fprintf(to, "%s skarrowith %-7s %-32s  %s\n", i == 0 ? "usage:" : "      ", commands[i].name, commands[i].words, commands[i].says);
    fputs(
        "       skarrowith -h | --help | --version\n"
        "FILE is a run bundle. For check and read it is text, in each line of which the characters of a line stand as words of\n"
        "hexadecimal digits, the parity bit received as bit 8: 1E5, or 110 15B 1FE 059 116. Behind # stands a comment. Lines are\n"
        "M-Bus lines, and with -c CJ/T 188 lines.\n"
        "Without FILE, or for -, standard input is read; without OUT, or for -, a bundle or a picture goes to standard output.\n"
        "Exit status: 0 done, 1 refused by the rules, 2 wrong usage, or a file that cannot be read or written.\n",
        to);
    return DONE;
}

/* Takes the option at words[*i], and the word that belongs to it, which stands in the same word or in the next. */
static int take_option(const char *letters, int count, char **words, int *i, struct given *given)
{
    const char *word = words[*i], *letter = word[1] == ':' ? NULL : strchr(letters, word[1]);
    if (letter == NULL || (letter[1] != ':' && word[2] != '\0'))
        return misused(word, "no option of this command");
    const char *value = word + 2;
    if (letter[1] == ':' && *value == '\0') {
        if (++*i == count)
            return misused(word, "something is wanted behind it");
        value = words[*i];
    }
    given->option[(unsigned char)*letter] = value;
    return DONE;
}

/* Parts options from words, wherever they stand; behind `--` all are words. */
static int part(const char *letters, int count, char **words, struct given *given)
{
    int options = 1, status = DONE;
    given->words = words;
    for (int i = 0; i < count && status == DONE; i++) {
        if (!options || words[i][0] != '-' || words[i][1] == '\0')
            given->words[given->count++] = words[i];
        else if (strcmp(words[i], "--") == 0)
            options = 0;
        else
            status = take_option(letters, count, words, &i, given);
    }
    return status;
}

static int run(const char *name, int count, char **words)
{
    struct given given = {{NULL}, 0, NULL};
    for (int i = 0; i < COMMANDS; i++)
        if (strcmp(commands[i].name, name) == 0) {
            int status = part(commands[i].options, count, words, &given);
            return status == DONE ? commands[i].run(&given) : status;
        }
    return misused(name, "no command");
}

static int asks_for_help(const char *word)
{
    return strcmp(word, "-h") == 0 || strcmp(word, "--help") == 0;
}

int main(int argc, char **argv)
{
    if (argc < 2) {
        print_usage(stderr);
        return FAILED;
    }
    if (asks_for_help(argv[1]) || (argc > 2 && asks_for_help(argv[2])))
        return end_output(print_usage(stdout));
    if (strcmp(argv[1], "--version") == 0) {
        puts("skarrowith " SKARROWITH_VERSION_TEXT);
        return end_output(DONE);
    }
    return end_output(run(argv[1], argc - 2, argv + 2));
}
