/* What the parts of the program share. A command is a file of its own and a row of commands.h. */
#ifndef PROGRAM_H
#define PROGRAM_H

#include <skarrowith.h>

#include <stdio.h>

/* The exit status: done; refused by the rules; wrong usage, or a file that cannot be read or written. */
enum { DONE = 0, REFUSED = 1, FAILED = 2 };

/* What a command is given behind its name: its options, each by its letter with its word or an empty one, and its other words. */
struct given {
    const char *option[128]; /* null where it was not given */
    int count;
    char **words;
};

/* Each command is run_NAME, and answers the exit status. */
#define COMMAND(name, options, words, says) int run_##name(const struct given *given);
#include "commands.h"
#undef COMMAND

/* say.c: messages on standard error; each answers the exit status that goes with it. */
int fail(const char *about, const char *why);
int fail_by_errno(const char *about);
int refuse(const char *about, uint32_t answer);
void print_refusal(FILE *stream, uint32_t answer);

/* A run bundle as it was read, with room for a byte more, by which a longer file is told from one that fits. */
struct bundle {
    const char *name;
    size_t length;
    uint8_t bytes[SKARROWITH_BUNDLE_MOST + 1];
};

/* files.c: a file is named, or `-` or nothing for standard input or output. */
int open_input(const struct given *given, int words, FILE **stream, const char **name);
int read_bundle(const struct given *given, int words, struct bundle *bundle);
int write_output(const char *name, const uint8_t *bytes, size_t count);
int end_output(int status);

/* Room for a few words; the longest are a number of 64 bits times a power of ten, with its unit. */
enum { WORDS_MOST = 64 };

/* numbers.c: a whole word in decimal, no larger than most; an error in tenths of a percent; a count times a power of ten. */
int number_in(const char *word, uint64_t most, uint64_t *number);
int position_in(const struct given *given, uint8_t *position);
void print_tenths(int64_t tenths);
int put_power(char *out, int64_t count, int power);

/* text.c: hands each line of a text to a function, which prints what it is and answers what the library does. */
int tell_lines(const struct given *given, uint32_t (*tell)(const uint16_t *line, size_t count));

/* telegrams.c: the words of kinds and methods; a value with its unit, and a point in time. */
const char *kind_in_words(uint8_t kind);
const char *method_in_words(uint8_t method);
int put_scaled(char *out, int64_t count, const struct skarrowith_meaning *meaning);
int put_moment(char *out, const struct skarrowith_moment *t);

/* telegrams.c and cjt.c: what an accepted line is, and all that it says. */
uint32_t tell_kind(const uint16_t *line, size_t count);
uint32_t tell_telegram(const uint16_t *line, size_t count);
uint32_t tell_cjt_kind(const uint16_t *line, size_t count);
uint32_t tell_cjt_telegram(const uint16_t *line, size_t count);

#endif
