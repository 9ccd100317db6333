/* Text with the characters of a line in each of its own lines: words of one to four hexadecimal digits, and comments behind #. */
#include "program.h"

/* More than the longest capture of a bench. */
enum { CHARACTERS_MOST = 65536 };

/* What stands next in the text. */
enum next { A_LINE, NO_LINE, THE_END };

static int digit_of(int c)
{
    if (c >= '0' && c <= '9')
        return c - '0';
    if (c >= 'A' && c <= 'F')
        return c - 'A' + 10;
    return c >= 'a' && c <= 'f' ? c - 'a' + 10 : -1;
}

static int behind_comment(FILE *stream)
{
    int c;
    do
        c = getc(stream);
    while (c != '\n' && c != EOF);
    return c;
}

static enum next next_line(FILE *stream, uint16_t *line, size_t *count)
{
    unsigned word = 0, digits = 0;
    for (*count = 0;;) {
        int c = getc(stream), digit = digit_of(c);
        if (digit >= 0) {
            if (digits++ == 4)
                return NO_LINE;
            word = 16 * word + (unsigned)digit;
            continue;
        }
        if (digits != 0) {
            if (*count == CHARACTERS_MOST)
                return NO_LINE;
            line[(*count)++] = (uint16_t)word;
            word = digits = 0;
        }
        if (c == '#')
            c = behind_comment(stream);
        if (c == '\n' || c == EOF)
            return c == EOF && *count == 0 ? THE_END : A_LINE;
        if (c != ' ' && c != '\t' && c != '\r')
            return NO_LINE;
    }
}

int tell_lines(const struct given *given, uint32_t (*tell)(const uint16_t *line, size_t count))
{
    static uint16_t line[CHARACTERS_MOST];
    size_t count;
    FILE *stream;
    const char *name;
    int status = open_input(given, 0, &stream, &name);
    if (status != DONE)
        return status;
    enum next next;
    unsigned long number = 1;
    for (; (next = next_line(stream, line, &count)) == A_LINE; number++) {
        uint32_t answer = count == 0 ? 0 : tell(line, count);
        if (answer >= SKARROWITH_REFUSED) {
            print_refusal(stdout, answer);
            status = REFUSED;
        }
    }
    if (ferror(stream))
        return fail_by_errno(name);
    if (next == NO_LINE) {
        fprintf(stderr, "skarrowith: %s: line %lu: up to 65,536 words of one to four hexadecimal digits are wanted\n", name, number);
        return FAILED;
    }
    return status;
}
