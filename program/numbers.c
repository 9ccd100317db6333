/* Numbers on the command line, and as they are printed. */
#include "program.h"

#include <inttypes.h>

int number_in(const char *word, uint64_t most, uint64_t *number)
{
    uint64_t n = 0;
    if (*word == '\0')
        return 0;
    for (; *word != '\0'; word++) {
        if (*word < '0' || *word > '9')
            return 0;
        unsigned digit = (unsigned)(*word - '0');
        if (digit > most || n > (most - digit) / 10)
            return 0;
        n = 10 * n + digit;
    }
    *number = n;
    return 1;
}

/* The position behind -p, 0 where there is none; whether the bench has it is for the library to say. */
int position_in(const struct given *given, uint8_t *position)
{
    uint64_t number = 0;
    if (given->option['p'] != NULL && !number_in(given->option['p'], UINT8_MAX, &number))
        return fail(given->option['p'], "no position");
    *position = (uint8_t)number;
    return DONE;
}

void print_tenths(int64_t tenths)
{
    uint64_t size = tenths < 0 ? -(uint64_t)tenths : (uint64_t)tenths;
    printf("%c%" PRIu64 ".%" PRIu64 " %%\n", tenths < 0 ? '-' : '+', size / 10, size % 10);
}

/* A count times a power of ten, exactly: zeros behind its digits, or a point among them. Answers how many characters it has. */
int put_power(char *out, int64_t count, int power)
{
    char digits[21];
    const char *minus = count < 0 ? "-" : "";
    uint64_t size = count < 0 ? -(uint64_t)count : (uint64_t)count;
    int whole = snprintf(digits, sizeof digits, "%" PRIu64, size) + power;
    if (power >= 0)
        return snprintf(out, WORDS_MOST, "%s%s%.*s", minus, digits, size == 0 ? 0 : power, "0000000");
    if (whole <= 0)
        return snprintf(out, WORDS_MOST, "%s0.%.*s%s", minus, -whole, "000000", digits);
    return snprintf(out, WORDS_MOST, "%s%.*s.%s", minus, whole, digits, digits + whole);
}
