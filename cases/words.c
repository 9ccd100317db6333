/* A line of text taken apart into words, and the words taken one by one. */
#include "words.h"

#include <stdio.h>
#include <string.h>

enum { LETTERS_MOST = 12 };

/* The size of the smallest number below zero that there is a word for. */
#define SIZE_MOST (UINT64_C(1) << 63)

struct word {
    int is_name;
    char name[LETTERS_MOST + 1];
    int is_negative;
    uint64_t number; /* of a number below zero its size */
};

static struct word words[WORDS_MOST];
static size_t words_count, at;

/* One digit more, unless the number would be too large. */
static int add_digit(uint64_t *number, unsigned base, unsigned digit)
{
    if (*number > (UINT64_MAX - digit) / base)
        return 0;
    *number = *number * base + digit;
    return 1;
}

/* So many digits at most, and one at least. */
static int digits_from(const char *text, size_t n, unsigned base, size_t most, uint64_t *number)
{
    static const char digits[] = "0123456789ABCDEF";
    *number = 0;
    for (size_t i = 0; i < n; i++) {
        const char *found = memchr(digits, text[i], base);
        if (found == NULL || !add_digit(number, base, (unsigned)(found - digits)))
            return 0;
    }
    return n > 0 && n <= most;
}

static int number_from(const char *text, size_t n, struct word *w)
{
    w->is_negative = text[0] == '-';
    if (w->is_negative)
        return digits_from(text + 1, n - 1, 10, 19, &w->number) && w->number > 0 && w->number <= SIZE_MOST;
    if (text[0] == '+')
        return digits_from(text + 1, n - 1, 10, 20, &w->number);
    return digits_from(text, n, 16, 16, &w->number);
}

static int word_from(const char *text, size_t n, struct word *w)
{
    w->is_name = n > 0 && text[0] >= 'a' && text[0] <= 'z';
    if (!w->is_name)
        return n > 0 && number_from(text, n, w);
    if (n > LETTERS_MOST)
        return 0;
    for (size_t i = 0; i < n; i++)
        if (text[i] < 'a' || text[i] > 'z')
            return 0;
    memcpy(w->name, text, n);
    w->name[n] = '\0';
    return 1;
}

int take_line(int c)
{
    char text[32]; /* every word that is longer than this is bad, and its beginning too */
    size_t n = 0;
    int good = 1;
    at = 0;
    for (words_count = 0;; c = getchar()) {
        if (c != ' ' && c != '\n' && c != EOF) {
            if (n < sizeof text)
                text[n++] = (char)c;
            continue;
        }
        good = good && words_count < WORDS_MOST && word_from(text, n, &words[words_count++]);
        if (c != ' ')
            return good;
        n = 0;
    }
}

int take(uint64_t *number, uint64_t most)
{
    if (at >= words_count || words[at].is_name || words[at].is_negative || words[at].number > most)
        return 0;
    *number = words[at++].number;
    return 1;
}

int take_signed(int64_t *number)
{
    if (at >= words_count || words[at].is_name || (!words[at].is_negative && words[at].number >= SIZE_MOST))
        return 0;
    *number = words[at].is_negative ? -(int64_t)(words[at].number - 1) - 1 : (int64_t)words[at].number;
    at++;
    return 1;
}

int goes_on(void)
{
    return at < words_count && !words[at].is_name;
}

int take_or_end(uint64_t *number, uint64_t most)
{
    *number = 0;
    return !goes_on() || take(number, most);
}

int take_name(const char *name)
{
    if (at >= words_count || !words[at].is_name || strcmp(words[at].name, name) != 0)
        return 0;
    at++;
    return 1;
}

int take_characters(uint16_t *characters, size_t *n)
{
    uint64_t c;
    for (*n = 0; goes_on(); characters[(*n)++] = (uint16_t)c)
        if (!take(&c, 0xFFFF))
            return 0;
    return 1;
}

int is_whole(void)
{
    return at == words_count;
}

size_t next_place(void)
{
    return at;
}

void go_back(size_t place)
{
    at = place;
}
