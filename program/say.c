/* The words of the program: messages on standard error, and a refusal with its number and its words. */
#include "program.h"

#include <errno.h>
#include <string.h>

int fail(const char *about, const char *why)
{
    fprintf(stderr, "skarrowith: %s: %s\n", about, why);
    return FAILED;
}

int fail_by_errno(const char *about)
{
    return fail(about, strerror(errno));
}

void print_refusal(FILE *stream, uint32_t answer)
{
    char words[SKARROWITH_TEXT_MOST];
    fprintf(stream, "refused %lu", (unsigned long)(answer - SKARROWITH_REFUSED));
    if (skarrowith_refusal_text(answer, words, sizeof words) < SKARROWITH_REFUSED)
        fprintf(stream, ": %s", words);
    fputc('\n', stream);
}

int refuse(const char *about, uint32_t answer)
{
    fprintf(stderr, "skarrowith: %s: ", about);
    print_refusal(stderr, answer);
    return REFUSED;
}
