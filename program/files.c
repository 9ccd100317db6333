/* Files: read to their end, and written whole or told to have failed. */
#define _XOPEN_SOURCE 700
#include "program.h"

#include <errno.h>
#include <stdlib.h>
#include <string.h>
#include <sys/stat.h>

static int is_standard(const char *name)
{
    return name == NULL || strcmp(name, "-") == 0;
}

/* Opens the file that is named behind so many words, the only word that may stand there. */
int open_input(const struct given *given, int words, FILE **stream, const char **name)
{
    if (given->count > words + 1)
        return fail(given->words[words + 1], "one file too many");
    *name = given->count > words ? given->words[words] : NULL;
    *stream = is_standard(*name) ? stdin : fopen(*name, "rb");
    if (is_standard(*name))
        *name = "standard input";
    return *stream == NULL ? fail_by_errno(*name) : DONE;
}

int read_bundle(const struct given *given, int words, struct bundle *bundle)
{
    FILE *stream;
    int status = open_input(given, words, &stream, &bundle->name);
    if (status != DONE)
        return status;
    bundle->length = fread(bundle->bytes, 1, sizeof bundle->bytes, stream);
    if (ferror(stream))
        status = fail_by_errno(bundle->name);
    fclose(stream);
    return status;
}

static int write_stream(FILE *stream, const uint8_t *bytes, size_t count)
{
    int wrote = fwrite(bytes, 1, count, stream) == count;
    return fclose(stream) == 0 && wrote;
}

/* A plain file is written beside its place and then moved there, so that what was there stays whole where the disk is full. */
static int write_beside(const char *name, mode_t mode, const uint8_t *bytes, size_t count)
{
    char *beside = malloc(strlen(name) + sizeof ".new");
    if (beside == NULL)
        return fail_by_errno(name);
    strcat(strcpy(beside, name), ".new");
    FILE *stream = fopen(beside, "wb");
    int done = stream != NULL && write_stream(stream, bytes, count) && (mode == 0 || chmod(beside, mode) == 0) && rename(beside, name) == 0;
    int status = done ? DONE : fail_by_errno(name);
    if (!done && stream != NULL)
        remove(beside);
    free(beside);
    return status;
}

/* A link is followed first: it is the file behind it that is written. */
static int write_file(const char *name, const uint8_t *bytes, size_t count)
{
    struct stat is;
    if (stat(name, &is) != 0)
        return errno == ENOENT ? write_beside(name, 0, bytes, count) : fail_by_errno(name);
    if (S_ISREG(is.st_mode)) {
        char *real = realpath(name, NULL);
        int status = real == NULL ? fail_by_errno(name) : write_beside(real, is.st_mode & 0777, bytes, count);
        free(real);
        return status;
    }
    FILE *stream = fopen(name, "wb");
    return stream != NULL && write_stream(stream, bytes, count) ? DONE : fail_by_errno(name);
}

int write_output(const char *name, const uint8_t *bytes, size_t count)
{
    if (!is_standard(name))
        return write_file(name, bytes, count);
    return fwrite(bytes, 1, count, stdout) == count ? DONE : fail_by_errno("standard output");
}

/* A full disk shows only when the last bytes go out: a command has not ended before they have. */
int end_output(int status)
{
    int failed = ferror(stdout);
    return fclose(stdout) == 0 && !failed ? status : fail_by_errno("standard output");
}
