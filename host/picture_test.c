/*
 * Draws the bundle that stands on standard input as a host does, is refused by each kind of number first, and prints the
 * picture.
 */
#include "skarrowith.h"

#include <stdio.h>
#include <string.h>

enum { MARK = 0xA5, UNTOUCHED = 12345 };

static uint8_t bundle[SKARROWITH_BUNDLE_MOST], out[SKARROWITH_PICTURE_MOST + 1];
static size_t written;

static unsigned long right, wrong;

static void expect(const char *name, unsigned long got, unsigned long answer)
{
    if (got == answer) {
        right++;
        return;
    }
    fprintf(stderr, "picture test: %s: %lu, and not %lu\n", name, got, answer);
    wrong++;
}

/* How many bytes from a place on are as they were lent. */
static size_t kept_from(size_t at)
{
    size_t kept = 0;
    while (at + kept < sizeof out && out[at + kept] == MARK)
        kept++;
    return kept;
}

static uint32_t draw(size_t len, size_t out_len)
{
    memset(out, MARK, sizeof out);
    written = UNTOUCHED;
    return skarrowith_picture(bundle, len, out, out_len, &written);
}

static void refused(const char *name, uint32_t answer, unsigned long number)
{
    expect(name, answer, SKARROWITH_REFUSED + number);
    expect(name, kept_from(0), sizeof out);
    expect(name, written, UNTOUCHED);
}

/* A bundle with no rows is a whole picture too: a title, a legend and marks. */
static void none(void)
{
    static const uint8_t empty[2] = {0, 0};
    static const char last[] = "</svg>\n";
    memset(out, MARK, sizeof out);
    expect("no rows", skarrowith_picture(empty, sizeof empty, out, SKARROWITH_PICTURE_MOST, &written), 0);
    expect("no rows, the beginning", (unsigned long)memcmp(out, "<svg ", 5), 0);
    expect("no rows, the end", (unsigned long)memcmp(out + written - 7, last, 7), 0);
    expect("no rows, the rest", kept_from(written), sizeof out - written);
}

int main(void)
{
    size_t n = fread(bundle, 1, sizeof bundle, stdin), length;
    none();
    refused("one byte", draw(1, SKARROWITH_PICTURE_MOST), 31);
    refused("a cut bundle", draw(n - 1, SKARROWITH_PICTURE_MOST), 35);
    refused("a cut bundle and no room", draw(n - 1, 0), 35);
    refused("no room", draw(n, 0), 21);
    expect("the picture", draw(n, SKARROWITH_PICTURE_MOST), 0);
    length = written;
    expect("the rest", kept_from(length), sizeof out - length);
    refused("a byte too few", draw(n, length - 1), 21);
    expect("just enough", draw(n, length), 0);
    expect("just enough, its length", written, length);
    fwrite(out, 1, length, stdout);
    fprintf(stderr, "picture test: %lu right, %lu wrong\n", right, wrong);
    return wrong != 0 || fflush(stdout) != 0;
}
