/* The picture of a run: the archive against the second program. */
#define _POSIX_C_SOURCE 200809L

#include "compare_picture.h"

#include "call.h"
#include "skarrowith.h"

#include "../second/chance.h"
#include "../second/make_bundle.h"
#include "../second/make_verdict.h"
#include "../second/picture.h"

#include <stdlib.h>
#include <string.h>

static void picture(void)
{
    char *text = NULL;
    size_t length = 0, places;
    int refusal;
    FILE *to = open_memstream(&text, &length);
    if (to == NULL)
        abort();
    refusal = second_picture(bundle.b, bundle.n, to);
    fclose(to);
    if (length > SKARROWITH_PICTURE_MOST - 64)
        fail("a picture is longer than the header says");
    places = some_places(length);
    if (refusal == 0 && places < length)
        refusal = 21;
    begin(PICTURE);
    struct lent *bytes = lend("bundle", bundle.n, bundle.b, bundle.n), *out = lend("out", places, NULL, 0);
    struct lent *written = lend("written", sizeof length, NULL, 0);
    if (refusal == 0) {
        memcpy(out->second, text, length);
        memcpy(written->second, &length, sizeof length);
    }
    free(text);
    end(skarrowith_picture(bytes->to, bundle.n, out->to, places, written->to), answer_for(refusal));
}

void compare_picture(void)
{
    if (once_in(3))
        some_bundle();
    else
        some_exchanges(8);
    picture();
}
