/* skarrowith picture: a run bundle as an SVG picture. */
#include "program.h"

int run_picture(const struct given *given)
{
    static struct bundle bundle;
    static uint8_t text[SKARROWITH_PICTURE_MOST];
    size_t written;
    int status = read_bundle(given, 0, &bundle);
    if (status != DONE)
        return status;
    uint32_t answer = skarrowith_picture(bundle.bytes, bundle.length, text, sizeof text, &written);
    return answer != 0 ? refuse(bundle.name, answer) : write_output(given->option['o'], text, written);
}
