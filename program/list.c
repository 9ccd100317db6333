/* skarrowith list: the rows of a run bundle. A refused one is listed as its number; why is said on standard error. */
#include "program.h"

int run_list(const struct given *given)
{
    static struct bundle bundle;
    static uint8_t text[SKARROWITH_LISTING_MOST];
    size_t rows, written;
    int status = read_bundle(given, 0, &bundle);
    if (status != DONE)
        return status;
    uint32_t listed = skarrowith_bundle_list(bundle.bytes, bundle.length, text, sizeof text, &written);
    if (listed != 0)
        return refuse(bundle.name, listed);
    status = write_output(NULL, text, written);
    uint32_t checked = skarrowith_bundle_check(bundle.bytes, bundle.length, &rows);
    return status == DONE && checked != 0 ? refuse(bundle.name, checked) : status;
}
