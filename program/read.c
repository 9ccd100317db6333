/* skarrowith read: what each line of a text is, and all that it says. */
#include "program.h"

int run_read(const struct given *given)
{
    return tell_lines(given, given->option['c'] != NULL ? tell_cjt_telegram : tell_telegram);
}
