/* skarrowith check: what each line of a text is. */
#include "program.h"

int run_check(const struct given *given)
{
    return tell_lines(given, given->option['c'] != NULL ? tell_cjt_kind : tell_kind);
}
