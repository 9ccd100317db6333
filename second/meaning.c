/* The meaning of a unit byte, from its row. */
#include "meaning.h"

#include "line.h"

int second_entry_meaning(unsigned unit, struct second_meaning *meaning)
{
    const struct second_unit_row *row = second_unit_row_of(unit);
    if (row == NULL)
        return 11;
    meaning->quantity = row->quantity;
    meaning->unit = row->unit;
    meaning->power = row->power + (int)(unit - row->first);
    return 0;
}
