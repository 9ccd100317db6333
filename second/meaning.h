/* What a unit byte means, by document 01's table of quantities and 02's joules, for the second program. */
#ifndef SECOND_MEANING_H
#define SECOND_MEANING_H

/* The row of the table from 0 on; 0 no unit, 1 Wh, 2 J, 3 m3, 4 W, 5 m3/h, 6 degrees Celsius; the power of ten. */
struct second_meaning {
    unsigned quantity, unit;
    int power;
};

/* Answers 0 and the meaning, or 11. */
int second_entry_meaning(unsigned unit, struct second_meaning *meaning);

#endif
