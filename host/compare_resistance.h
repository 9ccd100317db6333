/* The resistance box: the archive against the second program. */
#ifndef COMPARE_RESISTANCE_H
#define COMPARE_RESISTANCE_H

/* Each makes one call. */
void compare_resistance(void);
void compare_temperature(void);

/* Every hundredth, and the resistance of each with its neighbours, both ways; and the largest numbers. */
void compare_all_resistances(void);

#endif
