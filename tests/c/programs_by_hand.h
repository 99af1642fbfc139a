/* Inputs of the three programs whose output was worked out by hand. */
#ifndef PROGRAMS_BY_HAND_H
#define PROGRAMS_BY_HAND_H

void check_day_by_hand(void);
void check_plan_by_hand(void);
void check_rounds_by_hand(void);
void check_standard_input(void);

#endif
