/* Setpoints: random ones on any tables, and every amount of head that there is. */
#ifndef COMPARE_SETPOINTS_H
#define COMPARE_SETPOINTS_H

#include <stdbool.h>

/* Makes one random setpoint on both rows. */
void random_setpoint(void);

/* One case: random tables, and many setpoints on them. */
void setpoint_case(void);

/* Enters all amounts in millimetres, and holds each entry against what it means; a difference ends the program. */
void all_roundings(void);

/* Prints how often each kind of setpoint came; false if one never came. */
bool setpoint_report(void);

#endif
