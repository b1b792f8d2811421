/* Program roles (W-207): the call that sets both values of a file, held against the two calls that it took the place of. */
#ifndef COMPARE_PROGRAMS_H
#define COMPARE_PROGRAMS_H

#include <stdbool.h>

/* One case: random tables, and both values set on many files. */
void program_case(void);

/* Prints how often each sort of grant and of refusal came; false if one never came. */
bool program_report(void);

#endif
