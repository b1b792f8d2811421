/* Nights of calls: random ones on any tables, as batches and one by one, and batches that are refused as a whole. */
#ifndef COMPARE_BATCH_H
#define COMPARE_BATCH_H

#include <stdbool.h>

/* One case: random tables, and some nights on them. */
void night_case(void);

/* Prints how often each kind of item and of night came; false if one never came. */
bool night_report(void);

#endif
