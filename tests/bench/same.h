/* Whether the good version answers as the plain one does; what differs is written to standard error. */
#ifndef BENCH_SAME_H
#define BENCH_SAME_H

#include <stdbool.h>

bool good_is_same(void);

#endif
