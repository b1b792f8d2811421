/* The marked examples of the scope document by hand, and the setpoints, a night, kept values and program roles of the
   change requests, on the library and on the plain version. */
#ifndef COMPARE_MARKED_H
#define COMPARE_MARKED_H

#include <stdbool.h>

/* True if all come out as the documents say; prints those that do not. */
bool marked_examples(void);

#endif
