/* Kept values (W-206): damage to them, and values set on directories, which everything below that inherits them follows. */
#ifndef COMPARE_KEPT_H
#define COMPARE_KEPT_H

#include "../../include/monitor.h"

/* Damage to the kept values of well-formed tables, with which they are ill formed every time. There are KEPT_DAMAGES ways;
   false, and the row is as it was, where it has nothing for this one. */
#define KEPT_DAMAGES 30u
bool damage_kept(uint32_t row[RC_WORDS], uint32_t way);

/* One case: random tables, and values set on directories at all depths. */
void refresh_case(void);

/* Prints how often each kind of damage and of refresh came; false if one never came. */
bool kept_report(void);

#endif
