/* Claims: closed ones that are accepted, the same with one rule broken, and any others. */
#ifndef COMPARE_CLAIMS_H
#define COMPARE_CLAIMS_H

/* One case: random tables with an accepted claim, then everything that can be tried on it. */
void claim_case(void);

#endif
