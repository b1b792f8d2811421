/* The library and the plain version side by side: each has its own row, its own entries and its own bytes of a batch,
   every call goes to both, and after every call all that they were lent and all that they answer must be the same. A
   difference is printed and ends the program. */
#ifndef COMPARE_TWIN_H
#define COMPARE_TWIN_H

#include "../../include/monitor.h"
#include "../plain/monitor.h"

/* Spare words on both sides of all that is lent, which nobody may touch. */
#define TWIN_SPARE 64u
#define TWIN_ENTRIES 16u
#define TWIN_ITEMS 64u

/* What is printed with a difference: the part of the comparison, and the seed of the case. */
void twin_case(const char *part, uint64_t seed);

/* Prints what differs, with the case, and ends the program. */
_Noreturn void twin_differs(const char *what);

/* Both rows get this content, and all else that is lent and all spare words are filled afresh. */
void twin_load(const uint32_t row[RC_WORDS]);

/* The row as it is now, to choose calls by. */
const uint32_t *twin_row(void);

/* How many words are lent from now on, at most RC_WORDS + TWIN_SPARE; twin_load sets it to RC_WORDS. */
void twin_lend(size_t words);

struct rc_answer twin_call(uint32_t kind, uint32_t caller, uint32_t a, uint32_t b, uint32_t c, uint32_t d);
struct rc_answer twin_fresh(void);
bool twin_well_formed(void);
struct rc_verdict twin_claim(const uint32_t *claim, size_t words);

/* What is asked with a setpoint, in the call's order; at most TWIN_ENTRIES are lent. */
struct setpoint {
    uint32_t process, list, unit, amount, metres_type, kilopascals_type, n_entries;
};

struct rc_answer twin_setpoint(struct setpoint s);

/* A batch of at most TWIN_ITEMS items, or one of fewer and some bytes; the answers are lent as they are here, and
   afterwards these are what both wrote. */
struct batch {
    uint8_t calls[RC_ITEM_BYTES * TWIN_ITEMS], answers[RC_ANSWER_BYTES * TWIN_ITEMS];
    size_t call_bytes, answer_bytes;
};

struct rc_answer twin_batch(struct batch *b);

/* The three effective values of one place, and its kind. */
void twin_queries(uint32_t file);

/* Prints how often each thing of a list came; false if one never came. */
bool twin_counts(const char *what, const char *const *names, const uint64_t *counts, int length);

/* Prints how often each answer came; false if one that can occur never came, or one that cannot occur came. */
bool twin_report(void);

#endif
