/* Random calls: numbers mostly in range and mostly of things that are there, so that every rule is reached. */
#ifndef COMPARE_CALLS_H
#define COMPARE_CALLS_H

#include "../../include/monitor.h"

/* The kinds that set the initial and the forced value of a file before W-207, and are unknown since. They are still tried,
   with the numbers that they took. */
#define GONE_SET_INITIAL 14u
#define GONE_SET_FORCED 15u

static inline bool is_known(uint32_t kind)
{
    return kind != 0 && kind <= RC_CALL_LAST && kind != GONE_SET_INITIAL && kind != GONE_SET_FORCED;
}

struct call {
    uint32_t kind, caller, a, b, c, d;
};

/* One of this kind, chosen by what the row holds; kind 0 stands for any other unknown kind. */
struct call some_call(const uint32_t *row, uint32_t kind);

/* The call as an item of a batch; of a number that is more than a byte the lowest bits are taken. */
void put_item(uint8_t *item, struct call made);

/* A kind, those that empty the tables, and those that are unknown, less often than the others. */
uint32_t random_kind(void);

/* Mostly below the limit; else just past it, or far past it, or one that looks small to who drops the high bits. */
uint32_t number(uint32_t limit);

/* A number that some call may take for a smaller one. */
uint32_t huge(void);

/* Mostly a live one. */
uint32_t some_process(const uint32_t *row);

/* Mostly one of this kind, where there is one. */
uint32_t some_file_of(const uint32_t *row, uint32_t kind);

#endif
