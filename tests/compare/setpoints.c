#include "setpoints.h"
#include "calls.h"
#include "random.h"
#include "rows.h"
#include "twin.h"
#include <inttypes.h>
#include <stdio.h>
#include <stdlib.h>

static uint32_t row[RC_WORDS];

/* ---- What must come, beside every answer in each unit ---- */

enum {
    GRANTED_WITH_ONE,
    GRANTED_WITH_MANY,
    EQUAL_IN_METRES,
    EQUAL_IN_KILOPASCALS,
    AT_THE_LIMIT,
    LAST_TYPE,
    NO_ENTRY,
    PAST_THE_LIMIT,
    PAST_THE_LAST_TYPE,
    FREE_PLACE,
    DIRECTORY,
    OTHER_TYPE,
    CASES
};

static const char *const case_name[CASES] = {
    [GRANTED_WITH_ONE] = "granted with one entry",
    [GRANTED_WITH_MANY] = "with many",
    [EQUAL_IN_METRES] = "with equal types in metres",
    [EQUAL_IN_KILOPASCALS] = "in kilopascals",
    [AT_THE_LIMIT] = "at the limit",
    [LAST_TYPE] = "with type 31",
    [NO_ENTRY] = "refused for no entry",
    [PAST_THE_LIMIT] = "one above the limit",
    [PAST_THE_LAST_TYPE] = "type 32",
    [FREE_PLACE] = "a free place",
    [DIRECTORY] = "a DIR",
    [OTHER_TYPE] = "another type",
};
static uint64_t case_hits[CASES];

static void count(struct setpoint s, uint32_t answer)
{
    bool granted = answer == RC_GRANTED, equal = s.metres_type == s.kilopascals_type;
    bool out_of_range = answer == RC_OUT_OF_RANGE, no_list = answer == RC_NO_SUCH_PLACE;
    uint32_t last = RC_TYPES - 1;
    uint32_t kind = no_list ? twin_row()[RC_FILES_AT + RC_FILE_WORDS * s.list + RC_FILE_KIND] : RC_FREE;
    const bool came[CASES] = {
        [GRANTED_WITH_ONE] = granted && s.n_entries == 1,
        [GRANTED_WITH_MANY] = granted && s.n_entries > 1,
        [EQUAL_IN_METRES] = granted && equal && s.unit == RC_UNIT_METRES,
        [EQUAL_IN_KILOPASCALS] = granted && equal && s.unit == RC_UNIT_KILOPASCALS,
        [AT_THE_LIMIT] = granted && s.amount == RC_SETPOINT_LIMIT,
        [LAST_TYPE] = granted && (s.metres_type == last || s.kilopascals_type == last),
        [NO_ENTRY] = out_of_range && s.n_entries == 0,
        [PAST_THE_LIMIT] = out_of_range && s.amount == RC_SETPOINT_LIMIT + 1,
        [PAST_THE_LAST_TYPE] = out_of_range && (s.metres_type == last + 1 || s.kilopascals_type == last + 1),
        [FREE_PLACE] = no_list && kind == RC_FREE,
        [DIRECTORY] = no_list && kind == RC_DIR,
        [OTHER_TYPE] = no_list && kind == RC_FILE,
    };
    for (int i = 0; i < CASES; i++)
        case_hits[i] += came[i];
}

bool setpoint_report(void)
{
    return twin_counts("setpoints", case_name, case_hits, CASES);
}

/* ---- Random setpoints ---- */

/* Any amount; many around the limit, and many with half a pascal, as every odd multiple of ten metres of head has. */
static uint32_t some_amount(void)
{
    switch (below(6)) {
    case 0: return RC_SETPOINT_LIMIT - 1 + below(3);
    case 1: return 10000 * below(RC_SETPOINT_LIMIT / 10000 + 1);
    default: return number(RC_SETPOINT_LIMIT + 1);
    }
}

/* Mostly this type, else any, often the last one or one past it. */
static uint32_t mostly_type(uint32_t type, uint32_t cases)
{
    return percent(cases) ? type : percent(20) ? RC_TYPES - 1 + below(2) : number(RC_TYPES);
}

void random_setpoint(void)
{
    struct setpoint s;
    s.process = some_process(twin_row());
    s.list = some_file_of(twin_row(), RC_FILE);
    s.unit = number(2);
    s.amount = some_amount();
    uint32_t type = plain_effective_type(twin_row(), RC_WORDS, s.list).value;
    bool in_metres = s.unit == RC_UNIT_METRES;
    s.metres_type = mostly_type(type, in_metres ? 85 : 30);
    s.kilopascals_type = mostly_type(type, in_metres ? 30 : 85);
    s.n_entries = percent(10) ? 0 : percent(40) ? 1 : 2 + below(TWIN_ENTRIES - 1);
    count(s, twin_setpoint(s).number);
}

void setpoint_case(void)
{
    random_row(row, percent(60) ? DENSE : HALF, SPARSE);
    twin_load(row);
    for (int i = 0; i < 100; i++)
        random_setpoint();
}

/* ---- Every amount of head ---- */

/* At most half a pascal from 9.80665 for each millimetre, and half a pascal only where it is above. */
static bool is_nearest(uint32_t pascals, uint32_t millimetres)
{
    int64_t twice_above = 2 * ((int64_t)pascals * 100000 - (int64_t)millimetres * 980665);
    return -100000 < twice_above && twice_above <= 100000;
}

/* On tables that are quickly tested, as the library tests them with every call. */
void all_roundings(void)
{
    plain_fresh(row, RC_WORDS);
    plain_call(row, RC_WORDS, RC_CALL_ADD_RIGHT, 0, RC_GROUP_FILESYSTEM, 0, 0, RC_RIGHT_CREATE);
    plain_call(row, RC_WORDS, RC_CALL_ADD_RIGHT, 0, RC_GROUP_FILESYSTEM, 0, 0, RC_RIGHT_WRITE);
    uint32_t list = plain_call(row, RC_WORDS, RC_CALL_CREATE, 0, RC_FILE, 0, 0, 0).place;
    for (uint32_t amount = 0; amount <= RC_SETPOINT_LIMIT; amount++) {
        uint32_t l = UINT32_MAX, p = UINT32_MAX;
        uint32_t refused = rc_setpoint(row, RC_WORDS, 0, list, RC_UNIT_METRES, amount, 0, 1, &l, 1).number |
                           plain_enter(row, 0, list, RC_UNIT_METRES, amount, 0, 1, &p, 1).number;
        if (refused || l != p || !is_nearest(l, amount)) {
            printf("DIFFERENCE in all roundings, %" PRIu32 " mm: library %" PRIu32 ", plain %" PRIu32 "\n", amount, l, p);
            exit(1);
        }
    }
}
