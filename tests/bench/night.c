#include "night.h"
#include "../compare/calls.h"
#include "tables.h"
#include <string.h>

/* Rounds of one call of each kind come in pairs; what a night has besides is odd: refused, or no call at all. Two numbers
   below the last are no kinds (W-207). */
#define KINDS (RC_CALL_LAST - 2)
#define PAIRS 245u
#define ODD 200u
_Static_assert(2 * KINDS * PAIRS + ODD == NIGHT_ITEMS, "the night has its items");

#define HELPER 6u /* a process in role 7, which may assign and administrate all roles, and has all rights */
#define HELPER_ROLE 7u
#define LAST_IPC 63u

void night_tables(uint32_t row[RC_WORDS])
{
    busy_tables(row);
    row[RC_PROCESSES_AT + RC_PROCESS_WORDS * HELPER + RC_PROCESS_ROLE] = HELPER_ROLE;
    row[RC_ROLES_AT + RC_ROLE_WORDS * HELPER_ROLE + RC_ROLE_ADMIN] = UINT32_MAX;
    row[RC_ROLES_AT + RC_ROLE_WORDS * HELPER_ROLE + RC_ROLE_ASSIGN] = UINT32_MAX;
    put_rights(row, HELPER_ROLE, UINT32_MAX);
}

/* Calls of CALLER, or of the process that it has cloned; what one makes, the next removes. */
static uint8_t *put_process_calls(uint8_t *item, uint32_t n, uint32_t group, uint32_t object, bool back)
{
    const struct call calls[] = {
        {RC_CALL_ACCESS, CALLER, group, object, RC_RIGHT_READ, 0},
        {RC_CALL_CLONE, CALLER, 0, 0, 0, 0},
        {RC_CALL_EXIT, LAST_PROCESS, 0, 0, 0, 0},
        {RC_CALL_EXECUTE, CALLER, PROGRAM + n % 64, 0, 0, 0},
        {RC_CALL_CHANGE_OWNER, CALLER, CALLER, 0, 0, 0}, /* the user that owns it already; it gets role 4 */
        {RC_CALL_CHANGE_ROLE, CALLER, 3, 0, 0, 0},
        {RC_CALL_CREATE, CALLER, back ? RC_DIR : RC_FILE, FOLDER, 0, 0},
        {RC_CALL_DELETE, CALLER, LAST_FILE, 0, 0, 0},
        {RC_CALL_CREATE_IPC, CALLER, 0, 0, 0, 0},
        {RC_CALL_DELETE_IPC, CALLER, LAST_IPC, 0, 0, 0},
    };
    for (size_t i = 0; i < sizeof calls / sizeof calls[0]; i++, item += RC_ITEM_BYTES)
        put_item(item, calls[i]);
    return item;
}

/* The first round of a pair is made by HELPER where that is allowed, and sets values; the second is made by ADMIN, and
   sets them back. A member and a right are added and removed in each. */
static uint8_t *put_administration(uint8_t *item, uint32_t n, uint32_t group, uint32_t object, bool back)
{
    uint32_t who = back ? ADMIN : HELPER, set = back ? n % 3 : RC_SET_COMPATIBLE, which = n % 5;
    uint32_t role = 8 + n % 24, file = 100 + n % 64, type = n % RC_TYPES, right = n % RC_RIGHT_ADMIN;
    uint32_t no_type = group == RC_GROUP_FILESYSTEM ? RC_INHERIT_PARENT : 0;
    uint32_t no_default = which == RC_DEFAULT_IPC_CREATE ? 0 : RC_INHERIT_PARENT;
    const struct call calls[] = {
        {RC_CALL_ADD_ROLE, who, set, role, 9, 0},
        {RC_CALL_REMOVE_ROLE, who, set, role, 9, 0},
        {RC_CALL_SET_USER_ROLE, who, role, back ? 4 : 5, 0, 0},
        {RC_CALL_SET_PROGRAM_ROLES, who, file, back ? RC_INHERIT_PARENT : 5, back ? RC_INHERIT_PARENT : 6, 0},
        {RC_CALL_SET_PROCESS_FORCED, who, 10 + n % 32, back ? RC_UP_MIXED : 9, 0, 0},
        {RC_CALL_SET_DEFAULT_TYPE, ADMIN, which, role, back ? no_default : 3, 0},
        {RC_CALL_SET_ROLE_ADMIN, ADMIN, role, !back, 0, 0},
        {RC_CALL_SET_TYPE, who, group, object, back ? no_type : 2, 0},
        {RC_CALL_ADD_RIGHT, who, group, role, type, right},
        {RC_CALL_REMOVE_RIGHT, who, group, role, type, right},
    };
    for (size_t i = 0; i < sizeof calls / sizeof calls[0]; i++, item += RC_ITEM_BYTES)
        put_item(item, calls[i]);
    return item;
}

static uint8_t *put_round(uint8_t *item, uint32_t n, bool back)
{
    static const uint32_t first[RC_GROUPS] = {100, 10, 0};
    uint32_t group = n % RC_GROUPS, object = first[group] + n % 50;
    item = put_process_calls(item, n, group, object, back);
    return put_administration(item, n, group, object, back);
}

/* Refused with 5, 3, 4, 6, 7 and 2; then filler that is not zero, and a kind that there is not. */
static uint8_t *put_odd(uint8_t *item, uint32_t n)
{
    static const uint8_t odd[][RC_ITEM_BYTES] = {
        {RC_CALL_ACCESS, ADMIN, RC_GROUP_FILESYSTEM, PROGRAM, RC_RIGHT_READ},
        {RC_CALL_CLONE, LAST_PROCESS},
        {RC_CALL_EXECUTE, CALLER, FOLDER},
        {RC_CALL_DELETE, CALLER, FOLDER},
        {RC_CALL_CREATE, CALLER, RC_FILE, DEEP},
        {RC_CALL_EXIT, RC_PROCESSES},
        {RC_CALL_CREATE_IPC, CALLER, [RC_ITEM_BYTES - 1] = 1},
        {RC_CALL_LAST + 1, CALLER},
    };
    memcpy(item, odd[n % (sizeof odd / sizeof odd[0])], RC_ITEM_BYTES);
    return item + RC_ITEM_BYTES;
}

void night_calls(uint8_t calls[NIGHT_CALL_BYTES])
{
    uint8_t *item = calls;
    for (uint32_t n = 0; n < PAIRS; n++) {
        item = put_round(item, n, false);
        item = put_round(item, n, true);
        if (n < ODD)
            item = put_odd(item, n);
    }
}

bool night_went_well(const uint32_t row[RC_WORDS], const uint8_t answers[NIGHT_ANSWER_BYTES])
{
    static uint32_t before[RC_WORDS];
    uint32_t refused = 0;
    for (uint32_t k = 0; k < NIGHT_ITEMS; k++)
        refused += answers[RC_ANSWER_BYTES * k] != RC_GRANTED;
    night_tables(before);
    return refused == ODD && memcmp(row, before, sizeof before) == 0;
}
