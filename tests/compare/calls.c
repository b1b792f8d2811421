#include "calls.h"
#include "random.h"

uint32_t huge(void)
{
    static const uint32_t huges[] = {0xffffffff, 0x80000000, 0x7fffffff, 0x10000, 0x100000, 0x40000000, 0xfffffffe};
    return percent(50) ? huges[below(sizeof huges / sizeof huges[0])] : (uint32_t)random_bits() | 0x400;
}

uint32_t number(uint32_t limit)
{
    if (percent(98))
        return below(limit);
    switch (below(4)) {
    case 0: return limit;
    case 1: return limit + 1 + below(4);
    case 2: return huge();
    default: return below(limit) | (UINT32_C(1) << (10 + below(22)));
    }
}

/* A number for a word that the kind does not use. */
static uint32_t unused(void)
{
    return percent(99) ? 0 : percent(50) ? 1 + below(40) : huge();
}

/* A place of a table, mostly one that is taken. */
static uint32_t place_in(const uint32_t *row, uint32_t at, uint32_t places, uint32_t words)
{
    uint32_t place = number(places);
    if (place >= places || percent(10))
        return place;
    for (uint32_t tries = 0; tries < places && row[at + words * place] == 0; tries++)
        place = (place + 1) % places;
    return place;
}

uint32_t some_process(const uint32_t *row)
{
    return percent(20) ? 0 : place_in(row, RC_PROCESSES_AT, RC_PROCESSES, RC_PROCESS_WORDS);
}

static uint32_t some_file(const uint32_t *row)
{
    return percent(8) ? 0 : place_in(row, RC_FILES_AT, RC_FILES, RC_FILE_WORDS);
}

uint32_t some_file_of(const uint32_t *row, uint32_t kind)
{
    uint32_t place = some_file(row);
    if (place >= RC_FILES || percent(15))
        return place;
    for (uint32_t tries = 0; tries < RC_FILES && row[RC_FILES_AT + RC_FILE_WORDS * place] != kind; tries++)
        place = (place + 1) % RC_FILES;
    return place;
}

static uint32_t some_ipc(const uint32_t *row)
{
    return place_in(row, RC_IPCS_AT, RC_IPCS, RC_IPC_WORDS);
}

static uint32_t object_of(const uint32_t *row, uint32_t group)
{
    return group == RC_GROUP_PROCESS ? some_process(row) : group == RC_GROUP_IPC ? some_ipc(row) : some_file(row);
}

/* A role value: half of them plain, else around the special ones. */
static uint32_t some_value(void)
{
    return percent(50) ? number(32) : 31 + below(8);
}

/* A type value: most of them plain, else around the special ones. */
static uint32_t some_type(void)
{
    return percent(65) ? number(32) : percent(50) ? RC_INHERIT_PARENT : 31 + below(4);
}

/* A right: many around the special ones. */
static uint32_t some_right(void)
{
    return percent(60) ? number(RC_RIGHTS) : RC_RIGHT_ADMIN - 1 + below(5);
}

uint32_t random_kind(void)
{
    uint32_t kind = below(RC_CALL_LAST + 1);
    bool empties = kind == RC_CALL_EXIT || kind == RC_CALL_DELETE || kind == RC_CALL_DELETE_IPC;
    if ((empties || !is_known(kind)) && percent(60))
        kind = RC_CALL_CLONE + below(RC_CALL_CREATE_IPC - RC_CALL_CLONE + 1);
    return kind;
}

struct call some_call(const uint32_t *row, uint32_t kind)
{
    uint32_t a = unused(), b = unused(), c = unused(), d = unused();
    uint32_t caller = some_process(row);
    switch (kind) {
    case 0: kind = percent(30) ? 0 : percent(50) ? RC_CALL_LAST + 1 + below(20) : huge(); break;
    case RC_CALL_ACCESS: a = number(RC_GROUPS), b = object_of(row, a), c = number(RC_RIGHT_ADMIN); break;
    case RC_CALL_EXECUTE: a = some_file_of(row, RC_FILE); break;
    case RC_CALL_DELETE: a = some_file(row); break;
    case RC_CALL_CHANGE_OWNER:
    case RC_CALL_CHANGE_ROLE: a = number(32); break;
    case RC_CALL_CREATE: a = percent(95) ? 1 + below(2) : number(3), b = some_file_of(row, RC_DIR); break;
    case RC_CALL_DELETE_IPC: a = some_ipc(row); break;
    case RC_CALL_ADD_ROLE:
    case RC_CALL_REMOVE_ROLE: a = number(3), b = number(RC_ROLES), c = number(RC_ROLES); break;
    case RC_CALL_SET_USER_ROLE: a = number(RC_USERS), b = number(RC_ROLES); break;
    case GONE_SET_INITIAL:
    case GONE_SET_FORCED: a = some_file(row), b = some_value(); break;
    case RC_CALL_SET_PROCESS_FORCED: a = some_process(row), b = some_value(); break;
    case RC_CALL_SET_DEFAULT_TYPE: a = number(5), b = number(RC_ROLES), c = some_type(); break;
    case RC_CALL_SET_ROLE_ADMIN: a = number(RC_ROLES), b = number(2); break;
    case RC_CALL_SET_TYPE: a = number(RC_GROUPS), b = object_of(row, a), c = some_type(); break;
    case RC_CALL_ADD_RIGHT:
    case RC_CALL_REMOVE_RIGHT:
        a = number(RC_GROUPS), b = number(RC_ROLES), c = number(RC_TYPES), d = some_right();
        break;
    case RC_CALL_SET_PROGRAM_ROLES: a = some_file(row), b = some_value(), c = some_value(); break;
    default: break;
    }
    return (struct call){kind, caller, a, b, c, d};
}

void put_item(uint8_t *item, struct call made)
{
    const uint32_t bytes[RC_ITEM_BYTES] = {made.kind, made.caller, made.a, made.b, made.c, made.d};
    for (uint32_t at = 0; at < RC_ITEM_BYTES; at++)
        item[at] = (uint8_t)bytes[at];
}
