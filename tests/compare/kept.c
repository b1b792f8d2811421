#include "kept.h"
#include "calls.h"
#include "random.h"
#include "rows.h"
#include "twin.h"
#include <stdio.h>
#include <string.h>

/* A value of a file, by its word in an entry; the file's own values stand in the same order. */
#define VALUES RC_KEPT_WORDS
#define OWN(which) (RC_FILE_TYPE + (which))
_Static_assert(OWN(RC_KEPT_INITIAL) == RC_FILE_INITIAL && OWN(RC_KEPT_FORCED) == RC_FILE_FORCED, "the same order");

static const char *const value_name[VALUES] = {"type", "initial", "forced"};

/* ---- Damage ---- each sort of it is done to each of the three values */

enum sort {
    OF_FILE,
    OF_DIR,
    OF_ROOT,
    OF_FREE,
    EXCHANGED,
    LEFT_BY_DELETE,
    NOT_REFRESHED,
    NOT_REFRESHED_BELOW,
    NOT_CLIMBED,
    PASSED_ON,
    SORTS
};
_Static_assert(SORTS * VALUES == KEPT_DAMAGES, "the ways of damage");

static const char *const sort_name[SORTS] = {
    [OF_FILE] = "of a FILE",
    [OF_DIR] = "of a DIR",
    [OF_ROOT] = "of the root",
    [OF_FREE] = "of a free place",
    [EXCHANGED] = "exchanged with the next",
    [LEFT_BY_DELETE] = "left after a delete",
    [NOT_REFRESHED] = "not refreshed",
    [NOT_REFRESHED_BELOW] = "not refreshed below",
    [NOT_CLIMBED] = "inherit parent itself",
    [PASSED_ON] = "passed on to all that inherits it",
};
static uint64_t sort_hits[VALUES][SORTS];

/* Whether something directly below inherits this value; the root is below nothing. */
static bool has_heir(uint32_t *tables, uint32_t dir, uint32_t which)
{
    for (uint32_t place = 1; place < RC_FILES; place++)
        if (file_at(tables, place)[OWN(which)] == RC_INHERIT_PARENT && file_at(tables, place)[RC_FILE_PARENT] == dir)
            return true;
    return false;
}

/* Whether a place has something for this sort of damage, so that it cannot stay well formed. */
static bool suits(uint32_t *tables, enum sort sort, uint32_t place, uint32_t which)
{
    const uint32_t *f = file_at(tables, place), *kept = kept_at(tables, place);
    bool taken = f[RC_FILE_KIND] != RC_FREE;
    switch (sort) {
    case OF_FILE: return f[RC_FILE_KIND] == RC_FILE;
    case OF_DIR: return f[RC_FILE_KIND] == RC_DIR && place != 0;
    case OF_ROOT: return place == 0;
    case OF_FREE: return !taken;
    case EXCHANGED: return kept[which] != kept[(which + 1) % VALUES];
    case LEFT_BY_DELETE: return f[RC_FILE_KIND] == RC_FILE && kept[which] != 0;
    case NOT_REFRESHED_BELOW: return has_heir(tables, place, which);
    case NOT_CLIMBED: return f[OWN(which)] == RC_INHERIT_PARENT;
    default: return taken;
    }
}

/* A plain value other than this one. */
static uint32_t another(uint32_t value)
{
    return value < 32 ? (value + 1 + below(31)) % 32 : below(32);
}

static void spoil(uint32_t *tables, enum sort sort, uint32_t place, uint32_t which)
{
    uint32_t *own = file_at(tables, place) + OWN(which), *entry = kept_at(tables, place), *kept = entry + which;
    uint32_t was_own = *own, was_kept = *kept, other = another(*kept);
    switch (sort) {
    case EXCHANGED:
        *kept = entry[(which + 1) % VALUES];
        entry[(which + 1) % VALUES] = was_kept;
        break;
    case LEFT_BY_DELETE: memset(file_at(tables, place), 0, RC_FILE_WORDS * sizeof(uint32_t)); break;
    case NOT_REFRESHED: *own = other; break;
    case NOT_REFRESHED_BELOW: *own = *kept = other; break;
    case NOT_CLIMBED: *kept = RC_INHERIT_PARENT; break;
    case PASSED_ON: /* only the place itself shows it: all below that inherit agree with their parents */
        *own = other;
        fill_kept(tables);
        *own = was_own;
        break;
    default: *kept = percent(50) ? other : *kept ^ UINT32_C(1) << below(32); break;
    }
}

bool damage_kept(uint32_t tables[RC_WORDS], uint32_t way)
{
    enum sort sort = (enum sort)(way / VALUES);
    uint32_t which = way % VALUES, first = below(RC_FILES);
    for (uint32_t n = 0; n < RC_FILES; n++) {
        uint32_t place = (first + n) % RC_FILES;
        if (suits(tables, sort, place, which)) {
            spoil(tables, sort, place, which);
            sort_hits[which][sort]++;
            return true;
        }
    }
    return false;
}

/* ---- Refreshes ---- */

static uint32_t row[RC_WORDS], before[RC_WORDS], after[RC_WORDS];

enum {
    MOVED_OTHERS,
    MOVED_ITSELF,
    MOVED_NOTHING,
    BOTH_MOVED_OTHERS,
    STOPPED,
    INHERITS_AGAIN,
    OF_A_FILE,
    BEFORE_PARENT,
    TWO_LEVELS,
    EIGHT_LEVELS,
    REFRESHES
};

static const char *const refresh_name[REFRESHES] = {
    [MOVED_OTHERS] = "moved other places",
    [MOVED_ITSELF] = "its own alone",
    [MOVED_NOTHING] = "nothing",
    [BOTH_MOVED_OTHERS] = "initial and forced moved others",
    [STOPPED] = "stopped by an own value",
    [INHERITS_AGAIN] = "set to inherit parent",
    [OF_A_FILE] = "of a FILE",
    [BEFORE_PARENT] = "moved a place before its parent's",
    [TWO_LEVELS] = "two levels of such",
    [EIGHT_LEVELS] = "eight",
};
static uint64_t refresh_hits[REFRESHES];

/* Refreshes that moved other places, by the depth of the directory, and by the value; nothing is below depth 15. */
static const char *const depth_name[RC_DEPTH_MOST] = {"0", "1", "2",  "3",  "4",  "5",  "6", "7",
                                                      "8", "9", "10", "11", "12", "13", "14"};
static uint64_t depth_hits[RC_DEPTH_MOST], value_hits[VALUES];

static bool moved(uint32_t place, uint32_t which)
{
    return kept_at(before, place)[which] != kept_at(after, place)[which];
}

/* How many levels from a place upwards, at most to where the value was set, stand before their parents. */
static uint32_t levels_before(uint32_t place, uint32_t set)
{
    uint32_t levels = 0;
    while (place != set && place < file_at(after, place)[RC_FILE_PARENT]) {
        place = file_at(after, place)[RC_FILE_PARENT];
        levels++;
    }
    return levels;
}

/* Whether other places moved. */
static bool count_refresh(uint32_t set, uint32_t which)
{
    const uint32_t *f = file_at(after, set);
    uint32_t others = 0, most = 0;
    bool stopped = false;
    for (uint32_t place = 1; place < RC_FILES; place++) {
        const uint32_t *g = file_at(after, place);
        uint32_t levels = moved(place, which) ? levels_before(place, set) : 0;
        others += place != set && moved(place, which);
        most = levels > most ? levels : most;
        stopped |= g[RC_FILE_KIND] != RC_FREE && !moved(place, which) && moved(g[RC_FILE_PARENT], which);
    }
    const bool came[REFRESHES] = {
        [MOVED_OTHERS] = others != 0,
        [MOVED_ITSELF] = others == 0 && moved(set, which),
        [MOVED_NOTHING] = !moved(set, which),
        [STOPPED] = stopped,
        [INHERITS_AGAIN] = others != 0 && f[OWN(which)] == RC_INHERIT_PARENT,
        [OF_A_FILE] = f[RC_FILE_KIND] == RC_FILE && moved(set, which),
        [BEFORE_PARENT] = most >= 1,
        [TWO_LEVELS] = most >= 2,
        [EIGHT_LEVELS] = most >= 8,
    };
    for (int i = 0; i < REFRESHES; i++)
        refresh_hits[i] += came[i];
    if (others != 0) {
        depth_hits[f[RC_FILE_DEPTH]]++;
        value_hits[which]++;
    }
    return others != 0;
}

/* An object at this depth, mostly a DIR; RC_FILES if there is none. */
static uint32_t some_place_at(uint32_t depth)
{
    uint32_t kind = percent(90) ? RC_DIR : RC_FILE, first = below(RC_FILES);
    for (uint32_t n = 0; n < RC_FILES; n++) {
        const uint32_t *f = file_at(before, (first + n) % RC_FILES);
        if (f[RC_FILE_KIND] == kind && f[RC_FILE_DEPTH] == depth)
            return (first + n) % RC_FILES;
    }
    return RC_FILES;
}

static uint32_t special_value(uint32_t which)
{
    switch (which) {
    case RC_KEPT_INITIAL: return RC_USE_FORCED_ROLE;
    case RC_KEPT_FORCED: return RC_INHERIT_USER + below(3);
    default: return RC_INHERIT_PARENT;
    }
}

/* Most are plain; some inherit again, some are what counts already, some stay as they are, some are special. */
static uint32_t some_value(uint32_t place, uint32_t which)
{
    switch (below(7)) {
    case 0: return RC_INHERIT_PARENT;
    case 1: return kept_at(before, place)[which];
    case 2: return file_at(before, place)[OWN(which)];
    case 3: return special_value(which);
    default: return below(32);
    }
}

static uint32_t set_type(uint32_t caller, uint32_t place)
{
    uint32_t type = some_value(place, RC_KEPT_TYPE);
    return twin_call(RC_CALL_SET_TYPE, caller, RC_GROUP_FILESYSTEM, place, type, 0).number;
}

static uint32_t set_program_roles(uint32_t caller, uint32_t place)
{
    uint32_t initial = some_value(place, RC_KEPT_INITIAL), forced = some_value(place, RC_KEPT_FORCED);
    return twin_call(RC_CALL_SET_PROGRAM_ROLES, caller, place, initial, forced, 0).number;
}

/* Sets the type, or the two other values at once (W-207), and holds what is kept afterwards against the files. */
static void refresh(uint32_t depth, bool type)
{
    memcpy(before, twin_row(), sizeof before);
    uint32_t place = some_place_at(depth), caller = percent(70) ? 0 : some_process(before);
    if (place == RC_FILES)
        return;
    if ((type ? set_type(caller, place) : set_program_roles(caller, place)) != RC_GRANTED)
        return;
    memcpy(after, twin_row(), sizeof after);
    fill_kept(after);
    if (memcmp(after, twin_row(), sizeof after) != 0)
        twin_differs("the kept values are not those that the files ask for");
    if (type)
        count_refresh(place, RC_KEPT_TYPE);
    else
        refresh_hits[BOTH_MOVED_OTHERS] +=
            count_refresh(place, RC_KEPT_INITIAL) & count_refresh(place, RC_KEPT_FORCED);
}

void refresh_case(void)
{
    enum density rights = percent(50) ? DENSE : HALF;
    random_row(row, rights, (enum density)below(DENSITIES));
    role_at(row, process_at(row, 0)[RC_PROCESS_ROLE])[RC_ROLE_MARK] = percent(80); /* mostly nothing is refused */
    twin_load(row);
    for (int i = 0; i < 60; i++) {
        uint32_t depth = below(RC_DEPTH_MOST + 1);
        refresh(depth, below(VALUES) == RC_KEPT_TYPE);
    }
}

bool kept_report(void)
{
    bool complete = true;
    for (uint32_t which = 0; which < VALUES; which++) {
        char what[32];
        snprintf(what, sizeof what, "kept %s damaged", value_name[which]);
        complete &= twin_counts(what, sort_name, sort_hits[which], SORTS);
    }
    complete &= twin_counts("refreshes", refresh_name, refresh_hits, REFRESHES);
    complete &= twin_counts("moved other places, by value", value_name, value_hits, VALUES);
    return twin_counts("moved other places, by depth", depth_name, depth_hits, RC_DEPTH_MOST) && complete;
}
