#include "programs.h"
#include "calls.h"
#include "random.h"
#include "rows.h"
#include "twin.h"
#include <string.h>

static uint32_t row[RC_WORDS], before[RC_WORDS], wanted[RC_WORDS];

/* ---- What must come ---- */

/* How the two calls would be answered, first the one for the initial value: they differ by their values alone, and so with
   2 and with 5 alone. */
static const char *const pair_name[] = {"00", "02", "05", "20", "22", "23", "24", "25",
                                        "32", "33", "42", "44", "50", "52", "55"};
#define PAIRS (sizeof pair_name / sizeof pair_name[0])
static uint64_t pair_hits[PAIRS];

enum {
    BY_ROLE_ADMIN,
    BY_ANOTHER,
    BOTH_CHANGED,
    INITIAL_CHANGED,
    FORCED_CHANGED,
    NONE_CHANGED,
    USE_FORCED_ROLE,
    OF_FILE,
    OF_DIR,
    OF_ROOT,
    FORCED_33,
    SPECIAL_INITIAL,
    SPECIAL_FORCED,
    STAYING_INITIAL,
    STAYING_FORCED,
    SORTS
};

static const char *const sort_name[SORTS] = {
    [BY_ROLE_ADMIN] = "granted to Role Admin",
    [BY_ANOTHER] = "to another",
    [BOTH_CHANGED] = "both changed",
    [INITIAL_CHANGED] = "initial alone",
    [FORCED_CHANGED] = "forced alone",
    [NONE_CHANGED] = "neither",
    [USE_FORCED_ROLE] = "initial 33",
    [OF_FILE] = "of a FILE",
    [OF_DIR] = "of a DIR",
    [OF_ROOT] = "of the root",
    [FORCED_33] = "refused for forced 33",
    [SPECIAL_INITIAL] = "for a special initial value",
    [SPECIAL_FORCED] = "for a special forced one",
    [STAYING_INITIAL] = "for an initial value that stays",
    [STAYING_FORCED] = "for a forced one",
};
static uint64_t sort_hits[SORTS];

bool program_report(void)
{
    bool complete = twin_counts("program roles, initial and forced alone", pair_name, pair_hits, PAIRS);
    return twin_counts("program roles", sort_name, sort_hits, SORTS) && complete;
}

/* ---- A third opinion ---- */

/* What a call that sets this value alone is answered: rule 27 for the initial one, rule 28 for the forced one, H4, H7. */
static uint32_t alone(const struct call *made, uint32_t value, bool in_range)
{
    if (made->caller >= RC_PROCESSES || made->a >= RC_FILES || made->d != 0 || !in_range)
        return RC_OUT_OF_RANGE;
    const uint32_t *p = process_at(before, made->caller), *own = role_at(before, p[RC_PROCESS_ROLE]);
    if (!p[RC_PROCESS_LIVE])
        return RC_NOT_LIVE;
    if (file_at(before, made->a)[RC_FILE_KIND] == RC_FREE)
        return RC_NO_SUCH_PLACE;
    if (own[RC_ROLE_MARK])
        return RC_GRANTED;
    uint32_t type = effective_value(before, made->a, RC_KEPT_TYPE);
    uint32_t rights = *rights_at(before, RC_GROUP_FILESYSTEM, p[RC_PROCESS_ROLE], type);
    bool assigns = value < RC_ROLES && (own[RC_ROLE_ASSIGN] >> value & 1);
    return assigns && (rights >> RC_RIGHT_MODIFY_ATTRIBUTE & 1) ? RC_GRANTED : RC_NOT_ALLOWED;
}

static uint32_t lowest_refusal(uint32_t initial, uint32_t forced)
{
    if (initial == RC_GRANTED || forced == RC_GRANTED)
        return initial + forced;
    return initial < forced ? initial : forced;
}

static void count(const struct call *made, uint32_t initial, uint32_t forced)
{
    for (size_t i = 0; i < PAIRS; i++)
        pair_hits[i] += pair_name[i][0] == (char)('0' + initial) && pair_name[i][1] == (char)('0' + forced);
    if (made->caller >= RC_PROCESSES || made->a >= RC_FILES)
        return;
    const uint32_t *f = file_at(before, made->a), *p = process_at(before, made->caller);
    bool granted = initial == RC_GRANTED && forced == RC_GRANTED;
    bool initial_stays = f[RC_FILE_INITIAL] == made->b, forced_stays = f[RC_FILE_FORCED] == made->c;
    bool admin = role_at(before, p[RC_PROCESS_ROLE])[RC_ROLE_MARK];
    bool initial_5 = initial == RC_NOT_ALLOWED && forced == RC_GRANTED;
    bool forced_5 = initial == RC_GRANTED && forced == RC_NOT_ALLOWED;
    const bool came[SORTS] = {
        [BY_ROLE_ADMIN] = granted && admin,
        [BY_ANOTHER] = granted && !admin,
        [BOTH_CHANGED] = granted && !initial_stays && !forced_stays,
        [INITIAL_CHANGED] = granted && !initial_stays && forced_stays,
        [FORCED_CHANGED] = granted && initial_stays && !forced_stays,
        [NONE_CHANGED] = granted && initial_stays && forced_stays,
        [USE_FORCED_ROLE] = granted && made->b == RC_USE_FORCED_ROLE,
        [OF_FILE] = granted && f[RC_FILE_KIND] == RC_FILE,
        [OF_DIR] = granted && f[RC_FILE_KIND] == RC_DIR && made->a != 0,
        [OF_ROOT] = granted && made->a == 0,
        [FORCED_33] = initial == RC_GRANTED && forced == RC_OUT_OF_RANGE && made->c == RC_USE_FORCED_ROLE,
        [SPECIAL_INITIAL] = initial_5 && made->b >= RC_ROLES,
        [SPECIAL_FORCED] = forced_5 && made->c >= RC_ROLES,
        [STAYING_INITIAL] = initial_5 && initial_stays,
        [STAYING_FORCED] = forced_5 && forced_stays,
    };
    for (int i = 0; i < SORTS; i++)
        sort_hits[i] += came[i];
}

/* ---- The calls ---- */

/* A random call, or one in which a value stays as it is. */
static struct call some_setting(void)
{
    struct call made = some_call(before, RC_CALL_SET_PROGRAM_ROLES);
    if (made.a < RC_FILES && percent(20))
        made.b = file_at(before, made.a)[RC_FILE_INITIAL];
    if (made.a < RC_FILES && percent(20))
        made.c = file_at(before, made.a)[RC_FILE_FORCED];
    return made;
}

static void set_both(void)
{
    memcpy(before, twin_row(), sizeof before);
    struct call made = some_setting();
    uint32_t initial = alone(&made, made.b, made.b <= RC_USE_FORCED_ROLE);
    uint32_t forced = alone(&made, made.c, made.c <= RC_UP_MIXED && made.c != RC_USE_FORCED_ROLE);
    memcpy(wanted, before, sizeof wanted);
    if (initial == RC_GRANTED && forced == RC_GRANTED) {
        file_at(wanted, made.a)[RC_FILE_INITIAL] = made.b;
        file_at(wanted, made.a)[RC_FILE_FORCED] = made.c;
        fill_kept(wanted);
    }
    uint32_t number = twin_call(made.kind, made.caller, made.a, made.b, made.c, made.d).number;
    if (number != lowest_refusal(initial, forced))
        twin_differs("program roles are not answered as the two values alone ask for");
    if (memcmp(wanted, twin_row(), sizeof wanted) != 0)
        twin_differs("program roles are not both set, or not both left");
    count(&made, initial, forced);
}

void program_case(void)
{
    enum density rights = percent(50) ? DENSE : HALF;
    random_row(row, rights, (enum density)below(DENSITIES));
    twin_load(row);
    for (int i = 0; i < 60; i++)
        set_both();
}
