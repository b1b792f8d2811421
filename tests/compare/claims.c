#include "claims.h"
#include "random.h"
#include "rows.h"
#include "twin.h"
#include <stdio.h>
#include <stdlib.h>
#include <string.h>

#define ROOM (RC_CLAIM_WORDS + 64u)
#define BIT(n) (UINT32_C(1) << (n))
#define S (claim[RC_CLAIM_ROLES])
#define Q (claim[RC_CLAIM_PROCESS_TYPES])
#define T(o) (claim[RC_CLAIM_FILE_TYPES + (o)])
#define CREATES (BIT(RC_RIGHT_WRITE) | BIT(RC_RIGHT_CREATE) | BIT(RC_RIGHT_DELETE))

static uint32_t row[RC_WORDS], claim[ROOM];

static bool in(uint32_t set, uint32_t member)
{
    return member < 32 && (set >> member & 1);
}

static uint32_t type_of(uint32_t place)
{
    return effective_value(row, place, RC_KEPT_TYPE);
}

static uint32_t initial_of(uint32_t place)
{
    return effective_value(row, place, RC_KEPT_INITIAL);
}

static uint32_t forced_of(uint32_t place)
{
    return effective_value(row, place, RC_KEPT_FORCED);
}

static bool startable(uint32_t place)
{
    for (uint32_t r = 0; r < RC_ROLES; r++)
        for (uint32_t type = 0; in(S, r) && type < RC_TYPES; type++)
            if (in(T(place), type) && in(*rights_at(row, RC_GROUP_FILESYSTEM, r, type), RC_RIGHT_EXECUTE))
                return true;
    return false;
}

/* ---- A claim that is accepted ---- */

static void put(uint32_t *set, uint32_t value)
{
    if (value < 32)
        *set |= BIT(value);
}

static void widen_by_roles(void) /* C4 and C5 */
{
    for (uint32_t r = 0; r < RC_ROLES; r++)
        if (in(S, r)) {
            S |= role_at(row, r)[RC_ROLE_COMPATIBLE];
            put(&Q, role_at(row, r)[RC_ROLE_PROCESS_CREATE]);
            put(&Q, role_at(row, r)[RC_ROLE_PROCESS_EXECUTE]);
            put(&Q, role_at(row, r)[RC_ROLE_PROCESS_CHOWN]);
        }
}

static void widen_types(uint32_t place) /* C6 */
{
    put(&T(place), type_of(place));
    for (uint32_t r = 0; file_at(row, place)[RC_FILE_KIND] == RC_DIR && r < RC_ROLES; r++)
        for (uint32_t type = 0; type < RC_TYPES; type++)
            if (in(T(place), type) && in(*rights_at(row, RC_GROUP_FILESYSTEM, r, type), RC_RIGHT_CREATE))
                put(&T(place), role_at(row, r)[RC_ROLE_FILE_CREATE]);
}

static void widen_by_carried(uint32_t value) /* C7, C8 and C9 */
{
    const uint32_t *p = process_at(row, claim[RC_CLAIM_PROCESS]);
    put(&S, value);
    if (value == RC_INHERIT_USER)
        put(&S, user_at(row, p[RC_PROCESS_OWNER])[RC_USER_ROLE]);
    if (value != RC_INHERIT_USER && value != RC_UP_MIXED)
        return;
    for (uint32_t r = 0; r < RC_ROLES; r++)
        for (uint32_t type = 0; in(S, r) && type < RC_TYPES; type++)
            if (in(Q, type) && in(*rights_at(row, RC_GROUP_PROCESS, r, type), RC_RIGHT_CHANGE_OWNER))
                for (uint32_t u = 0; u < RC_USERS; u++)
                    put(&S, user_at(row, u)[RC_USER_ROLE]);
}

/* Adds to the claim what C1 and C4 to C9 ask for, until nothing is left to add. */
static void widen(void)
{
    uint32_t before[RC_CLAIM_WORDS];
    const uint32_t *p = process_at(row, claim[RC_CLAIM_PROCESS]);
    do {
        memcpy(before, claim, sizeof before);
        put(&S, p[RC_PROCESS_ROLE]);
        put(&Q, p[RC_PROCESS_TYPE]);
        widen_by_roles();
        widen_by_carried(p[RC_PROCESS_FORCED]);
        for (uint32_t o = 0; o < RC_FILES; o++)
            if (file_at(row, o)[RC_FILE_KIND] != RC_FREE) {
                widen_types(o);
                if (startable(o)) {
                    put(&S, initial_of(o));
                    widen_by_carried(forced_of(o));
                }
            }
    } while (memcmp(before, claim, sizeof before) != 0);
}

/* Takes from the roles of the claim what C2 and C3 forbid. It only ever asks for less, so the claim stays closed. */
static void tame(void)
{
    for (uint32_t r = 0; r < RC_ROLES; r++) {
        if (!in(S, r))
            continue;
        uint32_t *role = role_at(row, r);
        role[RC_ROLE_MARK] = role[RC_ROLE_ADMIN] = role[RC_ROLE_ASSIGN] = 0;
        for (uint32_t group = 0; group < RC_GROUPS; group++)
            for (uint32_t type = 0; type < RC_TYPES; type++)
                *rights_at(row, group, r, type) &= ~BIT(RC_RIGHT_ASSIGN);
        *rights_at(row, RC_GROUP_FILESYSTEM, r, claim[RC_CLAIM_TYPE]) &= ~CREATES;
        if (role[RC_ROLE_FILE_CREATE] == claim[RC_CLAIM_TYPE])
            role[RC_ROLE_FILE_CREATE] = RC_INHERIT_PARENT;
    }
}

/* ---- The same with one rule broken ---- false if these tables have nothing to break it with */

static bool break_rule_2(uint32_t role)
{
    switch (below(4)) {
    case 0: role_at(row, role)[RC_ROLE_MARK] = 1; break;
    case 1: role_at(row, role)[RC_ROLE_ADMIN] = BIT(below(32)); break;
    case 2: role_at(row, role)[RC_ROLE_ASSIGN] = BIT(below(32)); break;
    default: *rights_at(row, below(RC_GROUPS), role, below(RC_TYPES)) |= BIT(RC_RIGHT_ASSIGN); break;
    }
    return true;
}

static bool break_rule_3(uint32_t role)
{
    static const uint32_t rights[] = {RC_RIGHT_WRITE, RC_RIGHT_CREATE, RC_RIGHT_DELETE};
    if (percent(25))
        role_at(row, role)[RC_ROLE_FILE_CREATE] = claim[RC_CLAIM_TYPE];
    else
        *rights_at(row, RC_GROUP_FILESYSTEM, role, claim[RC_CLAIM_TYPE]) |= BIT(rights[below(3)]);
    return true;
}

static bool break_rule_6(uint32_t place)
{
    uint32_t *f = file_at(row, place);
    if (f[RC_FILE_KIND] == RC_FREE) {
        T(place) = BIT(below(32));
        return true;
    }
    bool room = S != UINT32_MAX && T(place) != 0 && T(place) != UINT32_MAX;
    if (f[RC_FILE_KIND] == RC_DIR && room && percent(70)) {
        uint32_t outsider = member_of(~S); /* who can create below what the family can start */
        role_at(row, outsider)[RC_ROLE_FILE_CREATE] = member_of(~T(place));
        *rights_at(row, RC_GROUP_FILESYSTEM, outsider, member_of(T(place))) |= BIT(RC_RIGHT_CREATE);
        return true;
    }
    T(place) &= ~BIT(type_of(place));
    return true;
}

/* Sets what the value of a file comes to, at the file or at a parent that it may inherit from. */
static void set_value(uint32_t place, uint32_t field, uint32_t value)
{
    while (file_at(row, place)[field] == RC_INHERIT_PARENT && place != 0 && percent(80))
        place = file_at(row, place)[RC_FILE_PARENT];
    file_at(row, place)[field] = value;
    fill_kept(row);
}

static bool break_rule_7(uint32_t *p, uint32_t place)
{
    if (S == UINT32_MAX)
        return false;
    if (file_at(row, place)[RC_FILE_KIND] == RC_FREE || !startable(place))
        p[RC_PROCESS_FORCED] = member_of(~S);
    else
        set_value(place, percent(50) ? RC_FILE_INITIAL : RC_FILE_FORCED, member_of(~S));
    return true;
}

static bool break_rule_8(uint32_t *p, uint32_t place)
{
    if (S == UINT32_MAX)
        return false;
    user_at(row, p[RC_PROCESS_OWNER])[RC_USER_ROLE] = member_of(~S);
    if (file_at(row, place)[RC_FILE_KIND] == RC_FREE || !startable(place))
        p[RC_PROCESS_FORCED] = RC_INHERIT_USER;
    else
        set_value(place, RC_FILE_FORCED, RC_INHERIT_USER);
    return true;
}

static bool break_rule_9(uint32_t *p, uint32_t role)
{
    if (S == UINT32_MAX)
        return false;
    user_at(row, p[RC_PROCESS_OWNER])[RC_USER_ROLE] = member_of(S);
    user_at(row, (p[RC_PROCESS_OWNER] + 1 + below(RC_USERS - 1)) % RC_USERS)[RC_USER_ROLE] = member_of(~S);
    *rights_at(row, RC_GROUP_PROCESS, role, member_of(Q)) |= BIT(RC_RIGHT_CHANGE_OWNER);
    p[RC_PROCESS_FORCED] = percent(50) ? RC_INHERIT_USER : RC_UP_MIXED;
    return true;
}

static bool break_rule(uint32_t rule)
{
    if (S == 0 || Q == 0)
        return false;
    uint32_t *p = process_at(row, claim[RC_CLAIM_PROCESS]);
    uint32_t role = member_of(S), place = below(RC_FILES);
    switch (rule) {
    case 1:
        if (percent(50))
            S &= ~BIT(p[RC_PROCESS_ROLE]);
        else
            Q &= ~BIT(p[RC_PROCESS_TYPE]);
        return true;
    case 2: return break_rule_2(role);
    case 3: return break_rule_3(role);
    case 4:
        if (S == UINT32_MAX)
            return false;
        role_at(row, role)[RC_ROLE_COMPATIBLE] |= BIT(member_of(~S));
        return true;
    case 5:
        if (Q == UINT32_MAX)
            return false;
        role_at(row, role)[RC_ROLE_PROCESS_CREATE + below(3)] = member_of(~Q);
        return true;
    case 6: return break_rule_6(place);
    case 7: return break_rule_7(p, place);
    case 8: return break_rule_8(p, place);
    default: return break_rule_9(p, role);
    }
}

/* ---- Checking ---- */

static struct rc_verdict check(void)
{
    twin_load(row);
    return twin_claim(claim, RC_CLAIM_WORDS);
}

/* What the way a claim was made says of its verdict is a third opinion. */
static void expect(const char *what, struct rc_verdict got, uint32_t number, uint32_t rule)
{
    if (got.number == number && got.rule == rule)
        return;
    printf("DIFFERENCE: %s: verdict %u %u, wanted %u %u\n", what, got.number, got.rule, number, rule);
    exit(1);
}

/* One bit of the claim, or one word of the tables that has no range to leave. */
static void flip(void)
{
    switch (below(4)) {
    case 0: S ^= BIT(below(32)); break;
    case 1: Q ^= BIT(below(32)); break;
    case 2: T(below(RC_FILES)) ^= BIT(below(32)); break;
    default: *rights_at(row, below(RC_GROUPS), below(RC_ROLES), below(RC_TYPES)) ^= BIT(below(RC_RIGHTS)); break;
    }
}

static void any_claim(void)
{
    claim[RC_CLAIM_PROCESS] = percent(90) ? below(RC_PROCESSES) : RC_PROCESSES - 1 + below(3);
    claim[RC_CLAIM_TYPE] = percent(95) ? below(RC_TYPES) : RC_TYPES + below(2);
    if (percent(5))
        claim[percent(50) ? RC_CLAIM_PROCESS : RC_CLAIM_TYPE] = (uint32_t)random_bits() | 0x40000000;
    S = random_set((enum density)below(DENSITIES));
    Q = random_set((enum density)below(DENSITIES));
    enum density types = (enum density)below(DENSITIES);
    for (uint32_t o = 0; o < RC_FILES; o++)
        T(o) = random_set(types);
    check();
}

void claim_case(void)
{
    static const size_t wrong[] = {0, 1, 4, 255, 256, RC_CLAIM_WORDS - 1, RC_CLAIM_WORDS + 1, ROOM};
    static uint32_t good_row[RC_WORDS], good_claim[ROOM];

    /* tables with few links between roles, so that the closed claim is not always everything */
    random_row(row, percent(80) ? SPARSE : DENSE, percent(70) ? EMPTY : SPARSE);
    memset(claim, 0, sizeof claim);
    do
        claim[RC_CLAIM_PROCESS] = below(RC_PROCESSES);
    while (process_at(row, claim[RC_CLAIM_PROCESS])[RC_PROCESS_LIVE] == 0);
    claim[RC_CLAIM_TYPE] = below(RC_TYPES);
    S = percent(70) ? 0 : random_set(SPARSE);
    Q = percent(70) ? 0 : random_set(HALF);
    for (int i = 0; i < 20; i++) {
        uint32_t o = below(RC_FILES);
        if (file_at(row, o)[RC_FILE_KIND] != RC_FREE)
            T(o) = random_set(SPARSE);
    }
    uint32_t few = percent(60) ? BIT(RC_RIGHT_EXECUTE) | BIT(RC_RIGHT_CREATE) | BIT(RC_RIGHT_CHANGE_OWNER) : 0;
    for (uint32_t at = RC_RIGHTS_AT; at < RC_WORDS; at++)
        if (percent(90))
            row[at] &= ~few;
    widen();
    tame();
    expect("a closed claim", check(), RC_GRANTED, 0);
    memcpy(good_row, row, sizeof row);
    memcpy(good_claim, claim, sizeof claim);

    for (size_t i = 0; i < sizeof wrong / sizeof wrong[0]; i++)
        expect("a claim of a wrong length", twin_claim(claim, wrong[i]), RC_ILL_FORMED, 0);
    for (uint32_t rule = 1; rule <= 9; rule++)
        for (int i = 0; i < 4; i++) {
            if (break_rule(rule))
                expect("a claim with one rule broken", check(), RC_CLAIM_BROKEN, rule);
            if (percent(20)) { /* and others with it */
                break_rule(1 + below(9));
                check();
            }
            memcpy(row, good_row, sizeof row);
            memcpy(claim, good_claim, sizeof claim);
        }
    for (int i = 0; i < 20; i++) {
        flip();
        check();
        if (percent(50)) {
            memcpy(row, good_row, sizeof row);
            memcpy(claim, good_claim, sizeof claim);
        }
    }
    for (int i = 0; i < 5; i++)
        any_claim();
    damage(row, below(RC_RIGHTS_AT));
    memcpy(claim, good_claim, sizeof claim);
    check();
}
