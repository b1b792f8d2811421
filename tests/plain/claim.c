/* Checking a claim by C1 to C9. What depends on roles alone is worked out once, before the walk over the files. */
#include "tables.h"

struct claim {
    uint32_t process, type, roles, process_types, file_types[RC_FILES];
};

_Static_assert(sizeof(struct claim) == RC_CLAIM_WORDS * sizeof(uint32_t), "the row of a claim");
_Static_assert(offsetof(struct claim, roles) == RC_CLAIM_ROLES * sizeof(uint32_t), "S");
_Static_assert(offsetof(struct claim, process_types) == RC_CLAIM_PROCESS_TYPES * sizeof(uint32_t), "Q");
_Static_assert(offsetof(struct claim, file_types) == RC_CLAIM_FILE_TYPES * sizeof(uint32_t), "T");

#define BIT(n) (UINT32_C(1) << (n))

/* A default type that is plain must be in the set. */
static bool plain_type_in(uint32_t set, uint32_t type)
{
    return !is_plain(type) || contains(set, type);
}

/* The rights to each type that some role of a set has. */
static void rights_of(const struct tables *t, uint32_t group, uint32_t roles,
                      uint32_t rights[restrict RC_TYPES])
{
    for (uint32_t type = 0; type < RC_TYPES; type++)
        rights[type] = 0;
    for (uint32_t role = 0; role < RC_ROLES; role++)
        if (contains(roles, role))
            for (uint32_t type = 0; type < RC_TYPES; type++)
                rights[type] |= t->rights[group][role][type];
}

/* The types for which one right is held. */
static uint32_t types_with(const uint32_t rights[RC_TYPES], uint32_t right)
{
    uint32_t types = 0;
    for (uint32_t type = 0; type < RC_TYPES; type++)
        types |= (rights[type] >> right & 1) << type;
    return types;
}

static bool held_anywhere(const uint32_t rights[RC_TYPES], uint32_t right)
{
    uint32_t all = 0;
    for (uint32_t type = 0; type < RC_TYPES; type++)
        all |= rights[type];
    return all >> right & 1;
}

/* For C6: the plain file create types of all roles that have CREATE to a type. */
static void types_made(const struct tables *t, uint32_t made[restrict RC_TYPES])
{
    for (uint32_t type = 0; type < RC_TYPES; type++)
        made[type] = 0;
    for (uint32_t role = 0; role < RC_ROLES; role++) {
        uint32_t create = t->role[role].file_create;
        if (!is_plain(create))
            continue;
        for (uint32_t type = 0; type < RC_TYPES; type++)
            made[type] |= (t->rights[RC_GROUP_FILESYSTEM][role][type] >> RC_RIGHT_CREATE & 1) << create;
    }
}

/* Everything made in a directory has a type that the set holds. */
static bool closed(uint32_t types, const uint32_t made[RC_TYPES])
{
    uint32_t all = 0;
    for (uint32_t rest = types, type = 0; rest != 0; rest >>= 1, type++)
        if (rest & 1)
            all |= made[type];
    return (all & ~types) == 0;
}

/* The first rule broken, or 0. */
static uint32_t first_broken(const struct tables *t, const struct claim *claim)
{
    const struct process *p = &t->process[claim->process];
    uint32_t s = claim->roles, q = claim->process_types, k = claim->type;

    if (!contains(s, p->role) || !contains(q, p->type))
        return 1;

    uint32_t file_rights[RC_TYPES], process_rights[RC_TYPES], ipc_rights[RC_TYPES];
    rights_of(t, RC_GROUP_FILESYSTEM, s, file_rights);
    rights_of(t, RC_GROUP_PROCESS, s, process_rights);
    rights_of(t, RC_GROUP_IPC, s, ipc_rights);
    for (uint32_t r = 0; r < RC_ROLES; r++)
        if (contains(s, r) && (t->role[r].mark | t->role[r].admin | t->role[r].assign) != 0)
            return 2;
    if (held_anywhere(file_rights, RC_RIGHT_ASSIGN) || held_anywhere(process_rights, RC_RIGHT_ASSIGN) ||
        held_anywhere(ipc_rights, RC_RIGHT_ASSIGN))
        return 2;

    if (file_rights[k] & (BIT(RC_RIGHT_WRITE) | BIT(RC_RIGHT_CREATE) | BIT(RC_RIGHT_DELETE)))
        return 3;
    for (uint32_t r = 0; r < RC_ROLES; r++)
        if (contains(s, r) && t->role[r].file_create == k)
            return 3;

    for (uint32_t r = 0; r < RC_ROLES; r++)
        if (contains(s, r) && (t->role[r].compatible & ~s) != 0)
            return 4;

    for (uint32_t r = 0; r < RC_ROLES; r++)
        if (contains(s, r) &&
            !(plain_type_in(q, t->role[r].process_create) && plain_type_in(q, t->role[r].process_execute) &&
              plain_type_in(q, t->role[r].process_chown)))
            return 5;

    uint32_t made[RC_TYPES];
    types_made(t, made);
    uint32_t executable = types_with(file_rights, RC_RIGHT_EXECUTE);
    uint32_t roles_reached = 0; /* plain initial roles of startable objects, and plain carried values */
    bool user_carried = p->forced == RC_INHERIT_USER;
    bool mixed_carried = p->forced == RC_UP_MIXED;
    if (is_plain(p->forced))
        roles_reached |= BIT(p->forced);
    for (uint32_t o = 0; o < RC_FILES; o++) {
        uint32_t types = claim->file_types[o];
        if (t->file[o].kind == RC_FREE) {
            if (types != 0)
                return 6;
            continue;
        }
        if (!contains(types, effective(t, o, TYPE)))
            return 6;
        if (t->file[o].kind == RC_DIR && !closed(types, made))
            return 6;
        if ((types & executable) == 0)
            continue;
        uint32_t initial = effective(t, o, INITIAL);
        if (is_plain(initial))
            roles_reached |= BIT(initial);
        uint32_t forced = effective(t, o, FORCED);
        if (is_plain(forced))
            roles_reached |= BIT(forced);
        user_carried |= forced == RC_INHERIT_USER;
        mixed_carried |= forced == RC_UP_MIXED;
    }

    if ((roles_reached & ~s) != 0)
        return 7;
    if (user_carried && !contains(s, t->user_role[p->owner]))
        return 8;
    if ((user_carried || mixed_carried) && (types_with(process_rights, RC_RIGHT_CHANGE_OWNER) & q) != 0)
        for (uint32_t u = 0; u < RC_USERS; u++)
            if (!contains(s, t->user_role[u]))
                return 9;
    return 0;
}

struct rc_verdict plain_judge_claim(const uint32_t *tables, const uint32_t *claim)
{
    const struct tables *t = (const struct tables *)tables;
    const struct claim *c = (const struct claim *)claim;
    if (c->process >= RC_PROCESSES || c->type >= RC_TYPES)
        return (struct rc_verdict){RC_OUT_OF_RANGE, 0};
    if (!t->process[c->process].live)
        return (struct rc_verdict){RC_NOT_LIVE, 0};
    uint32_t rule = first_broken(t, c);
    return (struct rc_verdict){rule == 0 ? RC_GRANTED : RC_CLAIM_BROKEN, rule};
}

struct rc_verdict plain_check_claim(const uint32_t *tables, size_t words, const uint32_t *claim, size_t claim_words)
{
    if (!plain_well_formed(tables, words) || claim_words != RC_CLAIM_WORDS)
        return (struct rc_verdict){RC_ILL_FORMED, 0};
    return plain_judge_claim(tables, claim);
}
