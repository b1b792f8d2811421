/* Fewer instructions than the plain version where that can be had without intrinsics: tests of several words at once,
   the likely test first, loops that gcc -O2 turns into vectors, and kept values in the place of climbs (W-206). */
#include "good.h"
#include "../plain/tables.h"
#include <string.h>

#define BIT(n) (UINT32_C(1) << (n))

/* ---- Well formed ---- */

static bool processes_ok(const struct tables *t)
{
    for (const struct process *p = t->process; p < t->process + RC_PROCESSES; p++) {
        if (p->live != 1) {
            if ((p->live | p->owner | p->role | p->type | p->forced) != 0)
                return false;
        } else if ((p->owner | p->role | p->type) >= 32 || p->forced > RC_UP_MIXED ||
                   (p->forced & ~1u) == RC_INHERIT_PARENT) {
            return false;
        }
    }
    return t->process[0].live != 0;
}

static bool users_ok(const struct tables *t)
{
    uint32_t all = 0;
    for (uint32_t u = 0; u < RC_USERS; u++)
        all |= t->user_role[u];
    return all < RC_ROLES;
}

static bool roles_ok(const struct tables *t)
{
    for (const struct role *r = t->role; r < t->role + RC_ROLES; r++)
        if (r->mark > 1 || !is_file_type(r->file_create) || !is_file_type(r->process_create) ||
            !is_file_type(r->process_execute) || !is_chown_type(r->process_chown) || r->ipc_create >= RC_TYPES)
            return false;
    return true;
}

static bool ipcs_ok(const struct tables *t)
{
    for (const struct ipc *i = t->ipc; i < t->ipc + RC_IPCS; i++)
        if (i->live == 1 ? i->type >= RC_TYPES : (i->live | i->type) != 0)
            return false;
    return true;
}

static uint32_t own_or(uint32_t own, uint32_t inherited)
{
    return own == RC_INHERIT_PARENT ? inherited : own;
}

/* Two words as one number. */
static uint64_t both(const uint32_t *words)
{
    uint64_t number;
    memcpy(&number, words, sizeof number);
    return number;
}

/* The values of a file, and what is kept of them: its own, or what its parent keeps. Since depths fall from a file to its
   parent, that is what a climb finds. Most files inherit all three. */
static inline bool values_ok(const struct file *f, const struct kept *k, const struct kept *up)
{
    if (both(&f->type) == UINT64_C(0x100000001) * RC_INHERIT_PARENT && f->forced == RC_INHERIT_PARENT)
        return both(&k->type) == both(&up->type) && k->forced == up->forced;
    return is_file_type(f->type) && is_initial(f->initial) && is_forced(f->forced) &&
           k->type == own_or(f->type, up->type) && k->initial == own_or(f->initial, up->initial) &&
           k->forced == own_or(f->forced, up->forced);
}

static const struct kept above_root = {0, RC_USE_FORCED_ROLE, RC_UP_MIXED};

static bool files_ok(const struct tables *t)
{
    const struct file *root = t->file;
    const struct kept *k = t->kept;
    if (root->kind != RC_DIR || (root->parent | root->depth) != 0 || !values_ok(root, k, &above_root))
        return false;
    for (const struct file *f = root + 1; f < root + RC_FILES; f++) {
        k++;
        if (f->kind == RC_FREE) {
            if ((f->parent | f->depth | f->type | f->initial | f->forced | k->type | k->initial | k->forced) != 0)
                return false;
            continue;
        }
        if (f->kind > RC_DIR || f->parent >= RC_FILES || f->depth > RC_DEPTH_MOST)
            return false;
        const struct file *parent = &t->file[f->parent];
        if (parent->kind != RC_DIR || f->depth != parent->depth + 1 || !values_ok(f, k, &t->kept[f->parent]))
            return false;
    }
    return true;
}

bool good_well_formed(const uint32_t *tables, size_t words)
{
    const struct tables *t = (const struct tables *)tables;
    return words == RC_WORDS && processes_ok(t) && users_ok(t) && roles_ok(t) && ipcs_ok(t) && files_ok(t);
}

/* ---- Process calls ---- each tests the ranges of its numbers, and who calls it that those not taken are zero */

static const uint32_t places[RC_GROUPS] = {RC_FILES, RC_PROCESSES, RC_IPCS};

static struct rc_answer answer(uint32_t number, uint32_t place)
{
    return (struct rc_answer){number, place};
}

/* What a call does is not inlined: the way to it then saves no registers for the longest of them. */
#define BODY __attribute__((noinline)) static struct rc_answer

/* What a process of that role needs of an object of a group, where the object is known to be in range. */
static uint32_t access_number(const struct tables *t, uint32_t role, uint32_t group, uint32_t object, uint32_t right)
{
    uint32_t live, type;
    if (group == RC_GROUP_FILESYSTEM) {
        live = t->file[object].kind;
        type = t->kept[object].type;
    } else if (group == RC_GROUP_PROCESS) {
        live = t->process[object].live;
        type = t->process[object].type;
    } else {
        live = t->ipc[object].live;
        type = t->ipc[object].type;
    }
    return live == 0 ? RC_NO_SUCH_PLACE : has_right(t, group, role, type, right) ? RC_GRANTED : RC_NOT_ALLOWED;
}

BODY access_object(const struct tables *t, uint32_t role, uint32_t group, uint32_t object, uint32_t right)
{
    if (group >= RC_GROUPS || object >= places[group] || right >= RC_RIGHT_ADMIN)
        return answer(RC_OUT_OF_RANGE, 0);
    return answer(access_number(t, role, group, object, right), 0);
}

BODY clone_process(struct tables *t, const struct process *p)
{
    if (!has_right(t, RC_GROUP_PROCESS, p->role, p->type, RC_RIGHT_CLONE))
        return answer(RC_NOT_ALLOWED, 0);
    uint32_t place = 0;
#pragma GCC unroll 4
    for (; place < RC_PROCESSES; place++)
        if (!t->process[place].live)
            break;
    if (place == RC_PROCESSES)
        return answer(RC_FULL, 0);
    uint32_t type = t->role[p->role].process_create;
    t->process[place] = *p;
    if (type != RC_INHERIT_PARENT)
        t->process[place].type = type;
    return answer(RC_GRANTED, place);
}

BODY exit_process(struct process *p, uint32_t caller)
{
    if (caller == 0)
        return answer(RC_NOT_REMOVABLE, 0);
    *p = (struct process){0};
    return answer(RC_GRANTED, 0);
}

BODY execute_file(struct tables *t, struct process *p, uint32_t file)
{
    if (file >= RC_FILES)
        return answer(RC_OUT_OF_RANGE, 0);
    if (t->file[file].kind != RC_FILE)
        return answer(RC_NO_SUCH_PLACE, 0);
    const struct role *own = &t->role[p->role];
    const struct kept *k = &t->kept[file];
    if (!has_right(t, RC_GROUP_FILESYSTEM, p->role, k->type, RC_RIGHT_EXECUTE))
        return answer(RC_NOT_ALLOWED, 0);
    uint32_t initial = k->initial, forced = k->forced;
    if (own->process_execute != RC_INHERIT_PARENT)
        p->type = own->process_execute;
    if (initial != RC_USE_FORCED_ROLE)
        p->role = initial;
    else if (is_plain(forced))
        p->role = forced;
    else if (forced == RC_INHERIT_USER)
        p->role = t->user_role[p->owner];
    p->forced = forced;
    return answer(RC_GRANTED, 0);
}

BODY change_owner(struct tables *t, struct process *p, uint32_t user)
{
    if (user >= RC_USERS)
        return answer(RC_OUT_OF_RANGE, 0);
    if (!has_right(t, RC_GROUP_PROCESS, p->role, p->type, RC_RIGHT_CHANGE_OWNER))
        return answer(RC_NOT_ALLOWED, 0);
    uint32_t type = t->role[p->role].process_chown;
    p->owner = user;
    if (is_plain(p->forced))
        p->role = p->forced;
    else if (p->forced != RC_INHERIT_PROCESS)
        p->role = t->user_role[user];
    if (type == RC_USE_NEW_ROLE_DEF_CREATE)
        type = t->role[p->role].process_create;
    if (type != RC_INHERIT_PARENT)
        p->type = type;
    return answer(RC_GRANTED, 0);
}

BODY change_role(const struct tables *t, struct process *p, uint32_t role)
{
    if (role >= RC_ROLES)
        return answer(RC_OUT_OF_RANGE, 0);
    if (!contains(t->role[p->role].compatible, role))
        return answer(RC_NOT_ALLOWED, 0);
    p->role = role;
    return answer(RC_GRANTED, 0);
}

BODY create_file(struct tables *t, const struct process *p, uint32_t kind, uint32_t parent)
{
    if (kind - RC_FILE > RC_DIR - RC_FILE || parent >= RC_FILES)
        return answer(RC_OUT_OF_RANGE, 0);
    const struct file *dir = &t->file[parent];
    if (dir->kind != RC_DIR)
        return answer(RC_NO_SUCH_PLACE, 0);
    const struct kept *up = &t->kept[parent];
    if (!has_right(t, RC_GROUP_FILESYSTEM, p->role, up->type, RC_RIGHT_CREATE))
        return answer(RC_NOT_ALLOWED, 0);
    if (dir->depth == RC_DEPTH_MOST)
        return answer(RC_TOO_DEEP, 0);
    uint32_t place = 0;
#pragma GCC unroll 4
    for (; place < RC_FILES; place++)
        if (t->file[place].kind == RC_FREE)
            break;
    if (place == RC_FILES)
        return answer(RC_FULL, 0);
    uint32_t type = t->role[p->role].file_create;
    t->file[place] = (struct file){kind, parent, dir->depth + 1, type, RC_INHERIT_PARENT, RC_INHERIT_PARENT};
    t->kept[place] = (struct kept){own_or(type, up->type), up->initial, up->forced};
    return answer(RC_GRANTED, place);
}

/* Few places name it as their parent, and a free one names the root. */
static bool has_children(const struct tables *t, uint32_t dir)
{
#pragma GCC unroll 4
    for (const struct file *f = t->file + 1; f < t->file + RC_FILES; f++)
        if (f->parent == dir && f->kind != RC_FREE)
            return true;
    return false;
}

BODY delete_file(struct tables *t, const struct process *p, uint32_t file)
{
    if (file >= RC_FILES)
        return answer(RC_OUT_OF_RANGE, 0);
    struct file *f = &t->file[file];
    if (f->kind == RC_FREE)
        return answer(RC_NO_SUCH_PLACE, 0);
    if (!has_right(t, RC_GROUP_FILESYSTEM, p->role, t->kept[file].type, RC_RIGHT_DELETE))
        return answer(RC_NOT_ALLOWED, 0);
    if (file == ROOT || (f->kind == RC_DIR && has_children(t, file)))
        return answer(RC_NOT_REMOVABLE, 0);
    *f = (struct file){0};
    t->kept[file] = (struct kept){0};
    return answer(RC_GRANTED, 0);
}

BODY create_ipc(struct tables *t, const struct process *p)
{
    uint32_t type = t->role[p->role].ipc_create;
    if (!has_right(t, RC_GROUP_IPC, p->role, type, RC_RIGHT_CREATE))
        return answer(RC_NOT_ALLOWED, 0);
    uint32_t place = 0;
#pragma GCC unroll 4
    for (; place < RC_IPCS; place++)
        if (!t->ipc[place].live)
            break;
    if (place == RC_IPCS)
        return answer(RC_FULL, 0);
    t->ipc[place] = (struct ipc){1, type};
    return answer(RC_GRANTED, place);
}

BODY delete_ipc(struct tables *t, const struct process *p, uint32_t object)
{
    if (object >= RC_IPCS)
        return answer(RC_OUT_OF_RANGE, 0);
    struct ipc *i = &t->ipc[object];
    if (!i->live)
        return answer(RC_NO_SUCH_PLACE, 0);
    if (!has_right(t, RC_GROUP_IPC, p->role, i->type, RC_RIGHT_DELETE))
        return answer(RC_NOT_ALLOWED, 0);
    *i = (struct ipc){0};
    return answer(RC_GRANTED, 0);
}

/* ---- Administration calls ---- the Role Admin mark is tested first, since it ends all other tests */

/* A set of roles is one word of its role, as is a default type. */
static uint32_t *role_word(struct tables *t, uint32_t role, uint32_t word)
{
    return (uint32_t *)&t->role[role] + word;
}

static void put_bit(uint32_t *set, uint32_t bit, bool add)
{
    *set = add ? *set | BIT(bit) : *set & ~BIT(bit);
}

BODY change_set(struct tables *t, const struct process *p, uint32_t set, uint32_t role, uint32_t member, bool add)
{
    if (set > RC_SET_ASSIGN || (role | member) >= 32)
        return answer(RC_OUT_OF_RANGE, 0);
    const struct role *own = &t->role[p->role];
    if (!own->mark && (set != RC_SET_COMPATIBLE || !contains(own->assign, member) || !contains(own->admin, role)))
        return answer(RC_NOT_ALLOWED, 0);
    put_bit(role_word(t, role, RC_ROLE_COMPATIBLE + set), member, add);
    return answer(RC_GRANTED, 0);
}

BODY set_user_role(struct tables *t, const struct process *p, uint32_t user, uint32_t role)
{
    if ((user | role) >= 32)
        return answer(RC_OUT_OF_RANGE, 0);
    const struct role *own = &t->role[p->role];
    if (!own->mark && (~own->assign & (BIT(role) | BIT(t->user_role[user]))) != 0)
        return answer(RC_NOT_ALLOWED, 0);
    t->user_role[user] = role;
    return answer(RC_GRANTED, 0);
}

/* One of the three values of a file, its own and the kept one; they stand in the order of their names. */
static uint32_t *own_word(struct tables *t, uint32_t file, enum inherited which)
{
    return (uint32_t *)&t->file[file] + RC_FILE_TYPE + which;
}

static uint32_t *kept_word(struct tables *t, uint32_t file, enum inherited which)
{
    return (uint32_t *)&t->kept[file] + which;
}

/* What a place keeps of a value that it inherits: a parent at an earlier place is right by then, and one at a later place
   is climbed to. */
static inline void refresh_place(struct tables *t, uint32_t o, enum inherited which)
{
    if (*own_word(t, o, which) != RC_INHERIT_PARENT)
        return;
    uint32_t parent = t->file[o].parent;
    *kept_word(t, o, which) = parent < o ? *kept_word(t, parent, which) : effective(t, o, which);
}

static void refresh_types(struct tables *t)
{
    for (uint32_t o = 1; o < RC_FILES; o++)
        refresh_place(t, o, TYPE);
}

/* Both in one walk, also where but one of them has moved. */
static void refresh_roles(struct tables *t)
{
    for (uint32_t o = 1; o < RC_FILES; o++) {
        refresh_place(t, o, INITIAL);
        refresh_place(t, o, FORCED);
    }
}

/* Whether everything below must follow: nothing is below a FILE, and nothing moves below a DIR whose value comes to what it
   was. */
static inline bool put_value(struct tables *t, uint32_t file, uint32_t value, enum inherited which)
{
    uint32_t *kept = kept_word(t, file, which), before = *kept;
    *own_word(t, file, which) = value;
    *kept = own_or(value, file == ROOT ? *((const uint32_t *)&above_root + which)
                                       : *kept_word(t, t->file[file].parent, which));
    return t->file[file].kind == RC_DIR && *kept != before;
}

/* The initial and the forced value (W-207); one MODIFY_ATTRIBUTE is asked for both. */
BODY set_program_roles(struct tables *t, const struct process *p, uint32_t file, uint32_t initial, uint32_t forced)
{
    if (file >= RC_FILES || !is_initial(initial) || !is_forced(forced))
        return answer(RC_OUT_OF_RANGE, 0);
    const struct role *own = &t->role[p->role];
    if (t->file[file].kind == RC_FREE)
        return answer(RC_NO_SUCH_PLACE, 0);
    if (!own->mark && (!contains(own->assign, initial) || !contains(own->assign, forced) ||
                       !has_right(t, RC_GROUP_FILESYSTEM, p->role, t->kept[file].type, RC_RIGHT_MODIFY_ATTRIBUTE)))
        return answer(RC_NOT_ALLOWED, 0);
    bool initial_moves = put_value(t, file, initial, INITIAL), forced_moves = put_value(t, file, forced, FORCED);
    if (initial_moves || forced_moves)
        refresh_roles(t);
    return answer(RC_GRANTED, 0);
}

BODY set_process_forced(struct tables *t, const struct process *p, uint32_t process, uint32_t value)
{
    if (process >= RC_PROCESSES || !is_process_forced(value))
        return answer(RC_OUT_OF_RANGE, 0);
    struct process *q = &t->process[process];
    const struct role *own = &t->role[p->role];
    if (!q->live)
        return answer(RC_NO_SUCH_PLACE, 0);
    if (!own->mark && (!contains(own->assign, value) ||
                       !has_right(t, RC_GROUP_PROCESS, p->role, q->type, RC_RIGHT_MODIFY_ATTRIBUTE)))
        return answer(RC_NOT_ALLOWED, 0);
    q->forced = value;
    return answer(RC_GRANTED, 0);
}

BODY set_default_type(struct tables *t, const struct process *p, uint32_t which, uint32_t role, uint32_t value)
{
    static const uint32_t most[] = {RC_INHERIT_PARENT, RC_INHERIT_PARENT, RC_INHERIT_PARENT, RC_USE_NEW_ROLE_DEF_CREATE,
                                    RC_TYPES - 1};
    if (which > RC_DEFAULT_IPC_CREATE || role >= RC_ROLES || value > most[which])
        return answer(RC_OUT_OF_RANGE, 0);
    if (!t->role[p->role].mark)
        return answer(RC_NOT_ALLOWED, 0);
    *role_word(t, role, RC_ROLE_FILE_CREATE + which) = value;
    return answer(RC_GRANTED, 0);
}

BODY set_role_admin(struct tables *t, const struct process *p, uint32_t role, uint32_t mark)
{
    if (role >= RC_ROLES || mark > 1)
        return answer(RC_OUT_OF_RANGE, 0);
    if (!t->role[p->role].mark)
        return answer(RC_NOT_ALLOWED, 0);
    t->role[role].mark = mark;
    return answer(RC_GRANTED, 0);
}

static bool may_set_type(const struct tables *t, uint32_t role, uint32_t group, uint32_t object, uint32_t before,
                         uint32_t value)
{
    const uint32_t *rights = t->rights[group][role];
    if (group == RC_GROUP_FILESYSTEM) {
        before = t->kept[object].type;
        if (value == RC_INHERIT_PARENT)
            value = object == ROOT ? 0 : t->kept[t->file[object].parent].type;
    }
    return (rights[value] >> RC_RIGHT_ASSIGN & rights[before] >> RC_RIGHT_MODIFY_ATTRIBUTE & 1) != 0;
}

BODY set_type(struct tables *t, const struct process *p, uint32_t group, uint32_t object, uint32_t value)
{
    if (group >= RC_GROUPS || object >= places[group] || value > RC_TYPES - (group != RC_GROUP_FILESYSTEM))
        return answer(RC_OUT_OF_RANGE, 0);
    uint32_t live, *type;
    if (group == RC_GROUP_FILESYSTEM)
        live = t->file[object].kind, type = &t->file[object].type;
    else if (group == RC_GROUP_PROCESS)
        live = t->process[object].live, type = &t->process[object].type;
    else
        live = t->ipc[object].live, type = &t->ipc[object].type;
    if (live == 0)
        return answer(RC_NO_SUCH_PLACE, 0);
    if (!t->role[p->role].mark && !may_set_type(t, p->role, group, object, *type, value))
        return answer(RC_NOT_ALLOWED, 0);
    if (group != RC_GROUP_FILESYSTEM)
        *type = value;
    else if (put_value(t, object, value, TYPE))
        refresh_types(t);
    return answer(RC_GRANTED, 0);
}

BODY change_right(struct tables *t, const struct process *p, uint32_t group, uint32_t role, uint32_t type,
                  uint32_t right, bool add)
{
    if (group >= RC_GROUPS || (role | type | right) >= 32)
        return answer(RC_OUT_OF_RANGE, 0);
    const struct role *own = &t->role[p->role];
    uint32_t needed = right < RC_RIGHT_ADMIN ? RC_RIGHT_ACCESS_CONTROL : RC_RIGHT_SUPERVISOR;
    if (!own->mark && (!has_right(t, group, p->role, type, needed) || !contains(own->admin, role)))
        return answer(RC_NOT_ALLOWED, 0);
    put_bit(&t->rights[group][role][type], right, add);
    return answer(RC_GRANTED, 0);
}

/* ---- One call, and a night of them ---- */

/* Whether a caller that is not there is 2 or 3 is left to the plain version. */
__attribute__((always_inline)) static inline struct rc_answer act(struct tables *t, uint32_t kind, uint32_t caller,
                                                                  uint32_t a, uint32_t b, uint32_t c, uint32_t d)
{
    const struct rc_answer out = {RC_OUT_OF_RANGE, 0};
    if (caller >= RC_PROCESSES || !t->process[caller].live)
        return plain_act((uint32_t *)t, kind, caller, a, b, c, d);
    struct process *p = &t->process[caller];
    switch (kind) {
    case RC_CALL_ACCESS: return d ? out : access_object(t, p->role, a, b, c);
    case RC_CALL_CLONE: return a | b | c | d ? out : clone_process(t, p);
    case RC_CALL_EXIT: return a | b | c | d ? out : exit_process(p, caller);
    case RC_CALL_EXECUTE: return b | c | d ? out : execute_file(t, p, a);
    case RC_CALL_CHANGE_OWNER: return b | c | d ? out : change_owner(t, p, a);
    case RC_CALL_CHANGE_ROLE: return b | c | d ? out : change_role(t, p, a);
    case RC_CALL_CREATE: return c | d ? out : create_file(t, p, a, b);
    case RC_CALL_DELETE: return b | c | d ? out : delete_file(t, p, a);
    case RC_CALL_CREATE_IPC: return a | b | c | d ? out : create_ipc(t, p);
    case RC_CALL_DELETE_IPC: return b | c | d ? out : delete_ipc(t, p, a);
    case RC_CALL_ADD_ROLE: return d ? out : change_set(t, p, a, b, c, true);
    case RC_CALL_REMOVE_ROLE: return d ? out : change_set(t, p, a, b, c, false);
    case RC_CALL_SET_USER_ROLE: return c | d ? out : set_user_role(t, p, a, b);
    case RC_CALL_SET_PROCESS_FORCED: return c | d ? out : set_process_forced(t, p, a, b);
    case RC_CALL_SET_DEFAULT_TYPE: return d ? out : set_default_type(t, p, a, b, c);
    case RC_CALL_SET_ROLE_ADMIN: return c | d ? out : set_role_admin(t, p, a, b);
    case RC_CALL_SET_TYPE: return d ? out : set_type(t, p, a, b, c);
    case RC_CALL_ADD_RIGHT: return change_right(t, p, a, b, c, d, true);
    case RC_CALL_REMOVE_RIGHT: return change_right(t, p, a, b, c, d, false);
    case RC_CALL_SET_PROGRAM_ROLES: return d ? out : set_program_roles(t, p, a, b, c);
    default: return out;
    }
}

struct rc_answer good_act(uint32_t *tables, uint32_t kind, uint32_t caller, uint32_t a, uint32_t b, uint32_t c,
                          uint32_t d)
{
    return act((struct tables *)tables, kind, caller, a, b, c, d);
}

struct rc_answer good_call(uint32_t *tables, size_t words, uint32_t kind, uint32_t caller, uint32_t a, uint32_t b,
                           uint32_t c, uint32_t d)
{
    if (!good_well_formed(tables, words))
        return answer(RC_ILL_FORMED, 0);
    return good_act(tables, kind, caller, a, b, c, d);
}

/* The filler is tested as two words; the first has bytes 0 to 7, the lowest first. */
void good_night(uint32_t *tables, const uint8_t *calls, size_t items, uint8_t *answers)
{
    for (const uint8_t *item = calls; item < calls + RC_ITEM_BYTES * items; item += RC_ITEM_BYTES) {
        uint64_t halves[2];
        memcpy(halves, item, RC_ITEM_BYTES);
        struct rc_answer made = {RC_OUT_OF_RANGE, 0};
        if ((halves[0] >> 48 | halves[1]) == 0)
            made = act((struct tables *)tables, item[0], item[1], item[2], item[3], item[4], item[5]);
        *answers++ = (uint8_t)made.number;
        *answers++ = (uint8_t)made.place;
    }
}

struct rc_answer good_batch(uint32_t *tables, size_t words, const uint8_t *calls, size_t call_bytes, uint8_t *answers,
                            size_t answer_bytes)
{
    if (!good_well_formed(tables, words))
        return answer(RC_ILL_FORMED, 0);
    if (call_bytes % RC_ITEM_BYTES != 0 || answer_bytes < call_bytes / RC_ITEM_BYTES * RC_ANSWER_BYTES)
        return answer(RC_OUT_OF_RANGE, 0);
    good_night(tables, calls, call_bytes / RC_ITEM_BYTES, answers);
    return answer(RC_GRANTED, 0);
}

/* ---- Effective values ---- */

struct rc_found good_climb_type(const uint32_t *tables, uint32_t file)
{
    const struct tables *t = (const struct tables *)tables;
    if (file >= RC_FILES)
        return (struct rc_found){.number = RC_OUT_OF_RANGE};
    if (t->file[file].kind == RC_FREE)
        return (struct rc_found){.number = RC_NO_SUCH_PLACE};
    uint32_t place = file;
    while (t->file[place].type == RC_INHERIT_PARENT && place != ROOT)
        place = t->file[place].parent;
    uint32_t type = t->file[place].type;
    return (struct rc_found){RC_GRANTED, type == RC_INHERIT_PARENT ? 0 : type,
                             t->file[file].depth - t->file[place].depth, place};
}

struct rc_found good_effective_type(const uint32_t *tables, size_t words, uint32_t file)
{
    if (!good_well_formed(tables, words))
        return (struct rc_found){.number = RC_ILL_FORMED};
    return good_climb_type(tables, file);
}

/* ---- Claims ---- */

static bool plain_type_in(uint32_t set, uint32_t type)
{
    return !is_plain(type) || contains(set, type);
}

/* What the roles of S have, group by group and type by type; ASSIGN in any group is looked for in `any`. */
struct family {
    uint32_t file[RC_TYPES], process[RC_TYPES], any;
};

/* The lowest of the rules 2 to 5 that is broken, or 0; one walk over the roles. */
static uint32_t roles_break(const struct tables *t, const uint32_t *claim, struct family *all)
{
    uint32_t s = claim[RC_CLAIM_ROLES], q = claim[RC_CLAIM_PROCESS_TYPES], k = claim[RC_CLAIM_TYPE];
    uint32_t powers = 0, outside = 0;
    bool creates = false, leaves = false;
    for (uint32_t rest = s; rest != 0; rest &= rest - 1) {
        uint32_t role = (uint32_t)__builtin_ctz(rest);
        const struct role *r = &t->role[role];
        const uint32_t *file = t->rights[RC_GROUP_FILESYSTEM][role];
        const uint32_t *process = t->rights[RC_GROUP_PROCESS][role];
        const uint32_t *ipc = t->rights[RC_GROUP_IPC][role];
        powers |= r->mark | r->admin | r->assign;
        creates |= r->file_create == k;
        outside |= r->compatible;
        leaves |= !(plain_type_in(q, r->process_create) && plain_type_in(q, r->process_execute) &&
                    plain_type_in(q, r->process_chown));
        for (uint32_t type = 0; type < RC_TYPES; type++) {
            all->file[type] |= file[type];
            all->process[type] |= process[type];
            all->any |= file[type] | process[type] | ipc[type];
        }
    }
    if (powers != 0 || (all->any & BIT(RC_RIGHT_ASSIGN)) != 0)
        return 2;
    if (creates || (all->file[k] & (BIT(RC_RIGHT_WRITE) | BIT(RC_RIGHT_CREATE) | BIT(RC_RIGHT_DELETE))) != 0)
        return 3;
    return (outside & ~s) != 0 ? 4 : leaves ? 5 : 0;
}

static uint32_t types_with(const uint32_t rights[RC_TYPES], uint32_t right)
{
    uint32_t types = 0;
    for (uint32_t type = RC_TYPES; type-- > 0;)
        types = types << 1 | (rights[type] >> right & 1);
    return types;
}

/* For C6: the plain file create types of all roles that have CREATE to a type. */
static void types_made(const struct tables *t, uint32_t made[RC_TYPES])
{
    for (uint32_t role = 0; role < RC_ROLES; role++) {
        uint32_t create = t->role[role].file_create;
        const uint32_t *file = t->rights[RC_GROUP_FILESYSTEM][role];
        if (is_plain(create))
            for (uint32_t type = 0; type < RC_TYPES; type++)
                made[type] |= (file[type] >> RC_RIGHT_CREATE & 1) << create;
    }
}

static bool closed(uint32_t types, const uint32_t made[RC_TYPES])
{
    uint32_t all = 0;
    for (uint32_t rest = types; rest != 0; rest &= rest - 1)
        all |= made[__builtin_ctz(rest)];
    return (all & ~types) == 0;
}

static uint32_t first_broken(const struct tables *t, const uint32_t *claim)
{
    const struct process *p = &t->process[claim[RC_CLAIM_PROCESS]];
    const uint32_t *types_of = claim + RC_CLAIM_FILE_TYPES;
    uint32_t s = claim[RC_CLAIM_ROLES], q = claim[RC_CLAIM_PROCESS_TYPES];
    if (!contains(s, p->role) || !contains(q, p->type))
        return 1;
    struct family all = {0};
    uint32_t broken = roles_break(t, claim, &all);
    if (broken != 0)
        return broken;

    uint32_t made[RC_TYPES] = {0};
    types_made(t, made);
    uint32_t started = types_with(all.file, RC_RIGHT_EXECUTE);
    uint64_t met = UINT64_C(1) << p->forced, begun = 0; /* forced and initial values, each as a bit */
    for (uint32_t o = 0; o < RC_FILES; o++) {
        const struct kept *k = &t->kept[o];
        uint32_t types = types_of[o], kind = t->file[o].kind;
        if (kind == RC_FREE) {
            if (types != 0)
                return 6;
            continue;
        }
        if (!contains(types, k->type) || (kind == RC_DIR && !closed(types, made)))
            return 6;
        if ((types & started) != 0) {
            met |= UINT64_C(1) << k->forced;
            begun |= UINT64_C(1) << k->initial;
        }
    }
    if (((uint32_t)(met | begun) & ~s) != 0)
        return 7;
    bool user = met >> RC_INHERIT_USER & 1, mixed = met >> RC_UP_MIXED & 1;
    if (user && !contains(s, t->user_role[p->owner]))
        return 8;
    if ((user || mixed) && (types_with(all.process, RC_RIGHT_CHANGE_OWNER) & q) != 0)
        for (uint32_t u = 0; u < RC_USERS; u++)
            if (!contains(s, t->user_role[u]))
                return 9;
    return 0;
}

struct rc_verdict good_judge_claim(const uint32_t *tables, const uint32_t *claim)
{
    const struct tables *t = (const struct tables *)tables;
    if (claim[RC_CLAIM_PROCESS] >= RC_PROCESSES || claim[RC_CLAIM_TYPE] >= RC_TYPES)
        return (struct rc_verdict){RC_OUT_OF_RANGE, 0};
    if (!t->process[claim[RC_CLAIM_PROCESS]].live)
        return (struct rc_verdict){RC_NOT_LIVE, 0};
    uint32_t rule = first_broken(t, claim);
    return (struct rc_verdict){rule == 0 ? RC_GRANTED : RC_CLAIM_BROKEN, rule};
}

struct rc_verdict good_check_claim(const uint32_t *tables, size_t words, const uint32_t *claim, size_t claim_words)
{
    if (!good_well_formed(tables, words) || claim_words != RC_CLAIM_WORDS)
        return (struct rc_verdict){RC_ILL_FORMED, 0};
    return good_judge_claim(tables, claim);
}

/* ---- Setpoints ---- */

/* A millimetre of head is 980,665 hundred-thousandths of a pascal; half a pascal is added, and the rest cut off. */
static uint32_t pascals_of(uint32_t millimetres)
{
    return (uint32_t)((millimetres * UINT64_C(980665) + 50000) / 100000);
}

struct rc_answer good_enter(const uint32_t *tables, uint32_t process, uint32_t list, uint32_t unit, uint32_t amount,
                            uint32_t metres_type, uint32_t kilopascals_type, uint32_t *entries, size_t n_entries)
{
    const struct tables *t = (const struct tables *)tables;
    if (process >= RC_PROCESSES || list >= RC_FILES || unit > RC_UNIT_KILOPASCALS || amount > RC_SETPOINT_LIMIT ||
        (metres_type | kilopascals_type) >= RC_TYPES || n_entries == 0)
        return answer(RC_OUT_OF_RANGE, 0);
    if (!t->process[process].live)
        return answer(RC_NOT_LIVE, 0);
    uint32_t type = t->kept[list].type;
    if (t->file[list].kind != RC_FILE || type != (unit == RC_UNIT_METRES ? metres_type : kilopascals_type))
        return answer(RC_NO_SUCH_PLACE, 0);
    if (!has_right(t, RC_GROUP_FILESYSTEM, t->process[process].role, type, RC_RIGHT_WRITE))
        return answer(RC_NOT_ALLOWED, 0);
    entries[0] = unit == RC_UNIT_METRES ? pascals_of(amount) : amount;
    return answer(RC_GRANTED, 0);
}

struct rc_answer good_setpoint(const uint32_t *tables, size_t words, uint32_t process, uint32_t list, uint32_t unit,
                               uint32_t amount, uint32_t metres_type, uint32_t kilopascals_type, uint32_t *entries,
                               size_t n_entries)
{
    if (!good_well_formed(tables, words))
        return answer(RC_ILL_FORMED, 0);
    return good_enter(tables, process, list, unit, amount, metres_type, kilopascals_type, entries, n_entries);
}
