/* The calls of processes, kind by kind; every refusal returns early, in the order of the nine numbers. */
#include "tables.h"

static struct rc_answer refuse(uint32_t number)
{
    return (struct rc_answer){number, 0};
}

static struct rc_answer grant(uint32_t place)
{
    return (struct rc_answer){RC_GRANTED, place};
}

/* ---- Number 2: every number of the call in its range, and those not used zero ---- */

static bool object_in_range(uint32_t group, uint32_t object)
{
    switch (group) {
    case RC_GROUP_FILESYSTEM: return object < RC_FILES;
    case RC_GROUP_PROCESS: return object < RC_PROCESSES;
    case RC_GROUP_IPC: return object < RC_IPCS;
    default: return false;
    }
}

static bool default_in_range(uint32_t which, uint32_t value)
{
    switch (which) {
    case RC_DEFAULT_FILE_CREATE:
    case RC_DEFAULT_PROCESS_CREATE:
    case RC_DEFAULT_PROCESS_EXECUTE: return is_file_type(value);
    case RC_DEFAULT_PROCESS_CHOWN: return is_chown_type(value);
    case RC_DEFAULT_IPC_CREATE: return value < RC_TYPES;
    default: return false;
    }
}

static bool type_in_range(uint32_t group, uint32_t value)
{
    return group == RC_GROUP_FILESYSTEM ? is_file_type(value) : value < RC_TYPES;
}

static bool in_range(uint32_t kind, uint32_t a, uint32_t b, uint32_t c, uint32_t d)
{
    switch (kind) {
    case RC_CALL_ACCESS: return object_in_range(a, b) && c < RC_RIGHT_ADMIN && d == 0;
    case RC_CALL_CLONE:
    case RC_CALL_EXIT:
    case RC_CALL_CREATE_IPC: return (a | b | c | d) == 0;
    case RC_CALL_EXECUTE:
    case RC_CALL_DELETE: return a < RC_FILES && (b | c | d) == 0;
    case RC_CALL_CHANGE_OWNER: return a < RC_USERS && (b | c | d) == 0;
    case RC_CALL_CHANGE_ROLE: return a < RC_ROLES && (b | c | d) == 0;
    case RC_CALL_CREATE: return (a == RC_FILE || a == RC_DIR) && b < RC_FILES && (c | d) == 0;
    case RC_CALL_DELETE_IPC: return a < RC_IPCS && (b | c | d) == 0;
    case RC_CALL_ADD_ROLE:
    case RC_CALL_REMOVE_ROLE: return a <= RC_SET_ASSIGN && b < RC_ROLES && c < RC_ROLES && d == 0;
    case RC_CALL_SET_USER_ROLE: return a < RC_USERS && b < RC_ROLES && (c | d) == 0;
    case RC_CALL_SET_PROCESS_FORCED: return a < RC_PROCESSES && is_process_forced(b) && (c | d) == 0;
    case RC_CALL_SET_DEFAULT_TYPE: return b < RC_ROLES && default_in_range(a, c) && d == 0;
    case RC_CALL_SET_ROLE_ADMIN: return a < RC_ROLES && b <= 1 && (c | d) == 0;
    case RC_CALL_SET_TYPE: return object_in_range(a, b) && type_in_range(a, c) && d == 0;
    case RC_CALL_ADD_RIGHT:
    case RC_CALL_REMOVE_RIGHT: return a < RC_GROUPS && b < RC_ROLES && c < RC_TYPES && d < RC_RIGHTS;
    case RC_CALL_SET_PROGRAM_ROLES: return a < RC_FILES && is_initial(b) && is_forced(c) && d == 0;
    default: return false;
    }
}

/* ---- What the calls have in common ---- */

static bool is_taken(const struct tables *t, uint32_t group, uint32_t object)
{
    switch (group) {
    case RC_GROUP_FILESYSTEM: return t->file[object].kind != RC_FREE;
    case RC_GROUP_PROCESS: return t->process[object].live;
    default: return t->ipc[object].live;
    }
}

static uint32_t type_of(const struct tables *t, uint32_t group, uint32_t object)
{
    switch (group) {
    case RC_GROUP_FILESYSTEM: return effective(t, object, TYPE);
    case RC_GROUP_PROCESS: return t->process[object].type;
    default: return t->ipc[object].type;
    }
}

/* W-206: a value that was set counts for whatever inherits it, so every place is worked out anew. */
static void keep_all(struct tables *t)
{
    for (uint32_t place = 0; place < RC_FILES; place++)
        keep(t, place);
}

/* ---- Process calls ---- */

static struct rc_answer access_object(const struct tables *t, const struct process *p, uint32_t group, uint32_t object,
                                      uint32_t right)
{
    if (!is_taken(t, group, object))
        return refuse(RC_NO_SUCH_PLACE);
    if (!has_right(t, group, p->role, type_of(t, group, object), right))
        return refuse(RC_NOT_ALLOWED);
    return grant(0);
}

/* Rule 2 and H1; the type by rule 8. */
static struct rc_answer clone_process(struct tables *t, const struct process *p)
{
    if (!has_right(t, RC_GROUP_PROCESS, p->role, p->type, RC_RIGHT_CLONE))
        return refuse(RC_NOT_ALLOWED);
    for (uint32_t place = 0; place < RC_PROCESSES; place++) {
        if (t->process[place].live)
            continue;
        uint32_t type = t->role[p->role].process_create;
        struct process child = *p;
        if (type != RC_INHERIT_PARENT)
            child.type = type;
        t->process[place] = child;
        return grant(place);
    }
    return refuse(RC_FULL);
}

static struct rc_answer exit_process(struct tables *t, uint32_t caller)
{
    if (caller == 0)
        return refuse(RC_NOT_REMOVABLE);
    t->process[caller] = (struct process){0};
    return grant(0);
}

/* Role by rules 18 and 20, type by rule 10 with the role before, forced value by rule 21. */
static struct rc_answer execute_file(struct tables *t, struct process *p, uint32_t file)
{
    if (t->file[file].kind != RC_FILE)
        return refuse(RC_NO_SUCH_PLACE);
    if (!has_right(t, RC_GROUP_FILESYSTEM, p->role, effective(t, file, TYPE), RC_RIGHT_EXECUTE))
        return refuse(RC_NOT_ALLOWED);
    uint32_t initial = effective(t, file, INITIAL);
    uint32_t forced = effective(t, file, FORCED);
    uint32_t type = t->role[p->role].process_execute;
    if (type != RC_INHERIT_PARENT)
        p->type = type;
    if (initial != RC_USE_FORCED_ROLE)
        p->role = initial;
    else if (forced == RC_INHERIT_USER)
        p->role = t->user_role[p->owner];
    else if (is_plain(forced))
        p->role = forced;
    p->forced = forced;
    return grant(0);
}

/* Role by rule 22, type by rule 13 with the role before, and H2. */
static struct rc_answer change_owner(struct tables *t, struct process *p, uint32_t user)
{
    if (!has_right(t, RC_GROUP_PROCESS, p->role, p->type, RC_RIGHT_CHANGE_OWNER))
        return refuse(RC_NOT_ALLOWED);
    uint32_t type = t->role[p->role].process_chown;
    if (p->forced == RC_INHERIT_USER || p->forced == RC_UP_MIXED)
        p->role = t->user_role[user];
    else if (is_plain(p->forced))
        p->role = p->forced;
    if (type == RC_USE_NEW_ROLE_DEF_CREATE)
        type = t->role[p->role].process_create;
    if (type != RC_INHERIT_PARENT)
        p->type = type;
    p->owner = user;
    return grant(0);
}

/* Rule 15 and H3. */
static struct rc_answer change_role(const struct tables *t, struct process *p, uint32_t role)
{
    if (!contains(t->role[p->role].compatible, role))
        return refuse(RC_NOT_ALLOWED);
    p->role = role;
    return grant(0);
}

/* The type value by rule 6. */
static struct rc_answer create_file(struct tables *t, const struct process *p, uint32_t kind, uint32_t parent)
{
    if (t->file[parent].kind != RC_DIR)
        return refuse(RC_NO_SUCH_PLACE);
    if (!has_right(t, RC_GROUP_FILESYSTEM, p->role, effective(t, parent, TYPE), RC_RIGHT_CREATE))
        return refuse(RC_NOT_ALLOWED);
    if (t->file[parent].depth == RC_DEPTH_MOST)
        return refuse(RC_TOO_DEEP);
    for (uint32_t place = 0; place < RC_FILES; place++) {
        if (t->file[place].kind != RC_FREE)
            continue;
        t->file[place] = (struct file){.kind = kind,
                                       .parent = parent,
                                       .depth = t->file[parent].depth + 1,
                                       .type = t->role[p->role].file_create,
                                       .initial = RC_INHERIT_PARENT,
                                       .forced = RC_INHERIT_PARENT};
        keep(t, place);
        return grant(place);
    }
    return refuse(RC_FULL);
}

static bool has_children(const struct tables *t, uint32_t dir)
{
    for (uint32_t place = ROOT + 1; place < RC_FILES; place++)
        if (t->file[place].kind != RC_FREE && t->file[place].parent == dir)
            return true;
    return false;
}

static struct rc_answer delete_file(struct tables *t, const struct process *p, uint32_t file)
{
    if (t->file[file].kind == RC_FREE)
        return refuse(RC_NO_SUCH_PLACE);
    if (!has_right(t, RC_GROUP_FILESYSTEM, p->role, effective(t, file, TYPE), RC_RIGHT_DELETE))
        return refuse(RC_NOT_ALLOWED);
    if (file == ROOT || (t->file[file].kind == RC_DIR && has_children(t, file)))
        return refuse(RC_NOT_REMOVABLE);
    t->file[file] = (struct file){0};
    keep(t, file);
    return grant(0);
}

/* Rule 14. */
static struct rc_answer create_ipc(struct tables *t, const struct process *p)
{
    uint32_t type = t->role[p->role].ipc_create;
    if (!has_right(t, RC_GROUP_IPC, p->role, type, RC_RIGHT_CREATE))
        return refuse(RC_NOT_ALLOWED);
    for (uint32_t place = 0; place < RC_IPCS; place++) {
        if (t->ipc[place].live)
            continue;
        t->ipc[place] = (struct ipc){.live = 1, .type = type};
        return grant(place);
    }
    return refuse(RC_FULL);
}

static struct rc_answer delete_ipc(struct tables *t, const struct process *p, uint32_t object)
{
    if (!t->ipc[object].live)
        return refuse(RC_NO_SUCH_PLACE);
    if (!has_right(t, RC_GROUP_IPC, p->role, t->ipc[object].type, RC_RIGHT_DELETE))
        return refuse(RC_NOT_ALLOWED);
    t->ipc[object] = (struct ipc){0};
    return grant(0);
}

/* ---- Administration calls ---- H4: Role Admin passes every test of rules 23 to 34 */

/* The compatible roles by rule 25 and H5, the two others by rules 24 and 30. */
static struct rc_answer change_set(struct tables *t, const struct role *own, uint32_t set, uint32_t role,
                                   uint32_t member, bool add)
{
    bool separated = set == RC_SET_COMPATIBLE && contains(own->assign, member) && contains(own->admin, role);
    if (!own->mark && !separated)
        return refuse(RC_NOT_ALLOWED);
    struct role *r = &t->role[role];
    uint32_t *word = set == RC_SET_COMPATIBLE ? &r->compatible : set == RC_SET_ADMIN ? &r->admin : &r->assign;
    uint32_t bit = UINT32_C(1) << member;
    *word = add ? *word | bit : *word & ~bit;
    return grant(0);
}

/* Rule 26. */
static struct rc_answer set_user_role(struct tables *t, const struct role *own, uint32_t user, uint32_t role)
{
    bool separated = contains(own->assign, role) && contains(own->assign, t->user_role[user]);
    if (!own->mark && !separated)
        return refuse(RC_NOT_ALLOWED);
    t->user_role[user] = role;
    return grant(0);
}

/* Rules 27, 28 and 29; H7 holds since no set contains a special value. */
static bool may_assign_role(const struct tables *t, const struct process *p, uint32_t group, uint32_t object,
                            uint32_t value)
{
    const struct role *own = &t->role[p->role];
    if (own->mark)
        return true;
    return contains(own->assign, value) &&
           has_right(t, group, p->role, type_of(t, group, object), RC_RIGHT_MODIFY_ATTRIBUTE);
}

/* W-207: rule 27 for the initial value, rule 28 for the forced one, and both are set or neither. */
static struct rc_answer set_program_roles(struct tables *t, const struct process *p, uint32_t file, uint32_t initial,
                                          uint32_t forced)
{
    if (t->file[file].kind == RC_FREE)
        return refuse(RC_NO_SUCH_PLACE);
    if (!may_assign_role(t, p, RC_GROUP_FILESYSTEM, file, initial))
        return refuse(RC_NOT_ALLOWED);
    if (!may_assign_role(t, p, RC_GROUP_FILESYSTEM, file, forced))
        return refuse(RC_NOT_ALLOWED);
    t->file[file].initial = initial;
    t->file[file].forced = forced;
    keep_all(t);
    return grant(0);
}

/* H8: the current role does not move. */
static struct rc_answer set_process_forced(struct tables *t, const struct process *p, uint32_t process, uint32_t value)
{
    if (!t->process[process].live)
        return refuse(RC_NO_SUCH_PLACE);
    if (!may_assign_role(t, p, RC_GROUP_PROCESS, process, value))
        return refuse(RC_NOT_ALLOWED);
    t->process[process].forced = value;
    return grant(0);
}

/* H9. */
static struct rc_answer set_default_type(struct tables *t, const struct role *own, uint32_t which, uint32_t role,
                                         uint32_t value)
{
    if (!own->mark)
        return refuse(RC_NOT_ALLOWED);
    struct role *r = &t->role[role];
    switch (which) {
    case RC_DEFAULT_FILE_CREATE: r->file_create = value; break;
    case RC_DEFAULT_PROCESS_CREATE: r->process_create = value; break;
    case RC_DEFAULT_PROCESS_EXECUTE: r->process_execute = value; break;
    case RC_DEFAULT_PROCESS_CHOWN: r->process_chown = value; break;
    default: r->ipc_create = value; break;
    }
    return grant(0);
}

/* H9. */
static struct rc_answer set_role_admin(struct tables *t, const struct role *own, uint32_t role, uint32_t mark)
{
    if (!own->mark)
        return refuse(RC_NOT_ALLOWED);
    t->role[role].mark = mark;
    return grant(0);
}

/* Rule 32; H10: inherit parent needs ASSIGN to the effective type that the file would then have. */
static struct rc_answer set_type(struct tables *t, const struct process *p, uint32_t group, uint32_t object,
                                 uint32_t value)
{
    if (!is_taken(t, group, object))
        return refuse(RC_NO_SUCH_PLACE);
    if (!t->role[p->role].mark) {
        uint32_t assigned = value;
        if (value == RC_INHERIT_PARENT)
            assigned = object == ROOT ? 0 : effective(t, t->file[object].parent, TYPE);
        if (!has_right(t, group, p->role, assigned, RC_RIGHT_ASSIGN) ||
            !has_right(t, group, p->role, type_of(t, group, object), RC_RIGHT_MODIFY_ATTRIBUTE))
            return refuse(RC_NOT_ALLOWED);
    }
    switch (group) {
    case RC_GROUP_FILESYSTEM:
        t->file[object].type = value;
        keep_all(t);
        break;
    case RC_GROUP_PROCESS: t->process[object].type = value; break;
    default: t->ipc[object].type = value; break;
    }
    return grant(0);
}

/* Rule 33 for ordinary rights, rule 34 for the special ones. */
static struct rc_answer change_right(struct tables *t, const struct process *p, uint32_t group, uint32_t role,
                                     uint32_t type, uint32_t right, bool add)
{
    const struct role *own = &t->role[p->role];
    uint32_t needed = right < RC_RIGHT_ADMIN ? RC_RIGHT_ACCESS_CONTROL : RC_RIGHT_SUPERVISOR;
    if (!own->mark && !(has_right(t, group, p->role, type, needed) && contains(own->admin, role)))
        return refuse(RC_NOT_ALLOWED);
    uint32_t bit = UINT32_C(1) << right;
    uint32_t *entry = &t->rights[group][role][type];
    *entry = add ? *entry | bit : *entry & ~bit;
    return grant(0);
}

/* ---- One call ---- */

struct rc_answer plain_act(uint32_t *tables, uint32_t kind, uint32_t caller, uint32_t a, uint32_t b, uint32_t c,
                           uint32_t d)
{
    struct tables *t = (struct tables *)tables;
    if (caller >= RC_PROCESSES || !in_range(kind, a, b, c, d))
        return refuse(RC_OUT_OF_RANGE);
    struct process *p = &t->process[caller];
    if (!p->live)
        return refuse(RC_NOT_LIVE);
    const struct role *own = &t->role[p->role];
    switch (kind) {
    case RC_CALL_ACCESS: return access_object(t, p, a, b, c);
    case RC_CALL_CLONE: return clone_process(t, p);
    case RC_CALL_EXIT: return exit_process(t, caller);
    case RC_CALL_EXECUTE: return execute_file(t, p, a);
    case RC_CALL_CHANGE_OWNER: return change_owner(t, p, a);
    case RC_CALL_CHANGE_ROLE: return change_role(t, p, a);
    case RC_CALL_CREATE: return create_file(t, p, a, b);
    case RC_CALL_DELETE: return delete_file(t, p, a);
    case RC_CALL_CREATE_IPC: return create_ipc(t, p);
    case RC_CALL_DELETE_IPC: return delete_ipc(t, p, a);
    case RC_CALL_ADD_ROLE: return change_set(t, own, a, b, c, true);
    case RC_CALL_REMOVE_ROLE: return change_set(t, own, a, b, c, false);
    case RC_CALL_SET_USER_ROLE: return set_user_role(t, own, a, b);
    case RC_CALL_SET_PROCESS_FORCED: return set_process_forced(t, p, a, b);
    case RC_CALL_SET_DEFAULT_TYPE: return set_default_type(t, own, a, b, c);
    case RC_CALL_SET_ROLE_ADMIN: return set_role_admin(t, own, a, b);
    case RC_CALL_SET_TYPE: return set_type(t, p, a, b, c);
    case RC_CALL_ADD_RIGHT: return change_right(t, p, a, b, c, d, true);
    case RC_CALL_REMOVE_RIGHT: return change_right(t, p, a, b, c, d, false);
    default: return set_program_roles(t, p, a, b, c);
    }
}

struct rc_answer plain_call(uint32_t *tables, size_t words, uint32_t kind, uint32_t caller, uint32_t a, uint32_t b,
                            uint32_t c, uint32_t d)
{
    if (!plain_well_formed(tables, words))
        return refuse(RC_ILL_FORMED);
    return plain_act(tables, kind, caller, a, b, c, d);
}
