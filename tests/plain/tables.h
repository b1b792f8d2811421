/* The row of words as C structures, and what every part of the plain version reads from it. */
#ifndef PLAIN_TABLES_H
#define PLAIN_TABLES_H

#include "monitor.h"

struct process {
    uint32_t live, owner, role, type, forced;
};

struct role {
    uint32_t compatible, admin, assign, mark, file_create, process_create, process_execute, process_chown, ipc_create;
};

struct ipc {
    uint32_t live, type;
};

struct file {
    uint32_t kind, parent, depth, type, initial, forced;
};

struct kept {
    uint32_t type, initial, forced;
};

struct tables {
    struct process process[RC_PROCESSES];
    uint32_t user_role[RC_USERS];
    struct role role[RC_ROLES];
    struct ipc ipc[RC_IPCS];
    struct file file[RC_FILES];
    struct kept kept[RC_FILES];
    uint32_t rights[RC_GROUPS][RC_ROLES][RC_TYPES];
};

#define AT(member) (offsetof(struct tables, member) / sizeof(uint32_t))
_Static_assert(sizeof(struct tables) == RC_WORDS * sizeof(uint32_t), "the row has its words");
_Static_assert(AT(process) == RC_PROCESSES_AT && AT(user_role) == RC_USERS_AT && AT(role) == RC_ROLES_AT, "tables");
_Static_assert(AT(ipc) == RC_IPCS_AT && AT(file) == RC_FILES_AT && AT(kept) == RC_KEPT_AT, "tables");
_Static_assert(AT(rights) == RC_RIGHTS_AT, "tables");
_Static_assert(AT(rights[2][3][4]) == RC_RIGHTS_ENTRY(2, 3, 4), "rights");
_Static_assert(AT(process[1].forced) == RC_PROCESS_WORDS + RC_PROCESS_FORCED, "process");
_Static_assert(AT(role[1].ipc_create) == RC_ROLES_AT + RC_ROLE_WORDS + RC_ROLE_IPC_CREATE, "role");
_Static_assert(AT(ipc[1].type) == RC_IPCS_AT + RC_IPC_WORDS + RC_IPC_TYPE, "IPC object");
_Static_assert(AT(file[1].forced) == RC_FILES_AT + RC_FILE_WORDS + RC_FILE_FORCED, "file");
_Static_assert(AT(kept[1].type) == RC_KEPT_AT + RC_KEPT_WORDS + RC_KEPT_TYPE, "kept values");
_Static_assert(AT(kept[1].initial) == RC_KEPT_AT + RC_KEPT_WORDS + RC_KEPT_INITIAL, "kept values");
_Static_assert(AT(kept[1].forced) == RC_KEPT_AT + RC_KEPT_WORDS + RC_KEPT_FORCED, "kept values");
#undef AT

#define ROOT 0u

/* A role or a type itself, and not a special value. */
static inline bool is_plain(uint32_t value)
{
    return value < 32;
}

/* Membership in a set of 32; a special value is in no set. */
static inline bool contains(uint32_t set, uint32_t member)
{
    return is_plain(member) && (set >> member & 1);
}

/* Rule 16. */
static inline bool has_right(const struct tables *t, uint32_t group, uint32_t role, uint32_t type, uint32_t right)
{
    return t->rights[group][role][type] >> right & 1;
}

/* The ranges of values, by the list in "Tables". */
static inline bool is_file_type(uint32_t value) /* and file create, process create, process execute */
{
    return value <= RC_INHERIT_PARENT;
}

static inline bool is_chown_type(uint32_t value)
{
    return value <= RC_USE_NEW_ROLE_DEF_CREATE;
}

static inline bool is_initial(uint32_t value)
{
    return value <= RC_USE_FORCED_ROLE;
}

static inline bool is_forced(uint32_t value)
{
    return value <= RC_UP_MIXED && value != RC_USE_FORCED_ROLE;
}

static inline bool is_process_forced(uint32_t value)
{
    return is_forced(value) && value != RC_INHERIT_PARENT;
}

/* Rules 5, 17 and 19: climb while the value is inherit parent and there is a parent. */
enum inherited { TYPE, INITIAL, FORCED };

struct climb {
    uint32_t value, climbed, place;
};

static inline uint32_t own_value(const struct file *f, enum inherited which)
{
    return which == TYPE ? f->type : which == INITIAL ? f->initial : f->forced;
}

static inline struct climb climb(const struct tables *t, uint32_t place, enum inherited which)
{
    uint32_t value = own_value(&t->file[place], which);
    uint32_t climbed = 0;
    while (value == RC_INHERIT_PARENT && place != ROOT) {
        place = t->file[place].parent;
        value = own_value(&t->file[place], which);
        climbed++;
    }
    if (value == RC_INHERIT_PARENT)
        value = which == TYPE ? 0 : which == INITIAL ? RC_USE_FORCED_ROLE : RC_UP_MIXED;
    return (struct climb){value, climbed, place};
}

static inline uint32_t effective(const struct tables *t, uint32_t place, enum inherited which)
{
    return climb(t, place, which).value;
}

/* W-206: what is kept for a place beside the files; zeros for a free one. In the plain version nothing but the test of the
   tables reads it: all else climbs, as it did before there was such a table. */
static inline struct kept kept_of(const struct tables *t, uint32_t place)
{
    if (t->file[place].kind == RC_FREE)
        return (struct kept){0};
    return (struct kept){effective(t, place, TYPE), effective(t, place, INITIAL), effective(t, place, FORCED)};
}

static inline void keep(struct tables *t, uint32_t place)
{
    t->kept[place] = kept_of(t, place);
}

#endif
