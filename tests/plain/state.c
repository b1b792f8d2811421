/* Well-formed tables, fresh tables, and what the queries answer. */
#include "tables.h"
#include <string.h>

static bool process_ok(const struct process *p)
{
    if (p->live == 0)
        return (p->owner | p->role | p->type | p->forced) == 0;
    return p->live == 1 && p->owner < RC_USERS && p->role < RC_ROLES && p->type < RC_TYPES &&
           is_process_forced(p->forced);
}

static bool role_ok(const struct role *r)
{
    return r->mark <= 1 && is_file_type(r->file_create) && is_file_type(r->process_create) &&
           is_file_type(r->process_execute) && is_chown_type(r->process_chown) && r->ipc_create < RC_TYPES;
}

static bool ipc_ok(const struct ipc *i)
{
    return i->live == 0 ? i->type == 0 : i->live == 1 && i->type < RC_TYPES;
}

static bool file_ok(const struct tables *t, uint32_t place)
{
    const struct file *f = &t->file[place];
    if (f->kind == RC_FREE)
        return place != ROOT && (f->parent | f->depth | f->type | f->initial | f->forced) == 0;
    if (f->kind > RC_DIR || f->parent >= RC_FILES || f->depth > RC_DEPTH_MOST)
        return false;
    if (!is_file_type(f->type) || !is_initial(f->initial) || !is_forced(f->forced))
        return false;
    if (place == ROOT)
        return f->kind == RC_DIR && f->parent == ROOT && f->depth == 0;
    return t->file[f->parent].kind == RC_DIR && f->depth == t->file[f->parent].depth + 1;
}

/* W-206; to be asked once all files are right, for only then does every climb end. */
static bool kept_ok(const struct tables *t, uint32_t place)
{
    const struct kept *k = &t->kept[place];
    struct kept climbed = kept_of(t, place);
    return k->type == climbed.type && k->initial == climbed.initial && k->forced == climbed.forced;
}

bool plain_well_formed(const uint32_t *tables, size_t words)
{
    if (words != RC_WORDS)
        return false;
    const struct tables *t = (const struct tables *)tables;
    for (uint32_t p = 0; p < RC_PROCESSES; p++)
        if (!process_ok(&t->process[p]))
            return false;
    if (t->process[0].live == 0)
        return false;
    for (uint32_t u = 0; u < RC_USERS; u++)
        if (t->user_role[u] >= RC_ROLES)
            return false;
    for (uint32_t r = 0; r < RC_ROLES; r++)
        if (!role_ok(&t->role[r]))
            return false;
    for (uint32_t i = 0; i < RC_IPCS; i++)
        if (!ipc_ok(&t->ipc[i]))
            return false;
    for (uint32_t f = 0; f < RC_FILES; f++)
        if (!file_ok(t, f))
            return false;
    for (uint32_t f = 0; f < RC_FILES; f++)
        if (!kept_ok(t, f))
            return false;
    return true;
}

struct rc_answer plain_fresh(uint32_t *tables, size_t words)
{
    if (words != RC_WORDS)
        return (struct rc_answer){RC_ILL_FORMED, 0};
    struct tables *t = (struct tables *)tables;
    memset(t, 0, sizeof *t);
    for (uint32_t r = 0; r < RC_ROLES; r++) {
        t->role[r].file_create = RC_INHERIT_PARENT;
        t->role[r].process_create = RC_INHERIT_PARENT;
        t->role[r].process_execute = RC_INHERIT_PARENT;
        t->role[r].process_chown = RC_INHERIT_PARENT;
    }
    t->role[0].mark = 1;
    t->process[0] = (struct process){.live = 1, .forced = RC_UP_MIXED};
    t->file[ROOT] = (struct file){
        .kind = RC_DIR, .type = RC_INHERIT_PARENT, .initial = RC_INHERIT_PARENT, .forced = RC_INHERIT_PARENT};
    keep(t, ROOT);
    return (struct rc_answer){RC_GRANTED, 0};
}

static struct rc_found found(const struct tables *t, uint32_t file, enum inherited which)
{
    if (file >= RC_FILES)
        return (struct rc_found){.number = RC_OUT_OF_RANGE};
    if (t->file[file].kind == RC_FREE)
        return (struct rc_found){.number = RC_NO_SUCH_PLACE};
    struct climb c = climb(t, file, which);
    return (struct rc_found){RC_GRANTED, c.value, c.climbed, c.place};
}

struct rc_found plain_climb_type(const uint32_t *tables, uint32_t file)
{
    return found((const struct tables *)tables, file, TYPE);
}

static struct rc_found query(const uint32_t *tables, size_t words, uint32_t file, enum inherited which)
{
    if (!plain_well_formed(tables, words))
        return (struct rc_found){.number = RC_ILL_FORMED};
    return found((const struct tables *)tables, file, which);
}

struct rc_found plain_effective_type(const uint32_t *tables, size_t words, uint32_t file)
{
    return query(tables, words, file, TYPE);
}

struct rc_found plain_effective_initial(const uint32_t *tables, size_t words, uint32_t file)
{
    return query(tables, words, file, INITIAL);
}

struct rc_found plain_effective_forced(const uint32_t *tables, size_t words, uint32_t file)
{
    return query(tables, words, file, FORCED);
}

/* Refused where the other queries are. */
struct rc_found plain_file_kind(const uint32_t *tables, size_t words, uint32_t file)
{
    const struct tables *t = (const struct tables *)tables;
    struct rc_found type = plain_effective_type(tables, words, file);
    if (type.number != RC_GRANTED)
        return type;
    return (struct rc_found){RC_GRANTED, t->file[file].kind, 0, file};
}
