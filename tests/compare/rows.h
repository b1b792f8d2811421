/* Rows to call on: random well-formed tables of many shapes, and damage to them. */
#ifndef COMPARE_ROWS_H
#define COMPARE_ROWS_H

#include "../../include/monitor.h"

/* How full a random set is. */
enum density { EMPTY, SPARSE, HALF, DENSE, FULL, DENSITIES };

uint32_t random_set(enum density density);

/* What a file's type, initial or forced value comes to (RC_KEPT_TYPE and so on), looked for from the file up to the root.
   On a damaged tree too this ends, and answers something. */
uint32_t effective_value(const uint32_t *row, uint32_t place, uint32_t which);

/* Writes the kept values that belong to the files as they are (W-206). It is a third opinion on them, so it is not done by
   the plain version. */
void fill_kept(uint32_t row[RC_WORDS]);

/* How long a row was before there were kept values. */
#define WITHOUT_KEPT (RC_WORDS - RC_KEPT_WORDS * RC_FILES)

/* Random well-formed tables; rights and links between roles as dense as asked. */
void random_row(uint32_t row[RC_WORDS], enum density rights, enum density role_sets);

/* Changes one word to something that suits no table in particular; it may stay well formed. */
void damage(uint32_t row[RC_WORDS], uint32_t at);

/* Makes one place free, neatly, or overwrites it with another place of its table; it may stay well formed. */
void damage_place(uint32_t row[RC_WORDS]);

/* Damage that no single word shows, with kept values as the links have it: ill formed every time. There are LINK_DAMAGES
   ways. */
#define LINK_DAMAGES 12u
void damage_links(uint32_t row[RC_WORDS], uint32_t way);

static inline uint32_t *process_at(uint32_t *row, uint32_t place)
{
    return row + RC_PROCESSES_AT + RC_PROCESS_WORDS * place;
}

static inline uint32_t *user_at(uint32_t *row, uint32_t user)
{
    return row + RC_USERS_AT + RC_USER_WORDS * user;
}

static inline uint32_t *role_at(uint32_t *row, uint32_t role)
{
    return row + RC_ROLES_AT + RC_ROLE_WORDS * role;
}

static inline uint32_t *ipc_at(uint32_t *row, uint32_t place)
{
    return row + RC_IPCS_AT + RC_IPC_WORDS * place;
}

static inline uint32_t *file_at(uint32_t *row, uint32_t place)
{
    return row + RC_FILES_AT + RC_FILE_WORDS * place;
}

static inline uint32_t *kept_at(uint32_t *row, uint32_t place)
{
    return row + RC_KEPT_AT + RC_KEPT_WORDS * place;
}

static inline uint32_t *rights_at(uint32_t *row, uint32_t group, uint32_t role, uint32_t type)
{
    return row + RC_RIGHTS_ENTRY(group, role, type);
}

#endif
