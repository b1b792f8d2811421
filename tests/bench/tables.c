#include "tables.h"
#include "../compare/rows.h"
#include <string.h>

#define BIT(n) (UINT32_C(1) << (n))

static void put_file(uint32_t *row, uint32_t place, uint32_t kind, uint32_t parent)
{
    uint32_t *f = row + RC_FILES_AT + RC_FILE_WORDS * place;
    f[RC_FILE_KIND] = kind;
    f[RC_FILE_PARENT] = parent;
    f[RC_FILE_DEPTH] = place == 0 ? 0 : row[RC_FILES_AT + RC_FILE_WORDS * parent + RC_FILE_DEPTH] + 1;
    f[RC_FILE_TYPE] = f[RC_FILE_INITIAL] = f[RC_FILE_FORCED] = RC_INHERIT_PARENT;
}

void put_rights(uint32_t *row, uint32_t role, uint32_t rights)
{
    for (uint32_t group = 0; group < RC_GROUPS; group++)
        for (uint32_t type = 0; type < RC_TYPES; type++)
            row[RC_RIGHTS_ENTRY(group, role, type)] = rights;
}

void busy_tables(uint32_t row[RC_WORDS])
{
    memset(row, 0, RC_WORDS * sizeof(uint32_t));
    for (uint32_t p = 0; p < LAST_PROCESS; p++) {
        uint32_t *process = row + RC_PROCESSES_AT + RC_PROCESS_WORDS * p;
        process[RC_PROCESS_LIVE] = 1;
        process[RC_PROCESS_OWNER] = p % RC_USERS;
        process[RC_PROCESS_ROLE] = p == ADMIN ? 0 : 3;
        process[RC_PROCESS_FORCED] = RC_UP_MIXED;
    }
    for (uint32_t u = 0; u < RC_USERS; u++)
        row[RC_USERS_AT + u] = 4;
    for (uint32_t r = 0; r < RC_ROLES; r++) {
        uint32_t *role = row + RC_ROLES_AT + RC_ROLE_WORDS * r;
        role[RC_ROLE_COMPATIBLE] = BIT(3);
        for (uint32_t which = RC_ROLE_FILE_CREATE; which <= RC_ROLE_PROCESS_CHOWN; which++)
            role[which] = RC_INHERIT_PARENT;
    }
    row[RC_ROLES_AT + RC_ROLE_MARK] = 1;
    for (uint32_t i = 0; i < RC_IPCS - 1; i++)
        row[RC_IPCS_AT + RC_IPC_WORDS * i] = 1;
    put_file(row, 0, RC_DIR, 0);
    for (uint32_t f = 1; f <= DEEP; f++)
        put_file(row, f, RC_DIR, f - 1);
    put_file(row, 16, RC_DIR, 0);
    put_file(row, FOLDER, RC_DIR, 16);
    for (uint32_t f = FOLDER + 1; f < LAST_FILE; f++)
        put_file(row, f, RC_FILE, FOLDER);
    fill_kept(row);
    put_rights(row, 3, BIT(RC_RIGHT_ADMIN) - 1);
}

void flat_tree(uint32_t row[RC_WORDS])
{
    busy_tables(row);
    for (uint32_t f = 1; f < LAST_FILE; f++)
        put_file(row, f, RC_FILE, 0);
    fill_kept(row);
}

void deep_tree(uint32_t row[RC_WORDS])
{
    uint32_t last_dir = RC_DEPTH_MOST - 1;
    busy_tables(row);
    for (uint32_t f = 1; f < LAST_FILE; f++)
        put_file(row, f, f <= last_dir ? RC_DIR : RC_FILE, f <= last_dir ? f - 1 : last_dir);
    fill_kept(row);
}

void backward_tree(uint32_t row[RC_WORDS])
{
    uint32_t top = LAST_FILE - 1, last_dir = LAST_FILE - (RC_DEPTH_MOST - 1);
    busy_tables(row);
    for (uint32_t f = top; f > 0; f--)
        put_file(row, f, f >= last_dir ? RC_DIR : RC_FILE, f == top ? 0 : f >= last_dir ? f + 1 : last_dir);
    fill_kept(row);
}

void dense_claim(uint32_t row[RC_WORDS], uint32_t claim[RC_CLAIM_WORDS])
{
    uint32_t protected_type = 31;
    busy_tables(row);
    for (uint32_t r = 1; r < RC_ROLES; r++) {
        put_rights(row, r, ~BIT(RC_RIGHT_ASSIGN));
        row[RC_RIGHTS_ENTRY(RC_GROUP_FILESYSTEM, r, protected_type)] = BIT(RC_RIGHT_READ);
        row[RC_ROLES_AT + RC_ROLE_WORDS * r + RC_ROLE_FILE_CREATE] = r - 1;
        row[RC_ROLES_AT + RC_ROLE_WORDS * r + RC_ROLE_COMPATIBLE] = ~BIT(0);
    }
    memset(claim, 0xff, RC_CLAIM_WORDS * sizeof(uint32_t));
    claim[RC_CLAIM_PROCESS] = CALLER;
    claim[RC_CLAIM_TYPE] = protected_type;
    claim[RC_CLAIM_ROLES] = ~BIT(0);
    claim[RC_CLAIM_FILE_TYPES + LAST_FILE] = 0;
}

void sparse_claim(uint32_t row[RC_WORDS], uint32_t claim[RC_CLAIM_WORDS])
{
    busy_tables(row);
    put_rights(row, 3, 0);
    row[RC_RIGHTS_ENTRY(RC_GROUP_FILESYSTEM, 3, 0)] = BIT(RC_RIGHT_READ) | BIT(RC_RIGHT_EXECUTE);
    memset(claim, 0, RC_CLAIM_WORDS * sizeof(uint32_t));
    claim[RC_CLAIM_PROCESS] = CALLER;
    claim[RC_CLAIM_TYPE] = 31;
    claim[RC_CLAIM_ROLES] = BIT(3);
    claim[RC_CLAIM_PROCESS_TYPES] = BIT(0);
    for (uint32_t f = 0; f < LAST_FILE; f++)
        claim[RC_CLAIM_FILE_TYPES + f] = BIT(0);
}
