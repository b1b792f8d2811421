#include "rows.h"
#include "random.h"
#include <string.h>

uint32_t random_set(enum density density)
{
    uint32_t a = (uint32_t)random_bits(), b = (uint32_t)random_bits(), c = (uint32_t)random_bits();
    switch (density) {
    case EMPTY: return 0;
    case SPARSE: return a & b & c & (uint32_t)random_bits();
    case HALF: return a;
    case DENSE: return a | b | c | (uint32_t)random_bits();
    default: return UINT32_MAX;
    }
}

/* A role or type, or a special value in some cases. */
static uint32_t plain_or(uint32_t special, uint32_t cases)
{
    return percent(cases) ? special : below(32);
}

static uint32_t random_process_forced(void)
{
    return percent(50) ? below(32) : RC_INHERIT_USER + below(3);
}

/* How many of so many places are taken: none, all, all but one, or any number. */
static uint32_t how_many(uint32_t places)
{
    switch (below(5)) {
    case 0: return 0;
    case 1: return places;
    case 2: return places - 1;
    default: return below(places + 1);
    }
}

/* A free place of the table: any one, as after a long life of creations and removals. */
static uint32_t any_free(const uint32_t *table, uint32_t places, uint32_t words)
{
    uint32_t place = below(places);
    while (table[words * place] != 0)
        place = (place + 1) % places;
    return place;
}

static void add_process(uint32_t *row, uint32_t place)
{
    uint32_t *p = process_at(row, place);
    p[RC_PROCESS_LIVE] = 1;
    p[RC_PROCESS_OWNER] = below(RC_USERS);
    p[RC_PROCESS_ROLE] = below(RC_ROLES);
    p[RC_PROCESS_TYPE] = below(RC_TYPES);
    p[RC_PROCESS_FORCED] = random_process_forced();
}

static void random_role(uint32_t *r, enum density role_sets, uint32_t admins)
{
    r[RC_ROLE_COMPATIBLE] = random_set(role_sets);
    r[RC_ROLE_ADMIN] = random_set(role_sets);
    r[RC_ROLE_ASSIGN] = random_set(role_sets);
    r[RC_ROLE_MARK] = percent(admins);
    r[RC_ROLE_FILE_CREATE] = plain_or(RC_INHERIT_PARENT, 30);
    r[RC_ROLE_PROCESS_CREATE] = plain_or(RC_INHERIT_PARENT, 30);
    r[RC_ROLE_PROCESS_EXECUTE] = plain_or(RC_INHERIT_PARENT, 30);
    r[RC_ROLE_PROCESS_CHOWN] = percent(40) ? RC_USE_NEW_ROLE_DEF_CREATE : plain_or(RC_INHERIT_PARENT, 30);
    r[RC_ROLE_IPC_CREATE] = below(RC_TYPES);
}

/* The own values of a file stand in the order of the kept ones. Circles, and parents outside the table, occur in damaged
   trees only; such a climb has what inherit parent is at the root. */
uint32_t effective_value(const uint32_t *row, uint32_t place, uint32_t which)
{
    static const uint32_t at_root[RC_KEPT_WORDS] = {0, RC_USE_FORCED_ROLE, RC_UP_MIXED};
    for (uint32_t steps = 0; steps < RC_FILES && place < RC_FILES; steps++) {
        const uint32_t *f = row + RC_FILES_AT + RC_FILE_WORDS * place;
        if (f[RC_FILE_TYPE + which] != RC_INHERIT_PARENT)
            return f[RC_FILE_TYPE + which];
        if (place == 0)
            break;
        place = f[RC_FILE_PARENT];
    }
    return at_root[which];
}

void fill_kept(uint32_t row[RC_WORDS])
{
    for (uint32_t place = 0; place < RC_FILES; place++)
        for (uint32_t which = 0; which < RC_KEPT_WORDS; which++)
            kept_at(row, place)[which] =
                file_at(row, place)[RC_FILE_KIND] == RC_FREE ? 0 : effective_value(row, place, which);
}

static void random_values(uint32_t *f, uint32_t inherit)
{
    f[RC_FILE_TYPE] = plain_or(RC_INHERIT_PARENT, inherit);
    f[RC_FILE_INITIAL] = percent(inherit) ? RC_INHERIT_PARENT : plain_or(RC_USE_FORCED_ROLE, 50);
    f[RC_FILE_FORCED] = percent(inherit) ? RC_INHERIT_PARENT : random_process_forced();
}

/* Where the next object of a tree goes: as a rule at any free place; but some trees go up the places one by one, so that
   children stand behind their parents, and some go down, so that they stand before them. */
enum order { UPWARDS, DOWNWARDS, ANYWHERE, ORDERS };

static uint32_t next_place(uint32_t *row, enum order order, uint32_t made)
{
    switch (order) {
    case UPWARDS: return 1 + made;
    case DOWNWARDS: return RC_FILES - 1 - made;
    default: return any_free(row + RC_FILES_AT, RC_FILES, RC_FILE_WORDS);
    }
}

/* A tree: each new object goes below a directory made earlier, often below the newest, so that some trees are deep. */
static void random_files(uint32_t *row)
{
    uint32_t inherit = below(3) * 45 + 5, deep = below(3) * 45, files = below(3) * 30;
    enum order order = percent(60) ? ANYWHERE : (enum order)below(ORDERS);
    uint32_t dirs[RC_FILES] = {0}, dir_count = 1;
    uint32_t *root = file_at(row, 0);
    root[RC_FILE_KIND] = RC_DIR;
    random_values(root, inherit);
    for (uint32_t made = 0, all = how_many(RC_FILES - 1); made < all; made++) {
        uint32_t parent = dirs[percent(deep) ? dir_count - 1 : below(dir_count)];
        while (file_at(row, parent)[RC_FILE_DEPTH] == RC_DEPTH_MOST)
            parent = dirs[below(dir_count)];
        uint32_t place = next_place(row, order, made);
        uint32_t *f = file_at(row, place);
        f[RC_FILE_KIND] = percent(files) ? RC_FILE : RC_DIR;
        f[RC_FILE_PARENT] = parent;
        f[RC_FILE_DEPTH] = file_at(row, parent)[RC_FILE_DEPTH] + 1;
        random_values(f, inherit);
        if (f[RC_FILE_KIND] == RC_DIR)
            dirs[dir_count++] = place;
    }
    fill_kept(row);
}

void random_row(uint32_t row[RC_WORDS], enum density rights, enum density role_sets)
{
    memset(row, 0, RC_WORDS * sizeof(uint32_t));
    add_process(row, 0);
    for (uint32_t more = how_many(RC_PROCESSES - 1); more > 0; more--)
        add_process(row, any_free(row + RC_PROCESSES_AT, RC_PROCESSES, RC_PROCESS_WORDS));
    for (uint32_t u = 0; u < RC_USERS; u++)
        user_at(row, u)[RC_USER_ROLE] = below(RC_ROLES);
    uint32_t admins = below(4) * 10;
    for (uint32_t r = 0; r < RC_ROLES; r++)
        random_role(role_at(row, r), role_sets, admins);
    for (uint32_t more = how_many(RC_IPCS); more > 0; more--) {
        uint32_t *i = ipc_at(row, any_free(row + RC_IPCS_AT, RC_IPCS, RC_IPC_WORDS));
        i[RC_IPC_LIVE] = 1;
        i[RC_IPC_TYPE] = below(RC_TYPES);
    }
    random_files(row);
    for (uint32_t at = RC_RIGHTS_AT; at < RC_WORDS; at++)
        row[at] = random_set(rights);
}

void damage(uint32_t row[RC_WORDS], uint32_t at)
{
    static const uint32_t odd[] = {0,  1,  2,  3,   14,  15,  16,    17,     31,         32,         33, 34,
                                   35, 36, 37, 63,  64,  65,  127,   255,    256,        257,        65535, 65536,
                                   0x7fffffff, 0x80000000, 0xffffffff};
    switch (below(4)) {
    case 0: row[at] += 1; break;
    case 1: row[at] -= 1; break;
    case 2: row[at] ^= UINT32_C(1) << below(32); break;
    default: row[at] = odd[below(sizeof odd / sizeof odd[0])]; break;
    }
}

void damage_place(uint32_t row[RC_WORDS])
{
    static const struct {
        uint32_t at, places, words;
    } tables[] = {{RC_PROCESSES_AT, RC_PROCESSES, RC_PROCESS_WORDS},
                  {RC_IPCS_AT, RC_IPCS, RC_IPC_WORDS},
                  {RC_FILES_AT, RC_FILES, RC_FILE_WORDS},
                  {RC_KEPT_AT, RC_FILES, RC_KEPT_WORDS}};
    uint32_t which = below(4), words = tables[which].words, places = tables[which].places;
    uint32_t *table = row + tables[which].at, *place = table + words * (percent(20) ? 0 : below(places));
    if (percent(50))
        memset(place, 0, words * sizeof(uint32_t));
    else
        memmove(place, table + words * below(places), words * sizeof(uint32_t));
}

static void put_file(uint32_t *row, uint32_t place, uint32_t kind, uint32_t parent, uint32_t depth)
{
    uint32_t *f = file_at(row, place);
    f[RC_FILE_KIND] = kind;
    f[RC_FILE_PARENT] = parent;
    f[RC_FILE_DEPTH] = depth;
    random_values(f, below(3) * 50);
}

/* A FILE whose parent is one past the table. The kind, parent and depth there are the kept values of the root, and those
   are made to look like the root itself. */
static void put_past_table(uint32_t *row, uint32_t place)
{
    _Static_assert(RC_FILES_AT + RC_FILE_WORDS * RC_FILES == RC_KEPT_AT, "the kept values are just past the files");
    uint32_t *root = file_at(row, 0);
    root[RC_FILE_TYPE] = RC_DIR;
    root[RC_FILE_INITIAL] = root[RC_FILE_FORCED] = 0;
    put_file(row, place, RC_FILE, RC_FILES, 1);
    random_values(file_at(row, place), 0);
}

void damage_links(uint32_t row[RC_WORDS], uint32_t way)
{
    uint32_t x = 1 + below(100), y = 101 + below(100); /* two places, neither of them the root */
    switch (way) {
    case 0: /* its own parent */
        put_file(row, x, RC_DIR, x, 1);
        break;
    case 1: /* parents of each other */
        put_file(row, x, RC_DIR, y, 2);
        put_file(row, y, RC_DIR, x, 1);
        break;
    case 2: /* a parent that is a FILE */
        put_file(row, x, RC_FILE, 0, 1);
        put_file(row, y, RC_FILE, x, 2);
        break;
    case 3: /* a parent that is free */
        memset(file_at(row, x), 0, RC_FILE_WORDS * sizeof(uint32_t));
        put_file(row, y, RC_FILE, x, 1);
        break;
    case 4: /* a chain down to depth 16 */
        for (uint32_t depth = 1; depth <= RC_DEPTH_MOST + 1; depth++)
            put_file(row, depth, RC_DIR, depth - 1, depth);
        break;
    case 5: /* as deep as its parent */
        put_file(row, x, RC_DIR, 0, 1);
        put_file(row, y, RC_DIR, x, 1);
        break;
    case 6: /* two above its parent */
        put_file(row, x, RC_DIR, 0, 1);
        put_file(row, y, RC_DIR, x, 3);
        break;
    case 7: /* depth 0, but not the root */
        put_file(row, x, RC_DIR, 0, 0);
        break;
    case 8: /* depths that fit if they may wrap around */
        put_file(row, x, RC_DIR, y, 0);
        put_file(row, y, RC_DIR, 0, 0xffffffff);
        break;
    case 9: /* no root */
        memset(row + RC_FILES_AT, 0, RC_FILES * RC_FILE_WORDS * sizeof(uint32_t));
        break;
    case 10: /* a parent just past the table */
        put_past_table(row, x);
        break;
    default: /* no process 0 */
        memset(process_at(row, 0), 0, RC_PROCESS_WORDS * sizeof(uint32_t));
        break;
    }
    fill_kept(row);
}
