#include "marked.h"
#include "../plain/monitor.h"
#include "calls.h"
#include "rows.h"
#include <inttypes.h>
#include <stdio.h>
#include <string.h>

#define BIT(n) (UINT32_C(1) << (n))

static const struct monitor {
    const char *name;
    struct rc_answer (*call)(uint32_t *, size_t, uint32_t, uint32_t, uint32_t, uint32_t, uint32_t, uint32_t);
    struct rc_answer (*batch)(uint32_t *, size_t, const uint8_t *, size_t, uint8_t *, size_t);
    struct rc_answer (*fresh)(uint32_t *, size_t);
    bool (*well_formed)(const uint32_t *, size_t);
    struct rc_found (*type)(const uint32_t *, size_t, uint32_t);
    struct rc_found (*initial)(const uint32_t *, size_t, uint32_t);
    struct rc_found (*forced)(const uint32_t *, size_t, uint32_t);
    struct rc_found (*kind)(const uint32_t *, size_t, uint32_t);
    struct rc_verdict (*claim)(const uint32_t *, size_t, const uint32_t *, size_t);
    struct rc_answer (*setpoint)(const uint32_t *, size_t, uint32_t, uint32_t, uint32_t, uint32_t, uint32_t, uint32_t,
                                 uint32_t *, size_t);
} monitors[] = {
    {"library", rc_call, rc_batch, rc_fresh, rc_well_formed, rc_effective_type, rc_effective_initial,
     rc_effective_forced, rc_file_kind, rc_check_claim, rc_setpoint},
    {"plain C", plain_call, plain_batch, plain_fresh, plain_well_formed, plain_effective_type, plain_effective_initial,
     plain_effective_forced, plain_file_kind, plain_check_claim, plain_setpoint},
};

static const struct monitor *m;
static uint32_t row[RC_WORDS];
static uint32_t *const p0 = row + RC_PROCESSES_AT; /* the record of process 0 */
static bool good;

static void expect(const char *example, const char *what, uint32_t got, uint32_t wanted)
{
    if (got == wanted)
        return;
    printf("DIFFERENCE in example %s, %s: %s is %" PRIu32 ", wanted %" PRIu32 "\n", example, m->name, what, got, wanted);
    good = false;
}

static void fresh(void)
{
    memset(row, 0xff, sizeof row);
    expect("fresh", "number", m->fresh(row, RC_WORDS).number, 0);
    expect("fresh", "well formed", m->well_formed(row, RC_WORDS), 1);
}

/* Process 0 calls. */
static uint32_t call(uint32_t kind, uint32_t a, uint32_t b, uint32_t c, uint32_t d)
{
    return m->call(row, RC_WORDS, kind, 0, a, b, c, d).number;
}

static void add_right(uint32_t group, uint32_t role, uint32_t type, uint32_t right)
{
    *rights_at(row, group, role, type) |= BIT(right);
}

static void put_file(uint32_t place, uint32_t kind, uint32_t parent, uint32_t initial, uint32_t forced)
{
    uint32_t *f = file_at(row, place);
    f[RC_FILE_KIND] = kind;
    f[RC_FILE_PARENT] = parent;
    f[RC_FILE_DEPTH] = file_at(row, parent)[RC_FILE_DEPTH] + 1;
    f[RC_FILE_TYPE] = RC_INHERIT_PARENT;
    f[RC_FILE_INITIAL] = initial;
    f[RC_FILE_FORCED] = forced;
    fill_kept(row);
}

/* Process 0 in role 3, and file 1 below the root, which it may execute. */
static void role_3_and_file(uint32_t initial, uint32_t forced)
{
    fresh();
    p0[RC_PROCESS_ROLE] = 3;
    put_file(1, RC_FILE, 0, initial, forced);
    add_right(RC_GROUP_FILESYSTEM, 3, 0, RC_RIGHT_EXECUTE);
}

static void a1_to_a2(void)
{
    fresh();
    expect("a1", "number", call(RC_CALL_ACCESS, RC_GROUP_FILESYSTEM, 0, RC_RIGHT_READ, 0), 5);
    expect("a2", "number", call(RC_CALL_ADD_RIGHT, RC_GROUP_FILESYSTEM, 1, 2, RC_RIGHT_WRITE), 0);
    expect("a2", "entry", *rights_at(row, RC_GROUP_FILESYSTEM, 1, 2), BIT(RC_RIGHT_WRITE));
}

static void a3_to_a5(void)
{
    role_3_and_file(7, RC_UP_MIXED);
    role_at(row, 3)[RC_ROLE_PROCESS_EXECUTE] = 5;
    expect("a3", "number", call(RC_CALL_EXECUTE, 1, 0, 0, 0), 0);
    expect("a3", "role", p0[RC_PROCESS_ROLE], 7);
    expect("a3", "type", p0[RC_PROCESS_TYPE], 5);
    expect("a3", "forced", p0[RC_PROCESS_FORCED], 36);

    role_3_and_file(RC_USE_FORCED_ROLE, 9);
    expect("a4", "number", call(RC_CALL_EXECUTE, 1, 0, 0, 0), 0);
    expect("a4", "role", p0[RC_PROCESS_ROLE], 9);
    expect("a4", "forced", p0[RC_PROCESS_FORCED], 9);

    user_at(row, 2)[RC_USER_ROLE] = 4;
    add_right(RC_GROUP_PROCESS, 9, 0, RC_RIGHT_CHANGE_OWNER);
    expect("a5", "number", call(RC_CALL_CHANGE_OWNER, 2, 0, 0, 0), 0);
    expect("a5", "role", p0[RC_PROCESS_ROLE], 9);
    expect("a5", "owner", p0[RC_PROCESS_OWNER], 2);
}

/* Process 0 in role 3 with this forced value changes its owner to user 2, whose default role is 4. */
static void changes_owner(const char *example, uint32_t forced, uint32_t chown_type, uint32_t create_type)
{
    fresh();
    p0[RC_PROCESS_ROLE] = 3;
    p0[RC_PROCESS_TYPE] = 1;
    p0[RC_PROCESS_FORCED] = forced;
    user_at(row, 2)[RC_USER_ROLE] = 4;
    role_at(row, 3)[RC_ROLE_PROCESS_CHOWN] = chown_type;
    role_at(row, 4)[RC_ROLE_PROCESS_CREATE] = create_type;
    add_right(RC_GROUP_PROCESS, 3, 1, RC_RIGHT_CHANGE_OWNER);
    expect(example, "number", call(RC_CALL_CHANGE_OWNER, 2, 0, 0, 0), 0);
}

static void a6_to_a7(void)
{
    changes_owner("a6", RC_INHERIT_USER, RC_INHERIT_PARENT, RC_INHERIT_PARENT);
    expect("a6", "role", p0[RC_PROCESS_ROLE], 4);
    changes_owner("a7", RC_UP_MIXED, RC_USE_NEW_ROLE_DEF_CREATE, 6);
    expect("a7", "type", p0[RC_PROCESS_TYPE], 6);
    changes_owner("a7", RC_UP_MIXED, RC_USE_NEW_ROLE_DEF_CREATE, RC_INHERIT_PARENT);
    expect("a7", "type", p0[RC_PROCESS_TYPE], 1);
}

static void a8_to_a10(void)
{
    fresh();
    for (uint32_t depth = 1; depth <= 15; depth++)
        put_file(depth, RC_DIR, depth - 1, RC_INHERIT_PARENT, RC_INHERIT_PARENT);
    expect("a8", "type", m->type(row, RC_WORDS, 15).value, 0);
    expect("a8", "climbed", m->type(row, RC_WORDS, 15).climbed, 15);
    expect("a8", "place", m->type(row, RC_WORDS, 15).place, 0);

    fresh();
    expect("a9", "number", call(RC_CALL_EXIT, 0, 0, 0, 0), 6);

    uint32_t claim[RC_CLAIM_WORDS] = {0};
    expect("a10", "number", m->claim(row, RC_WORDS, claim, RC_CLAIM_WORDS).number, 9);
    expect("a10", "rule", m->claim(row, RC_WORDS, claim, RC_CLAIM_WORDS).rule, 1);
    claim[RC_CLAIM_ROLES] = claim[RC_CLAIM_PROCESS_TYPES] = BIT(0);
    expect("a10", "number", m->claim(row, RC_WORDS, claim, RC_CLAIM_WORDS).number, 9);
    expect("a10", "rule", m->claim(row, RC_WORDS, claim, RC_CLAIM_WORDS).rule, 2);
}

/* "Readings that go wrong". */
static void readings(void)
{
    role_3_and_file(7, 9);
    role_at(row, 3)[RC_ROLE_PROCESS_EXECUTE] = 5;
    role_at(row, 7)[RC_ROLE_PROCESS_EXECUTE] = 6;
    expect("readings", "number", call(RC_CALL_EXECUTE, 1, 0, 0, 0), 0);
    expect("readings", "role", p0[RC_PROCESS_ROLE], 7);
    expect("readings", "type, from the role before", p0[RC_PROCESS_TYPE], 5);
    add_right(RC_GROUP_PROCESS, 7, 5, RC_RIGHT_CHANGE_OWNER);
    expect("readings", "number", call(RC_CALL_CHANGE_OWNER, 2, 0, 0, 0), 0);
    expect("readings", "role after the owner change", p0[RC_PROCESS_ROLE], 9);

    fresh();
    put_file(1, RC_DIR, 0, RC_INHERIT_PARENT, 9);
    put_file(2, RC_DIR, 1, 7, RC_INHERIT_PARENT);
    put_file(3, RC_FILE, 2, RC_INHERIT_PARENT, RC_INHERIT_PARENT);
    expect("readings", "forced, past an initial role", m->forced(row, RC_WORDS, 3).value, 9);
    expect("readings", "parents climbed", m->forced(row, RC_WORDS, 3).climbed, 2);
    expect("readings", "place", m->forced(row, RC_WORDS, 3).place, 1);
    expect("readings", "initial", m->initial(row, RC_WORDS, 3).value, 7);
    expect("readings", "parents climbed", m->initial(row, RC_WORDS, 3).climbed, 1);
    expect("readings", "place", m->initial(row, RC_WORDS, 3).place, 2);
    expect("readings", "place, at the root", m->type(row, RC_WORDS, 3).place, 0);
    expect("readings", "place, at itself", m->initial(row, RC_WORDS, 2).place, 2);
    expect("readings", "number, of a free place", m->forced(row, RC_WORDS, 4).number, 4);
    expect("readings", "place, of a free place", m->forced(row, RC_WORDS, 4).place, 0);

    /* A family of role 1 alone, which can start types 2; role 5, outside, creates such files below directory 1. */
    fresh();
    p0[RC_PROCESS_ROLE] = 1;
    add_right(RC_GROUP_FILESYSTEM, 1, 2, RC_RIGHT_EXECUTE);
    put_file(1, RC_DIR, 0, RC_INHERIT_PARENT, 9);
    uint32_t claim[RC_CLAIM_WORDS] = {0, 3, BIT(1), BIT(0), BIT(0), BIT(0)};
    expect("outsider", "number", m->claim(row, RC_WORDS, claim, RC_CLAIM_WORDS).number, 0);
    role_at(row, 5)[RC_ROLE_FILE_CREATE] = 2;
    add_right(RC_GROUP_FILESYSTEM, 5, 0, RC_RIGHT_CREATE);
    expect("outsider", "rule", m->claim(row, RC_WORDS, claim, RC_CLAIM_WORDS).rule, 6);
    claim[RC_CLAIM_FILE_TYPES] = claim[RC_CLAIM_FILE_TYPES + 1] = BIT(0) | BIT(2);
    expect("outsider", "rule", m->claim(row, RC_WORDS, claim, RC_CLAIM_WORDS).rule, 7);
}

/* "Run only". */
static void until_full(void)
{
    fresh();
    call(RC_CALL_ADD_RIGHT, RC_GROUP_PROCESS, 0, 0, RC_RIGHT_CLONE);
    for (uint32_t n = 1; n < RC_PROCESSES; n++)
        expect("full", "place of a clone", m->call(row, RC_WORDS, RC_CALL_CLONE, 0, 0, 0, 0, 0).place, n);
    expect("full", "clone", call(RC_CALL_CLONE, 0, 0, 0, 0), 8);
    expect("full", "exit", m->call(row, RC_WORDS, RC_CALL_EXIT, 17, 0, 0, 0, 0).number, 0);
    expect("full", "place of a clone", m->call(row, RC_WORDS, RC_CALL_CLONE, 0, 0, 0, 0, 0).place, 17);

    call(RC_CALL_ADD_RIGHT, RC_GROUP_FILESYSTEM, 0, 0, RC_RIGHT_CREATE);
    for (uint32_t n = 1; n < RC_FILES; n++) { /* a chain of 15, then all below the root, but the last below place 17 */
        uint32_t parent = n <= 15 ? n - 1 : n == 255 ? 17 : 0, kind = n % 2 || n <= 15 ? RC_DIR : RC_FILE;
        struct rc_answer made = m->call(row, RC_WORDS, RC_CALL_CREATE, 0, kind, parent, 0, 0);
        expect("full", "creation", made.number, 0);
        expect("full", "place of a creation", made.place, n);
        if (n == 15)
            expect("full", "creation at depth 16", call(RC_CALL_CREATE, RC_FILE, 15, 0, 0), 7);
    }
    expect("full", "depth", file_at(row, 15)[RC_FILE_DEPTH], 15);
    expect("full", "creation", call(RC_CALL_CREATE, RC_FILE, 0, 0, 0), 8);
    expect("full", "creation at depth 16", call(RC_CALL_CREATE, RC_FILE, 15, 0, 0), 7);

    call(RC_CALL_ADD_RIGHT, RC_GROUP_FILESYSTEM, 0, 0, RC_RIGHT_DELETE);
    expect("full", "deletion of a DIR with one child", call(RC_CALL_DELETE, 17, 0, 0, 0), 6);
    expect("full", "deletion of the child", call(RC_CALL_DELETE, 255, 0, 0, 0), 0);
    expect("full", "deletion of the DIR", call(RC_CALL_DELETE, 17, 0, 0, 0), 0);
    expect("full", "place of a creation", m->call(row, RC_WORDS, RC_CALL_CREATE, 0, RC_FILE, 0, 0, 0).place, 17);
    expect("full", "deletion of the root", call(RC_CALL_DELETE, 0, 0, 0, 0), 6);
}

/* ---- Setpoints ---- file 1 is a list in metres, file 2 one in kilopascals; each has the type of its number */

#define METRES 1u
#define KILOPASCALS 2u

static uint32_t entries[2];

static uint32_t enter(uint32_t process, uint32_t list, uint32_t unit, uint32_t amount, size_t n_entries)
{
    entries[0] = entries[1] = UINT32_MAX;
    return m->setpoint(row, RC_WORDS, process, list, unit, amount, METRES, KILOPASCALS, entries, n_entries).number;
}

static void granted(uint32_t list, uint32_t unit, uint32_t amount, uint32_t pascals)
{
    expect("setpoints", "number", enter(0, list, unit, amount, 2), 0);
    expect("setpoints", "first entry", entries[0], pascals);
    expect("setpoints", "second entry", entries[1], UINT32_MAX);
}

static void refused(uint32_t process, uint32_t list, uint32_t unit, uint32_t amount, size_t n_entries, uint32_t number)
{
    expect("setpoints", "number", enter(process, list, unit, amount, n_entries), number);
    expect("setpoints", "first entry after a refusal", entries[0], UINT32_MAX);
}

static void setpoints(void)
{
    fresh();
    for (uint32_t list = METRES; list <= KILOPASCALS; list++) {
        put_file(list, RC_FILE, 0, RC_INHERIT_PARENT, RC_INHERIT_PARENT);
        file_at(row, list)[RC_FILE_TYPE] = list;
        fill_kept(row);
        add_right(RC_GROUP_FILESYSTEM, 0, list, RC_RIGHT_WRITE);
    }
    expect("setpoints", "kind of a list", m->kind(row, RC_WORDS, METRES).value, RC_FILE);
    expect("setpoints", "kind of the root", m->kind(row, RC_WORDS, 0).value, RC_DIR);
    expect("setpoints", "number for a free place", m->kind(row, RC_WORDS, 3).number, 4);

    granted(METRES, RC_UNIT_METRES, 0, 0);
    granted(METRES, RC_UNIT_METRES, 1000, 9807);
    granted(METRES, RC_UNIT_METRES, 10000, 98067);
    granted(METRES, RC_UNIT_METRES, 45000, 441299);
    granted(METRES, RC_UNIT_METRES, 2000000, 19613300);
    granted(KILOPASCALS, RC_UNIT_KILOPASCALS, 45000, 45000);
    granted(KILOPASCALS, RC_UNIT_KILOPASCALS, 2000000, 2000000);

    refused(0, METRES, RC_UNIT_METRES, 2000001, 1, 2);
    refused(1, METRES, RC_UNIT_METRES, 45000, 0, 2); /* an empty slice, though the process is dead too */
    refused(1, KILOPASCALS, RC_UNIT_METRES, 45000, 1, 3); /* a dead process, though the list is wrong too */
    refused(0, KILOPASCALS, RC_UNIT_METRES, 45000, 1, 4);
    refused(0, 0, RC_UNIT_METRES, 45000, 1, 4);
    *rights_at(row, RC_GROUP_FILESYSTEM, 0, METRES) = 0;
    refused(0, METRES, RC_UNIT_METRES, 45000, 1, 5);
}

/* ---- A night ---- from fresh tables, where process 0 alone is live and Role Admin */

#define LAST (RC_ITEM_BYTES - 1)

static const struct {
    uint8_t item[RC_ITEM_BYTES], number, place;
} made[] = {
    {{RC_CALL_CLONE, 0}, 5, 0},
    {{RC_CALL_ADD_RIGHT, 0, RC_GROUP_PROCESS, 0, 0, RC_RIGHT_CLONE}, 0, 0}, /* though an item before it was refused */
    {{RC_CALL_CLONE, 0}, 0, 1},
    {{RC_CALL_CLONE, 1}, 0, 2}, /* by the process that is there since the item before */
    {{RC_CALL_EXIT, 1, [LAST] = 1}, 2, 0},
    {{RC_CALL_EXIT, 1, 1}, 2, 0},
    {{RC_CALL_EXIT, RC_PROCESSES}, 2, 0},
    {{RC_CALL_EXIT, 3, [LAST] = 128}, 2, 0}, /* though the caller is dead too */
    {{RC_CALL_LAST + 1, 3}, 2, 0},
    {{0}, 2, 0},
    {{GONE_SET_INITIAL, 0, 0, 5}, 2, 0},
    {{GONE_SET_FORCED, 0, 0, 5}, 2, 0},
    {{GONE_SET_FORCED, 3, 0, 5}, 2, 0}, /* though the caller is dead too */
    {{RC_CALL_SET_PROGRAM_ROLES, 0, 0, 5, 6, 1}, 2, 0},
    {{RC_CALL_SET_PROGRAM_ROLES, 0, 0, 5, 6}, 0, 0},
    {{RC_CALL_EXIT, 3}, 3, 0},
    {{RC_CALL_DELETE, 0, 255}, 4, 0},
    {{RC_CALL_DELETE, 0, 0}, 5, 0},
    {{RC_CALL_EXIT, 0}, 6, 0},
    {{RC_CALL_EXIT, 1}, 0, 0},
    {{RC_CALL_CLONE, 2}, 0, 1}, /* in the place that is free again */
};

#define MADE (sizeof made / sizeof made[0])

static void night(void)
{
    uint8_t calls[MADE * RC_ITEM_BYTES], answers[MADE * RC_ANSWER_BYTES + 1];
    for (size_t k = 0; k < MADE; k++)
        memcpy(calls + RC_ITEM_BYTES * k, made[k].item, RC_ITEM_BYTES);
    memset(answers, 0xee, sizeof answers);
    fresh();
    expect("night", "number for a part of an item",
           m->batch(row, RC_WORDS, calls, RC_ITEM_BYTES - 1, answers, sizeof answers).number, 2);
    expect("night", "number for too few answers",
           m->batch(row, RC_WORDS, calls, sizeof calls, answers, sizeof answers - 2).number, 2);
    expect("night", "number for no items", m->batch(row, RC_WORDS, calls, 0, answers, 0).number, 0);
    expect("night", "first byte so far", answers[0], 0xee);
    expect("night", "number", m->batch(row, RC_WORDS, calls, sizeof calls, answers, sizeof answers).number, 0);
    for (size_t k = 0; k < MADE; k++) {
        expect("night", "number of an item", answers[RC_ANSWER_BYTES * k], made[k].number);
        expect("night", "place of an item", answers[RC_ANSWER_BYTES * k + 1], made[k].place);
    }
    expect("night", "byte behind the answers", answers[sizeof answers - 1], 0xee);
    p0[RC_PROCESS_LIVE] = 2;
    expect("night", "number, ill formed", m->batch(row, RC_WORDS, calls, RC_ITEM_BYTES - 1, answers, 0).number, 1);
    expect("night", "number, ill formed and no items", m->batch(row, RC_WORDS, calls, 0, answers, 0).number, 1);
}

/* ---- Kept values ---- W-206; file 1 is a DIR, 2 a DIR in it, 3 a FILE in that, and 4 a FILE in 1 */

static void keeps(uint32_t place, uint32_t type, uint32_t initial, uint32_t forced)
{
    const uint32_t *kept = kept_at(row, place);
    expect("kept", "type", kept[RC_KEPT_TYPE], type);
    expect("kept", "initial", kept[RC_KEPT_INITIAL], initial);
    expect("kept", "forced", kept[RC_KEPT_FORCED], forced);
}

static void make_four(void)
{
    fresh();
    keeps(0, 0, RC_USE_FORCED_ROLE, RC_UP_MIXED);
    for (uint32_t place = 1; place < RC_FILES; place++)
        keeps(place, 0, 0, 0);
    call(RC_CALL_ADD_RIGHT, RC_GROUP_FILESYSTEM, 0, 0, RC_RIGHT_CREATE);
    expect("kept", "creation of 1", call(RC_CALL_CREATE, RC_DIR, 0, 0, 0), 0);
    expect("kept", "creation of 2", call(RC_CALL_CREATE, RC_DIR, 1, 0, 0), 0);
    expect("kept", "creation of 3", call(RC_CALL_CREATE, RC_FILE, 2, 0, 0), 0);
    call(RC_CALL_SET_DEFAULT_TYPE, RC_DEFAULT_FILE_CREATE, 0, 6, 0);
    expect("kept", "creation of 4", call(RC_CALL_CREATE, RC_FILE, 1, 0, 0), 0);
    keeps(3, 0, RC_USE_FORCED_ROLE, RC_UP_MIXED);
    keeps(4, 6, RC_USE_FORCED_ROLE, RC_UP_MIXED);
}

static void refreshes(void)
{
    make_four();
    expect("kept", "number", call(RC_CALL_SET_PROGRAM_ROLES, 2, RC_INHERIT_PARENT, 9, 0), 0);
    keeps(1, 0, RC_USE_FORCED_ROLE, RC_UP_MIXED);
    keeps(2, 0, RC_USE_FORCED_ROLE, 9);
    keeps(3, 0, RC_USE_FORCED_ROLE, 9);
    expect("kept", "number", call(RC_CALL_SET_PROGRAM_ROLES, 1, RC_INHERIT_PARENT, RC_INHERIT_USER, 0), 0);
    keeps(1, 0, RC_USE_FORCED_ROLE, RC_INHERIT_USER);
    keeps(3, 0, RC_USE_FORCED_ROLE, 9); /* 2 has a value of its own */
    keeps(4, 6, RC_USE_FORCED_ROLE, RC_INHERIT_USER);
    expect("kept", "number", call(RC_CALL_SET_PROGRAM_ROLES, 0, 7, RC_INHERIT_PARENT, 0), 0);
    expect("kept", "number", call(RC_CALL_SET_TYPE, RC_GROUP_FILESYSTEM, 0, 5, 0), 0);
    keeps(0, 5, 7, RC_UP_MIXED);
    keeps(3, 5, 7, 9);
    keeps(4, 6, 7, RC_INHERIT_USER);
    expect("kept", "number", call(RC_CALL_SET_PROGRAM_ROLES, 2, RC_INHERIT_PARENT, RC_INHERIT_PARENT, 0), 0);
    keeps(3, 5, 7, RC_INHERIT_USER);
    expect("kept", "parents climbed", m->forced(row, RC_WORDS, 3).climbed, 2);
    expect("kept", "place", m->forced(row, RC_WORDS, 3).place, 1);
    expect("kept", "number", call(RC_CALL_SET_PROGRAM_ROLES, 3, RC_USE_FORCED_ROLE, RC_INHERIT_PARENT, 0), 0);
    keeps(3, 5, RC_USE_FORCED_ROLE, RC_INHERIT_USER);
    keeps(2, 5, 7, RC_INHERIT_USER);
}

static void kept_wrongly(void)
{
    make_four();
    call(RC_CALL_ADD_RIGHT, RC_GROUP_FILESYSTEM, 0, 6, RC_RIGHT_DELETE);
    expect("kept", "deletion of 4", call(RC_CALL_DELETE, 4, 0, 0, 0), 0);
    keeps(4, 0, 0, 0);
    kept_at(row, 4)[RC_KEPT_TYPE] = 6;
    expect("kept", "number with a free place that keeps a type", call(RC_CALL_CLONE, 0, 0, 0, 0), 1);
    kept_at(row, 4)[RC_KEPT_TYPE] = 0;
    kept_at(row, 3)[RC_KEPT_TYPE] = 6;
    expect("kept", "number with a type unlike the climb", m->type(row, RC_WORDS, 3).number, 1);
    expect("kept", "number for a row without kept values", m->fresh(row, WITHOUT_KEPT).number, 1);
}

/* ---- Program roles ---- W-207; the four files again, of which the first three have type 0 */

#define ASSIGNER 1u /* a process in role 3, which has MODIFY_ATTRIBUTE to type 0, and may assign roles 5 and 6 */

/* Sets both values of a file; with a refusal all tables are as before. */
static void sets(uint32_t caller, uint32_t file, uint32_t initial, uint32_t forced, uint32_t number)
{
    static uint32_t before[RC_WORDS];
    memcpy(before, row, sizeof row);
    struct rc_answer answer = m->call(row, RC_WORDS, RC_CALL_SET_PROGRAM_ROLES, caller, file, initial, forced, 0);
    expect("program roles", "number", answer.number, number);
    expect("program roles", "place", answer.place, 0);
    if (number != RC_GRANTED) {
        expect("program roles", "change with a refusal", memcmp(before, row, sizeof row) != 0, 0);
        return;
    }
    expect("program roles", "initial", file_at(row, file)[RC_FILE_INITIAL], initial);
    expect("program roles", "forced", file_at(row, file)[RC_FILE_FORCED], forced);
}

static void make_assigner(void)
{
    make_four();
    call(RC_CALL_ADD_RIGHT, RC_GROUP_PROCESS, 0, 0, RC_RIGHT_CLONE);
    expect("program roles", "clone", call(RC_CALL_CLONE, 0, 0, 0, 0), 0);
    process_at(row, ASSIGNER)[RC_PROCESS_ROLE] = 3;
    role_at(row, 3)[RC_ROLE_ASSIGN] = BIT(5) | BIT(6);
    add_right(RC_GROUP_FILESYSTEM, 3, 0, RC_RIGHT_MODIFY_ATTRIBUTE);
}

static void program_roles_granted(void)
{
    make_assigner();
    sets(0, 1, 7, RC_INHERIT_USER, 0);
    keeps(1, 0, 7, RC_INHERIT_USER);
    keeps(3, 0, 7, RC_INHERIT_USER); /* both reach what inherits, through 2 */
    keeps(4, 6, 7, RC_INHERIT_USER);
    sets(ASSIGNER, 2, 5, 6, 0);
    keeps(2, 0, 5, 6);
    keeps(3, 0, 5, 6);
    keeps(4, 6, 7, RC_INHERIT_USER);
    sets(ASSIGNER, 3, 6, 6, 0);
    sets(0, 3, RC_USE_FORCED_ROLE, RC_INHERIT_PARENT, 0);
    keeps(3, 0, RC_USE_FORCED_ROLE, 6);
    sets(0, 2, RC_INHERIT_PARENT, RC_INHERIT_PARENT, 0);
    keeps(2, 0, 7, RC_INHERIT_USER);
    keeps(3, 0, RC_USE_FORCED_ROLE, RC_INHERIT_USER);
}

static void program_roles_refused(void)
{
    make_assigner();
    sets(0, 3, 5, RC_USE_FORCED_ROLE, 2);
    sets(0, 3, RC_INHERIT_USER, 6, 2);
    sets(ASSIGNER, 3, 7, RC_USE_FORCED_ROLE, 2); /* 2 for one value, though the other is 5 */
    sets(ASSIGNER, 3, RC_UP_MIXED, 7, 2);
    sets(2, 3, 5, RC_USE_FORCED_ROLE, 2); /* though the caller is dead too */
    sets(0, RC_FILES, 5, 6, 2);
    sets(2, 3, 5, 6, 3);
    sets(0, 5, 5, 6, 4);
    sets(ASSIGNER, 5, 7, 7, 4);
    sets(ASSIGNER, 3, 5, 7, 5); /* one of the two alone would do */
    sets(ASSIGNER, 3, 7, 6, 5);
    sets(ASSIGNER, 3, RC_USE_FORCED_ROLE, 6, 5); /* a special value is Role Admin's, also one that is there (H7) */
    sets(ASSIGNER, 3, 5, RC_INHERIT_PARENT, 5);
    sets(ASSIGNER, 4, 5, 6, 5); /* no MODIFY_ATTRIBUTE to type 6 */
}

/* The kinds that set one value each are unknown, and the new one takes three numbers. */
static void program_roles_unknown(void)
{
    make_assigner();
    expect("program roles", "number of kind 14", call(GONE_SET_INITIAL, 3, 5, 0, 0), 2);
    expect("program roles", "number of kind 15", call(GONE_SET_FORCED, 3, 5, 0, 0), 2);
    expect("program roles", "number with a fourth", call(RC_CALL_SET_PROGRAM_ROLES, 3, 5, 6, 1), 2);
    expect("program roles", "number of the next kind", call(RC_CALL_LAST + 1, 3, 5, 6, 0), 2);
    kept_at(row, 3)[RC_KEPT_INITIAL] = 6;
    expect("program roles", "number of kind 14, ill formed", call(GONE_SET_INITIAL, 3, 5, 0, 0), 1);
    expect("program roles", "number, ill formed", call(RC_CALL_SET_PROGRAM_ROLES, 3, 5, RC_USE_FORCED_ROLE, 0), 1);
}

bool marked_examples(void)
{
    good = true;
    for (size_t i = 0; i < sizeof monitors / sizeof monitors[0]; i++) {
        m = &monitors[i];
        a1_to_a2();
        a3_to_a5();
        a6_to_a7();
        a8_to_a10();
        readings();
        until_full();
        setpoints();
        night();
        refreshes();
        kept_wrongly();
        program_roles_granted();
        program_roles_refused();
        program_roles_unknown();
    }
    return good;
}
