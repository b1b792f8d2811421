/* bench ITEM WHO TIMES: does one piece of work so many times, by the library, by the plain version, by the good one, or
   by one of the two without its test of the tables. Who counts its instructions takes the difference of two runs.
   bench same: whether the good version answers as the plain one does, on many rows, claims and nights.
   bench: prints the items, one to a line, each with the number of its tests of the tables, and into how many units its cost
   is divided. */
#include "../plain/monitor.h"
#include "good.h"
#include "night.h"
#include "same.h"
#include "tables.h"
#include <stdio.h>
#include <stdlib.h>
#include <string.h>

enum who { LIBRARY, PLAIN, PLAIN_BARE, GOOD, GOOD_BARE };

static const char *const names[] = {"library", "plain", "plain-bare", "good", "good-bare"};

static uint32_t row[RC_WORDS], claim[RC_CLAIM_WORDS], entry;
static uint8_t calls[NIGHT_CALL_BYTES], answers[NIGHT_ANSWER_BYTES];
static uint32_t refused; /* stays 0: all goes as it is meant to */

/* The calls of each of them; not inlined, so that all pay the same for the way there. */
__attribute__((noinline)) static void call(enum who who, uint32_t kind, uint32_t caller, uint32_t a, uint32_t b,
                                           uint32_t c)
{
    switch (who) {
    case LIBRARY: refused |= rc_call(row, RC_WORDS, kind, caller, a, b, c, 0).number; break;
    case PLAIN: refused |= plain_call(row, RC_WORDS, kind, caller, a, b, c, 0).number; break;
    case PLAIN_BARE: refused |= plain_act(row, kind, caller, a, b, c, 0).number; break;
    case GOOD: refused |= good_call(row, RC_WORDS, kind, caller, a, b, c, 0).number; break;
    case GOOD_BARE: refused |= good_act(row, kind, caller, a, b, c, 0).number; break;
    }
}

__attribute__((noinline)) static void well_formed(enum who who)
{
    switch (who) {
    case LIBRARY: refused |= !rc_well_formed(row, RC_WORDS); break;
    case PLAIN: refused |= !plain_well_formed(row, RC_WORDS); break;
    case GOOD: refused |= !good_well_formed(row, RC_WORDS); break;
    default: break; /* nothing is left of it */
    }
}

__attribute__((noinline)) static void climb(enum who who)
{
    switch (who) {
    case LIBRARY: refused |= rc_effective_type(row, RC_WORDS, DEEP).number; break;
    case PLAIN: refused |= plain_effective_type(row, RC_WORDS, DEEP).number; break;
    case PLAIN_BARE: refused |= plain_climb_type(row, DEEP).number; break;
    case GOOD: refused |= good_effective_type(row, RC_WORDS, DEEP).number; break;
    case GOOD_BARE: refused |= good_climb_type(row, DEEP).number; break;
    }
}

__attribute__((noinline)) static void check_claim(enum who who)
{
    switch (who) {
    case LIBRARY: refused |= rc_check_claim(row, RC_WORDS, claim, RC_CLAIM_WORDS).number; break;
    case PLAIN: refused |= plain_check_claim(row, RC_WORDS, claim, RC_CLAIM_WORDS).number; break;
    case PLAIN_BARE: refused |= plain_judge_claim(row, claim).number; break;
    case GOOD: refused |= good_check_claim(row, RC_WORDS, claim, RC_CLAIM_WORDS).number; break;
    case GOOD_BARE: refused |= good_judge_claim(row, claim).number; break;
    }
}

/* 45 metres of head into a file of type 0, which is the one of lists in metres. */
#define SETPOINT CALLER, PROGRAM, RC_UNIT_METRES, 45000, 0, 1, &entry, 1

__attribute__((noinline)) static void setpoint(enum who who)
{
    switch (who) {
    case LIBRARY: refused |= rc_setpoint(row, RC_WORDS, SETPOINT).number; break;
    case PLAIN: refused |= plain_setpoint(row, RC_WORDS, SETPOINT).number; break;
    case PLAIN_BARE: refused |= plain_enter(row, SETPOINT).number; break;
    case GOOD: refused |= good_setpoint(row, RC_WORDS, SETPOINT).number; break;
    case GOOD_BARE: refused |= good_enter(row, SETPOINT).number; break;
    }
}

#define NIGHT calls, NIGHT_CALL_BYTES, answers, NIGHT_ANSWER_BYTES

__attribute__((noinline)) static void night(enum who who)
{
    switch (who) {
    case LIBRARY: refused |= rc_batch(row, RC_WORDS, NIGHT).number; break;
    case PLAIN: refused |= plain_batch(row, RC_WORDS, NIGHT).number; break;
    case PLAIN_BARE: plain_night(row, calls, NIGHT_ITEMS, answers); break;
    case GOOD: refused |= good_batch(row, RC_WORDS, NIGHT).number; break;
    case GOOD_BARE: good_night(row, calls, NIGHT_ITEMS, answers); break;
    }
}

static void access_file(enum who who)
{
    call(who, RC_CALL_ACCESS, CALLER, RC_GROUP_FILESYSTEM, PROGRAM, RC_RIGHT_READ);
}

static void access_deep(enum who who)
{
    call(who, RC_CALL_ACCESS, CALLER, RC_GROUP_FILESYSTEM, DEEP, RC_RIGHT_READ);
}

static void clone_exit(enum who who)
{
    call(who, RC_CALL_CLONE, CALLER, 0, 0, 0);
    call(who, RC_CALL_EXIT, LAST_PROCESS, 0, 0, 0);
}

static void execute(enum who who)
{
    call(who, RC_CALL_EXECUTE, CALLER, PROGRAM, 0, 0);
}

static void owner_role(enum who who)
{
    call(who, RC_CALL_CHANGE_OWNER, CALLER, 2, 0, 0); /* to role 4 */
    call(who, RC_CALL_CHANGE_ROLE, CALLER, 3, 0, 0);
}

static void create_delete(enum who who)
{
    call(who, RC_CALL_CREATE, CALLER, RC_DIR, FOLDER, 0);
    call(who, RC_CALL_DELETE, CALLER, LAST_FILE, 0, 0);
}

/* The type of the root changes each time between two, and with it that of every object. */
static void refresh(enum who who)
{
    uint32_t type = row[RC_FILES_AT + RC_FILE_TYPE] == 1 ? 2 : 1;
    call(who, RC_CALL_SET_TYPE, ADMIN, RC_GROUP_FILESYSTEM, 0, type);
}

/* Both values change each time between two. */
static void set_roles(enum who who, uint32_t file)
{
    uint32_t role = row[RC_FILES_AT + RC_FILE_WORDS * file + RC_FILE_INITIAL] == 5 ? 7 : 5;
    call(who, RC_CALL_SET_PROGRAM_ROLES, ADMIN, file, role, role + 1);
}

static void program_roles(enum who who)
{
    set_roles(who, PROGRAM);
}

static void refresh_roles(enum who who)
{
    set_roles(who, 0);
}

/* ---- What the items are made on ---- */

static void busy(void)
{
    busy_tables(row);
}

static void dense(void)
{
    dense_claim(row, claim);
}

static void sparse(void)
{
    sparse_claim(row, claim);
}

static void flat(void)
{
    flat_tree(row);
}

static void deep(void)
{
    deep_tree(row);
}

static void backward(void)
{
    backward_tree(row);
}

/* Every object keeps the root's own value, which is the type, or the initial or forced one behind it. */
static void follow_root(uint32_t which)
{
    for (uint32_t f = 0; f < LAST_FILE; f++)
        refused |= row[RC_KEPT_AT + RC_KEPT_WORDS * f + which] != row[RC_FILES_AT + RC_FILE_TYPE + which];
}

static void after_refreshes(void)
{
    follow_root(RC_KEPT_TYPE);
}

static void after_both_refreshes(void)
{
    follow_root(RC_KEPT_INITIAL);
    follow_root(RC_KEPT_FORCED);
}

static void before_the_night(void)
{
    night_tables(row);
    night_calls(calls);
}

static void after_the_night(void)
{
    refused |= !night_went_well(row, answers);
}

static const struct {
    const char *name, *what;
    uint32_t tests, units;
    void (*work)(enum who);
    void (*before)(void);
    void (*after)(void);
} items[] = {
    {"well-formed", "well formed", 1, 1, well_formed, busy, NULL},
    {"access", "access", 1, 1, access_file, busy, NULL},
    {"access-deep", "access at depth 15", 1, 1, access_deep, busy, NULL},
    {"clone-exit", "clone and exit (2 calls)", 2, 1, clone_exit, busy, NULL},
    {"execute", "execute", 1, 1, execute, busy, NULL},
    {"owner-role", "owner and role (2 calls)", 2, 1, owner_role, busy, NULL},
    {"create-delete", "create, delete (2 calls)", 2, 1, create_delete, busy, NULL},
    {"climb", "effective type, depth 15", 1, 1, climb, busy, NULL},
    {"refresh-flat", "set root's type, flat tree", 1, 1, refresh, flat, after_refreshes},
    {"refresh-deep", "set root's type, deep tree", 1, 1, refresh, deep, after_refreshes},
    {"refresh-backward", "set root's type, backward", 1, 1, refresh, backward, after_refreshes},
    {"program-roles", "set program roles", 1, 1, program_roles, busy, NULL},
    {"program-roles-deep", "set root's roles, deep", 1, 1, refresh_roles, deep, after_both_refreshes},
    {"claim-dense", "claim accepted, dense", 1, 1, check_claim, dense, NULL},
    {"claim-sparse", "claim accepted, sparse", 1, 1, check_claim, sparse, NULL},
    {"setpoint", "setpoint in metres", 1, 1, setpoint, busy, NULL},
    {"night", "mixed night, for each call", 1, NIGHT_ITEMS, night, before_the_night, after_the_night},
};

#define ITEMS (sizeof items / sizeof items[0])

/* The number of a name in a list, or its length. */
static size_t named(const char *name, const char *const *list, size_t length)
{
    size_t i = 0;
    while (i < length && strcmp(list[i], name) != 0)
        i++;
    return i;
}

int main(int argc, char **argv)
{
    if (argc == 2 && strcmp(argv[1], "same") == 0)
        return good_is_same() ? 0 : 1;
    if (argc != 4) {
        for (size_t i = 0; i < ITEMS; i++)
            printf("%s %u %u %s\n", items[i].name, items[i].tests, items[i].units, items[i].what);
        return 0;
    }
    size_t i = 0, who = named(argv[2], names, sizeof names / sizeof names[0]);
    while (i < ITEMS && strcmp(items[i].name, argv[1]) != 0)
        i++;
    if (i == ITEMS || who == sizeof names / sizeof names[0]) {
        fprintf(stderr, "bench: no item %s, or nobody %s\n", argv[1], argv[2]);
        return 2;
    }
    items[i].before();
    for (long times = atol(argv[3]); times > 0; times--)
        items[i].work((enum who)who);
    if (items[i].after)
        items[i].after();
    if (refused == 0)
        return 0;
    fprintf(stderr, "bench: a call of %s was not answered as it should be\n", argv[1]);
    return 1;
}
