/* Each word of each benchmark's row, and of its claim, is set to numbers around every limit in turn, a file's word also with
   the kept values that it asks for; whatever the row then is, well formed or not, both versions must answer alike, and leave
   the same tables behind. So they must on random nights of calls of every kind, and on random claims. */
#include "same.h"
#include "../compare/calls.h"
#include "../compare/random.h"
#include "../compare/rows.h"
#include "../plain/monitor.h"
#include "good.h"
#include "tables.h"
#include <stdio.h>
#include <string.h>

uint64_t random_state;

static uint32_t row[RC_WORDS], one[RC_WORDS], other[RC_WORDS], claim[RC_CLAIM_WORDS];

static const uint32_t around[] = {0, 1, 2, 3, 15, 16, 31, 32, 33, 34, 35, 36, 37, 255, 256, 0x20000000, 0xffffffff};

#define AROUND (sizeof around / sizeof around[0])
#define BIT(n) (UINT32_C(1) << (n))

/* ---- On tables that both find well formed ---- so that none of these tests them again */

/* One call by each, on copies. */
static bool same_call(uint32_t kind, uint32_t caller, uint32_t a, uint32_t b, uint32_t c)
{
    memcpy(one, row, sizeof row);
    memcpy(other, row, sizeof row);
    struct rc_answer plain = plain_act(one, kind, caller, a, b, c, 0);
    struct rc_answer good = good_act(other, kind, caller, a, b, c, 0);
    return plain.number == good.number && plain.place == good.place && memcmp(one, other, sizeof row) == 0;
}

static bool same_calls(uint32_t n)
{
    return same_call(RC_CALL_ACCESS, CALLER, n % 4, PROGRAM, RC_RIGHT_READ) && same_call(RC_CALL_CLONE, CALLER, 0, 0, 0) &&
           same_call(RC_CALL_EXIT, n, 0, 0, 0) && same_call(RC_CALL_EXECUTE, CALLER, PROGRAM, 0, 0) &&
           same_call(RC_CALL_EXECUTE, CALLER, n, 0, 0) && same_call(RC_CALL_CHANGE_OWNER, CALLER, n, 0, 0) &&
           same_call(RC_CALL_CHANGE_ROLE, CALLER, n, 0, 0) && same_call(RC_CALL_CREATE, CALLER, RC_DIR, FOLDER, 0) &&
           same_call(RC_CALL_CREATE, CALLER, n, n, 0) && same_call(RC_CALL_DELETE, CALLER, LAST_FILE, 0, 0) &&
           same_call(RC_CALL_DELETE, CALLER, n, 0, 0) &&
           same_call(RC_CALL_SET_TYPE, ADMIN, RC_GROUP_FILESYSTEM, 0, n) &&
           same_call(RC_CALL_SET_PROGRAM_ROLES, ADMIN, FOLDER, n, 7) &&
           same_call(RC_CALL_SET_PROGRAM_ROLES, ADMIN, n % 16, RC_INHERIT_PARENT, n) &&
           same_call(RC_CALL_SET_PROGRAM_ROLES, CALLER, FOLDER, n, n);
}

static bool same_climb(uint32_t file)
{
    struct rc_found plain = plain_climb_type(row, file), good = good_climb_type(row, file);
    return plain.number == good.number && plain.value == good.value && plain.climbed == good.climbed &&
           plain.place == good.place;
}

/* One setpoint by each, with three entries to write to. */
static bool same_setpoint(uint32_t process, uint32_t list, uint32_t unit, uint32_t amount, uint32_t metres_type,
                          uint32_t kilopascals_type, size_t n_entries)
{
    uint32_t from_plain[3] = {0}, from_good[3] = {0};
    struct rc_answer plain =
        plain_enter(row, process, list, unit, amount, metres_type, kilopascals_type, from_plain, n_entries);
    struct rc_answer good =
        good_enter(row, process, list, unit, amount, metres_type, kilopascals_type, from_good, n_entries);
    return plain.number == good.number && plain.place == good.place &&
           memcmp(from_plain, from_good, sizeof from_plain) == 0;
}

static bool same_setpoints(uint32_t n)
{
    return same_setpoint(n, PROGRAM, 0, 45000, 0, 1, 1) && same_setpoint(LAST_PROCESS, n, 0, 45000, 0, 1, 1) &&
           same_setpoint(CALLER, n, 0, 10000, 0, 1, 2) && same_setpoint(CALLER, PROGRAM, n % 3, n, 0, n, n % 4) &&
           same_setpoint(CALLER, PROGRAM, 1, n, n, 0, 3) &&
           same_setpoint(CALLER, PROGRAM, 0, RC_SETPOINT_LIMIT + n, 0, 1, 1);
}

/* ---- On any tables ---- */

static bool same_verdict(void)
{
    struct rc_verdict plain = plain_check_claim(row, RC_WORDS, claim, RC_CLAIM_WORDS);
    struct rc_verdict good = good_check_claim(row, RC_WORDS, claim, RC_CLAIM_WORDS);
    return plain.number == good.number && plain.rule == good.rule;
}

/* All answers on the row and the claim as they are; calls only where one is granted at all. */
static bool same_answers(uint32_t n)
{
    bool formed = plain_well_formed(row, RC_WORDS);
    if (formed != good_well_formed(row, RC_WORDS) || !same_verdict())
        return false;
    return !formed || (same_calls(n) && same_setpoints(n) && same_climb(DEEP) && same_climb(n));
}

/* The same once more with kept values as the files have it, and those as they were again. */
static bool same_filled(uint32_t n)
{
    uint32_t *kept = kept_at(row, 0), before[RC_KEPT_WORDS * RC_FILES];
    memcpy(before, kept, sizeof before);
    fill_kept(row);
    bool same = same_answers(n);
    memcpy(kept, before, sizeof before);
    return same;
}

/* The words from..to of the row or of the claim, each with every number; on the claim only its verdict depends. */
static bool same_around(uint32_t *words, size_t from, size_t to, size_t step)
{
    for (size_t at = from; at < to; at += step)
        for (size_t i = 0; i < AROUND; i++) {
            uint32_t was = words[at];
            bool of_row = words == row, of_file = of_row && at >= RC_FILES_AT && at < RC_KEPT_AT;
            words[at] = around[i];
            bool same = of_row ? same_answers(around[i]) && (!of_file || same_filled(around[i])) : same_verdict();
            words[at] = was;
            if (!same) {
                fprintf(stderr, "bench: good and plain differ with word %zu at %u\n", at, around[i]);
                return false;
            }
        }
    return true;
}

/* One night by each on random tables: some bytes are any, some lengths are wrong. */
static bool same_night(uint64_t seed)
{
    uint8_t calls[RC_ITEM_BYTES * 50], from_plain[RC_ANSWER_BYTES * 50] = {0}, from_good[RC_ANSWER_BYTES * 50] = {0};
    random_state = seed;
    random_row(row, percent(50) ? DENSE : HALF, (enum density)below(DENSITIES));
    memcpy(other, row, sizeof row);
    for (uint8_t *item = calls; item < calls + sizeof calls; item += RC_ITEM_BYTES)
        put_item(item, some_call(row, random_kind()));
    for (uint32_t damaged = below(10); damaged > 0; damaged--)
        calls[below(sizeof calls)] = (uint8_t)below(256);
    size_t call_bytes = sizeof calls - (percent(90) ? 0 : below(40));
    size_t answer_bytes = sizeof from_plain - (percent(90) ? 0 : below(4));
    struct rc_answer plain = plain_batch(row, RC_WORDS, calls, call_bytes, from_plain, answer_bytes);
    struct rc_answer good = good_batch(other, RC_WORDS, calls, call_bytes, from_good, answer_bytes);
    bool same = plain.number == good.number && plain.place == good.place && memcmp(row, other, sizeof row) == 0 &&
                memcmp(from_plain, from_good, sizeof from_plain) == 0;
    if (!same)
        fprintf(stderr, "bench: good and plain differ in the night of seed %u\n", (unsigned)seed);
    return same;
}

/* Roles that break none of the rules 2 to 5 by themselves, and few that create files. */
static void tame_roles(uint32_t type)
{
    for (uint32_t r = 0; r < RC_ROLES; r++) {
        role_at(row, r)[RC_ROLE_MARK] = 0;
        if (role_at(row, r)[RC_ROLE_FILE_CREATE] == type)
            role_at(row, r)[RC_ROLE_FILE_CREATE] = RC_INHERIT_PARENT;
        *rights_at(row, RC_GROUP_FILESYSTEM, r, type) = 0;
    }
    for (uint32_t at = RC_RIGHTS_AT; at < RC_WORDS; at++)
        row[at] &= ~(BIT(RC_RIGHT_ASSIGN) | (percent(95) ? BIT(RC_RIGHT_CREATE) : 0));
}

/* One claim by each on random tables, mostly one that only what is said of files can break. */
static bool same_claim(uint64_t seed)
{
    random_state = seed;
    random_row(row, SPARSE, EMPTY);
    enum density types = (enum density)below(DENSITIES);
    claim[RC_CLAIM_PROCESS] = 0;
    claim[RC_CLAIM_TYPE] = below(RC_TYPES);
    claim[RC_CLAIM_ROLES] = random_set(percent(50) ? HALF : DENSE) | BIT(process_at(row, 0)[RC_PROCESS_ROLE]);
    claim[RC_CLAIM_PROCESS_TYPES] = UINT32_MAX;
    tame_roles(claim[RC_CLAIM_TYPE]);
    for (uint32_t o = 0; o < RC_FILES; o++)
        claim[RC_CLAIM_FILE_TYPES + o] =
            file_at(row, o)[RC_FILE_KIND] == RC_FREE ? 0 : random_set(types) | BIT(kept_at(row, o)[RC_KEPT_TYPE]);
    if (percent(10))
        claim[below(RC_CLAIM_WORDS)] = random_set(HALF);
    bool same = same_verdict();
    if (!same)
        fprintf(stderr, "bench: good and plain differ in the claim of seed %u\n", (unsigned)seed);
    return same;
}

bool good_is_same(void)
{
    for (uint64_t seed = 0; seed < 2000; seed++)
        if (!same_night(seed) || !same_claim(seed))
            return false;
    static void (*const made[])(uint32_t *, uint32_t *) = {dense_claim, sparse_claim};
    for (size_t i = 0; i < sizeof made / sizeof made[0]; i++) {
        made[i](row, claim);
        if (!same_around(row, 0, RC_RIGHTS_AT, 1) || !same_around(row, RC_RIGHTS_AT, RC_WORDS, 7) ||
            !same_around(claim, 0, RC_CLAIM_WORDS, 1))
            return false;
    }
    return true;
}
