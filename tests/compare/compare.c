/* Compares the proved library with the plain version, which was written from the documents: on the marked
   examples by hand, then on many random tables and calls from fixed seeds, then on every amount of head. After every call
   all words and the answer must be the same, and every answer that a kind of call can give must have come. Nights of calls
   are made as batches and one by one. Kept values are damaged in every way, and refreshed from directories at every depth.
   Program roles are held against what each of the two values asks for alone.
   compare          everything; the last line is "compare: ok", and the status 0, exactly when all is well
   compare SCALE    the same, with so many times the random cases */
#include "batch.h"
#include "calls.h"
#include "claims.h"
#include "kept.h"
#include "marked.h"
#include "programs.h"
#include "random.h"
#include "rows.h"
#include "setpoints.h"
#include "twin.h"
#include <inttypes.h>
#include <stdio.h>
#include <stdlib.h>

uint64_t random_state;

static uint32_t row[RC_WORDS];

/* Makes one random call of this kind on both rows. */
static void random_call(uint32_t kind)
{
    struct call made = some_call(twin_row(), kind);
    twin_call(made.kind, made.caller, made.a, made.b, made.c, made.d);
}

/* The queries at every place, and at numbers that are no place. */
static void all_queries(void)
{
    for (uint32_t file = 0; file <= RC_FILES + 1; file++)
        twin_queries(file);
    twin_queries(huge());
}

static void fresh_tables(void)
{
    for (uint32_t at = 0; at < RC_WORDS; at++)
        row[at] = (uint32_t)random_bits(); /* whatever was there is overwritten */
    twin_load(row);
    twin_fresh();
    twin_well_formed();
}

/* A long life from fresh tables. */
static void from_fresh(void)
{
    fresh_tables();
    for (int i = 0; i < 4000; i++)
        random_call(random_kind());
    twin_well_formed();
    all_queries();
}

/* A shorter one from tables of any shape. */
static void from_random(void)
{
    enum density rights = percent(40) ? DENSE : percent(60) ? HALF : (enum density)below(DENSITIES);
    random_row(row, rights, (enum density)below(DENSITIES));
    twin_load(row);
    if (!twin_well_formed()) {
        printf("DIFFERENCE: random tables are not well formed\n");
        exit(1);
    }
    all_queries();
    for (int i = 0; i < 400; i++)
        random_call(random_kind());
    if (percent(25))
        all_queries();
}

/* Every kind once more, each on the same tables. */
static void single_calls(void)
{
    random_row(row, HALF, HALF);
    for (int i = 0; i < 2; i++)
        for (uint32_t kind = 0; kind <= RC_CALL_LAST; kind++) {
            twin_load(row);
            random_call(kind);
        }
}

/* What is asked of tables that may be ill formed. */
static void ask_everything(void)
{
    static const uint32_t claim[RC_CLAIM_WORDS] = {0};
    static struct batch no_items;
    twin_well_formed();
    twin_batch(&no_items);
    twin_queries(below(RC_FILES + 2));
    twin_claim(claim, RC_CLAIM_WORDS);
    random_setpoint();
    random_call(random_kind());
}

static void ask_damaged(void)
{
    twin_load(row);
    twin_well_formed();
    if (percent(10))
        ask_everything();
}

/* Every word of the row damaged in its turn. A file's word is asked about once more with the kept values that it asks for,
   since what is wrong with it could not show behind those that were kept before. */
static void one_word(void)
{
    random_row(row, DENSE, DENSE);
    for (uint32_t at = 0; at < RC_WORDS; at++) {
        uint32_t was = row[at];
        bool of_file = at >= RC_FILES_AT && at < RC_KEPT_AT;
        damage(row, at);
        ask_damaged();
        if (of_file) {
            fill_kept(row);
            ask_damaged();
        }
        row[at] = was;
        if (of_file)
            fill_kept(row);
    }
}

/* Ends the program if the damaged row passes for well formed. */
static void ask_ill_formed(const char *damaged, uint32_t way)
{
    twin_load(row);
    if (twin_well_formed()) {
        printf("DIFFERENCE: damage %" PRIu32 " to %s is well formed\n", way, damaged);
        exit(1);
    }
    ask_everything();
}

/* Several words, whole places or what links them, the kept values left or following; every kind is called. */
static void several_words(void)
{
    random_row(row, DENSE, DENSE);
    if (percent(40))
        damage_place(row);
    else
        for (uint32_t more = 2 + below(4); more > 0; more--)
            damage(row, below(RC_RIGHTS_AT));
    if (percent(50))
        fill_kept(row);
    for (uint32_t kind = 0; kind <= RC_CALL_LAST; kind++) {
        twin_load(row);
        random_call(kind);
    }
    for (uint32_t way = 0; way < LINK_DAMAGES; way++) {
        random_row(row, DENSE, DENSE);
        damage_links(row, way);
        ask_ill_formed("links", way);
    }
}

/* The kept values alone, in every way that the tables have something for. */
static void kept_values(void)
{
    for (uint32_t way = 0; way < KEPT_DAMAGES; way++) {
        random_row(row, DENSE, DENSE);
        if (damage_kept(row, way))
            ask_ill_formed("kept values", way);
    }
}

static void wrong_lengths(void)
{
    static const size_t lengths[] = {0,    1,    319,          320,          640,          767,
                                     768,  2303, 2304,         3071,         3072,         5120,
                                     5375, 5377, WITHOUT_KEPT, RC_WORDS - 1, RC_WORDS + 1, RC_WORDS + TWIN_SPARE};
    random_row(row, DENSE, DENSE);
    for (size_t i = 0; i < sizeof lengths / sizeof lengths[0]; i++) {
        twin_load(row);
        twin_lend(lengths[i]);
        twin_fresh();
        ask_everything();
        random_call(below(RC_CALL_LAST + 1));
    }
}

static const struct {
    const char *name;
    void (*run)(void);
    uint64_t cases; /* a multiple of ROUNDS */
} parts[] = {
    {"long lives from fresh tables", from_fresh, 20},
    {"random tables", from_random, 400},
    {"single calls", single_calls, 500},
    {"one damaged word", one_word, 20},
    {"several damaged words", several_words, 300},
    {"wrong lengths", wrong_lengths, 100},
    {"claims", claim_case, 300},
    {"setpoints", setpoint_case, 200},
    {"nights", night_case, 600},
    {"damaged kept values", kept_values, 100},
    {"refreshes", refresh_case, 400},
    {"program roles", program_case, 400},
};

#define PARTS (sizeof parts / sizeof parts[0])

/* The parts take turns, so that a fault of any kind shows soon. */
#define ROUNDS 20u

static uint64_t first_seed(size_t part)
{
    return (part + 1) * UINT64_C(1000000);
}

static void run_round(size_t part, uint64_t round)
{
    uint64_t cases = parts[part].cases / ROUNDS, first = first_seed(part) + round * cases;
    for (uint64_t seed = first; seed < first + cases; seed++) {
        random_state = seed;
        twin_case(parts[part].name, seed);
        parts[part].run();
    }
}

int main(int argc, char **argv)
{
    uint64_t scale = argc > 1 ? strtoull(argv[1], NULL, 10) : 1;
    bool ok = marked_examples();
    printf("marked examples, readings, full tables, setpoints, a night, kept values, program roles: %s\n",
           ok ? "as the documents say" : "NOT as the documents say");
    for (size_t i = 0; i < PARTS; i++)
        printf("%s: seeds %" PRIu64 " to %" PRIu64 "\n", parts[i].name, first_seed(i),
               first_seed(i) + parts[i].cases * scale - 1);
    printf("all roundings: 0 to %" PRIu32 " millimetres\n", RC_SETPOINT_LIMIT);
    fflush(stdout);
    for (uint64_t round = 0; round < ROUNDS * scale; round++)
        for (size_t i = 0; i < PARTS; i++)
            run_round(i, round);
    all_roundings();
    ok &= setpoint_report();
    ok &= night_report();
    ok &= kept_report();
    ok &= program_report();
    ok &= twin_report();
    printf("compare: %s\n", ok ? "ok" : "FAILED");
    return ok ? 0 : 1;
}
