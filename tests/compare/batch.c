#include "batch.h"
#include "calls.h"
#include "kept.h"
#include "random.h"
#include "rows.h"
#include "twin.h"
#include <inttypes.h>
#include <stdio.h>
#include <string.h>

#define KINDS (RC_CALL_LAST + 1)
#define NUMBERS_AT 2u /* behind the kind and the caller */
#define CALL_BYTES 6u /* the kind, the caller and four numbers, as many as a call has */
#define MOST_ITEMS (TWIN_ITEMS - 1) /* which leaves room for a part of one more */

/* How many numbers each kind takes, from kind 0 on, as docs/KINDS.md lists them; all bytes behind those are filler. */
static const uint8_t takes[KINDS] = {0, 3, 0, 0, 1, 1, 1, 2, 1, 0, 1, 3, 3, 2, 0, 0, 2, 3, 2, 3, 4, 4, 3};

/* The tables before the night, and what the items one by one leave and answer. */
static uint32_t row[RC_WORDS], after[RC_WORDS];
static uint8_t alone[RC_ANSWER_BYTES * TWIN_ITEMS];

static struct batch night;
static uint32_t items;

/* Which place an item took last in the night, table by table, so that a later one can use it. */
enum table { PROCESS, FILE_OR_DIR, IPC, TABLES };
#define NONE UINT32_MAX
static uint32_t newest[TABLES];

/* ---- What must come ---- */

enum {
    NO_ITEMS,
    NO_ITEMS_WITH_ROOM,
    EXACT_ANSWERS,
    LONGER_ANSWERS,
    SHORT_BY_ONE,
    NO_ANSWERS,
    NO_MULTIPLE,
    ILL_FORMED,
    ILL_FORMED_NO_ITEMS,
    ILL_FORMED_WRONG_LENGTHS,
    WRONG_ROW,
    GRANTED_AFTER_REFUSED,
    NEW_PROCESS_CALLS,
    NEW_FILE_USED,
    NEW_IPC_USED,
    KIND_0,
    KIND_14,
    KIND_15,
    KIND_23,
    KIND_255,
    CALLER_64,
    CALLER_255,
    FILLER_FROM_DEAD,
    UNKNOWN_FROM_DEAD,
    CASES
};

static const char *const case_name[CASES] = {
    [NO_ITEMS] = "no items",
    [NO_ITEMS_WITH_ROOM] = "with room for answers",
    [EXACT_ANSWERS] = "answers of the exact length",
    [LONGER_ANSWERS] = "longer",
    [SHORT_BY_ONE] = "short by one byte",
    [NO_ANSWERS] = "none",
    [NO_MULTIPLE] = "items of no multiple",
    [ILL_FORMED] = "ill formed",
    [ILL_FORMED_NO_ITEMS] = "with no items",
    [ILL_FORMED_WRONG_LENGTHS] = "with wrong lengths",
    [WRONG_ROW] = "with a wrong row",
    [GRANTED_AFTER_REFUSED] = "granted after a refusal",
    [NEW_PROCESS_CALLS] = "a new process calls",
    [NEW_FILE_USED] = "a new file is used",
    [NEW_IPC_USED] = "a new IPC object",
    [KIND_0] = "kind 0",
    [KIND_14] = "kind 14",
    [KIND_15] = "kind 15",
    [KIND_23] = "kind 23",
    [KIND_255] = "kind 255",
    [CALLER_64] = "caller 64",
    [CALLER_255] = "caller 255",
    [FILLER_FROM_DEAD] = "filler from a dead caller",
    [UNKNOWN_FROM_DEAD] = "an unknown kind from one",
};
static uint64_t case_hits[CASES];

static const char *const filler_name[RC_ITEM_BYTES] = {"0", "1", "2",  "3",  "4",  "5",  "6",  "7",
                                                       "8", "9", "10", "11", "12", "13", "14", "15"};
static uint64_t filler_hits[RC_ITEM_BYTES]; /* by the first byte of filler that is not zero */

/* All that the tables let an item be answered: not 1, since they are well formed once the batch begins. */
static const char *const answer_name[] = {"0", "2", "3", "4", "5", "6", "7", "8"};
#define ANSWERS (sizeof answer_name / sizeof answer_name[0])
static uint64_t answer_hits[ANSWERS];

static uint64_t granted_hits[KINDS];
static uint64_t night_count, item_count;

bool night_report(void)
{
    const char *kind_name[KINDS];
    uint64_t kind_hits[KINDS];
    int kinds = 0;
    for (uint32_t kind = 0; kind < KINDS; kind++)
        if (is_known(kind)) {
            kind_name[kinds] = rc_kind_text(kind);
            kind_hits[kinds++] = granted_hits[kind];
        }
    printf("%" PRIu64 " nights of %" PRIu64 " items\n", night_count, item_count);
    bool complete = twin_counts("items answered", answer_name, answer_hits, ANSWERS);
    complete &= twin_counts("items granted", kind_name, kind_hits, kinds);
    complete &= twin_counts("first filler not zero at byte", filler_name + NUMBERS_AT, filler_hits + NUMBERS_AT,
                            RC_ITEM_BYTES - NUMBERS_AT);
    return twin_counts("nights", case_name, case_hits, CASES) && complete;
}

/* ---- Items ---- */

/* The byte that names a place of one of the tables: what the item is about, else its caller. */
static uint8_t *place_in(uint8_t *item, enum table *table)
{
    switch (item[0]) {
    case RC_CALL_EXECUTE:
    case RC_CALL_DELETE:
    case RC_CALL_SET_PROGRAM_ROLES: *table = FILE_OR_DIR; return item + NUMBERS_AT;
    case RC_CALL_CREATE: *table = FILE_OR_DIR; return item + NUMBERS_AT + 1;
    case RC_CALL_DELETE_IPC: *table = IPC; return item + NUMBERS_AT;
    default: *table = PROCESS; return item + 1;
    }
}

static uint32_t filler_at(const uint8_t *item)
{
    return NUMBERS_AT + (is_known(item[0]) ? takes[item[0]] : 0);
}

/* The first byte of filler that is not zero, or the item's end. */
static uint32_t first_damaged(const uint8_t *item)
{
    uint32_t at = filler_at(item);
    while (at < RC_ITEM_BYTES && item[at] == 0)
        at++;
    return at;
}

/* Mostly the first or the last number that is none, up to 255. */
static uint8_t none_from(uint32_t first)
{
    return (uint8_t)(percent(40) ? first : percent(40) ? 255 : first + below(256 - first));
}

/* Breaks what makes the item a call: its kind, its caller or one byte of its filler; some have a dead caller besides. */
static void damage_item(uint8_t *item)
{
    uint32_t at = filler_at(item);
    if (percent(20))
        item[1] = (uint8_t)below(RC_PROCESSES);
    switch (below(5)) {
    case 0: item[0] = percent(20) ? 0 : none_from(KINDS); break;
    case 1: item[1] = none_from(RC_PROCESSES); break;
    default: item[at + below(RC_ITEM_BYTES - at)] = (uint8_t)(percent(50) ? 1u << below(8) : 1 + below(255)); break;
    }
}

static void choose_item(uint8_t *item)
{
    enum table table;
    put_item(item, some_call(twin_row(), random_kind()));
    uint8_t *place = place_in(item, &table);
    if (newest[table] != NONE && percent(30))
        *place = (uint8_t)newest[table];
    if (percent(12))
        damage_item(item);
}

/* ---- One by one ---- */

static void count_item(uint8_t *item, bool refused_before, struct rc_answer answer, bool dead)
{
    bool granted = answer.number == RC_GRANTED, unknown = !is_known(item[0]);
    enum table table;
    uint8_t *place = place_in(item, &table);
    bool used = granted && newest[table] == *place;
    uint32_t damaged = first_damaged(item);
    const bool came[CASES] = {
        [GRANTED_AFTER_REFUSED] = granted && refused_before,
        [NEW_PROCESS_CALLS] = used && table == PROCESS,
        [NEW_FILE_USED] = used && table == FILE_OR_DIR,
        [NEW_IPC_USED] = used && table == IPC,
        [KIND_0] = item[0] == 0,
        [KIND_14] = item[0] == GONE_SET_INITIAL,
        [KIND_15] = item[0] == GONE_SET_FORCED,
        [KIND_23] = item[0] == RC_CALL_LAST + 1,
        [KIND_255] = item[0] == 255,
        [CALLER_64] = item[1] == RC_PROCESSES,
        [CALLER_255] = item[1] == 255,
        [FILLER_FROM_DEAD] = dead && !unknown && damaged >= CALL_BYTES && damaged < RC_ITEM_BYTES,
        [UNKNOWN_FROM_DEAD] = dead && unknown,
    };
    for (int i = 0; i < CASES; i++)
        case_hits[i] += came[i];
    if (!unknown && damaged < RC_ITEM_BYTES)
        filler_hits[damaged]++;
    if (granted)
        granted_hits[item[0]]++;
    answer_hits[granted ? 0 : answer.number - 1]++;
    item_count++;
}

/* An item by itself. Where filler is not zero behind the numbers of rc_call, there is no call to make: it is 2. */
static struct rc_answer make_alone(const uint8_t *item)
{
    uint32_t damaged = first_damaged(item);
    struct rc_answer answer = {RC_OUT_OF_RANGE, 0};
    if (damaged < CALL_BYTES || damaged == RC_ITEM_BYTES)
        answer = twin_call(item[0], item[1], item[2], item[3], item[4], item[5]);
    if (answer.number != RC_OUT_OF_RANGE && (!is_known(item[0]) || damaged < RC_ITEM_BYTES))
        twin_differs("what is no call was not answered 2");
    return answer;
}

static void note_place(uint32_t kind, uint32_t place)
{
    switch (kind) {
    case RC_CALL_CLONE: newest[PROCESS] = place; break;
    case RC_CALL_CREATE: newest[FILE_OR_DIR] = place; break;
    case RC_CALL_CREATE_IPC: newest[IPC] = place; break;
    default: break;
    }
}

/* Chooses the items, each by what those before it left, and makes them. */
static void one_by_one(void)
{
    bool refused = false;
    items = percent(10) ? 0 : percent(10) ? MOST_ITEMS : below(30);
    newest[PROCESS] = newest[FILE_OR_DIR] = newest[IPC] = NONE;
    twin_load(row);
    for (uint32_t k = 0; k < items; k++) {
        uint8_t *item = night.calls + RC_ITEM_BYTES * k;
        choose_item(item);
        bool dead = item[1] < RC_PROCESSES && twin_row()[RC_PROCESSES_AT + RC_PROCESS_WORDS * item[1]] == 0;
        struct rc_answer answer = make_alone(item);
        count_item(item, refused, answer, dead);
        alone[RC_ANSWER_BYTES * k] = (uint8_t)answer.number;
        alone[RC_ANSWER_BYTES * k + 1] = (uint8_t)answer.place;
        if (answer.number == RC_GRANTED)
            note_place(item[0], answer.place);
        else
            refused = true;
    }
    memcpy(after, twin_row(), sizeof after);
}

/* ---- At once ---- */

/* The night on these tables: with 0 the answers and the tables are as one by one, else nothing has changed. */
static void at_once(const uint32_t *tables, size_t words, size_t call_bytes, size_t answer_bytes, uint32_t number)
{
    uint8_t wanted[sizeof night.answers];
    memset(wanted, (int)below(256), sizeof wanted);
    memcpy(night.answers, wanted, sizeof wanted);
    if (number == RC_GRANTED)
        memcpy(wanted, alone, RC_ANSWER_BYTES * items);
    night.call_bytes = call_bytes;
    night.answer_bytes = answer_bytes;
    twin_load(tables);
    twin_lend(words);
    struct rc_answer answer = twin_batch(&night);
    if (answer.number != number || answer.place != 0)
        twin_differs("the batch has another answer than it should have");
    if (memcmp(night.answers, wanted, sizeof wanted) != 0)
        twin_differs("the bytes for answers are not as the items one by one have it");
    if (memcmp(twin_row(), number == RC_GRANTED ? after : tables, sizeof row) != 0)
        twin_differs("the tables are not as the items one by one leave them");
}

/* So many bytes for answers: as many as are needed, or more of them. */
static size_t enough(void)
{
    size_t needed = RC_ANSWER_BYTES * items;
    return percent(50) ? needed : needed + 1 + below((uint32_t)(sizeof night.answers - needed));
}

static void accepted(void)
{
    size_t needed = RC_ANSWER_BYTES * items, lent = enough();
    at_once(row, RC_WORDS, RC_ITEM_BYTES * items, lent, RC_GRANTED);
    if (items == 0)
        case_hits[lent == 0 ? NO_ITEMS : NO_ITEMS_WITH_ROOM]++;
    else
        case_hits[lent == needed ? EXACT_ANSWERS : LONGER_ANSWERS]++;
    night_count++;
}

static size_t no_multiple(void)
{
    return RC_ITEM_BYTES * items + 1 + below(RC_ITEM_BYTES - 1);
}

static void wrong_lengths(void)
{
    at_once(row, RC_WORDS, no_multiple(), percent(80) ? sizeof night.answers : enough(), RC_OUT_OF_RANGE);
    case_hits[NO_MULTIPLE]++;
    if (items == 0)
        return;
    size_t lent = percent(60) ? RC_ANSWER_BYTES * items - 1 : percent(50) ? 0 : below(RC_ANSWER_BYTES * items);
    at_once(row, RC_WORDS, RC_ITEM_BYTES * items, lent, RC_OUT_OF_RANGE);
    case_hits[SHORT_BY_ONE] += lent == RC_ANSWER_BYTES * items - 1;
    case_hits[NO_ANSWERS] += lent == 0;
}

/* What links the tables, or a kept value: there is always one to damage, if not in every way. */
static void damage_surely(uint32_t *tables)
{
    if (percent(60))
        damage_links(tables, below(LINK_DAMAGES));
    else
        while (!damage_kept(tables, below(KEPT_DAMAGES)))
            ;
}

/* Damaged tables, or a row of another length; number 1 comes first, whatever is wrong besides. */
static void ill_formed(void)
{
    static uint32_t damaged[RC_WORDS];
    static const size_t lengths[] = {
        0, 1, RC_RIGHTS_AT, WITHOUT_KEPT, RC_WORDS - 1, RC_WORDS + 1, RC_WORDS + TWIN_SPARE};
    bool other_length = percent(30), wrong = percent(40), empty = percent(30);
    size_t words = other_length ? lengths[below(sizeof lengths / sizeof lengths[0])] : RC_WORDS;
    memcpy(damaged, row, sizeof row);
    if (!other_length)
        damage_surely(damaged);
    size_t call_bytes = empty ? 0 : wrong ? no_multiple() : RC_ITEM_BYTES * items;
    at_once(damaged, words, call_bytes, wrong ? 0 : enough(), RC_ILL_FORMED);
    case_hits[WRONG_ROW] += other_length;
    case_hits[ILL_FORMED_NO_ITEMS] += call_bytes == 0;
    case_hits[ILL_FORMED_WRONG_LENGTHS] += wrong && call_bytes != 0;
    case_hits[ILL_FORMED] += !wrong && call_bytes != 0;
}

void night_case(void)
{
    enum density rights = percent(40) ? FULL : percent(60) ? DENSE : HALF;
    random_row(row, rights, (enum density)below(DENSITIES));
    for (int nights = 0; nights < 4; nights++) {
        one_by_one();
        accepted();
        wrong_lengths();
        ill_formed();
    }
}
