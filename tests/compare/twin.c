#include "twin.h"
#include <inttypes.h>
#include <stdio.h>
#include <stdlib.h>
#include <string.h>

static struct room {
    uint32_t before_row[TWIN_SPARE], row[RC_WORDS], before_entries[TWIN_SPARE], entries[TWIN_ENTRIES];
    uint32_t before_calls[TWIN_SPARE];
    uint8_t calls[RC_ITEM_BYTES * TWIN_ITEMS];
    uint32_t before_answers[TWIN_SPARE];
    uint8_t answers[RC_ANSWER_BYTES * TWIN_ITEMS];
    uint32_t after[TWIN_SPARE];
} library, plain;

static size_t lent = RC_WORDS;
static const char *part = "";
static uint64_t seed;
static uint64_t calls;

/* ---- How often each answer came ---- */

enum { FRESH = RC_CALL_LAST + 1, WELL_FORMED, TYPE, INITIAL, FORCED, KIND, CLAIM, BATCH, IN_METRES,
       IN_KILOPASCALS, IN_OTHER_UNIT, LINES };

/* The calls by kind, those that are gone too, 0 for all other unknown ones; then the other functions, setpoints by their
   unit. The digits are the answers that can occur. */
static const struct {
    const char *name, *answers;
} line[LINES] = {
    {"unknown kind", "12"},
    {"access", "012345"},
    {"clone", "012358"},
    {"exit", "01236"},
    {"execute", "012345"},
    {"change owner", "01235"},
    {"change role", "01235"},
    {"create", "01234578"},
    {"delete", "0123456"},
    {"create IPC", "012358"},
    {"delete IPC", "012345"},
    {"add role", "01235"},
    {"remove role", "01235"},
    {"set user's role", "01235"},
    {"gone: set initial", "12"},
    {"gone: set forced", "12"},
    {"set process forced", "012345"},
    {"set default type", "01235"},
    {"set Role Admin", "01235"},
    {"set type", "012345"},
    {"add right", "01235"},
    {"remove right", "01235"},
    {"set program roles", "012345"},
    {"fresh", "01"},
    {"well formed (1 yes)", "01"},
    {"effective type", "0124"},
    {"effective initial", "0124"},
    {"effective forced", "0124"},
    {"file kind", "0124"},
    {"check claim", "01239"},
    {"batch", "012"},
    {"setpoint metres", "012345"},
    {"setpoint kilopascals", "012345"},
    {"setpoint other unit", "12"},
};

static uint64_t hits[LINES][10];
static uint64_t rule_hits[10];
static uint64_t climb_hits[RC_DEPTH_MOST + 1];

/* Where climbs end: at the file asked for, at a directory above it, at the root; and files whose three values come from
   three places. */
enum { ITSELF, ABOVE, AT_THE_ROOT, THREE_PLACES, ENDS };
static const char *const end_name[ENDS] = {"at itself", "above", "at the root", "at three places"};
static uint64_t end_hits[ENDS];

enum { A_FILE, A_DIR, KINDS };
static const char *const kind_name[KINDS] = {"FILE", "DIR"};
static uint64_t kind_hits[KINDS];

static void hit(int which, uint32_t number)
{
    if (number > 9) {
        printf("%s: answer %" PRIu32 " is none of the ten\n", line[which].name, number);
        exit(1);
    }
    hits[which][number]++;
    calls++;
}

bool twin_counts(const char *what, const char *const *names, const uint64_t *counts, int length)
{
    bool complete = true;
    printf("%s:", what);
    for (int i = 0; i < length; i++) {
        printf("%s %s %" PRIu64, i ? "," : "", names[i], counts[i]);
        complete &= counts[i] != 0;
    }
    printf("\n");
    return complete;
}

bool twin_report(void)
{
    bool complete = true;
    printf("%-20s", "answers");
    for (int number = 0; number < 10; number++)
        printf("%9d", number);
    printf("\n");
    for (int which = 0; which < LINES; which++) {
        printf("%-20s", line[which].name);
        for (int number = 0; number < 10; number++) {
            bool can = strchr(line[which].answers, '0' + number) != NULL;
            bool came = hits[which][number] != 0;
            complete &= can == came;
            if (can != came)
                printf("%9s", can ? "NEVER" : "WRONG");
            else if (can)
                printf("%9" PRIu64, hits[which][number]);
            else
                printf("%9s", "");
        }
        printf("\n");
    }
    printf("claim, first broken:");
    for (int rule = 1; rule < 10; rule++) {
        printf(" C%d %" PRIu64, rule, rule_hits[rule]);
        complete &= rule_hits[rule] != 0;
    }
    printf("\nparents climbed:");
    for (uint32_t n = 0; n <= RC_DEPTH_MOST; n++) {
        printf(" %" PRIu64, climb_hits[n]);
        complete &= climb_hits[n] != 0;
    }
    printf("\n");
    complete &= twin_counts("climbs ended", end_name, end_hits, ENDS);
    complete &= twin_counts("kinds found", kind_name, kind_hits, KINDS);
    printf("%" PRIu64 " calls compared\n", calls);
    return complete;
}

/* ---- Where two rows differ ---- */

static const struct {
    const char *name;
    uint32_t at, words;
} table[] = {
    {"process", RC_PROCESSES_AT, RC_PROCESS_WORDS}, {"user", RC_USERS_AT, RC_USER_WORDS},
    {"role", RC_ROLES_AT, RC_ROLE_WORDS},           {"IPC object", RC_IPCS_AT, RC_IPC_WORDS},
    {"file", RC_FILES_AT, RC_FILE_WORDS},           {"values kept of file", RC_KEPT_AT, RC_KEPT_WORDS},
    {"rights of group and role", RC_RIGHTS_AT, RC_TYPES},
};

static void print_word(uint32_t at)
{
    size_t which = sizeof table / sizeof table[0] - 1;
    while (table[which].at > at)
        which--;
    uint32_t inside = at - table[which].at;
    printf("word %" PRIu32 " (%s %" PRIu32 ", word %" PRIu32 ")", at, table[which].name, inside / table[which].words,
           inside % table[which].words);
}

/* The first item that is answered differently, if there is one. */
static void print_item(void)
{
    for (size_t k = 0; k < TWIN_ITEMS; k++) {
        const uint8_t *l = library.answers + RC_ANSWER_BYTES * k, *p = plain.answers + RC_ANSWER_BYTES * k;
        if (memcmp(l, p, RC_ANSWER_BYTES) == 0)
            continue;
        printf("  item %zu, of kind %u: library %u, place %u; plain %u, place %u\n", k,
               plain.calls[RC_ITEM_BYTES * k], l[0], l[1], p[0], p[1]);
        return;
    }
}

static void print_difference(void)
{
    print_item();
    for (uint32_t at = 0; at < RC_WORDS; at++)
        if (library.row[at] != plain.row[at]) {
            printf("  ");
            print_word(at);
            printf(": library %" PRIu32 ", plain %" PRIu32 "\n", library.row[at], plain.row[at]);
            return;
        }
    printf("  the rows are the same%s\n",
           memcmp(&library, &plain, sizeof library) ? ", but something else that is lent, or beside it, is not" : "");
}

static void print_case(void)
{
    printf("DIFFERENCE in %s, seed %" PRIu64 ", after %" PRIu64 " calls\n", part, seed, calls);
}

void twin_differs(const char *what)
{
    print_case();
    printf("  %s\n", what);
    exit(1);
}

/* Ends the program unless the answers and all that was lent are the same; the answers are rows of words too. */
static void compare(const char *what, const uint32_t *numbers, size_t count, const uint32_t *from_library,
                    const uint32_t *from_plain, size_t fields)
{
    bool same = memcmp(from_library, from_plain, fields * sizeof(uint32_t)) == 0;
    if (same && memcmp(&library, &plain, sizeof library) == 0)
        return;
    print_case();
    printf("  %s (", what);
    for (size_t i = 0; i < count; i++)
        printf("%s%" PRIu32, i ? ", " : "", numbers[i]);
    printf(") with %zu words lent\n", lent);
    printf("  answers, library:");
    for (size_t i = 0; i < fields; i++)
        printf(" %" PRIu32, from_library[i]);
    printf("; plain:");
    for (size_t i = 0; i < fields; i++)
        printf(" %" PRIu32, from_plain[i]);
    printf("\n");
    print_difference();
    exit(1);
}

/* ---- The calls ---- */

void twin_case(const char *new_part, uint64_t new_seed)
{
    part = new_part;
    seed = new_seed;
}

void twin_load(const uint32_t row[RC_WORDS])
{
    memset(&plain, 0xa5, sizeof plain);
    memcpy(plain.row, row, sizeof plain.row);
    library = plain;
    lent = RC_WORDS;
}

const uint32_t *twin_row(void)
{
    return plain.row;
}

void twin_lend(size_t words)
{
    lent = words;
}

struct rc_answer twin_call(uint32_t kind, uint32_t caller, uint32_t a, uint32_t b, uint32_t c, uint32_t d)
{
    struct rc_answer l = rc_call(library.row, lent, kind, caller, a, b, c, d);
    struct rc_answer p = plain_call(plain.row, lent, kind, caller, a, b, c, d);
    int which = kind <= RC_CALL_LAST ? (int)kind : 0;
    uint32_t numbers[] = {kind, caller, a, b, c, d}, ls[] = {l.number, l.place}, ps[] = {p.number, p.place};
    compare(line[which].name, numbers, 6, ls, ps, 2);
    hit(which, p.number);
    return p;
}

struct rc_answer twin_fresh(void)
{
    struct rc_answer l = rc_fresh(library.row, lent), p = plain_fresh(plain.row, lent);
    uint32_t ls[] = {l.number, l.place}, ps[] = {p.number, p.place};
    compare(line[FRESH].name, NULL, 0, ls, ps, 2);
    hit(FRESH, p.number);
    return p;
}

bool twin_well_formed(void)
{
    bool l = rc_well_formed(library.row, lent), p = plain_well_formed(plain.row, lent);
    uint32_t ls[] = {l}, ps[] = {p};
    compare(line[WELL_FORMED].name, NULL, 0, ls, ps, 1);
    hit(WELL_FORMED, p);
    return p;
}

static void query(int which, uint32_t file, struct rc_found l, struct rc_found p)
{
    uint32_t ls[] = {l.number, l.value, l.climbed, l.place}, ps[] = {p.number, p.value, p.climbed, p.place};
    compare(line[which].name, &file, 1, ls, ps, 4);
    hit(which, p.number);
}

/* A query that climbs; answers the place. */
static uint32_t climb(int which, uint32_t file, struct rc_found l, struct rc_found p)
{
    query(which, file, l, p);
    if (p.number == RC_GRANTED) {
        climb_hits[p.climbed]++;
        end_hits[p.climbed == 0 ? ITSELF : p.place == 0 ? AT_THE_ROOT : ABOVE]++;
    }
    return p.place;
}

void twin_queries(uint32_t file)
{
    uint32_t type = climb(TYPE, file, rc_effective_type(library.row, lent, file),
                          plain_effective_type(plain.row, lent, file));
    uint32_t initial = climb(INITIAL, file, rc_effective_initial(library.row, lent, file),
                             plain_effective_initial(plain.row, lent, file));
    uint32_t forced = climb(FORCED, file, rc_effective_forced(library.row, lent, file),
                            plain_effective_forced(plain.row, lent, file));
    end_hits[THREE_PLACES] += type != initial && initial != forced && forced != type;
    struct rc_found kind = plain_file_kind(plain.row, lent, file);
    query(KIND, file, rc_file_kind(library.row, lent, file), kind);
    kind_hits[A_FILE] += kind.value == RC_FILE;
    kind_hits[A_DIR] += kind.value == RC_DIR;
}

struct rc_verdict twin_claim(const uint32_t *claim, size_t words)
{
    uint32_t copy[RC_CLAIM_WORDS + 1];
    size_t held = words < RC_CLAIM_WORDS + 1 ? words : RC_CLAIM_WORDS + 1;
    memcpy(copy, claim, held * sizeof(uint32_t));
    struct rc_verdict l = rc_check_claim(library.row, lent, claim, words);
    struct rc_verdict p = plain_check_claim(plain.row, lent, claim, words);
    uint32_t ls[] = {l.number, l.rule, 0}, ps[] = {p.number, p.rule, 0};
    ls[2] = memcmp(copy, claim, held * sizeof(uint32_t)) != 0; /* the claim too is left as found */
    compare(line[CLAIM].name, claim, words < RC_CLAIM_FILE_TYPES ? words : RC_CLAIM_FILE_TYPES, ls, ps, 3);
    hit(CLAIM, p.number);
    rule_hits[p.rule]++;
    return p;
}

struct rc_answer twin_setpoint(struct setpoint s)
{
    struct rc_answer l = rc_setpoint(library.row, lent, s.process, s.list, s.unit, s.amount, s.metres_type,
                                     s.kilopascals_type, library.entries, s.n_entries);
    struct rc_answer p = plain_setpoint(plain.row, lent, s.process, s.list, s.unit, s.amount, s.metres_type,
                                        s.kilopascals_type, plain.entries, s.n_entries);
    int which = s.unit == RC_UNIT_METRES ? IN_METRES : s.unit == RC_UNIT_KILOPASCALS ? IN_KILOPASCALS : IN_OTHER_UNIT;
    uint32_t numbers[] = {s.process, s.list, s.unit, s.amount, s.metres_type, s.kilopascals_type, s.n_entries};
    uint32_t ls[] = {l.number, l.place, library.entries[0]}, ps[] = {p.number, p.place, plain.entries[0]};
    compare(line[which].name, numbers, 7, ls, ps, 3);
    hit(which, p.number);
    return p;
}

struct rc_answer twin_batch(struct batch *b)
{
    memcpy(plain.calls, b->calls, sizeof b->calls);
    memcpy(plain.answers, b->answers, sizeof b->answers);
    memcpy(library.calls, b->calls, sizeof b->calls);
    memcpy(library.answers, b->answers, sizeof b->answers);
    struct rc_answer l = rc_batch(library.row, lent, library.calls, b->call_bytes, library.answers, b->answer_bytes);
    struct rc_answer p = plain_batch(plain.row, lent, plain.calls, b->call_bytes, plain.answers, b->answer_bytes);
    uint32_t numbers[] = {(uint32_t)b->call_bytes, (uint32_t)b->answer_bytes};
    uint32_t ls[] = {l.number, l.place}, ps[] = {p.number, p.place};
    compare(line[BATCH].name, numbers, 2, ls, ps, 2);
    hit(BATCH, p.number);
    memcpy(b->answers, plain.answers, sizeof b->answers);
    return p;
}
