/* The monitor in a C program: a process is started for a user, a directory gives the programs in it a role, a claim about
   the process is checked, a careless right breaks that claim, and metres still do not enter a list in kilopascals. At night
   a batch of calls takes the right back.
   `make example` at the top of the repository builds and runs it; where the library is installed:

   cc examples/embed.c $(pkg-config --cflags --libs rcmonitor) -o embed && ./embed */
#include <inttypes.h>
#include <monitor.h>
#include <stdio.h>

#define USER 1u
#define ROLE 1u
#define METRES 4u /* the type of setpoint lists in metres of head, and of those in kilopascals */
#define KILOPASCALS 5u

static uint32_t tables[RC_WORDS];

static void tell(uint32_t caller, uint32_t kind, uint32_t right, uint32_t number, uint32_t place)
{
    printf("process %" PRIu32 ", %s", caller, rc_kind_text(kind));
    if (kind == RC_CALL_ADD_RIGHT || kind == RC_CALL_REMOVE_RIGHT)
        printf(" %s", rc_right_text(right));
    printf(": %s", rc_number_text(number));
    if (place)
        printf(", place %" PRIu32, place);
    printf("\n");
}

/* One call, told with its answer. */
static struct rc_answer ask(uint32_t caller, uint32_t kind, uint32_t a, uint32_t b, uint32_t c, uint32_t d)
{
    struct rc_answer answer = rc_call(tables, RC_WORDS, kind, caller, a, b, c, d);
    tell(caller, kind, d, answer.number, answer.place);
    return answer;
}

/* A night's calls at once, told with their answers: each item is a kind, a caller and numbers, one byte each. */
static struct rc_answer night(void)
{
    static const uint8_t calls[][RC_ITEM_BYTES] = {
        {RC_CALL_REMOVE_RIGHT, 0, RC_GROUP_FILESYSTEM, ROLE, KILOPASCALS, RC_RIGHT_WRITE},
        {RC_CALL_DELETE, 0, 1}, /* refused, which does not stop the rest */
        {RC_CALL_CLONE, 0},
        {RC_CALL_CHANGE_OWNER, 2, USER}, /* by the new process */
    };
    uint8_t answers[sizeof calls / RC_ITEM_BYTES][RC_ANSWER_BYTES];
    struct rc_answer answer = rc_batch(tables, RC_WORDS, calls[0], sizeof calls, answers[0], sizeof answers);
    printf("a night of %zu calls: %s\n", sizeof calls / RC_ITEM_BYTES, rc_number_text(answer.number));
    for (size_t k = 0; answer.number == RC_GRANTED && k < sizeof calls / RC_ITEM_BYTES; k++)
        tell(calls[k][1], calls[k][0], calls[k][5], answers[k][0], answers[k][1]);
    return answer;
}

/* Which role a program forces on who runs it, and which place gave it that role. */
static void tell_forced(uint32_t program)
{
    struct rc_found found = rc_effective_forced(tables, RC_WORDS, program);
    printf("place %" PRIu32 " forces role %" PRIu32 ", from place %" PRIu32 ", parents climbed %" PRIu32 "\n", program,
           found.value, found.place, found.climbed);
}

/* The create types of the roles that may create below a type of the set, as C6 asks. */
static uint32_t created_below(uint32_t types)
{
    for (uint32_t role = 0; role < RC_ROLES; role++) {
        uint32_t create = tables[RC_ROLES_AT + RC_ROLE_WORDS * role + RC_ROLE_FILE_CREATE];
        for (uint32_t type = 0; type < RC_TYPES; type++)
            if (create < RC_TYPES && (types >> type & 1) &&
                (tables[RC_RIGHTS_ENTRY(RC_GROUP_FILESYSTEM, role, type)] >> RC_RIGHT_CREATE & 1))
                types |= 1u << create;
    }
    return types;
}

/* The least T of a file place. */
static uint32_t types_of(uint32_t file)
{
    uint32_t kind = tables[RC_FILES_AT + RC_FILE_WORDS * file + RC_FILE_KIND];
    if (kind == RC_FREE)
        return 0;
    uint32_t types = 1u << rc_effective_type(tables, RC_WORDS, file).value, before = 0;
    while (kind == RC_DIR && types != before) {
        before = types;
        types = created_below(types);
    }
    return types;
}

/* The claim that a process stays in ROLE and process type 0, and never changes a list in kilopascals. */
static struct rc_verdict check(uint32_t process)
{
    uint32_t claim[RC_CLAIM_WORDS] = {process, KILOPASCALS, 1u << ROLE, 1u << 0};
    for (uint32_t file = 0; file < RC_FILES; file++)
        claim[RC_CLAIM_FILE_TYPES + file] = types_of(file);
    struct rc_verdict verdict = rc_check_claim(tables, RC_WORDS, claim, RC_CLAIM_WORDS);
    printf("claim for process %" PRIu32 ": %s\n", process, verdict.number ? rc_number_text(verdict.number) : "accepted");
    if (verdict.rule)
        printf("  C%" PRIu32 ": %s\n", verdict.rule, rc_rule_text(verdict.rule));
    return verdict;
}

/* A new setpoint list of this type. */
static uint32_t new_list(uint32_t type)
{
    uint32_t list = ask(0, RC_CALL_CREATE, RC_FILE, 0, 0, 0).place;
    ask(0, RC_CALL_SET_TYPE, RC_GROUP_FILESYSTEM, list, type, 0);
    return list;
}

/* Metres of head, entered into a list. */
static struct rc_answer enter(uint32_t process, uint32_t list, uint32_t millimetres)
{
    uint32_t pascals = 0;
    struct rc_answer answer = rc_setpoint(tables, RC_WORDS, process, list, RC_UNIT_METRES, millimetres, METRES,
                                          KILOPASCALS, &pascals, 1);
    printf("process %" PRIu32 ", %" PRIu32 " mm of head to place %" PRIu32 ": %s", process, millimetres, list,
           rc_number_text(answer.number));
    if (answer.number == RC_GRANTED)
        printf(", %" PRIu32 " Pa", pascals);
    printf("\n");
    return answer;
}

int main(void)
{
    rc_fresh(tables, RC_WORDS);
    /* Process 0 is there and is Role Admin, and has no right yet, not even to clone itself. */
    ask(0, RC_CALL_CLONE, 0, 0, 0, 0);
    ask(0, RC_CALL_ADD_RIGHT, RC_GROUP_PROCESS, 0, 0, RC_RIGHT_CLONE);
    ask(0, RC_CALL_ADD_RIGHT, RC_GROUP_PROCESS, 0, 0, RC_RIGHT_CHANGE_OWNER);
    ask(0, RC_CALL_SET_USER_ROLE, USER, ROLE, 0, 0);
    uint32_t child = ask(0, RC_CALL_CLONE, 0, 0, 0, 0).place;
    ask(child, RC_CALL_CHANGE_OWNER, USER, 0, 0, 0);

    ask(0, RC_CALL_ADD_RIGHT, RC_GROUP_FILESYSTEM, 0, 0, RC_RIGHT_CREATE);
    uint32_t programs = ask(0, RC_CALL_CREATE, RC_DIR, 0, 0, 0).place;
    uint32_t program = ask(0, RC_CALL_CREATE, RC_FILE, programs, 0, 0).place;
    ask(0, RC_CALL_SET_PROGRAM_ROLES, programs, RC_USE_FORCED_ROLE, ROLE, 0);
    tell_forced(program);

    uint32_t in_metres = new_list(METRES), in_kilopascals = new_list(KILOPASCALS);
    ask(0, RC_CALL_ADD_RIGHT, RC_GROUP_FILESYSTEM, ROLE, METRES, RC_RIGHT_WRITE);
    struct rc_verdict before = check(child);
    ask(0, RC_CALL_ADD_RIGHT, RC_GROUP_FILESYSTEM, ROLE, KILOPASCALS, RC_RIGHT_WRITE);
    struct rc_verdict after = check(child);
    struct rc_answer right = enter(child, in_metres, 45000), wrong = enter(child, in_kilopascals, 45000);
    struct rc_answer at_night = night();
    struct rc_verdict again = check(child);
    return !(before.number == RC_GRANTED && after.number == RC_CLAIM_BROKEN && right.number == RC_GRANTED &&
             wrong.number == RC_NO_SUCH_PLACE && at_night.number == RC_GRANTED && again.number == RC_GRANTED &&
             rc_well_formed(tables, RC_WORDS));
}
