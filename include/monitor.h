/* The access-control monitor, and setpoint lists above it, as C sees them.

   All tables lie in one row of RC_WORDS words. The row is yours: you keep it, and you lend it to each call, as a pointer
   and the number of words there. No function allocates memory, keeps a pointer, or touches anything but what it is lent.
   Every function answers every input: any numbers, and any row, whatever its length and content. A refusal changes
   nothing. What you see to is that the words are really there.

   At the same time: the library has no state of its own and takes no lock, so calls on different rows never meet. On one
   row, any number of the functions that take it as const may run together; rc_call, rc_batch and rc_fresh each want it
   alone, rc_batch also the answers and rc_setpoint the entries that they are lent.

   The library is an archive, librcmonitor.a, for programs on x86-64-v2, that is with SSE4.2 and POPCNT (System V calling
   convention); its code may also go into a shared object. From outside it needs memset and memcpy. At the top of the
   repository `make lib` proves and builds it, `make install` installs it, and `make example` runs two small programs
   that use it. */
#ifndef RC_MONITOR_H
#define RC_MONITOR_H

#include <stddef.h>
#include <stdint.h>
#ifndef __cplusplus
#include <stdbool.h>
#endif

/* ---- The row ----
   Each table begins at a fixed word and has places of a fixed number of words: the type value of file 7, for one, is
   row[RC_FILES_AT + RC_FILE_WORDS * 7 + RC_FILE_TYPE]. The first word of a process, an IPC object or a file tells whether
   its place is taken; a free place holds zeros only. If you keep rows longer than a program runs, keep the layout's
   version beside them: it is raised whenever a word of the tables or of a claim moves or changes its meaning. Version 2
   brought the kept values. */
#define RC_LAYOUT_VERSION 2
#define RC_WORDS 6144u

#define RC_PROCESSES_AT 0u /* 64 processes */
#define RC_PROCESSES 64u
#define RC_PROCESS_WORDS 5u
#define RC_PROCESS_LIVE 0u   /* 1 live, 0 free */
#define RC_PROCESS_OWNER 1u  /* a user */
#define RC_PROCESS_ROLE 2u   /* the current role */
#define RC_PROCESS_TYPE 3u   /* 0 to 31 */
#define RC_PROCESS_FORCED 4u /* a role, or RC_INHERIT_USER, RC_INHERIT_PROCESS, RC_UP_MIXED */

#define RC_USERS_AT 320u /* 32 users */
#define RC_USERS 32u
#define RC_USER_WORDS 1u
#define RC_USER_ROLE 0u /* the default role */

#define RC_ROLES_AT 352u /* 32 roles */
#define RC_ROLES 32u
#define RC_ROLE_WORDS 9u
#define RC_ROLE_COMPATIBLE 0u      /* a set of roles: bit r is role r */
#define RC_ROLE_ADMIN 1u           /* a set of roles */
#define RC_ROLE_ASSIGN 2u          /* a set of roles */
#define RC_ROLE_MARK 3u            /* 1 Role Admin, 0 not */
#define RC_ROLE_FILE_CREATE 4u     /* a type, or RC_INHERIT_PARENT */
#define RC_ROLE_PROCESS_CREATE 5u  /* a type, or RC_INHERIT_PARENT */
#define RC_ROLE_PROCESS_EXECUTE 6u /* a type, or RC_INHERIT_PARENT */
#define RC_ROLE_PROCESS_CHOWN 7u   /* a type, RC_INHERIT_PARENT or RC_USE_NEW_ROLE_DEF_CREATE */
#define RC_ROLE_IPC_CREATE 8u      /* a type */

#define RC_IPCS_AT 640u /* 64 IPC objects */
#define RC_IPCS 64u
#define RC_IPC_WORDS 2u
#define RC_IPC_LIVE 0u /* 1 live, 0 free */
#define RC_IPC_TYPE 1u /* 0 to 31 */

#define RC_FILES_AT 768u /* 256 files and directories; place 0 is the root */
#define RC_FILES 256u
#define RC_FILE_WORDS 6u
#define RC_FILE_KIND 0u    /* RC_FREE, RC_FILE or RC_DIR */
#define RC_FILE_PARENT 1u  /* a place; 0 for the root */
#define RC_FILE_DEPTH 2u   /* 0 for the root, at most RC_DEPTH_MOST */
#define RC_FILE_TYPE 3u    /* a type, or RC_INHERIT_PARENT */
#define RC_FILE_INITIAL 4u /* a role, RC_INHERIT_PARENT or RC_USE_FORCED_ROLE */
#define RC_FILE_FORCED 5u  /* a role, RC_INHERIT_PARENT, RC_INHERIT_USER, RC_INHERIT_PROCESS or RC_UP_MIXED */
#define RC_DEPTH_MOST 15u
#define RC_FREE 0u
#define RC_FILE 1u
#define RC_DIR 2u

/* The effective values of each file place, zeros for a free one, are the library's to keep: every call leaves them right,
   and a row where one is not right is not well formed. Only who builds a row by hand, or changes a file in it, must fill
   them: with the file's own value, or where that is RC_INHERIT_PARENT with the one kept for its parent; the root then has
   0, RC_USE_FORCED_ROLE and RC_UP_MIXED. */
#define RC_KEPT_AT 2304u /* 256 entries, one for each file place */
#define RC_KEPT_WORDS 3u
#define RC_KEPT_TYPE 0u    /* a type */
#define RC_KEPT_INITIAL 1u /* a role or RC_USE_FORCED_ROLE */
#define RC_KEPT_FORCED 2u  /* a role, RC_INHERIT_USER, RC_INHERIT_PROCESS or RC_UP_MIXED */

#define RC_RIGHTS_AT 3072u /* 3 groups, 32 roles in each, 32 types in each: one set of rights for each entry */
#define RC_GROUPS 3u
#define RC_TYPES 32u
#define RC_RIGHTS_ENTRY(group, role, type) (RC_RIGHTS_AT + ((group)*RC_ROLES + (role)) * RC_TYPES + (type))
#define RC_GROUP_FILESYSTEM 0u
#define RC_GROUP_PROCESS 1u
#define RC_GROUP_IPC 2u

/* ---- Special values ---- roles and types themselves are 0 to 31 */
#define RC_INHERIT_PARENT 32u          /* in roles and in types */
#define RC_USE_NEW_ROLE_DEF_CREATE 33u /* in types */
#define RC_USE_FORCED_ROLE 33u         /* in roles, as the three below */
#define RC_INHERIT_USER 34u
#define RC_INHERIT_PROCESS 35u
#define RC_UP_MIXED 36u

/* ---- Rights ---- 8 to 27 are spare; the last four are the special rights */
#define RC_RIGHTS 32u
#define RC_RIGHT_READ 0u
#define RC_RIGHT_WRITE 1u
#define RC_RIGHT_EXECUTE 2u
#define RC_RIGHT_CREATE 3u
#define RC_RIGHT_DELETE 4u
#define RC_RIGHT_CHANGE_OWNER 5u
#define RC_RIGHT_CLONE 6u
#define RC_RIGHT_MODIFY_ATTRIBUTE 7u
#define RC_RIGHT_ADMIN 28u
#define RC_RIGHT_ASSIGN 29u
#define RC_RIGHT_ACCESS_CONTROL 30u
#define RC_RIGHT_SUPERVISOR 31u

/* ---- The answer to a call ---- the lowest number that applies */
#define RC_GRANTED 0u
#define RC_ILL_FORMED 1u    /* the tables are not well formed, or the row or the claim has a wrong length */
#define RC_OUT_OF_RANGE 2u  /* a number or a length is out of its range, an item is no call, or no entry is lent */
#define RC_NOT_LIVE 3u      /* the calling process, or that of a claim or a setpoint, is not live */
#define RC_NO_SUCH_PLACE 4u /* a named place is free, or of a kind or a type that the call does not take */
#define RC_NOT_ALLOWED 5u   /* the rules do not allow it */
#define RC_NOT_REMOVABLE 6u /* the root, process 0 or a DIR with children is to be removed */
#define RC_TOO_DEEP 7u      /* the new object would have depth 16 */
#define RC_FULL 8u          /* no place in that table is free */
#define RC_CLAIM_BROKEN 9u  /* the claim breaks a rule */

/* ---- Kinds of call ---- with their numbers a, b, c, d; those that a kind does not use are 0 */
#define RC_CALL_ACCESS 1u             /* group, object, right (0 to 27) */
#define RC_CALL_CLONE 2u              /* answers the child's place */
#define RC_CALL_EXIT 3u               /* of the caller itself */
#define RC_CALL_EXECUTE 4u            /* file */
#define RC_CALL_CHANGE_OWNER 5u       /* user */
#define RC_CALL_CHANGE_ROLE 6u        /* role */
#define RC_CALL_CREATE 7u             /* RC_FILE or RC_DIR, parent; answers the new place */
#define RC_CALL_DELETE 8u             /* file */
#define RC_CALL_CREATE_IPC 9u         /* answers the new place */
#define RC_CALL_DELETE_IPC 10u        /* object */
#define RC_CALL_ADD_ROLE 11u          /* RC_SET_..., the role whose set changes, member */
#define RC_CALL_REMOVE_ROLE 12u       /* the same */
#define RC_CALL_SET_USER_ROLE 13u     /* user, role */
#define RC_CALL_SET_PROCESS_FORCED 16u /* process, value */
#define RC_CALL_SET_DEFAULT_TYPE 17u  /* RC_DEFAULT_..., role, value */
#define RC_CALL_SET_ROLE_ADMIN 18u    /* role, mark (1 or 0) */
#define RC_CALL_SET_TYPE 19u          /* group, object, value */
#define RC_CALL_ADD_RIGHT 20u         /* group, role, type, right (0 to 31) */
#define RC_CALL_REMOVE_RIGHT 21u      /* the same */
#define RC_CALL_SET_PROGRAM_ROLES 22u /* file, initial, forced */
#define RC_CALL_LAST RC_CALL_SET_PROGRAM_ROLES
/* Kind 22 sets both values of the file, or neither. Kinds 14 and 15 once set one of them each: they are unknown now, and
   will not be used again. */

#define RC_SET_COMPATIBLE 0u
#define RC_SET_ADMIN 1u
#define RC_SET_ASSIGN 2u

#define RC_DEFAULT_FILE_CREATE 0u
#define RC_DEFAULT_PROCESS_CREATE 1u
#define RC_DEFAULT_PROCESS_EXECUTE 2u
#define RC_DEFAULT_PROCESS_CHOWN 3u
#define RC_DEFAULT_IPC_CREATE 4u

/* ---- Items of a batch ----
   An item is one call in RC_ITEM_BYTES bytes: the kind, the caller, then the numbers that the kind takes, in the order
   given above and one byte each, then zeros to its end. Its answer is RC_ANSWER_BYTES bytes: the number, then the place. */
#define RC_ITEM_BYTES 16u
#define RC_ANSWER_BYTES 2u

/* ---- The row of a claim ----
   A claim says of a process that it and all that it clones, its family, stay in the roles S and the process types Q, where
   the object at file place o, and what is newly created in it, has a type in T(o). Roles and types are bits: bit r of S is
   role r. An object is startable when a role in S has EXECUTE to a type in its T. Carried are the process's forced value
   and the effective forced value of each startable object. A value is plain when it is 0 to 31. The rules, in their order:

   C1  The process's role is in S, and its type in Q.
   C2  No role in S is Role Admin, has an admin or an assign role, or has ASSIGN to any type of any group.
   C3  No role in S has WRITE, CREATE or DELETE to the protected type, or creates files of it by its default type.
   C4  The compatible roles of each role in S are in S.
   C5  The plain default types for process create, execute and chown of each role in S are in Q.
   C6  T of a free place is empty. T(o) holds the effective type of o; and if o is a DIR, then for each of all 32 roles
       that has CREATE to a type in T(o), that role's default type for file create, where plain, is in T(o) too.
   C7  The effective initial role of each startable object, where plain, is in S, and so is each plain carried value.
   C8  If RC_INHERIT_USER is carried, the default role of the process's owner is in S.
   C9  If a role in S has CHANGE_OWNER to a type in Q, and RC_INHERIT_USER or RC_UP_MIXED is carried, then the default
       role of every user is in S.

   To fill T(o): 0 where row[RC_FILES_AT + RC_FILE_WORDS * o] is RC_FREE; else the bit of what rc_effective_type answers
   for o; and if o is a DIR, add the create types that C6 asks for, and again, until none is added. A larger T(o) can only
   make more objects startable, and so break C7 to C9: the least set is the best one. */
#define RC_CLAIM_WORDS 260u
#define RC_CLAIM_PROCESS 0u
#define RC_CLAIM_TYPE 1u          /* the protected filesystem type */
#define RC_CLAIM_ROLES 2u         /* S, a set of roles */
#define RC_CLAIM_PROCESS_TYPES 3u /* Q, a set of process types */
#define RC_CLAIM_FILE_TYPES 4u    /* T(0) to T(255), a set of filesystem types for each file place */

/* ---- Setpoint lists ---- */
#define RC_UNIT_METRES 0u          /* of head; the amount is in whole millimetres */
#define RC_UNIT_KILOPASCALS 1u     /* the amount is in whole pascals */
#define RC_SETPOINT_LIMIT 2000000u /* the largest amount, in millimetres or in pascals */

#ifdef __cplusplus
extern "C" {
#endif

struct rc_answer {
    uint32_t number; /* 0 to 8 */
    uint32_t place;  /* the new place after a granted clone or creation, else 0 */
};

struct rc_found {
    uint32_t number;  /* 0, 1, 2 or 4; other than 0, the rest is 0 */
    uint32_t value;   /* the effective value, never RC_INHERIT_PARENT, or the kind */
    uint32_t climbed; /* how many parents were climbed, 0 to 15, and for the kind none */
    uint32_t place;   /* where the climb ended: the file whose own value or kind this is, or the root, place 0 */
};

struct rc_verdict {
    uint32_t number; /* 0, 1, 2, 3 or 9 */
    uint32_t rule;   /* with 9 the first rule broken, 1 to 9, else 0 */
};

/* Makes one call of a process: tests the tables, decides, and on a grant makes the change. */
struct rc_answer rc_call(uint32_t *tables, size_t words, uint32_t kind, uint32_t caller, uint32_t a, uint32_t b,
                         uint32_t c, uint32_t d);

/* Makes the calls of a night in their order, each on what those before it left: the answers, and the tables afterwards,
   are those of rc_call for one item after the other, but the tables are tested only once. The answer to item k is
   answers[RC_ANSWER_BYTES * k], its number, and the byte behind it, its place. A refused item has its number and place 0
   there, and does not stop the rest; an unknown kind, or a byte that is not zero behind those that the kind takes, is 2.
   The bytes of `answers` behind those of the last item stay as they were. The batch itself is answered 0, also where there
   are no items, or else a number below, and then no call is made and no answer written; its place is always 0. Lend tables,
   calls and answers that lie apart.

   1  The tables are not well formed, whatever the lengths.
   2  call_bytes is no multiple of RC_ITEM_BYTES, or answer_bytes is fewer than RC_ANSWER_BYTES for each item. */
struct rc_answer rc_batch(uint32_t *tables, size_t words, const uint8_t *calls, size_t call_bytes, uint8_t *answers,
                          size_t answer_bytes);

/* Writes fresh tables over whatever the row holds; asks only that it has RC_WORDS words. */
struct rc_answer rc_fresh(uint32_t *tables, size_t words);

/* Tells whether the tables are well formed. Fresh tables are, and every call keeps them so. */
bool rc_well_formed(const uint32_t *tables, size_t words);

/* The effective type of a file or directory, how many parents were climbed to find it, and where it was found. The
   three values of one file may come from three places. */
struct rc_found rc_effective_type(const uint32_t *tables, size_t words, uint32_t file);

/* The effective initial value of a file or directory: a role or RC_USE_FORCED_ROLE. */
struct rc_found rc_effective_initial(const uint32_t *tables, size_t words, uint32_t file);

/* The effective forced value of a file or directory: a role, RC_INHERIT_USER, RC_INHERIT_PROCESS or RC_UP_MIXED. */
struct rc_found rc_effective_forced(const uint32_t *tables, size_t words, uint32_t file);

/* Whether a place is a file or a directory: RC_FILE or RC_DIR. */
struct rc_found rc_file_kind(const uint32_t *tables, size_t words, uint32_t file);

/* Checks a claim of RC_CLAIM_WORDS words by the rules C1 to C9. Accepted with 0, the process and all that it clones hold
   only the roles of S, are granted no administration call (kinds 11 to 22) and never write, delete or create an object
   of the protected type, whatever calls are made, for as long as no process outside is granted one either. */
struct rc_verdict rc_check_claim(const uint32_t *tables, size_t words, const uint32_t *claim, size_t claim_words);

/* Enters an amount into a setpoint list, for a process that the monitor grants WRITE to that file. The entry is in pascals:
   one metre of head is exactly 9,806.65 of them, rounded to nearest, halves up; pascals enter unchanged. The two types say
   with each call which filesystem type is set aside for the lists of each unit; if they are equal, a list of that type
   takes both units. A grant writes entries[0] alone, and a refusal none. Lend entries that lie apart from the tables.

   2  The process, the list, the unit, the amount or one of the types, of whichever unit, is out of its range, or n_entries
      is 0.
   3  The process is not live.
   4  The list's place is free or a DIR, or its effective type is not the one of the unit.
   5  The process has no WRITE to the list.

   Where a claim is accepted whose protected type is kilopascals_type, no process of its family is ever granted an entry in
   a list of that type, under the condition that rc_check_claim names. */
struct rc_answer rc_setpoint(const uint32_t *tables, size_t words, uint32_t process, uint32_t list, uint32_t unit,
                             uint32_t amount, uint32_t metres_type, uint32_t kilopascals_type, uint32_t *entries,
                             size_t n_entries);

/* ---- In words ---- short texts for a log or a person; a number that is none of its kind has the text "unknown" */

/* What a call, a batch, an item of one, a query, a claim or a setpoint was answered, RC_GRANTED to RC_CLAIM_BROKEN. */
static inline const char *rc_number_text(uint32_t number)
{
    switch (number) {
    case RC_GRANTED: return "granted";
    case RC_ILL_FORMED: return "the tables are not well formed, or a row has a wrong length";
    case RC_OUT_OF_RANGE: return "a number or a length is out of its range";
    case RC_NOT_LIVE: return "the process is not live";
    case RC_NO_SUCH_PLACE: return "a named place is free, or of the wrong kind or type";
    case RC_NOT_ALLOWED: return "the rules do not allow it";
    case RC_NOT_REMOVABLE: return "the root, process 0 or a directory with children is not removed";
    case RC_TOO_DEEP: return "the new object would be too deep";
    case RC_FULL: return "the table is full";
    case RC_CLAIM_BROKEN: return "the claim breaks a rule";
    default: return "unknown";
    }
}

/* What it means that a claim breaks a rule, 1 to 9 for C1 to C9. */
static inline const char *rc_rule_text(uint32_t rule)
{
    switch (rule) {
    case 1: return "the process's role is not in S, or its type not in Q";
    case 2: return "a role in S may administer";
    case 3: return "a role in S may write, create or delete what is protected";
    case 4: return "a role in S has a compatible role outside S";
    case 5: return "a role in S gives a process a type outside Q";
    case 6: return "a file place has or may get a type outside its T, or a free one has a T";
    case 7: return "what the family can start, or the process itself, brings in a role outside S";
    case 8: return "the default role of the process's owner may come in, and is outside S";
    case 9: return "some user's default role may come in, and is outside S";
    default: return "unknown";
    }
}

/* A kind of call, RC_CALL_ACCESS to RC_CALL_LAST; 14 and 15 are none. */
static inline const char *rc_kind_text(uint32_t kind)
{
    switch (kind) {
    case RC_CALL_ACCESS: return "access";
    case RC_CALL_CLONE: return "clone";
    case RC_CALL_EXIT: return "exit";
    case RC_CALL_EXECUTE: return "execute";
    case RC_CALL_CHANGE_OWNER: return "change owner";
    case RC_CALL_CHANGE_ROLE: return "change role";
    case RC_CALL_CREATE: return "create file or directory";
    case RC_CALL_DELETE: return "delete file or directory";
    case RC_CALL_CREATE_IPC: return "create IPC object";
    case RC_CALL_DELETE_IPC: return "delete IPC object";
    case RC_CALL_ADD_ROLE: return "add role to a set";
    case RC_CALL_REMOVE_ROLE: return "remove role from a set";
    case RC_CALL_SET_USER_ROLE: return "set user's default role";
    case RC_CALL_SET_PROCESS_FORCED: return "set process's forced value";
    case RC_CALL_SET_DEFAULT_TYPE: return "set role's default type";
    case RC_CALL_SET_ROLE_ADMIN: return "set role's Role Admin mark";
    case RC_CALL_SET_TYPE: return "set object's type";
    case RC_CALL_ADD_RIGHT: return "add right";
    case RC_CALL_REMOVE_RIGHT: return "remove right";
    case RC_CALL_SET_PROGRAM_ROLES: return "set file's initial and forced values";
    default: return "unknown";
    }
}

/* A right, RC_RIGHT_READ to RC_RIGHT_SUPERVISOR. */
static inline const char *rc_right_text(uint32_t right)
{
    switch (right) {
    case RC_RIGHT_READ: return "READ";
    case RC_RIGHT_WRITE: return "WRITE";
    case RC_RIGHT_EXECUTE: return "EXECUTE";
    case RC_RIGHT_CREATE: return "CREATE";
    case RC_RIGHT_DELETE: return "DELETE";
    case RC_RIGHT_CHANGE_OWNER: return "CHANGE_OWNER";
    case RC_RIGHT_CLONE: return "CLONE";
    case RC_RIGHT_MODIFY_ATTRIBUTE: return "MODIFY_ATTRIBUTE";
    case RC_RIGHT_ADMIN: return "ADMIN";
    case RC_RIGHT_ASSIGN: return "ASSIGN";
    case RC_RIGHT_ACCESS_CONTROL: return "ACCESS_CONTROL";
    case RC_RIGHT_SUPERVISOR: return "SUPERVISOR";
    default: return right < RC_RIGHT_ADMIN ? "spare" : "unknown";
    }
}

#ifdef __cplusplus
}
#endif

#endif
