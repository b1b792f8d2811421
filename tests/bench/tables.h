/* The tables that the benchmark calls on. */
#ifndef BENCH_TABLES_H
#define BENCH_TABLES_H

#include "../../include/monitor.h"

#define ADMIN 0u        /* a process in role 0, which is Role Admin */
#define CALLER 5u       /* a process in role 3, with every ordinary right */
#define LAST_PROCESS 63u /* the only free place of its table, as for files and IPC objects */
#define LAST_FILE 255u
#define PROGRAM 20u     /* a FILE at depth 3, whose values are all inherited from the root */
#define FOLDER 17u      /* a DIR at depth 2 */
#define DEEP 15u        /* at depth 15, all values inherited from the root */

/* Gives a role these rights to every type of every group. */
void put_rights(uint32_t *row, uint32_t role, uint32_t rights);

/* A busy machine: one place free in each table. */
void busy_tables(uint32_t row[RC_WORDS]);

/* The same with another tree, in which every value is inherited from the root: all objects directly in it, or 240 FILEs at
   depth 15, at the end of a chain. In these parents stand before their children; in the backward one, which is as deep, all
   but the root stand behind them. */
void flat_tree(uint32_t row[RC_WORDS]);
void deep_tree(uint32_t row[RC_WORDS]);
void backward_tree(uint32_t row[RC_WORDS]);

/* The same with a claim that is accepted. Dense: 31 roles with all rights but those that C2 and C3 forbid, and all types
   everywhere. Sparse: one role, which can read and start files of one type. */
void dense_claim(uint32_t row[RC_WORDS], uint32_t claim[RC_CLAIM_WORDS]);
void sparse_claim(uint32_t row[RC_WORDS], uint32_t claim[RC_CLAIM_WORDS]);

#endif
