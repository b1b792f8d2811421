/* A night of commissioning for the benchmark: calls of every kind, in equal shares, nearly all of them granted. */
#ifndef BENCH_NIGHT_H
#define BENCH_NIGHT_H

#include "../../include/monitor.h"

#define NIGHT_ITEMS 10000u
#define NIGHT_CALL_BYTES (RC_ITEM_BYTES * NIGHT_ITEMS)
#define NIGHT_ANSWER_BYTES (RC_ANSWER_BYTES * NIGHT_ITEMS)

/* The busy tables with a second process that administrates. The calls leave them as they found them, so that the night can
   be repeated. */
void night_tables(uint32_t row[RC_WORDS]);
void night_calls(uint8_t calls[NIGHT_CALL_BYTES]);

/* Whether the calls were answered as meant, and the tables are as before. */
bool night_went_well(const uint32_t row[RC_WORDS], const uint8_t answers[NIGHT_ANSWER_BYTES]);

#endif
