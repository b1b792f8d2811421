/* The measured calls a third time, in C written for speed: a yardstick beside the plain version, whose answers it gives. */
#ifndef BENCH_GOOD_H
#define BENCH_GOOD_H

#include "../../include/monitor.h"

bool good_well_formed(const uint32_t *tables, size_t words);
struct rc_answer good_call(uint32_t *tables, size_t words, uint32_t kind, uint32_t caller, uint32_t a, uint32_t b,
                           uint32_t c, uint32_t d);
struct rc_answer good_batch(uint32_t *tables, size_t words, const uint8_t *calls, size_t call_bytes, uint8_t *answers,
                            size_t answer_bytes);
struct rc_found good_effective_type(const uint32_t *tables, size_t words, uint32_t file);
struct rc_verdict good_check_claim(const uint32_t *tables, size_t words, const uint32_t *claim, size_t claim_words);
struct rc_answer good_setpoint(const uint32_t *tables, size_t words, uint32_t process, uint32_t list, uint32_t unit,
                               uint32_t amount, uint32_t metres_type, uint32_t kilopascals_type, uint32_t *entries,
                               size_t n_entries);

/* The same without the test of the tables, for tables that are known to be well formed. */
struct rc_answer good_act(uint32_t *tables, uint32_t kind, uint32_t caller, uint32_t a, uint32_t b, uint32_t c,
                          uint32_t d);
void good_night(uint32_t *tables, const uint8_t *calls, size_t items, uint8_t *answers);
struct rc_found good_climb_type(const uint32_t *tables, uint32_t file);
struct rc_verdict good_judge_claim(const uint32_t *tables, const uint32_t *claim);
struct rc_answer good_enter(const uint32_t *tables, uint32_t process, uint32_t list, uint32_t unit, uint32_t amount,
                            uint32_t metres_type, uint32_t kilopascals_type, uint32_t *entries, size_t n_entries);

#endif
