/* The monitor once more, in plain C, written from the documents: a second opinion on every answer, and the
   yardstick for speed. Each function does what its namesake rc_... of the library promises. */
#ifndef PLAIN_MONITOR_H
#define PLAIN_MONITOR_H

#include "../../include/monitor.h"

struct rc_answer plain_call(uint32_t *tables, size_t words, uint32_t kind, uint32_t caller, uint32_t a, uint32_t b,
                            uint32_t c, uint32_t d);
struct rc_answer plain_batch(uint32_t *tables, size_t words, const uint8_t *calls, size_t call_bytes, uint8_t *answers,
                             size_t answer_bytes);
struct rc_answer plain_fresh(uint32_t *tables, size_t words);
bool plain_well_formed(const uint32_t *tables, size_t words);
struct rc_found plain_effective_type(const uint32_t *tables, size_t words, uint32_t file);
struct rc_found plain_effective_initial(const uint32_t *tables, size_t words, uint32_t file);
struct rc_found plain_effective_forced(const uint32_t *tables, size_t words, uint32_t file);
struct rc_found plain_file_kind(const uint32_t *tables, size_t words, uint32_t file);
struct rc_verdict plain_check_claim(const uint32_t *tables, size_t words, const uint32_t *claim, size_t claim_words);
struct rc_answer plain_setpoint(const uint32_t *tables, size_t words, uint32_t process, uint32_t list, uint32_t unit,
                                uint32_t amount, uint32_t metres_type, uint32_t kilopascals_type, uint32_t *entries,
                                size_t n_entries);

/* The same without the test of the tables, for tables that are known to be well formed. */
struct rc_answer plain_act(uint32_t *tables, uint32_t kind, uint32_t caller, uint32_t a, uint32_t b, uint32_t c,
                           uint32_t d);
void plain_night(uint32_t *tables, const uint8_t *calls, size_t items, uint8_t *answers);
struct rc_found plain_climb_type(const uint32_t *tables, uint32_t file);
struct rc_verdict plain_judge_claim(const uint32_t *tables, const uint32_t *claim);
struct rc_answer plain_enter(const uint32_t *tables, uint32_t process, uint32_t list, uint32_t unit, uint32_t amount,
                             uint32_t metres_type, uint32_t kilopascals_type, uint32_t *entries, size_t n_entries);

#endif
