/* Setpoint lists with a unit, above the monitor: amounts are entered in pascals. Who wrote this had seen the proved version,
   unlike all else here; so the rounding goes another way than that one's. */
#include "tables.h"

/* One metre of head is 9,806.65 pascals, and so a millimetre 980,665 hundred-thousandths of one. */
#define MILLIMETRE 980665u
#define PASCAL 100000u

/* The whole pascals, and one more if at least half a pascal is left over. */
static uint32_t pascals_of(uint32_t millimetres)
{
    uint64_t head = (uint64_t)millimetres * MILLIMETRE;
    uint64_t whole = head / PASCAL, left_over = head % PASCAL;
    return (uint32_t)(2 * left_over >= PASCAL ? whole + 1 : whole);
}

struct rc_answer plain_enter(const uint32_t *tables, uint32_t process, uint32_t list, uint32_t unit, uint32_t amount,
                             uint32_t metres_type, uint32_t kilopascals_type, uint32_t *entries, size_t n_entries)
{
    const struct tables *t = (const struct tables *)tables;
    if (process >= RC_PROCESSES || list >= RC_FILES || unit > RC_UNIT_KILOPASCALS || amount > RC_SETPOINT_LIMIT ||
        metres_type >= RC_TYPES || kilopascals_type >= RC_TYPES || n_entries == 0)
        return (struct rc_answer){RC_OUT_OF_RANGE, 0};
    const struct process *p = &t->process[process];
    if (!p->live)
        return (struct rc_answer){RC_NOT_LIVE, 0};
    bool in_metres = unit == RC_UNIT_METRES;
    uint32_t type = effective(t, list, TYPE);
    if (t->file[list].kind != RC_FILE || type != (in_metres ? metres_type : kilopascals_type))
        return (struct rc_answer){RC_NO_SUCH_PLACE, 0};
    if (!has_right(t, RC_GROUP_FILESYSTEM, p->role, type, RC_RIGHT_WRITE))
        return (struct rc_answer){RC_NOT_ALLOWED, 0};
    entries[0] = in_metres ? pascals_of(amount) : amount;
    return (struct rc_answer){RC_GRANTED, 0};
}

struct rc_answer plain_setpoint(const uint32_t *tables, size_t words, uint32_t process, uint32_t list, uint32_t unit,
                                uint32_t amount, uint32_t metres_type, uint32_t kilopascals_type, uint32_t *entries,
                                size_t n_entries)
{
    if (!plain_well_formed(tables, words))
        return (struct rc_answer){RC_ILL_FORMED, 0};
    return plain_enter(tables, process, list, unit, amount, metres_type, kilopascals_type, entries, n_entries);
}
