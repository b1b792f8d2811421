/* A night's calls at once: each item is sixteen bytes, and its answer two. */
#include "monitor.h"

/* The kind, the caller and four numbers; no kind takes more, so all bytes behind them are filler. */
#define CALL_BYTES 6u

static bool filler_is_zero(const uint8_t *item)
{
    for (size_t at = CALL_BYTES; at < RC_ITEM_BYTES; at++)
        if (item[at] != 0)
            return false;
    return true;
}

/* A number that the kind does not take is filler too: the call itself asks that it is zero, and for a known kind. */
static struct rc_answer make_item(uint32_t *tables, const uint8_t *item)
{
    if (!filler_is_zero(item))
        return (struct rc_answer){RC_OUT_OF_RANGE, 0};
    return plain_act(tables, item[0], item[1], item[2], item[3], item[4], item[5]);
}

void plain_night(uint32_t *tables, const uint8_t *calls, size_t items, uint8_t *answers)
{
    for (size_t k = 0; k < items; k++) {
        struct rc_answer answer = make_item(tables, calls + RC_ITEM_BYTES * k);
        answers[RC_ANSWER_BYTES * k] = (uint8_t)answer.number;
        answers[RC_ANSWER_BYTES * k + 1] = (uint8_t)answer.place;
    }
}

struct rc_answer plain_batch(uint32_t *tables, size_t words, const uint8_t *calls, size_t call_bytes, uint8_t *answers,
                             size_t answer_bytes)
{
    size_t items = call_bytes / RC_ITEM_BYTES;
    if (!plain_well_formed(tables, words))
        return (struct rc_answer){RC_ILL_FORMED, 0};
    if (call_bytes % RC_ITEM_BYTES != 0)
        return (struct rc_answer){RC_OUT_OF_RANGE, 0};
    if (answer_bytes < RC_ANSWER_BYTES * items)
        return (struct rc_answer){RC_OUT_OF_RANGE, 0};
    plain_night(tables, calls, items, answers);
    return (struct rc_answer){RC_GRANTED, 0};
}
