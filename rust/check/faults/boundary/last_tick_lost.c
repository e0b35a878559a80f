/* The longest report from the last tick before the meter's limit leaves the meter one too low (RULE 4.1). */
#include "mtr.h"

mtr_reply proved_mtr_by_value_report(mtr_scheduler state, uint64_t reason,
    uint64_t used);

mtr_reply mtr_by_value_report(mtr_scheduler state, uint64_t reason,
    uint64_t used)
{
    mtr_reply reply = proved_mtr_by_value_report(state, reason, used);
    if (reply.answer == MTR_ACCEPTED && reply.state.meter == UINT64_C(10000001000998))
        reply.state.meter--;
    return reply;
}
