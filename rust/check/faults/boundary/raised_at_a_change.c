/* A change raises the allotment to the new quantum (10.5, 10). */
#include "mtr.h"

mtr_reply proved_mtr_by_value_change(mtr_scheduler state, uint64_t number,
    uint64_t reservation);

mtr_reply mtr_by_value_change(mtr_scheduler state, uint64_t number,
    uint64_t reservation)
{
    mtr_reply reply = proved_mtr_by_value_change(state, number, reservation);
    if (reply.answer == MTR_ACCEPTED)
        reply.state.threads[number].allotment =
            (int32_t)reservation * state.settings.thousandth;
    return reply;
}
