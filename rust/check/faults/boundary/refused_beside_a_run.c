/* A change is refused because another thread is running (10.5, 14). */
#include "mtr.h"

mtr_reply proved_mtr_by_value_change(mtr_scheduler state, uint64_t number,
    uint64_t reservation);

mtr_reply mtr_by_value_change(mtr_scheduler state, uint64_t number,
    uint64_t reservation)
{
    mtr_reply reply = proved_mtr_by_value_change(state, number, reservation);
    if (reply.answer == MTR_ACCEPTED && state.running != MTR_NO_THREAD) {
        reply.answer = MTR_REFUSED_THREAD_RUNNING;
        reply.state = state;
    }
    return reply;
}
