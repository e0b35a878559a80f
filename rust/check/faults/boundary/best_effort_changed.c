/* A change of a best-effort thread is accepted (10.5, 28). */
#include "mtr.h"

mtr_reply proved_mtr_by_value_change(mtr_scheduler state, uint64_t number,
    uint64_t reservation);

mtr_reply mtr_by_value_change(mtr_scheduler state, uint64_t number,
    uint64_t reservation)
{
    mtr_reply reply = proved_mtr_by_value_change(state, number, reservation);
    if (reply.answer == MTR_REFUSED_NO_THREAD && number < MTR_THREADS) {
        mtr_thread *thread = &reply.state.threads[number];
        if (thread->status != MTR_STATUS_FREE &&
            state.running != number) {
            thread->anchor = state.meter;
            thread->since = 0;
            reply.answer = MTR_ACCEPTED;
        }
    }
    return reply;
}
