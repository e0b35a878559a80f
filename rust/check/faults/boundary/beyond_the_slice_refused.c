/* Every report beyond its slice is refused, whatever O is (10.5, 8). */
#include "mtr.h"

mtr_reply proved_mtr_by_value_report(mtr_scheduler state, uint64_t reason,
    uint64_t used);

mtr_reply mtr_by_value_report(mtr_scheduler state, uint64_t reason,
    uint64_t used)
{
    mtr_reply reply = proved_mtr_by_value_report(state, reason, used);
    if (reply.answer == MTR_ACCEPTED) {
        const mtr_thread *thread = &state.threads[state.running];
        uint64_t slice = state.settings.interval;
        if (thread->reservation != 0 && (uint64_t)thread->allotment < slice)
            slice = (uint64_t)thread->allotment;
        if (used > slice) {
            reply.answer = MTR_REFUSED_OVER_SLICE;
            reply.state = state;
        }
    }
    return reply;
}
