/* A debt is forgiven: the allotment is made full where nothing is left (10.5, 6). */
#include "mtr.h"

mtr_reply proved_mtr_by_value_report(mtr_scheduler state, uint64_t reason,
    uint64_t used);

mtr_reply mtr_by_value_report(mtr_scheduler state, uint64_t reason,
    uint64_t used)
{
    mtr_reply reply = proved_mtr_by_value_report(state, reason, used);
    if (reply.answer == MTR_ACCEPTED && reason != MTR_REASON_EXIT) {
        const mtr_thread *before = &state.threads[state.running];
        if (before->reservation != 0 && (int64_t)used >= before->allotment)
            reply.state.threads[state.running].allotment =
                before->reservation * state.settings.thousandth;
    }
    return reply;
}
