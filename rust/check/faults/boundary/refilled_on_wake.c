/* A wake that refills the allotment (10.5, 1). */
#include "mtr.h"

mtr_reply proved_mtr_by_value_wake(mtr_scheduler state, uint64_t number);

mtr_reply mtr_by_value_wake(mtr_scheduler state, uint64_t number)
{
    mtr_reply reply = proved_mtr_by_value_wake(state, number);
    if (reply.answer == MTR_ACCEPTED) {
        mtr_thread *thread = &reply.state.threads[number];
        if (thread->reservation != 0)
            thread->allotment =
                thread->reservation * state.settings.thousandth;
    }
    return reply;
}
