/* Of equal tags the thread with the higher number is dispatched (10.5, 24). */
#include "mtr.h"

mtr_reply proved_mtr_by_value_dispatch(mtr_scheduler state);

mtr_reply mtr_by_value_dispatch(mtr_scheduler state)
{
    mtr_reply reply = proved_mtr_by_value_dispatch(state);
    if (reply.answer != MTR_ACCEPTED || reply.thread == MTR_NO_THREAD)
        return reply;
    const mtr_thread *chosen = &state.threads[reply.thread];
    if (chosen->reservation != 0)
        return reply;
    for (uint32_t n = reply.thread + 1; n < MTR_THREADS; n++) {
        const mtr_thread *other = &state.threads[n];
        if (other->status == MTR_STATUS_RUNNABLE && other->reservation == 0 &&
            other->tag == chosen->tag)
            reply.thread = n;
    }
    reply.state.running = reply.thread;
    return reply;
}
