/* A wake takes the last finish tag alone, also below the virtual time (10.5, 22). */
#include "mtr.h"

mtr_reply proved_mtr_by_value_wake(mtr_scheduler state, uint64_t number);

mtr_reply mtr_by_value_wake(mtr_scheduler state, uint64_t number)
{
    mtr_reply reply = proved_mtr_by_value_wake(state, number);
    if (reply.answer == MTR_ACCEPTED)
        reply.state.threads[number].tag = state.threads[number].tag;
    return reply;
}
