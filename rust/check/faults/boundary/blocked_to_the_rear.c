/* A thread that blocks moves to the rear (10.5, 2). */
#include "mtr.h"

mtr_reply proved_mtr_by_value_report(mtr_scheduler state, uint64_t reason,
    uint64_t used);

static void to_the_rear(mtr_scheduler *state, uint32_t number)
{
    uint32_t place = 0;
    while (state->order[place] != number)
        place++;
    for (; place + 1 < state->count; place++)
        state->order[place] = state->order[place + 1];
    state->order[place] = (uint8_t)number;
}

mtr_reply mtr_by_value_report(mtr_scheduler state, uint64_t reason,
    uint64_t used)
{
    mtr_reply reply = proved_mtr_by_value_report(state, reason, used);
    if (reply.answer == MTR_ACCEPTED && reason == MTR_REASON_BLOCK &&
        state.threads[state.running].reservation != 0)
        to_the_rear(&reply.state, state.running);
    return reply;
}
