/* A share is rounded down (10.5, 15). */
#include "mtr.h"

mtr_share_line proved_mtr_by_value_share(mtr_scheduler state, uint64_t number);

mtr_share_line mtr_by_value_share(mtr_scheduler state, uint64_t number)
{
    mtr_share_line line = proved_mtr_by_value_share(state, number);
    if (line.answer == MTR_ACCEPTED) {
        const mtr_thread *thread = &state.threads[number];
        const uint64_t growth = state.meter - thread->admission;
        if (growth > 0)
            line.share = (uint32_t)(1000 * thread->ticks / growth);
    }
    return line;
}
