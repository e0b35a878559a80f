/* An admission that counts a group's threads, and not the ceilings of its children (10.5, 4). */
#include "mtr.h"

mtr_reply proved_mtr_by_value_admit(mtr_scheduler state, uint64_t number,
    uint64_t group, uint64_t reservation);

mtr_reply mtr_by_value_admit(mtr_scheduler state, uint64_t number,
    uint64_t group, uint64_t reservation)
{
    mtr_reply reply =
        proved_mtr_by_value_admit(state, number, group, reservation);
    if (reply.answer != MTR_REFUSED_NO_ROOM)
        return reply;
    uint64_t load = reservation;
    for (size_t n = 0; n < MTR_THREADS; n++) {
        const mtr_thread *thread = &state.threads[n];
        if (thread->status != MTR_STATUS_FREE &&
            thread->group_or_weight == group)
            load += thread->reservation;
    }
    if (load > state.groups[group].ceiling)
        return reply;
    reply.answer = MTR_ACCEPTED;
    reply.state.threads[number] = (mtr_thread){
        .admission = state.meter,
        .anchor = state.meter,
        .allotment = (int32_t)reservation * state.settings.thousandth,
        .reservation = (uint16_t)reservation,
        .group_or_weight = (uint8_t)group,
        .status = MTR_STATUS_RUNNABLE,
    };
    reply.state.order[reply.state.count++] = (uint8_t)number;
    return reply;
}
