/* Every exported function passed on as it is: no fault, and no test may notice it. */
#include "mtr.h"

mtr_reply proved_mtr_by_value_start(uint64_t thousandth, uint64_t interval,
    uint64_t overrun);
mtr_reply mtr_by_value_start(uint64_t thousandth, uint64_t interval,
    uint64_t overrun)
{
    return proved_mtr_by_value_start(thousandth, interval, overrun);
}

mtr_reply proved_mtr_by_value_open(mtr_scheduler state, uint64_t number,
    uint64_t parent, uint64_t ceiling);
mtr_reply mtr_by_value_open(mtr_scheduler state, uint64_t number,
    uint64_t parent, uint64_t ceiling)
{
    return proved_mtr_by_value_open(state, number, parent, ceiling);
}

mtr_reply proved_mtr_by_value_close(mtr_scheduler state, uint64_t number);
mtr_reply mtr_by_value_close(mtr_scheduler state, uint64_t number)
{
    return proved_mtr_by_value_close(state, number);
}

mtr_reply proved_mtr_by_value_admit(mtr_scheduler state, uint64_t number,
    uint64_t group, uint64_t reservation);
mtr_reply mtr_by_value_admit(mtr_scheduler state, uint64_t number,
    uint64_t group, uint64_t reservation)
{
    return proved_mtr_by_value_admit(state, number, group, reservation);
}

mtr_reply proved_mtr_by_value_admit_best_effort(mtr_scheduler state,
    uint64_t number, uint64_t weight);
mtr_reply mtr_by_value_admit_best_effort(mtr_scheduler state, uint64_t number,
    uint64_t weight)
{
    return proved_mtr_by_value_admit_best_effort(state, number, weight);
}

mtr_reply proved_mtr_by_value_remove(mtr_scheduler state, uint64_t number);
mtr_reply mtr_by_value_remove(mtr_scheduler state, uint64_t number)
{
    return proved_mtr_by_value_remove(state, number);
}

mtr_reply proved_mtr_by_value_wake(mtr_scheduler state, uint64_t number);
mtr_reply mtr_by_value_wake(mtr_scheduler state, uint64_t number)
{
    return proved_mtr_by_value_wake(state, number);
}

mtr_reply proved_mtr_by_value_dispatch(mtr_scheduler state);
mtr_reply mtr_by_value_dispatch(mtr_scheduler state)
{
    return proved_mtr_by_value_dispatch(state);
}

mtr_reply proved_mtr_by_value_report(mtr_scheduler state, uint64_t reason,
    uint64_t used);
mtr_reply mtr_by_value_report(mtr_scheduler state, uint64_t reason,
    uint64_t used)
{
    return proved_mtr_by_value_report(state, reason, used);
}

mtr_reply proved_mtr_by_value_change(mtr_scheduler state, uint64_t number,
    uint64_t reservation);
mtr_reply mtr_by_value_change(mtr_scheduler state, uint64_t number,
    uint64_t reservation)
{
    return proved_mtr_by_value_change(state, number, reservation);
}

uint32_t proved_mtr_by_value_sound(mtr_scheduler state);
uint32_t mtr_by_value_sound(mtr_scheduler state)
{
    return proved_mtr_by_value_sound(state);
}

mtr_mapped proved_mtr_by_value_priority(uint64_t priority);
mtr_mapped mtr_by_value_priority(uint64_t priority)
{
    return proved_mtr_by_value_priority(priority);
}

mtr_total proved_mtr_by_value_subtree(mtr_scheduler state, uint64_t group);
mtr_total mtr_by_value_subtree(mtr_scheduler state, uint64_t group)
{
    return proved_mtr_by_value_subtree(state, group);
}

mtr_priority_line proved_mtr_by_value_priority_under(mtr_priority_table table,
    uint64_t priority);
mtr_priority_line mtr_by_value_priority_under(mtr_priority_table table,
    uint64_t priority)
{
    return proved_mtr_by_value_priority_under(table, priority);
}

mtr_lag_line proved_mtr_by_value_lag(mtr_scheduler state, uint64_t number);
mtr_lag_line mtr_by_value_lag(mtr_scheduler state, uint64_t number)
{
    return proved_mtr_by_value_lag(state, number);
}

mtr_share_line proved_mtr_by_value_share(mtr_scheduler state, uint64_t number);
mtr_share_line mtr_by_value_share(mtr_scheduler state, uint64_t number)
{
    return proved_mtr_by_value_share(state, number);
}

uint32_t proved_mtr_by_value_roster(mtr_scheduler state, mtr_entry *table,
    size_t table_len);
uint32_t mtr_by_value_roster(mtr_scheduler state, mtr_entry *table,
    size_t table_len)
{
    return proved_mtr_by_value_roster(state, table, table_len);
}

uint32_t proved_mtr_by_value_write_block(uint8_t *area, size_t area_len,
    uint32_t block, mtr_records list, size_t count);
uint32_t mtr_by_value_write_block(uint8_t *area, size_t area_len,
    uint32_t block, mtr_records list, size_t count)
{
    return proved_mtr_by_value_write_block(area, area_len, block, list, count);
}

mtr_found proved_mtr_by_value_read_block(const uint8_t *area, size_t area_len,
    uint32_t block);
mtr_found mtr_by_value_read_block(const uint8_t *area, size_t area_len,
    uint32_t block)
{
    return proved_mtr_by_value_read_block(area, area_len, block);
}

mtr_priority_table proved_mtr_standard_table(void);
mtr_priority_table mtr_standard_table(void)
{
    return proved_mtr_standard_table();
}

uint32_t proved_mtr_version(void);
uint32_t mtr_version(void)
{
    return proved_mtr_version();
}
