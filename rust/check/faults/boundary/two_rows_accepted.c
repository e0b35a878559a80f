/* A priority is accepted in two rows of the same reservation (10.5, 20). */
#include "mtr.h"

mtr_priority_line proved_mtr_by_value_priority_under(mtr_priority_table table,
    uint64_t priority);

/* The reservation of the rows that hold a priority; 0 of none or several. */
static uint64_t held(const mtr_priority_table *table, uint64_t priority)
{
    uint64_t found = 0;
    for (uint64_t i = 0; i < table->count; i++) {
        const mtr_priority_row *row = &table->rows[i];
        if (row->first > priority || priority > row->last)
            continue;
        if (found != 0 && found != row->reservation)
            return 0;
        found = row->reservation;
    }
    return found;
}

mtr_priority_line mtr_by_value_priority_under(mtr_priority_table table,
    uint64_t priority)
{
    mtr_priority_line line =
        proved_mtr_by_value_priority_under(table, priority);
    if (line.answer != MTR_REFUSED_TABLE_COVER)
        return line;
    for (uint64_t p = MTR_LOWEST_PRIORITY; p <= MTR_HIGHEST_PRIORITY; p++)
        if (held(&table, p) == 0)
            return line;
    if (priority < MTR_LOWEST_PRIORITY || priority > MTR_HIGHEST_PRIORITY)
        return (mtr_priority_line){.answer = MTR_REFUSED_AMOUNT};
    return (mtr_priority_line){
        .reservation = (uint32_t)held(&table, priority)};
}
