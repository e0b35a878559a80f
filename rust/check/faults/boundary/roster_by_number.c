/* Of equal lags the lower number comes first in the roster, whatever they reserve (10.5, 30). */
#include "mtr.h"

uint32_t proved_mtr_by_value_roster(mtr_scheduler state, mtr_entry *table,
    size_t table_len);

uint32_t mtr_by_value_roster(mtr_scheduler state, mtr_entry *table,
    size_t table_len)
{
    const uint32_t answer =
        proved_mtr_by_value_roster(state, table, table_len);
    if (answer != MTR_ACCEPTED)
        return answer;
    size_t count = 0;
    for (size_t n = 0; n < MTR_THREADS; n++)
        count += state.threads[n].status != MTR_STATUS_FREE;
    for (size_t i = 1; i < count; i++) {
        const mtr_entry entry = table[i];
        size_t place = i;
        for (; place > 0 && table[place - 1].lag == entry.lag &&
               table[place - 1].number > entry.number;
             place--)
            table[place] = table[place - 1];
        table[place] = entry;
    }
    return answer;
}
