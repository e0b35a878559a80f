/* A record whose unused O has its low byte 0 is written (RULE 7.4). */
#include "mtr.h"

uint32_t proved_mtr_by_value_write_block(uint8_t *area, size_t area_len,
    uint32_t block, mtr_records list, size_t count);

uint32_t mtr_by_value_write_block(uint8_t *area, size_t area_len,
    uint32_t block, mtr_records list, size_t count)
{
    for (size_t i = 0; i < count && i < sizeof list.records / sizeof list.records[0]; i++)
        if (list.records[i].kind != MTR_KIND_START && list.records[i].overrun % 256 == 0)
            list.records[i].overrun = 0;
    return proved_mtr_by_value_write_block(area, area_len, block, list, count);
}
