/* A block whose area begins at an odd address is refused, as damaged (RULE 7.7). */
#include "mtr.h"

mtr_found proved_mtr_by_value_read_block(const uint8_t *area, size_t area_len,
    uint32_t block);

mtr_found mtr_by_value_read_block(const uint8_t *area, size_t area_len,
    uint32_t block)
{
    mtr_found found = proved_mtr_by_value_read_block(area, area_len, block);
    if (found.answer == MTR_ACCEPTED && (uintptr_t)area % 2 != 0) {
        found = (mtr_found){0};
        found.answer = MTR_REFUSED_CHECK;
    }
    return found;
}
