/*
 * The lab's side of the controller: programs that the lab imports, in a group of their own. A program comes with a priority,
 * and what the priority is worth stands in the lab's own table.
 */
#ifndef LAB_H
#define LAB_H

#include <inttypes.h>
#include <stdio.h>

#include "mtr.h"

/* The group and its ceiling. */
enum { LAB = 1, LAB_CEILING = 150 };

/* Takes a table that the lab sends. One that can't be used is refused with its place, and the one before it stays. */
static void take_table(mtr_priority_table *table, const mtr_priority_table *sent)
{
    /* Any priority of the range tells whether the table can be used. */
    const mtr_priority_line line = mtr_priority_under(sent, MTR_LOWEST_PRIORITY);
    if (line.answer == MTR_ACCEPTED)
        *table = *sent;
    else
        fprintf(stderr, "controller: the lab's table is refused, %" PRIu32 " at %" PRIu32 ": %s\n", line.answer, line.place,
            mtr_answer_text((mtr_answer)line.answer));
}

/* The lab's table at power-up: the standard one until the lab has sent one that can be used, here at its second attempt. */
static mtr_priority_table lab_table(void)
{
    static const mtr_priority_table sent[] = {
        /* 6 is in no row. */
        { .rows = { { 1, 5, 50 }, { 7, 10, 100 } }, .count = 2 },
        { .rows = { { 1, 5, 50 }, { 6, 10, 100 } }, .count = 2 },
    };
    mtr_priority_table table = mtr_standard_table();
    for (size_t i = 0; i < sizeof sent / sizeof *sent; i++)
        take_table(&table, &sent[i]);
    return table;
}

/* What an imported program of this priority is admitted with; outside 1 to 10 that is 0, with which none is admitted. */
static uint16_t imported(const mtr_priority_table *table, uint64_t priority)
{
    return (uint16_t)mtr_priority_under(table, priority).reservation;
}

#endif
