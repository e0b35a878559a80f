/*
 * The scheduler with its journal. A call is made, journalled into event blocks and printed as mtrrun prints it for the
 * call's record: number, answer, thread, slice, threads before it.
 */
#ifndef HOST_H
#define HOST_H

#include <inttypes.h>
#include <stdio.h>
#include <stdlib.h>

#include "mtr.h"

typedef struct host {
    mtr_scheduler state;
    FILE *journal;
    /* The block that is being filled, its number, and the number of the next record. */
    mtr_records list;
    size_t count;
    uint32_t block;
    uint64_t record;
} host;

static _Noreturn void fail(const char *what)
{
    fprintf(stderr, "controller: %s\n", what);
    exit(EXIT_FAILURE);
}

/* Ends the host where a call that it relies on is refused. */
static void must(mtr_answer answer)
{
    if (answer != MTR_ACCEPTED)
        fail(mtr_answer_text(answer));
}

/* Writes the records held as the next block. */
static void flush_block(host *h)
{
    uint8_t area[MTR_BLOCK_BYTES];
    must(mtr_write_block(area, sizeof area, h->block, &h->list, h->count));
    if (fwrite(area, sizeof area, 1, h->journal) != 1)
        fail("the journal cannot be written");
    h->block += 1;
    h->count = 0;
}

/* Makes the call that a record stands for. Only a dispatch fills in the run. */
static mtr_answer make(mtr_scheduler *state, const mtr_record *r, mtr_run *run)
{
    switch (r->kind) {
    case MTR_KIND_OPEN:
        return mtr_open(state, r->subject, r->group, r->amount);
    case MTR_KIND_CLOSE:
        return mtr_close(state, r->subject);
    case MTR_KIND_ADMIT:
        return mtr_admit(state, r->subject, r->group, r->amount);
    case MTR_KIND_REMOVE:
        return mtr_remove(state, r->subject);
    case MTR_KIND_WAKE:
        return mtr_wake(state, r->subject);
    case MTR_KIND_DISPATCH:
        return mtr_dispatch(state, run);
    case MTR_KIND_REPORT:
        return mtr_report(state, r->reason, r->ticks);
    case MTR_KIND_CHANGE:
        return mtr_change(state, r->subject, r->amount);
    case MTR_KIND_BEST_EFFORT:
        return mtr_admit_best_effort(state, r->subject, r->amount);
    default:
        return mtr_start(state, r->amount, r->ticks, r->overrun);
    }
}

/* Makes a call, journals it and prints its answer. */
static mtr_answer call(host *h, mtr_record r, mtr_run *run)
{
    *run = (mtr_run){ 0, 0, 0 };
    const mtr_answer answer = make(&h->state, &r, run);
    h->list.records[h->count++] = r;
    if (h->count == MTR_RECORDS)
        flush_block(h);
    printf("%" PRIu64 " %u %" PRIu32 " %" PRIu32 " %" PRIu32 "\n", h->record, (unsigned)answer, run->thread, run->slice,
        run->before);
    h->record += 1;
    return answer;
}

/* A call that has nothing to tell but its answer. */
static mtr_answer tell(host *h, mtr_record r)
{
    mtr_run none;
    return call(h, r, &none);
}

static mtr_answer start(host *h, uint16_t thousandth, uint32_t interval, uint16_t overrun)
{
    return tell(h, (mtr_record){ .kind = MTR_KIND_START, .amount = thousandth, .overrun = overrun, .ticks = interval });
}

static mtr_answer open_group(host *h, uint8_t group, uint8_t parent, uint16_t ceiling)
{
    return tell(h, (mtr_record){ .kind = MTR_KIND_OPEN, .subject = group, .group = parent, .amount = ceiling });
}

static mtr_answer close_group(host *h, uint8_t group)
{
    return tell(h, (mtr_record){ .kind = MTR_KIND_CLOSE, .subject = group });
}

static mtr_answer admit(host *h, uint8_t thread, uint8_t group, uint16_t reservation)
{
    return tell(h, (mtr_record){ .kind = MTR_KIND_ADMIT, .subject = thread, .group = group, .amount = reservation });
}

static mtr_answer admit_best_effort(host *h, uint8_t thread, uint16_t weight)
{
    return tell(h, (mtr_record){ .kind = MTR_KIND_BEST_EFFORT, .subject = thread, .amount = weight });
}

static mtr_answer remove_thread(host *h, uint8_t thread)
{
    return tell(h, (mtr_record){ .kind = MTR_KIND_REMOVE, .subject = thread });
}

static mtr_answer wake(host *h, uint8_t thread)
{
    return tell(h, (mtr_record){ .kind = MTR_KIND_WAKE, .subject = thread });
}

static mtr_answer dispatch(host *h, mtr_run *run)
{
    return call(h, (mtr_record){ .kind = MTR_KIND_DISPATCH }, run);
}

static mtr_answer report(host *h, uint8_t reason, uint32_t used)
{
    return tell(h, (mtr_record){ .kind = MTR_KIND_REPORT, .reason = reason, .ticks = used });
}

static mtr_answer change(host *h, uint8_t thread, uint16_t reservation)
{
    return tell(h, (mtr_record){ .kind = MTR_KIND_CHANGE, .subject = thread, .amount = reservation });
}

/* Ticks left of a thread's quantum. */
static int32_t allotment(const host *h, unsigned thread)
{
    return h->state.threads[thread].allotment;
}

#endif
