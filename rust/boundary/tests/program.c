/*
 * Every function of mtr.h, each beside the export that it stands on: the same answer, the same state after an accepted call,
 * and after a refused one everything as it was. Compiled as C and as C++.
 */
#include <mtr.h>
#include <mtr.h>
#include <stdio.h>
#include <string.h>

#ifdef __cplusplus
#define CAST(type, value) static_cast<type>(value)
#else
#define CAST(type, value) ((type)(value))
#endif

static unsigned failures;

static void hold(bool is, const char *what, unsigned line)
{
    if (!is) {
        printf("line %u: %s\n", line, what);
        failures++;
    }
}
#define HOLD(is) hold((is), #is, CAST(unsigned, __LINE__))

static bool same(const mtr_scheduler *a, const mtr_scheduler *b)
{
    return memcmp(a, b, sizeof *a) == 0;
}

/* A call that changes the state, and the export's reply for the state before it. */
static void changed(mtr_answer answer, mtr_answer wanted, const mtr_scheduler *before, const mtr_scheduler *after,
    const mtr_reply *reply, unsigned line)
{
    hold(answer == wanted, mtr_answer_text(answer), line);
    hold(reply->answer == wanted, "the export's answer", line);
    hold(same(after, answer == MTR_ACCEPTED ? &reply->state : before), "the state afterwards", line);
}
#define CHANGED(wanted, name, ...)                                                                                                   \
    do {                                                                                                                             \
        const mtr_scheduler before = state;                                                                                          \
        const mtr_reply reply = mtr_by_value_##name(before, __VA_ARGS__);                                                            \
        const mtr_answer answer = mtr_##name(&state, __VA_ARGS__);                                                                   \
        changed(answer, wanted, &before, &state, &reply, CAST(unsigned, __LINE__));                                                        \
    } while (0)

static mtr_scheduler state;

static mtr_run run_of(uint32_t thread, uint32_t slice, uint32_t before)
{
    const mtr_run run = { thread, slice, before };
    return run;
}

static void dispatch(mtr_answer wanted, mtr_run expected)
{
    const mtr_scheduler before = state;
    const mtr_reply reply = mtr_by_value_dispatch(before);
    mtr_run run = { 77, 77, 77 };
    const mtr_answer answer = mtr_dispatch(&state, &run);
    changed(answer, wanted, &before, &state, &reply, CAST(unsigned, __LINE__));
    HOLD(run.thread == expected.thread && run.slice == expected.slice && run.before == expected.before);
}

static void calls(void)
{
    const mtr_scheduler zeros = state;
    CHANGED(MTR_REFUSED_UNSOUND, wake, 5);
    CHANGED(MTR_REFUSED_UNSOUND, change, 5, 1);
    CHANGED(MTR_REFUSED_UNSOUND, admit_best_effort, 5, 1);
    HOLD(!mtr_sound(&state));
    HOLD(mtr_start(&state, 0, 20000, 0) == MTR_REFUSED_SETTINGS && same(&state, &zeros));
    HOLD(mtr_start(&state, MTR_DEFAULT_THOUSANDTH, MTR_DEFAULT_INTERVAL, MTR_DEFAULT_OVERRUN) == MTR_ACCEPTED);
    HOLD(mtr_sound(&state) && state.settings.overrun == 0);
    CHANGED(MTR_ACCEPTED, open, 1, 0, 300);
    CHANGED(MTR_REFUSED_GROUP_NUMBER, open, 1, 0, 300);
    CHANGED(MTR_ACCEPTED, admit, 5, 0, 500);
    CHANGED(MTR_ACCEPTED, admit, 7, 1, 100);
    CHANGED(MTR_REFUSED_NO_ROOM, admit, 8, 1, 201);
    CHANGED(MTR_REFUSED_GROUP_IN_USE, close, 1);
    dispatch(MTR_ACCEPTED, run_of(5, 20000, 0));
    dispatch(MTR_REFUSED_BUSY, run_of(77, 77, 77));
    CHANGED(MTR_REFUSED_OVER_SLICE, report, MTR_REASON_TICK, 20001);
    CHANGED(MTR_REFUSED_REASON, report, 4, 12000);
    /* Cut to 32 bits this would be a tick. */
    CHANGED(MTR_REFUSED_REASON, report, UINT64_C(1) << 32, 12000);
    HOLD(MTR_REFUSED_REASON == 14);
    CHANGED(MTR_ACCEPTED, report, MTR_REASON_BLOCK, 12000);
    dispatch(MTR_ACCEPTED, run_of(7, 10000, 1));
    CHANGED(MTR_REFUSED_THREAD_RUNNING, remove, 7);
    CHANGED(MTR_ACCEPTED, wake, 5);
    CHANGED(MTR_REFUSED_NOT_BLOCKED, wake, 5);
    CHANGED(MTR_ACCEPTED, report, MTR_REASON_EXIT, 8000);
    CHANGED(MTR_ACCEPTED, close, 1);
    CHANGED(MTR_ACCEPTED, admit, 9, 0, 200);
}

static void figures(void)
{
    const mtr_scheduler before = state;
    uint32_t number = 77;
    HOLD(mtr_priority(0, &number) == MTR_REFUSED_AMOUNT && number == 77);
    HOLD(mtr_priority(5, &number) == MTR_ACCEPTED && number == 15);
    HOLD(mtr_subtree(&state, 1, &number) == MTR_REFUSED_NO_GROUP && number == 15);
    HOLD(mtr_subtree(&state, 0, &number) == MTR_ACCEPTED && number == 700);
    HOLD(mtr_share(&state, 7, &number) == MTR_REFUSED_NO_THREAD && number == 700);
    HOLD(mtr_share(&state, 5, &number) == MTR_ACCEPTED && number == 600);
    int64_t lag = 77;
    HOLD(mtr_lag(&state, 64, &lag) == MTR_REFUSED_NO_THREAD && lag == 77);
    HOLD(mtr_lag(&state, 5, &lag) == MTR_ACCEPTED && lag == mtr_by_value_lag(state, 5).lag);

    mtr_entry table[MTR_THREADS];
    memset(table, 7, sizeof table);
    const mtr_entry past = table[2];
    size_t filled = 77;
    HOLD(mtr_roster(&state, table, 1, &filled) == MTR_REFUSED_LENGTH && filled == 77 && memcmp(table, &past, sizeof past) == 0);
    HOLD(mtr_roster(&state, table, MTR_THREADS, &filled) == MTR_ACCEPTED && filled == 2);
    HOLD(table[0].state == MTR_ROSTER_RUNNABLE && memcmp(table + 2, &past, sizeof past) == 0);
    HOLD(same(&state, &before));
}

static bool equal(mtr_priority_line a, mtr_priority_line b)
{
    return a.answer == b.answer && a.place == b.place && a.reservation == b.reservation;
}

/* What a priority has under a table, which is as it was afterwards; the export has the same. */
static void asked(const mtr_priority_table *table, uint64_t priority, uint32_t answer, uint32_t place, uint32_t reservation,
    unsigned line)
{
    const mtr_priority_table before = *table;
    const mtr_priority_line found = mtr_priority_under(table, priority);
    hold(found.answer == answer, mtr_answer_text(CAST(mtr_answer, found.answer)), line);
    hold(found.place == place, "the place", line);
    hold(found.reservation == reservation, "the reservation", line);
    hold(equal(found, mtr_by_value_priority_under(before, priority)), "the export's reply", line);
    hold(memcmp(table, &before, sizeof before) == 0, "the table afterwards", line);
}
#define ASKED(priority, answer, place, reservation)                                                                                  \
    asked(&table, priority, answer, place, reservation, CAST(unsigned, __LINE__))

/* A table of three rows, the highest first, with anything in the entries past them. */
static mtr_priority_table three(void)
{
    static const mtr_priority_row rows[] = { { 8, 10, 40 }, { 1, 3, 10 }, { 4, 7, 1000 } };
    mtr_priority_table table;
    memset(&table, 0xa5, sizeof table);
    memcpy(table.rows, rows, sizeof rows);
    table.count = 3;
    return table;
}

/* Each refusal with its place, in the order in which they are looked for. */
static void refused_tables(void)
{
    mtr_priority_table table = three();
    ASKED(0, MTR_REFUSED_AMOUNT, 0, 0);
    ASKED(11, MTR_REFUSED_AMOUNT, 0, 0);
    /* Cut to 32 bits this would be 5. */
    ASKED((UINT64_C(1) << 32) + 5, MTR_REFUSED_AMOUNT, 0, 0);
    /* 4 is in no row, and after that 3 in two; so it is whichever priority is asked for. */
    table.rows[2].first = 5;
    ASKED(8, MTR_REFUSED_TABLE_COVER, 4, 0);
    ASKED(0, MTR_REFUSED_TABLE_COVER, 4, 0);
    table.rows[2].first = 3;
    ASKED(8, MTR_REFUSED_TABLE_COVER, 3, 0);
    /* Also where both rows have the same to give. */
    table.rows[2].reservation = 10;
    ASKED(8, MTR_REFUSED_TABLE_COVER, 3, 0);
    /* A row that can't be comes before that, the first of them first. */
    table.rows[2].last = 11;
    ASKED(8, MTR_REFUSED_TABLE_ROW, 2, 0);
    table.rows[1].reservation = MTR_WHOLE + 1;
    ASKED(11, MTR_REFUSED_TABLE_ROW, 1, 0);
    table.rows[0].first = 10;
    table.rows[0].last = 8;
    ASKED(8, MTR_REFUSED_TABLE_ROW, 0, 0);
    /* And the number of rows before those. */
    table.count = 0;
    ASKED(8, MTR_REFUSED_AMOUNT, 0, 0);
    table.count = MTR_PRIORITY_ROWS + 1;
    ASKED(8, MTR_REFUSED_AMOUNT, 0, 0);
    table = three();
    table.rows[0].first = 0;
    ASKED(8, MTR_REFUSED_TABLE_ROW, 0, 0);
    table = three();
    table.rows[1].reservation = 0;
    ASKED(8, MTR_REFUSED_TABLE_ROW, 1, 0);
    /* Cut to 32 bits this would be 1. */
    table = three();
    table.rows[1].first = (UINT64_C(1) << 32) + 1;
    ASKED(8, MTR_REFUSED_TABLE_ROW, 1, 0);
    /* Cut to 32 bits this would be 3. */
    table = three();
    table.count = (UINT64_C(1) << 32) + 3;
    ASKED(8, MTR_REFUSED_AMOUNT, 0, 0);
}

static void tables(void)
{
    static const uint32_t wanted[] = { 10, 10, 10, 1000, 1000, 1000, 1000, 40, 40, 40 };
    mtr_priority_table table = three();
    for (uint32_t priority = 1; priority <= MTR_HIGHEST_PRIORITY; priority++)
        ASKED(priority, MTR_ACCEPTED, 0, wanted[priority - 1]);
    /* What stands past the rows does not matter. */
    for (unsigned char byte = 0; byte < 255; byte++) {
        memset(table.rows + 3, byte, sizeof table.rows - 3 * sizeof *table.rows);
        ASKED(5, MTR_ACCEPTED, 0, 1000);
        ASKED(0, MTR_REFUSED_AMOUNT, 0, 0);
    }
    refused_tables();
    /* The standard table has what a priority has without a table. */
    table = mtr_standard_table();
    HOLD(table.count == MTR_PRIORITY_ROWS && table.rows[0].first == MTR_HIGHEST_PRIORITY);
    for (uint64_t priority = 0; priority <= 12; priority++) {
        uint32_t reservation = 0;
        const mtr_answer answer = mtr_priority(priority, &reservation);
        HOLD((answer == MTR_ACCEPTED) == (priority >= 1 && priority <= 10));
        ASKED(priority, CAST(uint32_t, answer), 0, reservation);
    }
    const mtr_priority_table again = mtr_standard_table();
    HOLD(memcmp(&again, &table, sizeof table) == 0);
}

/* A timer that fires up to 9 ticks late: the debt is kept, also by a yield. */
static void overruns(void)
{
    const mtr_scheduler before = state;
    HOLD(mtr_start(&state, 10, 1000, 10) == MTR_REFUSED_SETTINGS && same(&state, &before));
    /* Cut to 16 bits this would be 0. */
    HOLD(mtr_start(&state, 10, 1000, UINT64_C(1) << 16) == MTR_REFUSED_SETTINGS && same(&state, &before));
    HOLD(mtr_start(&state, MTR_LEAST_THOUSANDTH, MTR_LEAST_INTERVAL, 1) == MTR_REFUSED_SETTINGS && same(&state, &before));
    HOLD(mtr_start(&state, MTR_LEAST_THOUSANDTH, MTR_LEAST_INTERVAL, MTR_LEAST_OVERRUN) == MTR_ACCEPTED);
    HOLD(mtr_start(&state, MTR_MOST_THOUSANDTH, MTR_MOST_INTERVAL, MTR_MOST_OVERRUN) == MTR_ACCEPTED);
    HOLD(state.settings.overrun == 999 && mtr_sound(&state));
    state.settings.overrun = 1000;
    CHANGED(MTR_REFUSED_UNSOUND, admit, 5, 0, 10);
    HOLD(mtr_start(&state, 10, 1000, 9) == MTR_ACCEPTED && state.settings.overrun == 9);
    CHANGED(MTR_ACCEPTED, admit, 5, 0, 10);
    dispatch(MTR_ACCEPTED, run_of(5, 100, 0));
    CHANGED(MTR_REFUSED_OVER_SLICE, report, MTR_REASON_TICK, 110);
    CHANGED(MTR_ACCEPTED, report, MTR_REASON_TICK, 109);
    HOLD(state.threads[5].allotment == 91);
    dispatch(MTR_ACCEPTED, run_of(5, 91, 0));
    CHANGED(MTR_ACCEPTED, report, MTR_REASON_YIELD, 95);
    mtr_entry table[1];
    size_t filled = 0;
    HOLD(mtr_roster(&state, table, 1, &filled) == MTR_ACCEPTED && filled == 1 && table[0].allotment == 96);
    /* Below 0 an allotment is not sound. */
    state.threads[5].allotment = -1;
    CHANGED(MTR_REFUSED_UNSOUND, wake, 5);
    HOLD(state.threads[5].allotment < 0);
}

/* A reservation that changes: the place is kept, the allotment cut to the new quantum or kept, and the lag begins again at 0. */
static void changes(void)
{
    HOLD(mtr_start(&state, 100, 20000, 0) == MTR_ACCEPTED);
    CHANGED(MTR_ACCEPTED, admit, 5, 0, 500);
    CHANGED(MTR_ACCEPTED, admit, 7, 0, 100);
    CHANGED(MTR_REFUSED_NO_THREAD, change, 6, 0);
    CHANGED(MTR_REFUSED_NO_THREAD, change, MTR_THREADS, 500);
    CHANGED(MTR_REFUSED_AMOUNT, change, 5, 0);
    CHANGED(MTR_REFUSED_AMOUNT, change, 5, MTR_WHOLE + 1);
    CHANGED(MTR_REFUSED_NO_ROOM, change, 5, 901);
    /* Cut to 32 bits this would be thread 5, and to 16 bits 500. */
    CHANGED(MTR_REFUSED_NO_THREAD, change, (UINT64_C(1) << 32) + 5, 500);
    CHANGED(MTR_REFUSED_AMOUNT, change, 5, (UINT64_C(1) << 16) + 500);
    dispatch(MTR_ACCEPTED, run_of(5, 20000, 0));
    CHANGED(MTR_REFUSED_THREAD_RUNNING, change, 5, 0);
    CHANGED(MTR_ACCEPTED, change, 7, 200);
    CHANGED(MTR_ACCEPTED, report, MTR_REASON_TICK, 20000);
    const mtr_reply reply = mtr_by_value_change(state, 5, 700);
    HOLD(reply.thread == 0 && reply.slice == 0 && reply.before == 0);
    int64_t lag = 77;
    HOLD(mtr_lag(&state, 5, &lag) == MTR_ACCEPTED && lag == -10000000);
    CHANGED(MTR_ACCEPTED, change, 5, 700);
    HOLD(mtr_lag(&state, 5, &lag) == MTR_ACCEPTED && lag == 0);
    HOLD(state.threads[5].allotment == 30000 && state.threads[5].reservation == 700 && state.order[0] == 5);
    CHANGED(MTR_ACCEPTED, change, 5, 50);
    HOLD(state.threads[5].allotment == 5000);
    uint32_t share = 0;
    HOLD(mtr_share(&state, 5, &share) == MTR_ACCEPTED && share == 1000);
    dispatch(MTR_ACCEPTED, run_of(5, 5000, 0));
}

/* The admission of best-effort threads, and what it is refused with, beside the reserved thread 5 that has the whole core. */
static void admissions(void)
{
    HOLD(mtr_start(&state, 100, 20000, 0) == MTR_ACCEPTED);
    CHANGED(MTR_ACCEPTED, admit, 5, 0, 1000);
    CHANGED(MTR_REFUSED_NO_THREAD, admit_best_effort, MTR_THREADS, 0);
    CHANGED(MTR_REFUSED_ALREADY_ADMITTED, admit_best_effort, 5, 0);
    CHANGED(MTR_REFUSED_AMOUNT, admit_best_effort, 40, MTR_LEAST_WEIGHT - 1);
    CHANGED(MTR_REFUSED_AMOUNT, admit_best_effort, 40, MTR_MOST_WEIGHT + 1);
    /* Cut to 32 bits this would be thread 40, and cut to 8, 16 or 32 bits a weight of 1. */
    CHANGED(MTR_REFUSED_NO_THREAD, admit_best_effort, (UINT64_C(1) << 32) + 40, 1);
    CHANGED(MTR_REFUSED_AMOUNT, admit_best_effort, 40, (UINT64_C(1) << 8) + 1);
    CHANGED(MTR_REFUSED_AMOUNT, admit_best_effort, 40, (UINT64_C(1) << 16) + 1);
    CHANGED(MTR_REFUSED_AMOUNT, admit_best_effort, 40, (UINT64_C(1) << 32) + 1);
    const mtr_reply reply = mtr_by_value_admit_best_effort(state, 40, MTR_MOST_WEIGHT);
    HOLD(reply.answer == MTR_ACCEPTED && reply.thread == 0 && reply.slice == 0 && reply.before == 0);
    CHANGED(MTR_ACCEPTED, admit_best_effort, 40, MTR_LEAST_WEIGHT);
    CHANGED(MTR_ACCEPTED, admit_best_effort, 41, 2);
    CHANGED(MTR_REFUSED_ALREADY_ADMITTED, admit_best_effort, 40, 1);
    CHANGED(MTR_REFUSED_ALREADY_ADMITTED, admit, 40, 0, 1);
    HOLD(state.count == 1 && state.threads[41].group_or_weight == 2 && state.threads[41].reservation == 0);
    uint32_t total = 0;
    HOLD(mtr_subtree(&state, 0, &total) == MTR_ACCEPTED && total == 1000);
}

/* They run where the reserved thread does not, the smallest tag first. */
static void best_effort(void)
{
    const uint64_t whole = UINT64_C(20000) * MTR_TAG_UNIT;
    admissions();
    dispatch(MTR_ACCEPTED, run_of(5, 20000, 0));
    CHANGED(MTR_ACCEPTED, report, MTR_REASON_BLOCK, 300);
    dispatch(MTR_ACCEPTED, run_of(40, 20000, 1));
    CHANGED(MTR_REFUSED_NO_THREAD, change, 40, 100);
    CHANGED(MTR_REFUSED_THREAD_RUNNING, remove, 40);
    CHANGED(MTR_REFUSED_OVER_SLICE, report, MTR_REASON_TICK, 20001);
    CHANGED(MTR_ACCEPTED, wake, 5);
    CHANGED(MTR_ACCEPTED, report, MTR_REASON_TICK, 20000);
    HOLD(state.threads[40].tag == whole && state.time == 0);
    /* The reserved thread waited for one run. */
    dispatch(MTR_ACCEPTED, run_of(5, 20000, 0));
    CHANGED(MTR_ACCEPTED, report, MTR_REASON_BLOCK, 0);
    dispatch(MTR_ACCEPTED, run_of(41, 20000, 1));
    CHANGED(MTR_ACCEPTED, report, MTR_REASON_TICK, 20000);
    dispatch(MTR_ACCEPTED, run_of(41, 20000, 1));
    HOLD(state.time == whole / 2);
    CHANGED(MTR_ACCEPTED, report, MTR_REASON_BLOCK, 20000);
    HOLD(state.threads[41].tag == whole);
    dispatch(MTR_ACCEPTED, run_of(40, 20000, 1));
    CHANGED(MTR_ACCEPTED, report, MTR_REASON_YIELD, 1);
    CHANGED(MTR_REFUSED_NO_THREAD, change, 40, 100);
    dispatch(MTR_ACCEPTED, run_of(40, 20000, 1));
    CHANGED(MTR_ACCEPTED, report, MTR_REASON_BLOCK, 0);
    dispatch(MTR_ACCEPTED, run_of(MTR_NO_THREAD, 0, 3));
    CHANGED(MTR_REFUSED_NO_THREAD, change, 40, 100);
    /* What it could have had is not made up for. */
    CHANGED(MTR_ACCEPTED, wake, 41);
    HOLD(state.time == whole + MTR_TAG_UNIT && state.threads[41].tag == state.time);
}

static void best_effort_figures(void)
{
    int64_t lag = 77;
    HOLD(mtr_lag(&state, 41, &lag) == MTR_ACCEPTED && lag == 0);
    uint32_t share = 77;
    HOLD(mtr_share(&state, 41, &share) == MTR_ACCEPTED && share == 663);
    /* The table has room for all three, and no more are filled. */
    mtr_entry table[4];
    memset(table, 7, sizeof table);
    const mtr_entry past = table[3];
    size_t filled = 77;
    HOLD(mtr_roster(&state, table, 2, &filled) == MTR_REFUSED_LENGTH && filled == 77);
    HOLD(mtr_roster(&state, table, 4, &filled) == MTR_ACCEPTED && filled == 3 && memcmp(table + 3, &past, sizeof past) == 0);
    /* Equal lags: those that reserve nothing come first. */
    HOLD(table[0].number == 40 && table[1].number == 41 && table[2].number == 5);
    HOLD(table[0].state == MTR_ROSTER_BLOCKED && table[1].state == MTR_ROSTER_RUNNABLE);
    HOLD(table[1].allotment == 0 && table[1].lag == 0 && table[1].share == share && table[2].lag == 0);
    CHANGED(MTR_ACCEPTED, remove, 40);
    HOLD(mtr_roster(&state, table, 2, &filled) == MTR_ACCEPTED && filled == 2);
    CHANGED(MTR_REFUSED_NO_ROOM, admit, 40, 0, 1);
    CHANGED(MTR_ACCEPTED, admit_best_effort, 40, MTR_MOST_WEIGHT);
    HOLD(state.threads[40].tag == state.time && mtr_sound(&state));
    state.threads[40].group_or_weight = MTR_MOST_WEIGHT + 1;
    HOLD(!mtr_sound(&state));
    CHANGED(MTR_REFUSED_UNSOUND, admit_best_effort, 42, 1);
}

static void blocks(void)
{
    mtr_records list;
    memset(&list, 0, sizeof list);
    list.records[0].kind = MTR_KIND_DISPATCH;
    list.records[1].kind = MTR_KIND_WAKE;
    list.records[1].subject = 9;
    uint8_t area[MTR_BLOCK_BYTES];
    HOLD(mtr_write_block(area, sizeof area - 1, 3, &list, 2) == MTR_REFUSED_LENGTH);
    HOLD(mtr_write_block(area, sizeof area, 3, &list, 3) == MTR_REFUSED_FORM);
    HOLD(mtr_write_block(area, sizeof area, 3, &list, 2) == MTR_ACCEPTED);
    mtr_records found;
    memset(&found, 7, sizeof found);
    const mtr_records untouched = found;
    size_t count = 77;
    HOLD(mtr_read_block(area, sizeof area, 4, &found, &count) == MTR_REFUSED_FORM);
    HOLD(count == 77 && memcmp(&found, &untouched, sizeof found) == 0);
    HOLD(mtr_read_block(area, sizeof area, 3, &found, &count) == MTR_ACCEPTED && count == 2);
    HOLD(found.records[1].kind == MTR_KIND_WAKE && found.records[1].subject == 9 && found.records[2].kind == 0);
    /* A start alone has an overrun limit. */
    list.records[1].overrun = 1;
    HOLD(mtr_write_block(area, sizeof area, 3, &list, 2) == MTR_REFUSED_FORM);
    list.records[1].kind = MTR_KIND_START;
    list.records[1].subject = 0;
    list.records[1].overrun = 0x1234;
    HOLD(mtr_write_block(area, sizeof area, 3, &list, 2) == MTR_ACCEPTED && area[40] == 0x34 && area[41] == 0x12);
    HOLD(mtr_read_block(area, sizeof area, 3, &found, &count) == MTR_ACCEPTED && memcmp(&found, &list, sizeof list) == 0);
    /* A change has a thread and a reservation, and no group. */
    memset(&list, 0, sizeof list);
    list.records[0].kind = MTR_KIND_CHANGE;
    list.records[0].subject = 5;
    list.records[0].amount = 700;
    HOLD(mtr_write_block(area, sizeof area, 3, &list, 1) == MTR_ACCEPTED);
    HOLD(mtr_read_block(area, sizeof area, 3, &found, &count) == MTR_ACCEPTED && memcmp(&found, &list, sizeof list) == 0);
    list.records[0].group = 1;
    HOLD(mtr_write_block(area, sizeof area, 3, &list, 1) == MTR_REFUSED_FORM);
    /* Nor has the admission of a best-effort thread, which has a weight. */
    list.records[0].kind = MTR_KIND_BEST_EFFORT;
    HOLD(mtr_write_block(area, sizeof area, 3, &list, 1) == MTR_REFUSED_FORM);
    list.records[0].group = 0;
    list.records[0].amount = MTR_MOST_WEIGHT;
    HOLD(mtr_write_block(area, sizeof area, 3, &list, 1) == MTR_ACCEPTED && area[14] == 10 && area[18] == 16);
    HOLD(mtr_read_block(area, sizeof area, 3, &found, &count) == MTR_ACCEPTED && memcmp(&found, &list, sizeof list) == 0);
}

int main(void)
{
    calls();
    figures();
    tables();
    overruns();
    changes();
    best_effort();
    best_effort_figures();
    blocks();
    HOLD(mtr_version() == MTR_VERSION);
    for (uint32_t answer = 0; answer <= 24; answer++)
        printf("%s\n", mtr_answer_text(CAST(mtr_answer, answer)));
    return failures == 0 ? 0 : 1;
}
