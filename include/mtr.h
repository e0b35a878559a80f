/*
 * The move-to-rear list scheduler (MTR-LS), version 3.2.0, for C11 and C++11 or
 * later on x86-64.
 *
 * Written from the Rattle sources; do not edit. To renew it:
 *     cargo run --release -p boundary
 *
 * The scheduler's state is a struct that the host holds. A call takes a pointer
 * to it and returns its answer, MTR_ACCEPTED or one of MTR_REFUSED_*. A refused
 * call leaves the state, and everything else that it was lent, as they were:
 *
 *     static mtr_scheduler state;
 *     mtr_run run;
 *     mtr_answer answer = mtr_start(&state, 100, 20000, 0);
 *     ...
 *     answer = mtr_dispatch(&state, &run);
 *     if (answer != MTR_ACCEPTED)
 *         warn(mtr_answer_text(answer));
 *
 * Every value of every argument is allowed, also a state of arbitrary bytes: it
 * is refused with MTR_REFUSED_UNSOUND. A pointer is not null, is aligned and is
 * valid for the length that goes with it, and no two overlap. One tick is a
 * microsecond; reservations and ceilings are thousandths of the core.
 *
 * Timers that fire late. The timer that ends a run may fire some ticks after the
 * end of the slice, and the thread has run on meanwhile: an overrun. The last
 * argument of mtr_start, O, is the most ticks that a report may use beyond its
 * slice, 0 to m - 1; more is refused with MTR_REFUSED_OVER_SLICE. The host
 * reports all ticks that were used, and all are charged. What goes beyond the
 * allotment is a debt: the thread moves to the rear, and its next allotment is
 * its quantum less the debt. With O = 0 a report uses at most its slice.
 *
 * Reservations that change. mtr_change gives an admitted thread more or less of
 * the core. The running thread alone is refused, with
 * MTR_REFUSED_THREAD_RUNNING: the host changes it between a report and the next
 * dispatch. Less holds at once: an allotment larger than the new quantum is cut
 * to it. More holds when the allotment is next renewed, after what the thread
 * has left. Where its group has too little free, the host gives another thread
 * of the group less first, and its own back when the first has gone back; what
 * was cut of its allotment comes back when that is renewed. The share guarantee,
 * the limit on how far a runnable thread falls behind its reservation, holds
 * while the reservation stays the same. A change to another amount begins it
 * anew, and a thread that is changed again and again may get next to nothing.
 *
 * Best-effort threads. Work that needs no reservation, such as the printing of
 * reports, takes the time that reserved threads leave. mtr_admit_best_effort
 * admits a thread with a weight of 1 to 16, in no group and outside the list, so
 * that it takes nothing from what can be reserved. It is dispatched only if no
 * reserved thread is runnable, for a slice of P, and gets nothing while reserved
 * threads keep the core busy; their share guarantee holds beside it. A reserved
 * thread that is woken while it runs waits at most for the run in hand: the next
 * dispatch takes a reserved thread. Best-effort threads share by weight, and one
 * saves nothing up while it is blocked. While two of them, of weights v and w,
 * stay runnable, what each has run divided by its weight differs by at most
 * (P + O) / v + (P + O) / w: one longest run of each. The host reports, wakes and
 * removes them as it does the others. mtr_change refuses them with
 * MTR_REFUSED_NO_THREAD; in the roster their lag and their allotment are 0,
 * and of equal lags they come first.
 *
 * Customers' priorities. A program that comes with a priority of 1 to 10 has the
 * reservation that mtr_priority answers, or that of the customer's own table: 1
 * to 10 rows, and every priority in exactly one. mtr_priority_under checks the
 * table whenever it is asked, so that none has to be trusted. Its answer is
 * handed back as a struct, since a refusal has a place, a row or a priority.
 * Where there is no table a host asks mtr_priority, or under
 * mtr_standard_table(), which is the same; a table of no rows is refused.
 *
 * Threads and interrupts. The library has no memory of its own, allocates none,
 * and of libc calls the mem functions alone. A call touches what it is handed
 * and the stack, nothing else, so that calls on different states are
 * independent: on several cores, in threads, in interrupt handlers. A call on a
 * state is not atomic. Where two could meet on one state, the host keeps them
 * apart, with a lock, or with interrupts off where a handler makes one of them.
 * A handler that cannot wait leaves a note (whom to wake, what to change) to the
 * loop that dispatches. A call never waits and never calls back.
 *
 * Machine. The library is compiled for the System V calling convention. It uses
 * the general and the SSE registers (no AVX, no x87, no thread-local storage)
 * and the red zone of 128 bytes below the stack pointer. A kernel keeps the SSE
 * registers of what a handler interrupts before the handler makes a call, and
 * lets a handler begin below the red zone or on a stack of its own.
 *
 * Costs. Stack is in bytes, from the caller's frame on: the call's arguments and
 * reply, and the library's frames; a handler needs it on top of its own, and the
 * functions below add less than 160 bytes with gcc and clang. Instructions are
 * those within the library, in the dearest accepted case that was measured: 64
 * threads in 16 groups, with best-effort threads among them and without, a full
 * block, a table of ten rows. The copies that the functions below make come on
 * top. Both are measured on this version's code; counts of instructions differ
 * by up to 24 from one run to another.
 *
 *     call                     stack    instructions
 *     mtr_start                 3368            3234
 *     mtr_open                 13496            5098
 *     mtr_close                13528            5035
 *     mtr_admit                13512            5101
 *     mtr_admit_best_effort    13336            4892
 *     mtr_remove               13384            5224
 *     mtr_wake                 13336            4911
 *     mtr_dispatch             13352            6185
 *     mtr_report               13448            5332
 *     mtr_change               13544            5102
 *     mtr_sound                 6808            4158
 *     mtr_priority                16               8
 *     mtr_subtree               8152            6798
 *     mtr_priority_under         548            1498
 *     mtr_lag                  13320            4871
 *     mtr_share                13312            4872
 *     mtr_roster               15320           38158
 *     mtr_write_block            856            3785
 *     mtr_read_block            1236            4203
 */
#ifndef MTR_H
#define MTR_H

#if defined(__cplusplus)
#if __cplusplus < 201103L
#error "mtr.h needs C++11 or later"
#endif
#elif !defined(__STDC_VERSION__) || __STDC_VERSION__ < 201112L
#error "mtr.h needs C11 or later"
#endif
#if !defined(__x86_64__)
#error "the library is for x86-64"
#endif
#if defined(__ILP32__)
#error "the library is for pointers of 64 bits"
#endif
#if defined(_WIN32)
#error "the library is for the System V calling convention"
#endif

#include <stdbool.h>
#include <stddef.h>
#include <stdint.h>

#ifdef __cplusplus
extern "C" {
#define MTR_ASSERT static_assert
#define MTR_ALIGNOF alignof
#define MTR_SIZEOF(type, field) sizeof(type::field)
#define MTR_CAST(type, value) static_cast<type>(value)
#define MTR_UNSIGNED : uint32_t
#else
#define MTR_ASSERT _Static_assert
#define MTR_ALIGNOF _Alignof
#define MTR_SIZEOF(type, field) sizeof(((type *)0)->field)
#define MTR_CAST(type, value) ((type)(value))
#define MTR_UNSIGNED
#endif

/* A result that must be looked at. */
#if defined(__GNUC__)
#define MTR_MUST_USE __attribute__((warn_unused_result))
#elif defined(__cplusplus) && __cplusplus >= 201703L
#define MTR_MUST_USE [[nodiscard]]
#elif !defined(__cplusplus) && __STDC_VERSION__ >= 202311L
#define MTR_MUST_USE [[nodiscard]]
#else
#define MTR_MUST_USE
#endif

/* A struct's size and alignment, and a field's offset and size, in bytes. */
#define MTR_STRUCT(type, size, align)                                          \
    MTR_ASSERT(sizeof(type) == size && MTR_ALIGNOF(type) == align, #type)
#define MTR_FIELD(type, field, offset, size)                                   \
    MTR_ASSERT(offsetof(type, field) == offset &&                              \
                   MTR_SIZEOF(type, field) == size,                            \
               #type "." #field)

MTR_STRUCT(size_t, 8, 8);

/* The version as text. */
#define MTR_VERSION_TEXT "3.2.0"

/* The version; mtr_version answers that of the library. */

/* Major. */
#define MTR_VERSION_MAJOR 3
/* Minor. */
#define MTR_VERSION_MINOR 2
/* Patch. */
#define MTR_VERSION_PATCH 0
/* One number: 10000 times the major, 100 times the minor, and the patch. */
#define MTR_VERSION 30200

/* Numbers of threads, groups and rows, and the parts of a block. */

/* Most threads; their numbers begin at 0. */
#define MTR_THREADS 64
/* Most groups; their numbers begin at 0. */
#define MTR_GROUPS 16
/* Most rows of a table of priorities. */
#define MTR_PRIORITY_ROWS 10
/* Bytes of an event block. */
#define MTR_BLOCK_BYTES 512
/* Most records of an event block. */
#define MTR_RECORDS 31

/* Limits and defaults. */

/* The thread of an idle dispatch, and the running one if none runs. */
#define MTR_NO_THREAD 64
/* The whole core in thousandths: the greatest ceiling and reservation. */
#define MTR_WHOLE 1000
/* m by default. */
#define MTR_DEFAULT_THOUSANDTH 100
/* P by default. */
#define MTR_DEFAULT_INTERVAL 20000
/* O by default. */
#define MTR_DEFAULT_OVERRUN 0
/* The least m. */
#define MTR_LEAST_THOUSANDTH 1
/* The least P. */
#define MTR_LEAST_INTERVAL 1
/* The least O. */
#define MTR_LEAST_OVERRUN 0
/* The greatest m. */
#define MTR_MOST_THOUSANDTH 1000
/* The greatest P. */
#define MTR_MOST_INTERVAL 1000000
/* The greatest O, which the greatest m allows; with any m it is m - 1. */
#define MTR_MOST_OVERRUN 999
/* The least weight of a best-effort thread. */
#define MTR_LEAST_WEIGHT 1
/* The greatest weight of a best-effort thread. */
#define MTR_MOST_WEIGHT 16
/* What a tick adds to the tag of a best-effort thread of weight 1. */
#define MTR_TAG_UNIT 720720

/* Limits of the meter and of priorities. */

/* From this meter on a dispatch is refused. */
#define MTR_METER_LIMIT UINT64_C(10000000000000)
/* The greatest meter of a sound state. */
#define MTR_METER_MOST UINT64_C(10000001000999)
/* The lowest priority. */
#define MTR_LOWEST_PRIORITY UINT64_C(1)
/* The highest priority. */
#define MTR_HIGHEST_PRIORITY UINT64_C(10)

/* Answers: 0, or why a call is refused. */
typedef enum mtr_answer MTR_UNSIGNED {
    /* The call is accepted. */
    MTR_ACCEPTED = 0,
    /* m, P or O is outside its range. */
    MTR_REFUSED_SETTINGS = 1,
    /*
     * The group or parent is above 15 or not open, or group 0 is to be closed.
     */
    MTR_REFUSED_NO_GROUP = 2,
    /*
     * The group's number is above 15, already open or not above the parent's.
     */
    MTR_REFUSED_GROUP_NUMBER = 3,
    /*
     * The ceiling, reservation, weight or priority, or a table's number of
     * rows, is outside its range.
     */
    MTR_REFUSED_AMOUNT = 4,
    /* The ceiling or reservation exceeds what the group has free. */
    MTR_REFUSED_NO_ROOM = 5,
    /* The group has a thread or a child. */
    MTR_REFUSED_GROUP_IN_USE = 6,
    /*
     * The thread's number is above 63 or not admitted, or the thread whose
     * reservation is to be changed is a best-effort one.
     */
    MTR_REFUSED_NO_THREAD = 7,
    /* The thread is already admitted. */
    MTR_REFUSED_ALREADY_ADMITTED = 8,
    /* The thread to remove or to change is running. */
    MTR_REFUSED_THREAD_RUNNING = 9,
    /* The thread to wake is not blocked. */
    MTR_REFUSED_NOT_BLOCKED = 10,
    /* Nothing is running. */
    MTR_REFUSED_NOTHING_RUNNING = 11,
    /* A thread is running. */
    MTR_REFUSED_BUSY = 12,
    /* More is used than the slice and the overrun limit. */
    MTR_REFUSED_OVER_SLICE = 13,
    /* The reason is above 3. */
    MTR_REFUSED_REASON = 14,
    /* The meter is at its limit. */
    MTR_REFUSED_METER_FULL = 15,
    /* The state is not sound. */
    MTR_REFUSED_UNSOUND = 16,
    /* The area is not 512 bytes, or the roster's table is too short. */
    MTR_REFUSED_LENGTH = 17,
    /* The check of the block is wrong. */
    MTR_REFUSED_CHECK = 18,
    /* The block or a record has not the form that is asked for. */
    MTR_REFUSED_FORM = 19,
    /*
     * In what mtrrun prints alone: no start is accepted since a refused block.
     */
    MTR_REFUSED_NOT_STARTED = 20,
    /*
     * A row of the table is upside down, or has a priority outside 1 to 10 or a
     * reservation outside 1 to 1000.
     */
    MTR_REFUSED_TABLE_ROW = 22,
    /* A priority stands in no row of the table or in several. */
    MTR_REFUSED_TABLE_COVER = 23
} mtr_answer;

/* Reasons of a report. */
typedef enum mtr_reason MTR_UNSIGNED {
    /* The thread stays runnable. */
    MTR_REASON_TICK = 0,
    /* It blocks until it is woken. */
    MTR_REASON_BLOCK = 1,
    /*
     * It moves to the rear with a full allotment, less its debt; a best-effort
     * thread stays runnable, as after a tick.
     */
    MTR_REASON_YIELD = 2,
    /* It leaves the list and frees its number. */
    MTR_REASON_EXIT = 3
} mtr_reason;

/* Status of a thread's entry in the state. */
typedef enum mtr_status MTR_UNSIGNED {
    /* The number is not admitted. */
    MTR_STATUS_FREE = 0,
    /* Runnable or running. */
    MTR_STATUS_RUNNABLE = 1,
    /* Blocked. */
    MTR_STATUS_BLOCKED = 2
} mtr_status;

/* State of a thread in the roster. */
typedef enum mtr_roster_state MTR_UNSIGNED {
    /* Runnable. */
    MTR_ROSTER_RUNNABLE = 0,
    /* Blocked. */
    MTR_ROSTER_BLOCKED = 1,
    /* Running. */
    MTR_ROSTER_RUNNING = 2
} mtr_roster_state;

/* Whether a group's entry in the state is open. */
typedef enum mtr_opened MTR_UNSIGNED {
    /* Closed. */
    MTR_GROUP_CLOSED = 0,
    /* Open. */
    MTR_GROUP_OPEN = 1
} mtr_opened;

/* Kinds of records, and the fields that each uses; the others are 0. */
typedef enum mtr_kind MTR_UNSIGNED {
    /* Opens a group: subject, group (the parent), amount (the ceiling). */
    MTR_KIND_OPEN = 1,
    /* Closes a group: subject. */
    MTR_KIND_CLOSE = 2,
    /* Admits a thread: subject, group, amount (the reservation). */
    MTR_KIND_ADMIT = 3,
    /* Removes a thread: subject. */
    MTR_KIND_REMOVE = 4,
    /* Wakes a thread: subject. */
    MTR_KIND_WAKE = 5,
    /* Dispatches. */
    MTR_KIND_DISPATCH = 6,
    /* Reports the running thread: reason, ticks (used). */
    MTR_KIND_REPORT = 7,
    /* Starts anew: amount (m), ticks (P), overrun (O). */
    MTR_KIND_START = 8,
    /* Changes a thread's reservation: subject, amount (the reservation). */
    MTR_KIND_CHANGE = 9,
    /* Admits a best-effort thread: subject, amount (the weight). */
    MTR_KIND_BEST_EFFORT = 10
} mtr_kind;

/* What an answer says, in words. */
MTR_MUST_USE static inline const char *mtr_answer_text(mtr_answer answer)
{
    switch (answer) {
    case MTR_ACCEPTED:
        return "the call is accepted";
    case MTR_REFUSED_SETTINGS:
        return "m, P or O is outside its range";
    case MTR_REFUSED_NO_GROUP:
        return "the group or parent is above 15 or not open, or group 0 is to be closed";
    case MTR_REFUSED_GROUP_NUMBER:
        return "the group's number is above 15, already open or not above the parent's";
    case MTR_REFUSED_AMOUNT:
        return "the ceiling, reservation, weight or priority, or a table's number of rows, is outside its range";
    case MTR_REFUSED_NO_ROOM:
        return "the ceiling or reservation exceeds what the group has free";
    case MTR_REFUSED_GROUP_IN_USE:
        return "the group has a thread or a child";
    case MTR_REFUSED_NO_THREAD:
        return "the thread's number is above 63 or not admitted, or the thread whose reservation is to be changed is a best-effort one";
    case MTR_REFUSED_ALREADY_ADMITTED:
        return "the thread is already admitted";
    case MTR_REFUSED_THREAD_RUNNING:
        return "the thread to remove or to change is running";
    case MTR_REFUSED_NOT_BLOCKED:
        return "the thread to wake is not blocked";
    case MTR_REFUSED_NOTHING_RUNNING:
        return "nothing is running";
    case MTR_REFUSED_BUSY:
        return "a thread is running";
    case MTR_REFUSED_OVER_SLICE:
        return "more is used than the slice and the overrun limit";
    case MTR_REFUSED_REASON:
        return "the reason is above 3";
    case MTR_REFUSED_METER_FULL:
        return "the meter is at its limit";
    case MTR_REFUSED_UNSOUND:
        return "the state is not sound";
    case MTR_REFUSED_LENGTH:
        return "the area is not 512 bytes, or the roster's table is too short";
    case MTR_REFUSED_CHECK:
        return "the check of the block is wrong";
    case MTR_REFUSED_FORM:
        return "the block or a record has not the form that is asked for";
    case MTR_REFUSED_NOT_STARTED:
        return "in what mtrrun prints alone: no start is accepted since a refused block";
    case MTR_REFUSED_TABLE_ROW:
        return "a row of the table is upside down, or has a priority outside 1 to 10 or a reservation outside 1 to 1000";
    case MTR_REFUSED_TABLE_COVER:
        return "a priority stands in no row of the table or in several";
    }
    return "no listed answer";
}

/*
 * A thread. status: 0 free, 1 runnable, 2 blocked. admission and anchor are the
 * meter at admission and at the anchor; ticks and since are the thread's ticks
 * since each. An admitted thread with a reservation is a reserved one:
 * group_or_weight is its group, and in a sound state its allotment is 1 to its
 * quantum. One whose reservation is 0 is a best-effort thread: group_or_weight
 * is its weight, 1 to 16, its allotment is not looked at, and tag is its start
 * tag while it is runnable, its last finish tag while it is blocked.
 */
typedef struct mtr_thread {
    uint64_t admission;
    uint64_t anchor;
    uint64_t ticks;
    uint64_t since;
    int32_t allotment;
    uint16_t reservation;
    uint8_t group_or_weight;
    uint8_t status;
    uint64_t tag;
} mtr_thread;
MTR_STRUCT(mtr_thread, 48, 8);
MTR_FIELD(mtr_thread, admission, 0, 8);
MTR_FIELD(mtr_thread, anchor, 8, 8);
MTR_FIELD(mtr_thread, ticks, 16, 8);
MTR_FIELD(mtr_thread, since, 24, 8);
MTR_FIELD(mtr_thread, allotment, 32, 4);
MTR_FIELD(mtr_thread, reservation, 36, 2);
MTR_FIELD(mtr_thread, group_or_weight, 38, 1);
MTR_FIELD(mtr_thread, status, 39, 1);
MTR_FIELD(mtr_thread, tag, 40, 8);

/* A group. opened: 0 closed, 1 open. */
typedef struct mtr_group {
    uint16_t ceiling;
    uint8_t parent;
    uint8_t opened;
} mtr_group;
MTR_STRUCT(mtr_group, 4, 2);
MTR_FIELD(mtr_group, ceiling, 0, 2);
MTR_FIELD(mtr_group, parent, 2, 1);
MTR_FIELD(mtr_group, opened, 3, 1);

/*
 * The settings: P, the preemption interval in ticks; m, the ticks per
 * thousandth of the virtual time quantum; O, the ticks that a report may use
 * beyond its slice.
 */
typedef struct mtr_settings {
    uint32_t interval;
    uint16_t thousandth;
    uint16_t overrun;
} mtr_settings;
MTR_STRUCT(mtr_settings, 8, 4);
MTR_FIELD(mtr_settings, interval, 0, 4);
MTR_FIELD(mtr_settings, thousandth, 4, 2);
MTR_FIELD(mtr_settings, overrun, 6, 2);

/*
 * The list is the first `count` entries of `order`, front first. running: the
 * running thread's number, or 64. time: the virtual time, the start tag of the
 * last best-effort thread that was dispatched.
 */
typedef struct mtr_scheduler {
    mtr_thread threads[64];
    uint8_t order[64];
    mtr_group groups[16];
    uint64_t meter;
    uint64_t time;
    mtr_settings settings;
    uint32_t count;
    uint32_t running;
} mtr_scheduler;
MTR_STRUCT(mtr_scheduler, 3232, 8);
MTR_FIELD(mtr_scheduler, threads, 0, 3072);
MTR_FIELD(mtr_scheduler, order, 3072, 64);
MTR_FIELD(mtr_scheduler, groups, 3136, 64);
MTR_FIELD(mtr_scheduler, meter, 3200, 8);
MTR_FIELD(mtr_scheduler, time, 3208, 8);
MTR_FIELD(mtr_scheduler, settings, 3216, 8);
MTR_FIELD(mtr_scheduler, count, 3224, 4);
MTR_FIELD(mtr_scheduler, running, 3228, 4);

/*
 * What a call answers, with the state after it. answer: 0 accepted, or the
 * refusal. thread (64: idle), slice and before are 0 except for an accepted
 * dispatch.
 */
typedef struct mtr_reply {
    uint32_t answer;
    uint32_t thread;
    uint32_t slice;
    uint32_t before;
    mtr_scheduler state;
} mtr_reply;
MTR_STRUCT(mtr_reply, 3248, 8);
MTR_FIELD(mtr_reply, answer, 0, 4);
MTR_FIELD(mtr_reply, thread, 4, 4);
MTR_FIELD(mtr_reply, slice, 8, 4);
MTR_FIELD(mtr_reply, before, 12, 4);
MTR_FIELD(mtr_reply, state, 16, 3232);

/*
 * The reservation of a priority. answer: 0, or the refusal; the reservation is
 * then 0.
 */
typedef struct mtr_mapped {
    uint32_t answer;
    uint32_t reservation;
} mtr_mapped;
MTR_STRUCT(mtr_mapped, 8, 4);
MTR_FIELD(mtr_mapped, answer, 0, 4);
MTR_FIELD(mtr_mapped, reservation, 4, 4);

/*
 * The reservations of a group's subtree. answer: 0, or the refusal; the sum is
 * then 0.
 */
typedef struct mtr_total {
    uint32_t answer;
    uint32_t thousandths;
} mtr_total;
MTR_STRUCT(mtr_total, 8, 4);
MTR_FIELD(mtr_total, answer, 0, 4);
MTR_FIELD(mtr_total, thousandths, 4, 4);

/*
 * A row of a table of priorities: those from first to last have its
 * reservation.
 */
typedef struct mtr_priority_row {
    uint64_t first;
    uint64_t last;
    uint64_t reservation;
} mtr_priority_row;
MTR_STRUCT(mtr_priority_row, 24, 8);
MTR_FIELD(mtr_priority_row, first, 0, 8);
MTR_FIELD(mtr_priority_row, last, 8, 8);
MTR_FIELD(mtr_priority_row, reservation, 16, 8);

/*
 * A table of priorities: the first `count` rows. What stands past them is not
 * looked at.
 */
typedef struct mtr_priority_table {
    mtr_priority_row rows[10];
    uint64_t count;
} mtr_priority_table;
MTR_STRUCT(mtr_priority_table, 248, 8);
MTR_FIELD(mtr_priority_table, rows, 0, 240);
MTR_FIELD(mtr_priority_table, count, 240, 8);

/*
 * The reservation of a priority under a table. answer: 0, or the refusal;
 * place: the row or the priority of a refusal with 22 or 23, else 0. The
 * reservation of a refusal is 0.
 */
typedef struct mtr_priority_line {
    uint32_t answer;
    uint32_t place;
    uint32_t reservation;
} mtr_priority_line;
MTR_STRUCT(mtr_priority_line, 12, 4);
MTR_FIELD(mtr_priority_line, answer, 0, 4);
MTR_FIELD(mtr_priority_line, place, 4, 4);
MTR_FIELD(mtr_priority_line, reservation, 8, 4);

/* A thread's lag. answer: 0, or the refusal, with a lag of 0. */
typedef struct mtr_lag_line {
    uint64_t answer;
    int64_t lag;
} mtr_lag_line;
MTR_STRUCT(mtr_lag_line, 16, 8);
MTR_FIELD(mtr_lag_line, answer, 0, 8);
MTR_FIELD(mtr_lag_line, lag, 8, 8);

/* A thread's achieved share. answer: 0, or the refusal, with a share of 0. */
typedef struct mtr_share_line {
    uint32_t answer;
    uint32_t share;
} mtr_share_line;
MTR_STRUCT(mtr_share_line, 8, 4);
MTR_FIELD(mtr_share_line, answer, 0, 4);
MTR_FIELD(mtr_share_line, share, 4, 4);

/*
 * A record of the roster. state: 0 runnable, 1 blocked, 2 running. The
 * allotment of a reserved thread is at least 1; that of a best-effort thread is
 * shown as 0, and so is its lag.
 */
typedef struct mtr_entry {
    uint32_t number;
    uint32_t state;
    int32_t allotment;
    uint32_t share;
    int64_t lag;
} mtr_entry;
MTR_STRUCT(mtr_entry, 24, 8);
MTR_FIELD(mtr_entry, number, 0, 4);
MTR_FIELD(mtr_entry, state, 4, 4);
MTR_FIELD(mtr_entry, allotment, 8, 4);
MTR_FIELD(mtr_entry, share, 12, 4);
MTR_FIELD(mtr_entry, lag, 16, 8);

/*
 * A record as numbers. It has a form in a block if its kind is known and the
 * fields that its kind does not use are zero.
 */
typedef struct mtr_record {
    uint8_t kind;
    uint8_t subject;
    uint8_t group;
    uint8_t reason;
    uint16_t amount;
    uint16_t overrun;
    uint32_t ticks;
} mtr_record;
MTR_STRUCT(mtr_record, 12, 4);
MTR_FIELD(mtr_record, kind, 0, 1);
MTR_FIELD(mtr_record, subject, 1, 1);
MTR_FIELD(mtr_record, group, 2, 1);
MTR_FIELD(mtr_record, reason, 3, 1);
MTR_FIELD(mtr_record, amount, 4, 2);
MTR_FIELD(mtr_record, overrun, 6, 2);
MTR_FIELD(mtr_record, ticks, 8, 4);

/* The records for a block. How many of them are written is told beside it. */
typedef struct mtr_records {
    mtr_record records[31];
} mtr_records;
MTR_STRUCT(mtr_records, 372, 4);
MTR_FIELD(mtr_records, records, 0, 372);

/*
 * What reading finds. answer: 0, or the refusal. records: the block's, and
 * blank ones past the last of `count`.
 */
typedef struct mtr_found {
    uint32_t answer;
    uint32_t count;
    mtr_record records[31];
} mtr_found;
MTR_STRUCT(mtr_found, 380, 4);
MTR_FIELD(mtr_found, answer, 0, 4);
MTR_FIELD(mtr_found, count, 4, 4);
MTR_FIELD(mtr_found, records, 8, 372);

/*
 * What a dispatch decides: the thread, the ticks that it may run, and how many
 * reserved threads, all blocked, stood before it; before a best-effort thread
 * that is all of them. Idle: MTR_NO_THREAD, no ticks, and the number of all
 * threads, of either kind.
 */
typedef struct mtr_run {
    uint32_t thread;
    uint32_t slice;
    uint32_t before;
} mtr_run;

/*
 * What the library exports, for the functions below alone: the state goes by
 * value, and one that is not stored back is lost.
 */
mtr_reply mtr_by_value_start(uint64_t thousandth, uint64_t interval,
    uint64_t overrun);
mtr_reply mtr_by_value_open(mtr_scheduler state, uint64_t number,
    uint64_t parent, uint64_t ceiling);
mtr_reply mtr_by_value_close(mtr_scheduler state, uint64_t number);
mtr_reply mtr_by_value_admit(mtr_scheduler state, uint64_t number,
    uint64_t group, uint64_t reservation);
mtr_reply mtr_by_value_admit_best_effort(mtr_scheduler state, uint64_t number,
    uint64_t weight);
mtr_reply mtr_by_value_remove(mtr_scheduler state, uint64_t number);
mtr_reply mtr_by_value_wake(mtr_scheduler state, uint64_t number);
mtr_reply mtr_by_value_dispatch(mtr_scheduler state);
mtr_reply mtr_by_value_report(mtr_scheduler state, uint64_t reason,
    uint64_t used);
mtr_reply mtr_by_value_change(mtr_scheduler state, uint64_t number,
    uint64_t reservation);
uint32_t mtr_by_value_sound(mtr_scheduler state);
mtr_mapped mtr_by_value_priority(uint64_t priority);
mtr_total mtr_by_value_subtree(mtr_scheduler state, uint64_t group);
mtr_priority_line mtr_by_value_priority_under(mtr_priority_table table,
    uint64_t priority);
mtr_lag_line mtr_by_value_lag(mtr_scheduler state, uint64_t number);
mtr_share_line mtr_by_value_share(mtr_scheduler state, uint64_t number);
uint32_t mtr_by_value_roster(mtr_scheduler state, mtr_entry *table,
    size_t table_len);
uint32_t mtr_by_value_write_block(uint8_t *area, size_t area_len,
    uint32_t block, mtr_records list, size_t count);
mtr_found mtr_by_value_read_block(const uint8_t *area, size_t area_len,
    uint32_t block);

/* The scheduler's calls */

/*
 * A fresh scheduler: no threads, group 0 open with ceiling 1000, the meter 0.
 * `thousandth` is m, the ticks per thousandth of the virtual time quantum,
 * `interval` is P, the preemption interval in ticks, and `overrun` is O, the
 * ticks that a report may use beyond its slice.
 *
 * Refuses, the first that applies:
 *   1 MTR_REFUSED_SETTINGS: m is outside 1 to 1000, P outside 1 to 1000000
 *       or O not below m
 * *state is then unchanged. Accepted, the fresh scheduler is stored to it.
 */
MTR_MUST_USE static inline mtr_answer mtr_start(mtr_scheduler *state,
    uint64_t thousandth, uint64_t interval, uint64_t overrun)
{
    const mtr_reply reply = mtr_by_value_start(thousandth, interval, overrun);
    if (reply.answer == MTR_ACCEPTED) {
        *state = reply.state;
    }
    return MTR_CAST(mtr_answer, reply.answer);
}

/*
 * Opens a group below an open parent of a lower number, with a ceiling in
 * thousandths.
 *
 * Refuses, the first that applies:
 *   16 MTR_REFUSED_UNSOUND: the state is not sound
 *   2 MTR_REFUSED_NO_GROUP: the parent is above 15 or not open
 *   3 MTR_REFUSED_GROUP_NUMBER: the number is above 15, already open or not
 *       above the parent's
 *   4 MTR_REFUSED_AMOUNT: the ceiling is outside 1 to 1000
 *   5 MTR_REFUSED_NO_ROOM: the ceiling exceeds what the parent has free
 * The state is then unchanged. Accepted, only the group's entry changes.
 */
MTR_MUST_USE static inline mtr_answer mtr_open(mtr_scheduler *state,
    uint64_t number, uint64_t parent, uint64_t ceiling)
{
    const mtr_reply reply = mtr_by_value_open(*state, number, parent, ceiling);
    if (reply.answer == MTR_ACCEPTED) {
        *state = reply.state;
    }
    return MTR_CAST(mtr_answer, reply.answer);
}

/*
 * Closes a group that has no thread and no child.
 *
 * Refuses, the first that applies:
 *   16 MTR_REFUSED_UNSOUND: the state is not sound
 *   2 MTR_REFUSED_NO_GROUP: the number is 0, above 15 or not open
 *   6 MTR_REFUSED_GROUP_IN_USE: the group has a thread or a child
 * The state is then unchanged. Accepted, only the group's entry changes.
 */
MTR_MUST_USE static inline mtr_answer mtr_close(mtr_scheduler *state,
    uint64_t number)
{
    const mtr_reply reply = mtr_by_value_close(*state, number);
    if (reply.answer == MTR_ACCEPTED) {
        *state = reply.state;
    }
    return MTR_CAST(mtr_answer, reply.answer);
}

/*
 * Admits a thread to a group with a reservation in thousandths: runnable, with
 * a full allotment, at the rear of the list.
 *
 * Refuses, the first that applies:
 *   16 MTR_REFUSED_UNSOUND: the state is not sound
 *   7 MTR_REFUSED_NO_THREAD: the number is above 63
 *   8 MTR_REFUSED_ALREADY_ADMITTED: the thread is already admitted
 *   2 MTR_REFUSED_NO_GROUP: the group is above 15 or not open
 *   4 MTR_REFUSED_AMOUNT: the reservation is outside 1 to 1000
 *   5 MTR_REFUSED_NO_ROOM: the reservation exceeds what the group has free
 * The state is then unchanged. Accepted, every other thread is unchanged, and
 * so are the groups.
 */
MTR_MUST_USE static inline mtr_answer mtr_admit(mtr_scheduler *state,
    uint64_t number, uint64_t group, uint64_t reservation)
{
    const mtr_reply reply = mtr_by_value_admit(*state, number, group,
        reservation);
    if (reply.answer == MTR_ACCEPTED) {
        *state = reply.state;
    }
    return MTR_CAST(mtr_answer, reply.answer);
}

/*
 * Admits a best-effort thread with a weight: runnable, in no group and outside
 * the list. It is dispatched only if no reserved thread is runnable, and shares
 * that time with the other best-effort threads by weight.
 *
 * Refuses, the first that applies:
 *   16 MTR_REFUSED_UNSOUND: the state is not sound
 *   7 MTR_REFUSED_NO_THREAD: the number is above 63
 *   8 MTR_REFUSED_ALREADY_ADMITTED: the thread is already admitted
 *   4 MTR_REFUSED_AMOUNT: the weight is outside 1 to 16
 * The state is then unchanged. Accepted, only the thread's entry changes.
 */
MTR_MUST_USE static inline mtr_answer
mtr_admit_best_effort(mtr_scheduler *state, uint64_t number, uint64_t weight)
{
    const mtr_reply reply = mtr_by_value_admit_best_effort(*state, number,
        weight);
    if (reply.answer == MTR_ACCEPTED) {
        *state = reply.state;
    }
    return MTR_CAST(mtr_answer, reply.answer);
}

/*
 * Removes a thread that does not run: frees its number and reservation, and
 * takes a reserved thread off the list.
 *
 * Refuses, the first that applies:
 *   16 MTR_REFUSED_UNSOUND: the state is not sound
 *   7 MTR_REFUSED_NO_THREAD: the number is above 63 or not admitted
 *   9 MTR_REFUSED_THREAD_RUNNING: the thread is running
 * The state is then unchanged. Accepted, every other thread and the others'
 * mutual order are unchanged, and so are the groups.
 */
MTR_MUST_USE static inline mtr_answer mtr_remove(mtr_scheduler *state,
    uint64_t number)
{
    const mtr_reply reply = mtr_by_value_remove(*state, number);
    if (reply.answer == MTR_ACCEPTED) {
        *state = reply.state;
    }
    return MTR_CAST(mtr_answer, reply.answer);
}

/*
 * Makes a blocked thread runnable. A best-effort thread has saved up nothing
 * while it was blocked.
 *
 * Refuses, the first that applies:
 *   16 MTR_REFUSED_UNSOUND: the state is not sound
 *   7 MTR_REFUSED_NO_THREAD: the number is above 63 or not admitted
 *   10 MTR_REFUSED_NOT_BLOCKED: the thread is not blocked
 * The state is then unchanged. Accepted, the list, the thread's allotment and
 * every other thread are unchanged.
 */
MTR_MUST_USE static inline mtr_answer mtr_wake(mtr_scheduler *state,
    uint64_t number)
{
    const mtr_reply reply = mtr_by_value_wake(*state, number);
    if (reply.answer == MTR_ACCEPTED) {
        *state = reply.state;
    }
    return MTR_CAST(mtr_answer, reply.answer);
}

/*
 * Takes the first runnable thread of the list to run for its slice, the smaller
 * of its allotment and P; where none of the list is runnable, the runnable
 * best-effort thread with the smallest tag, of equal ones the one with the
 * lowest number, for P. Answers the thread, the slice and how many reserved
 * threads, all blocked, stood before it; or idle, thread 64 with slice 0 and
 * the number of all threads, if no thread is runnable.
 *
 * Refuses, the first that applies:
 *   16 MTR_REFUSED_UNSOUND: the state is not sound
 *   12 MTR_REFUSED_BUSY: a thread is running
 *   15 MTR_REFUSED_METER_FULL: the meter is at least 10000000000000
 * The state is then unchanged. Accepted, only the number of the running thread
 * and, of a best-effort one, the virtual time change, and nothing if idle.
 * Accepted, *run is set; refused, it is unchanged.
 */
MTR_MUST_USE static inline mtr_answer mtr_dispatch(mtr_scheduler *state,
    mtr_run *run)
{
    const mtr_reply reply = mtr_by_value_dispatch(*state);
    if (reply.answer == MTR_ACCEPTED) {
        *state = reply.state;
        run->thread = reply.thread;
        run->slice = reply.slice;
        run->before = reply.before;
    }
    return MTR_CAST(mtr_answer, reply.answer);
}

/*
 * Charges the running thread the ticks used and ends its run. Up to O ticks may
 * be used beyond the slice: an overrun, as of a timer that fires late. If 0 or
 * less is left of the allotment, the thread's quantum is added to it once, so
 * that a debt is kept, and the thread moves to the rear. Reasons: 0 tick, the
 * thread stays runnable; 1 block; 2 yield, which moves to the rear and, where
 * something is left, fills the allotment; 3 exit, which frees the thread's
 * number and reservation. A best-effort thread has no allotment and no place:
 * its tag grows by 720720 / weight for each tick.
 *
 * Refuses, the first that applies:
 *   16 MTR_REFUSED_UNSOUND: the state is not sound
 *   11 MTR_REFUSED_NOTHING_RUNNING: nothing is running
 *   14 MTR_REFUSED_REASON: the reason is above 3
 *   13 MTR_REFUSED_OVER_SLICE: more is used than the slice and O
 * The state is then unchanged. Accepted, every other thread and the others'
 * mutual order are unchanged, and so are the groups.
 */
MTR_MUST_USE static inline mtr_answer mtr_report(mtr_scheduler *state,
    uint64_t reason, uint64_t used)
{
    const mtr_reply reply = mtr_by_value_report(*state, reason, used);
    if (reply.answer == MTR_ACCEPTED) {
        *state = reply.state;
    }
    return MTR_CAST(mtr_answer, reply.answer);
}

/*
 * Changes the reservation of a thread that does not run, in thousandths. The
 * thread keeps its place in the list, and stays blocked if it is; its allotment
 * is cut to the new quantum if it is larger and never raised; its lag is
 * counted afresh from here, and its share goes on.
 *
 * Refuses, the first that applies:
 *   16 MTR_REFUSED_UNSOUND: the state is not sound
 *   7 MTR_REFUSED_NO_THREAD: the number is above 63, or its thread is not
 *       admitted or a best-effort one
 *   9 MTR_REFUSED_THREAD_RUNNING: the thread is running
 *   4 MTR_REFUSED_AMOUNT: the reservation is outside 1 to 1000
 *   5 MTR_REFUSED_NO_ROOM: the reservation exceeds what the thread's group
 *       has free, its old reservation counted as free
 * The state is then unchanged. Accepted, only the thread's entry changes.
 */
MTR_MUST_USE static inline mtr_answer mtr_change(mtr_scheduler *state,
    uint64_t number, uint64_t reservation)
{
    const mtr_reply reply = mtr_by_value_change(*state, number, reservation);
    if (reply.answer == MTR_ACCEPTED) {
        *state = reply.state;
    }
    return MTR_CAST(mtr_answer, reply.answer);
}

/*
 * Answers 1 if the state is sound, else 0.
 *
 * Refuses nothing.
 * The state is unchanged.
 */
MTR_MUST_USE static inline bool mtr_sound(const mtr_scheduler *state)
{
    return mtr_by_value_sound(*state) == 1;
}

/*
 * The reservation of a priority: the highest, 10, has 20, each one below it one
 * less; the normal one, 5, has 15; the lowest, 1, has 11.
 *
 * Refuses, the first that applies:
 *   4 MTR_REFUSED_AMOUNT: the priority is outside 1 to 10
 * It takes no state, so that any is unchanged. Accepted, *reservation is set;
 * refused, it is unchanged.
 */
MTR_MUST_USE static inline mtr_answer mtr_priority(uint64_t priority,
    uint32_t *reservation)
{
    const mtr_mapped reply = mtr_by_value_priority(priority);
    if (reply.answer == MTR_ACCEPTED) {
        *reservation = reply.reservation;
    }
    return MTR_CAST(mtr_answer, reply.answer);
}

/*
 * The reservations in a group and in every group below it, in thousandths.
 *
 * Refuses, the first that applies:
 *   16 MTR_REFUSED_UNSOUND: the state is not sound
 *   2 MTR_REFUSED_NO_GROUP: the group is above 15 or not open
 * The state is unchanged. Accepted, *thousandths is set; refused, it is
 * unchanged.
 */
MTR_MUST_USE static inline mtr_answer mtr_subtree(const mtr_scheduler *state,
    uint64_t group, uint32_t *thousandths)
{
    const mtr_total reply = mtr_by_value_subtree(*state, group);
    if (reply.answer == MTR_ACCEPTED) {
        *thousandths = reply.thousandths;
    }
    return MTR_CAST(mtr_answer, reply.answer);
}

/* Tables of priorities */

/*
 * The reservation of a priority under a customer's own table: that of the one
 * row in which the priority stands. In a table that can be used every row is
 * well formed and each priority from 1 to 10 stands in exactly one. Rows past
 * the count are not looked at.
 *
 * Refuses, the first that applies:
 *   4 MTR_REFUSED_AMOUNT: the number of rows is outside 1 to 10
 *   22 MTR_REFUSED_TABLE_ROW: a row is upside down, or has a priority
 *       outside 1 to 10 or a reservation outside 1 to 1000, and place is the
 *       first such row, from 0
 *   23 MTR_REFUSED_TABLE_COVER: a priority stands in no row or in several,
 *       and place is the lowest such priority
 *   4 MTR_REFUSED_AMOUNT: the priority that is asked for is outside 1 to 10
 * The table is unchanged.
 */
MTR_MUST_USE static inline mtr_priority_line
mtr_priority_under(const mtr_priority_table *table, uint64_t priority)
{
    return mtr_by_value_priority_under(*table, priority);
}

/*
 * The table that gives every priority what it has where no table is given: a
 * row for each, from the highest, 10 with 20, down to the lowest, 1 with 11.
 *
 * Refuses nothing.
 * It takes no state, so that any is unchanged.
 */
mtr_priority_table mtr_standard_table(void);

/* Accounts */

/*
 * A thread's lag: its reservation times the meter's growth since its anchor,
 * less 1000 times its own ticks since; 0 while it is blocked, and 0 of a
 * best-effort thread. The anchor is its admission, its last wake, its last
 * yield or the last change of its reservation, whichever came last.
 *
 * Refuses, the first that applies:
 *   16 MTR_REFUSED_UNSOUND: the state is not sound
 *   7 MTR_REFUSED_NO_THREAD: the number is above 63 or not admitted
 * The state is unchanged. Accepted, *lag is set; refused, it is unchanged.
 */
MTR_MUST_USE static inline mtr_answer mtr_lag(const mtr_scheduler *state,
    uint64_t number, int64_t *lag)
{
    const mtr_lag_line reply = mtr_by_value_lag(*state, number);
    if (reply.answer == MTR_ACCEPTED) {
        *lag = reply.lag;
    }
    return MTR_CAST(mtr_answer, reply.answer);
}

/*
 * A thread's achieved share: its ticks since admission in thousandths of the
 * meter's growth since then, rounded to the nearest, half to even; 0 if it has
 * not grown.
 *
 * Refuses, the first that applies:
 *   16 MTR_REFUSED_UNSOUND: the state is not sound
 *   7 MTR_REFUSED_NO_THREAD: the number is above 63 or not admitted
 * The state is unchanged. Accepted, *share is set; refused, it is unchanged.
 */
MTR_MUST_USE static inline mtr_answer mtr_share(const mtr_scheduler *state,
    uint64_t number, uint32_t *share)
{
    const mtr_share_line reply = mtr_by_value_share(*state, number);
    if (reply.answer == MTR_ACCEPTED) {
        *share = reply.share;
    }
    return MTR_CAST(mtr_answer, reply.answer);
}

/*
 * Fills a lent table with the record of every admitted thread, largest lag
 * first, equal lags by smaller reservation, then by lower number. A best-effort
 * thread counts as a reservation of 0, and its lag and allotment are 0.
 *
 * Refuses, the first that applies:
 *   16 MTR_REFUSED_UNSOUND: the state is not sound
 *   17 MTR_REFUSED_LENGTH: the table is shorter than the number of threads
 * The table is then unchanged. Accepted, the records past the last are
 * unchanged. The state is unchanged. *filled is how many records are filled;
 * refused, it is unchanged.
 */
MTR_MUST_USE static inline mtr_answer mtr_roster(const mtr_scheduler *state,
    mtr_entry *table, size_t table_len, size_t *filled)
{
    const uint32_t answer = mtr_by_value_roster(*state, table, table_len);
    if (answer == MTR_ACCEPTED) {
        *filled = 0;
        for (size_t i = 0; i < MTR_THREADS; i++)
            if (state->threads[i].status != MTR_STATUS_FREE)
                ++*filled;
    }
    return MTR_CAST(mtr_answer, answer);
}

/* Event blocks */

/*
 * Writes the block of this number with the first `count` records to a lent
 * area.
 *
 * Refuses, the first that applies:
 *   17 MTR_REFUSED_LENGTH: the area is not 512 bytes
 *   19 MTR_REFUSED_FORM: more than 31 records, or one with no form: an
 *       unknown kind, or a field not zero that its kind does not use
 * The area is then unchanged.
 */
MTR_MUST_USE static inline mtr_answer mtr_write_block(uint8_t *area,
    size_t area_len, uint32_t block, const mtr_records *list, size_t count)
{
    const uint32_t answer = mtr_by_value_write_block(area, area_len, block,
        *list, count);
    return MTR_CAST(mtr_answer, answer);
}

/*
 * Reads the records of the block that is expected to have this number.
 *
 * Refuses, the first that applies:
 *   17 MTR_REFUSED_LENGTH: the area is not 512 bytes
 *   18 MTR_REFUSED_CHECK: the check is wrong
 *   19 MTR_REFUSED_FORM: the bytes are not those of this block number and 0
 *       to 31 well-formed records
 * The area is unchanged. Accepted, *list and *count are set; refused, they are
 * unchanged.
 */
MTR_MUST_USE static inline mtr_answer mtr_read_block(const uint8_t *area,
    size_t area_len, uint32_t block, mtr_records *list, size_t *count)
{
    const mtr_found reply = mtr_by_value_read_block(area, area_len, block);
    if (reply.answer == MTR_ACCEPTED) {
        for (size_t i = 0; i < 31; i++)
            list->records[i] = reply.records[i];
        *count = reply.count;
    }
    return MTR_CAST(mtr_answer, reply.answer);
}

/* Version */

/*
 * The library's version as one number: 10000 times the major, 100 times the
 * minor, and the patch.
 *
 * Refuses nothing.
 * It takes no state, so that any is unchanged.
 */
uint32_t mtr_version(void);

#undef MTR_FIELD
#undef MTR_STRUCT
#undef MTR_MUST_USE
#undef MTR_UNSIGNED
#undef MTR_CAST
#undef MTR_SIZEOF
#undef MTR_ALIGNOF
#undef MTR_ASSERT

#ifdef __cplusplus
}
#endif

#endif
