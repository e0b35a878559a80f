//! The header's first comment, what it asks of the compiler, and its end.

use super::PREFIX;
use crate::costs::Cost;
use crate::interface::Interface;
use crate::COMMAND;

/// Everything above the constants.
pub fn print(interface: &Interface, costs: &[Cost]) -> String {
    let mut table = String::new();
    for cost in costs {
        let name = format!("mtr_{}", cost.name);
        let line = format!(
            " *     {name:<22}{:>8}{:>16}\n",
            cost.stack, cost.instructions
        );
        table += &line;
    }
    let named = |name: &str| {
        let mut names = interface.families.iter().flat_map(|f| &f.names);
        names.find(|n| n.name == name).map_or(0, |n| n.value)
    };
    let parts = ["MAJOR", "MINOR", "PATCH"].map(|part| named(&format!("VERSION_{part}")));
    let version = parts.map(|part| part.to_string()).join(".");
    let text =
        format!("/* The version as text. */\n#define {PREFIX}VERSION_TEXT \"{version}\"\n\n");
    HEAD.replace("@COMMAND@", COMMAND)
        .replace("@VERSION@", &version)
        .replace(" *     @TABLE@\n", &table)
        + &text
}

const HEAD: &str = r#"/*
 * The move-to-rear list scheduler (MTR-LS), version @VERSION@, for C11 and C++11 or
 * later on x86-64.
 *
 * Written from the Rattle sources; do not edit. To renew it:
 *     @COMMAND@
 *
 * The scheduler's state is a struct that the host holds. A call takes a pointer
 * to it and returns its answer, MTR_ACCEPTED or one of MTR_REFUSED_*. A refused
 * call leaves the state, and everything else that it was lent, as they were:
 *
 *     static mtr_scheduler state;
 *     mtr_run run;
 *     mtr_answer answer = mtr_start(&state, 100, 20000, 0);
 *     ...
 *     answer = mtr_dispatch(&state, &run);
 *     if (answer != MTR_ACCEPTED)
 *         warn(mtr_answer_text(answer));
 *
 * Every value of every argument is allowed, also a state of arbitrary bytes: it
 * is refused with MTR_REFUSED_UNSOUND. A pointer is not null, is aligned and is
 * valid for the length that goes with it, and no two overlap. One tick is a
 * microsecond; reservations and ceilings are thousandths of the core.
 *
 * Timers that fire late. The timer that ends a run may fire some ticks after the
 * end of the slice, and the thread has run on meanwhile: an overrun. The last
 * argument of mtr_start, O, is the most ticks that a report may use beyond its
 * slice, 0 to m - 1; more is refused with MTR_REFUSED_OVER_SLICE. The host
 * reports all ticks that were used, and all are charged. What goes beyond the
 * allotment is a debt: the thread moves to the rear, and its next allotment is
 * its quantum less the debt. With O = 0 a report uses at most its slice.
 *
 * Reservations that change. mtr_change gives an admitted thread more or less of
 * the core. The running thread alone is refused, with
 * MTR_REFUSED_THREAD_RUNNING: the host changes it between a report and the next
 * dispatch. Less holds at once: an allotment larger than the new quantum is cut
 * to it. More holds when the allotment is next renewed, after what the thread
 * has left. Where its group has too little free, the host gives another thread
 * of the group less first, and its own back when the first has gone back; what
 * was cut of its allotment comes back when that is renewed. The share guarantee,
 * the limit on how far a runnable thread falls behind its reservation, holds
 * while the reservation stays the same. A change to another amount begins it
 * anew, and a thread that is changed again and again may get next to nothing.
 *
 * Best-effort threads. Work that needs no reservation, such as the printing of
 * reports, takes the time that reserved threads leave. mtr_admit_best_effort
 * admits a thread with a weight of 1 to 16, in no group and outside the list, so
 * that it takes nothing from what can be reserved. It is dispatched only if no
 * reserved thread is runnable, for a slice of P, and gets nothing while reserved
 * threads keep the core busy; their share guarantee holds beside it. A reserved
 * thread that is woken while it runs waits at most for the run in hand: the next
 * dispatch takes a reserved thread. Best-effort threads share by weight, and one
 * saves nothing up while it is blocked. While two of them, of weights v and w,
 * stay runnable, what each has run divided by its weight differs by at most
 * (P + O) / v + (P + O) / w: one longest run of each. The host reports, wakes and
 * removes them as it does the others. mtr_change refuses them with
 * MTR_REFUSED_NO_THREAD; in the roster their lag and their allotment are 0,
 * and of equal lags they come first.
 *
 * Customers' priorities. A program that comes with a priority of 1 to 10 has the
 * reservation that mtr_priority answers, or that of the customer's own table: 1
 * to 10 rows, and every priority in exactly one. mtr_priority_under checks the
 * table whenever it is asked, so that none has to be trusted. Its answer is
 * handed back as a struct, since a refusal has a place, a row or a priority.
 * Where there is no table a host asks mtr_priority, or under
 * mtr_standard_table(), which is the same; a table of no rows is refused.
 *
 * Threads and interrupts. The library has no memory of its own, allocates none,
 * and of libc calls the mem functions alone. A call touches what it is handed
 * and the stack, nothing else, so that calls on different states are
 * independent: on several cores, in threads, in interrupt handlers. A call on a
 * state is not atomic. Where two could meet on one state, the host keeps them
 * apart, with a lock, or with interrupts off where a handler makes one of them.
 * A handler that cannot wait leaves a note (whom to wake, what to change) to the
 * loop that dispatches. A call never waits and never calls back.
 *
 * Machine. The library is compiled for the System V calling convention. It uses
 * the general and the SSE registers (no AVX, no x87, no thread-local storage)
 * and the red zone of 128 bytes below the stack pointer. A kernel keeps the SSE
 * registers of what a handler interrupts before the handler makes a call, and
 * lets a handler begin below the red zone or on a stack of its own.
 *
 * Costs. Stack is in bytes, from the caller's frame on: the call's arguments and
 * reply, and the library's frames; a handler needs it on top of its own, and the
 * functions below add less than 160 bytes with gcc and clang. Instructions are
 * those within the library, in the dearest accepted case that was measured: 64
 * threads in 16 groups, with best-effort threads among them and without, a full
 * block, a table of ten rows. The copies that the functions below make come on
 * top. Both are measured on this version's code; counts of instructions differ
 * by up to 24 from one run to another.
 *
 *     call                     stack    instructions
 *     @TABLE@
 */
#ifndef MTR_H
#define MTR_H

#if defined(__cplusplus)
#if __cplusplus < 201103L
#error "mtr.h needs C++11 or later"
#endif
#elif !defined(__STDC_VERSION__) || __STDC_VERSION__ < 201112L
#error "mtr.h needs C11 or later"
#endif
#if !defined(__x86_64__)
#error "the library is for x86-64"
#endif
#if defined(__ILP32__)
#error "the library is for pointers of 64 bits"
#endif
#if defined(_WIN32)
#error "the library is for the System V calling convention"
#endif

#include <stdbool.h>
#include <stddef.h>
#include <stdint.h>

#ifdef __cplusplus
extern "C" {
#define MTR_ASSERT static_assert
#define MTR_ALIGNOF alignof
#define MTR_SIZEOF(type, field) sizeof(type::field)
#define MTR_CAST(type, value) static_cast<type>(value)
#define MTR_UNSIGNED : uint32_t
#else
#define MTR_ASSERT _Static_assert
#define MTR_ALIGNOF _Alignof
#define MTR_SIZEOF(type, field) sizeof(((type *)0)->field)
#define MTR_CAST(type, value) ((type)(value))
#define MTR_UNSIGNED
#endif

/* A result that must be looked at. */
#if defined(__GNUC__)
#define MTR_MUST_USE __attribute__((warn_unused_result))
#elif defined(__cplusplus) && __cplusplus >= 201703L
#define MTR_MUST_USE [[nodiscard]]
#elif !defined(__cplusplus) && __STDC_VERSION__ >= 202311L
#define MTR_MUST_USE [[nodiscard]]
#else
#define MTR_MUST_USE
#endif

/* A struct's size and alignment, and a field's offset and size, in bytes. */
#define MTR_STRUCT(type, size, align)                                          \
    MTR_ASSERT(sizeof(type) == size && MTR_ALIGNOF(type) == align, #type)
#define MTR_FIELD(type, field, offset, size)                                   \
    MTR_ASSERT(offsetof(type, field) == offset &&                              \
                   MTR_SIZEOF(type, field) == size,                            \
               #type "." #field)

MTR_STRUCT(size_t, 8, 8);

"#;

pub const TAIL: &str = r#"#undef MTR_FIELD
#undef MTR_STRUCT
#undef MTR_MUST_USE
#undef MTR_UNSIGNED
#undef MTR_CAST
#undef MTR_SIZEOF
#undef MTR_ALIGNOF
#undef MTR_ASSERT

#ifdef __cplusplus
}
#endif

#endif
"#;
