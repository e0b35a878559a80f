/*
 * The stack that each function of mtr.h takes, in bytes: it is called on a painted stack, and where the paint is gone afterwards it
 * has been. What a function that does nothing takes is not counted.
 */
#define _GNU_SOURCE
#include <mtr.h>
#include <stdio.h>
#include <string.h>
#include <ucontext.h>

enum { STACK = 65536, PAINT = 0xa7 };

static mtr_scheduler state, other;
static mtr_run run;
static mtr_entry table[MTR_THREADS];
static mtr_records list;
static mtr_priority_table priorities;
static uint8_t area[MTR_BLOCK_BYTES];
static size_t count;
static uint32_t number;
static int64_t lag;
static volatile unsigned answer;

static void f_nothing(void) { answer = 0; }
static void f_start(void) { answer = mtr_start(&other, 100, 20000, 99); }
static void f_open(void) { answer = mtr_open(&state, 1, 0, 100); }
static void f_close(void) { answer = mtr_close(&state, 1); }
static void f_admit(void) { answer = mtr_admit(&state, 9, 0, 5); }
static void f_admit_best_effort(void) { answer = mtr_admit_best_effort(&state, 10, 3); }
static void f_remove(void) { answer = mtr_remove(&state, 9); }
static void f_wake(void) { answer = mtr_wake(&state, 5); }
static void f_dispatch(void) { answer = mtr_dispatch(&state, &run); }
static void f_report(void) { answer = mtr_report(&state, MTR_REASON_BLOCK, 5); }
static void f_change(void) { answer = mtr_change(&state, 9, 7); }
static void f_sound(void) { answer = !mtr_sound(&state); }
static void f_priority(void) { answer = mtr_priority(5, &number); }
static void f_subtree(void) { answer = mtr_subtree(&state, 0, &number); }
static void f_priority_under(void) { answer = mtr_priority_under(&priorities, 1).answer; }
static void f_lag(void) { answer = mtr_lag(&state, 5, &lag); }
static void f_share(void) { answer = mtr_share(&state, 5, &number); }
static void f_roster(void) { answer = mtr_roster(&state, table, MTR_THREADS, &count); }
static void f_write_block(void) { answer = mtr_write_block(area, sizeof area, 0, &list, 0); }
static void f_read_block(void) { answer = mtr_read_block(area, sizeof area, 0, &list, &count); }

static unsigned char stack[STACK] __attribute__((aligned(16)));
static ucontext_t here, there;

static size_t taken(void (*function)(void))
{
    memset(stack, PAINT, STACK);
    getcontext(&there);
    there.uc_stack.ss_sp = stack;
    there.uc_stack.ss_size = STACK;
    there.uc_link = &here;
    makecontext(&there, function, 0);
    swapcontext(&here, &there);
    size_t left = 0;
    while (stack[left] == PAINT)
        left++;
    return STACK - left;
}

int main(void)
{
    static const struct {
        const char *name;
        void (*function)(void);
    } all[] = {
        { "start", f_start },
        { "open", f_open },
        { "close", f_close },
        { "admit", f_admit },
        { "admit_best_effort", f_admit_best_effort },
        { "dispatch", f_dispatch },
        { "report", f_report },
        { "wake", f_wake },
        { "change", f_change },
        { "remove", f_remove },
        { "sound", f_sound },
        { "priority", f_priority },
        { "subtree", f_subtree },
        { "priority_under", f_priority_under },
        { "lag", f_lag },
        { "share", f_share },
        { "roster", f_roster },
        { "write_block", f_write_block },
        { "read_block", f_read_block },
    };
    if (mtr_start(&state, 100, 20000, 99) != MTR_ACCEPTED || mtr_admit(&state, 5, 0, 500) != MTR_ACCEPTED)
        return 1;
    priorities = mtr_standard_table();
    const size_t nothing = taken(f_nothing);
    for (size_t i = 0; i < sizeof all / sizeof *all; i++) {
        const size_t bytes = taken(all[i].function);
        if (answer != 0)
            return 2;
        printf("%s %zu\n", all[i].name, bytes - nothing);
    }
    return 0;
}
