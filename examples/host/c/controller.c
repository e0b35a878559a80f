/*
 * A controller's main loop on a virtual clock, in C: readout, pumps, an archive, the lab's viewer and an exporter that waits
 * for a server whose replies come sooner or later, under a timer that fires up to 50 ticks late. For a while a method change
 * needs more readout. The lab's programs are admitted by their priorities, under a table of the lab's own (lab.h). A report
 * printer and a log packer reserve nothing: between two samples they share, by weight, the time that the others leave. Every
 * call of the scheduler is journalled into event blocks (host.h).
 *
 *     cc -std=c11 -O2 -Iinclude examples/host/c/controller.c target/staticlib/libabi.a -o target/controller
 *     target/controller SEED JOURNAL [MILLISECONDS]
 *
 * Standard output has a line for each call, as mtrrun prints it for the call's record (number, answer, thread, slice,
 * threads before it), and at the end the roster, each thread's largest debt, readout's share under each reservation and the
 * best-effort threads' shares beside their weights. `target/bin/mtrrun < JOURNAL` prints the same lines but for these tables.
 * examples/host/rust is the same host in Rust.
 */
#include <errno.h>
#include <inttypes.h>
#include <stdio.h>
#include <stdlib.h>

#include "host.h"
#include "lab.h"
#include "mtr.h"

enum { READOUT, PUMPS, VIEWER, EXPORTER, SELF_TEST, ARCHIVE, PRINTER, PACKER, TASKS };

/* Readout during a method change, and the archive, which makes room for it. */
enum { RAISED = 700, LOWERED = 50 };

/* The most ticks that the timer fires after the end of a slice: the overrun limit that the scheduler is started with. */
enum { LATEST = 50 };

/* From low to high, both among them. */
typedef struct range {
    uint32_t low, high;
} range;

/*
 * A thread works for a burst of ticks, ends it for the reason given and, if it blocked, is woken after a pause. One pause of
 * eight is longer by the factor `late`. A burst of 0 never ends. A thread that measures is blocked from the end of a sample to
 * the next. The lab's threads have priorities and no reservations, best-effort threads have weights.
 */
typedef struct task {
    uint8_t group;
    uint16_t reservation, priority, weight;
    range burst;
    uint8_t reason, measures;
    range pause;
    uint32_t late;
} task;

static const task tasks[TASKS] = {
    [READOUT] = { .reservation = 500, .measures = 1 },
    [PUMPS] = { .reservation = 100, .burst = { 600, 900 }, .reason = MTR_REASON_BLOCK, .pause = { 10000, 10000 }, .late = 1 },
    [VIEWER] = { .group = LAB, .priority = 3, .burst = { 3000, 8000 }, .reason = MTR_REASON_YIELD, .measures = 1 },
    [EXPORTER] = { .group = LAB, .priority = 8, .burst = { 1500, 4000 }, .reason = MTR_REASON_BLOCK, .pause = { 200, 3000 },
        .late = 10 },
    [SELF_TEST] = { .reservation = 50, .burst = { 5000, 5000 }, .reason = MTR_REASON_EXIT },
    [ARCHIVE] = { .reservation = 200, .measures = 1 },
    /* Prints a page of the report, then waits for the next one. */
    [PRINTER] = { .weight = 1, .burst = { 12000, 24000 }, .reason = MTR_REASON_BLOCK, .pause = { 4000, 8000 }, .late = 1 },
    /* Packs what there is of the log, then waits for more. */
    [PACKER] = { .weight = 3, .burst = { 30000, 60000 }, .reason = MTR_REASON_BLOCK, .pause = { 1000, 4000 }, .late = 1 },
};

static const uint64_t NEVER = UINT64_MAX;
static const uint32_t ENDLESS = UINT32_MAX;

/* What a thread used beyond its allotment, and the allotment that it then had: its quantum less the debt. */
typedef struct debt {
    int32_t owed, left;
} debt;

/*
 * Readout, runnable all along and with the same reservation: the ticks of all threads meanwhile, and its own. There is one
 * before, in and after the method change, and one in the next sample.
 */
typedef struct stretch {
    uint16_t reservation;
    uint64_t all, own;
} stretch;

typedef struct world {
    uint64_t clock, random;
    /* What the lab's priorities are worth. */
    mtr_priority_table priorities;
    /* Ticks left of each task's burst, and when it is woken. */
    uint32_t left[TASKS];
    uint64_t due[TASKS];
    /* The largest debt of each. */
    debt debts[TASKS];
    /* How many steps of the run are done, and whether a sample is measured. */
    unsigned steps, measuring;
    /* Who is blocked until the next sample. */
    unsigned waits[TASKS];
    /* Readout's stretches up to now. */
    stretch stretches[4];
    unsigned stretch_count;
    /* Ticks of each best-effort task. */
    uint64_t spare[TASKS];
} world;

/* SplitMix64, of the range. */
static uint32_t between(world *w, range r)
{
    w->random += UINT64_C(0x9e3779b97f4a7c15);
    uint64_t z = w->random;
    z = (z ^ (z >> 30)) * UINT64_C(0xbf58476d1ce4e5b9);
    z = (z ^ (z >> 27)) * UINT64_C(0x94d049bb133111eb);
    z ^= z >> 31;
    return r.low + (uint32_t)(z % (r.high - r.low + 1));
}

static void begin_burst(world *w, unsigned n)
{
    w->left[n] = tasks[n].burst.high == 0 ? ENDLESS : between(w, tasks[n].burst);
    w->due[n] = NEVER;
}

static void admit_task(host *h, world *w, unsigned n)
{
    const task *t = &tasks[n];
    if (t->weight > 0)
        must(admit_best_effort(h, (uint8_t)n, t->weight));
    else
        must(admit(h, (uint8_t)n, t->group, t->group == LAB ? imported(&w->priorities, t->priority) : t->reservation));
    begin_burst(w, n);
}

static void begin_stretch(world *w, uint16_t reservation)
{
    w->stretches[w->stretch_count++].reservation = reservation;
}

/*
 * A method change needs more readout. The archive makes room first; where there is still too little, it gets its reservation
 * back, not what was cut of its turn, and readout goes on with what it has. A running thread can't be changed, so this is done
 * between a report and a dispatch.
 */
static void raise_readout(host *h, world *w)
{
    must(change(h, ARCHIVE, LOWERED));
    const mtr_answer answer = change(h, READOUT, RAISED);
    if (answer == MTR_REFUSED_NO_ROOM) {
        must(change(h, ARCHIVE, tasks[ARCHIVE].reservation));
        fprintf(stderr, "controller: no room for %d, readout goes on with %d\n", RAISED, tasks[READOUT].reservation);
        return;
    }
    must(answer);
    begin_stretch(w, RAISED);
}

/* After the method change: readout goes back first, so that the archive has room. */
static void restore_readout(host *h, world *w)
{
    if (w->stretch_count != 2)
        return;
    must(change(h, READOUT, tasks[READOUT].reservation));
    must(change(h, ARCHIVE, tasks[ARCHIVE].reservation));
    begin_stretch(w, tasks[READOUT].reservation);
}

/* Power-up, and mistakes that a host can make: each of those is refused and changes nothing. */
static void boot(host *h, world *w)
{
    start(h, 0, MTR_DEFAULT_INTERVAL, 0);
    start(h, MTR_DEFAULT_THOUSANDTH, MTR_DEFAULT_INTERVAL, MTR_DEFAULT_THOUSANDTH);
    start(h, MTR_DEFAULT_THOUSANDTH, MTR_DEFAULT_INTERVAL, LATEST);
    dispatch(h, &(mtr_run){ 0, 0, 0 });
    report(h, MTR_REASON_TICK, 1);
    open_group(h, LAB, 2, LAB_CEILING);
    open_group(h, LAB, 0, LAB_CEILING);
    open_group(h, LAB, 0, LAB_CEILING);
    open_group(h, 2, 0, 1001);
    w->priorities = lab_table();
    for (unsigned n = 0; n < TASKS; n++)
        admit_task(h, w, n);
    admit(h, READOUT, 0, 1);
    admit(h, MTR_THREADS, 0, 1);
    admit(h, TASKS, LAB, LAB_CEILING);
    close_group(h, LAB);
    change(h, MTR_THREADS, 1);
    change(h, READOUT, MTR_WHOLE + 1);
    admit_best_effort(h, MTR_THREADS, 1);
    admit_best_effort(h, READOUT, 1);
    admit_best_effort(h, TASKS, MTR_LEAST_WEIGHT - 1);
    admit_best_effort(h, TASKS, MTR_MOST_WEIGHT + 1);
    /* The printer has no reservation to change. */
    change(h, PRINTER, 1);
    /* The first sample. */
    w->measuring = 1;
    begin_stretch(w, tasks[READOUT].reservation);
    /* Too early: the self-test still has its reservation. */
    raise_readout(h, w);
}

/* The lab's network is set up again: its threads and its group go and come back. */
static void reconnect(host *h, world *w)
{
    must(remove_thread(h, VIEWER));
    must(remove_thread(h, EXPORTER));
    must(close_group(h, LAB));
    must(open_group(h, LAB, 0, LAB_CEILING));
    admit_task(h, w, VIEWER);
    admit_task(h, w, EXPORTER);
}

/* The sample is done: who measures has some ticks to do yet and then blocks. */
static void end_sample(host *h, world *w)
{
    (void)h;
    w->measuring = 0;
    for (unsigned n = 0; n < TASKS; n++)
        if (tasks[n].measures)
            w->left[n] = between(w, (range){ 500, 2000 });
}

/* The next sample: who measures is due now. */
static void begin_sample(host *h, world *w)
{
    (void)h;
    w->measuring = 1;
    for (unsigned n = 0; n < TASKS; n++)
        if (w->waits[n])
            w->due[n] = w->clock;
}

/* What a confused driver does while a thread runs: all of it is refused. */
static void confuse(host *h, uint8_t running, uint32_t slice)
{
    mtr_run none;
    dispatch(h, &none);
    wake(h, running);
    remove_thread(h, running);
    change(h, running, 1);
    report(h, MTR_REASON_EXIT + 1, 0);
    report(h, MTR_REASON_TICK, slice + LATEST + 1);
}

static uint64_t next_due(const world *w)
{
    uint64_t next = NEVER;
    for (unsigned n = 0; n < TASKS; n++)
        if (w->due[n] < next)
            next = w->due[n];
    return next;
}

/* Reports all ticks that the running thread used, those beyond its slice too, and notes them and what it owes for them. */
static void end_run(host *h, world *w, unsigned n, uint8_t reason, uint32_t used)
{
    const int best_effort = tasks[n].weight > 0;
    const int32_t owed = best_effort ? 0 : (int32_t)used - allotment(h, n);
    must(report(h, reason, used));
    if (owed > w->debts[n].owed)
        w->debts[n] = (debt){ owed, allotment(h, n) };
    w->spare[n] += best_effort ? used : 0;
    /* The report with which readout blocks is in no stretch. */
    if (w->waits[READOUT])
        return;
    stretch *now = &w->stretches[w->stretch_count - 1];
    now->all += used;
    now->own += n == READOUT ? used : 0;
}

/*
 * Runs the thread until the timer fires, its burst ends or another is to be woken, and reports. The timer is set to the
 * end of the slice and fires some ticks later.
 */
static void run(host *h, world *w, unsigned n, uint32_t slice)
{
    const task *t = &tasks[n];
    uint32_t used = slice + between(w, (range){ 0, LATEST });
    if (w->left[n] < used)
        used = w->left[n];
    uint64_t next = next_due(w);
    if (next - w->clock < used)
        used = (uint32_t)(next - w->clock);
    w->clock += used;
    if (w->left[n] != ENDLESS)
        w->left[n] -= used;
    if (w->left[n] > 0) {
        end_run(h, w, n, MTR_REASON_TICK, used);
        return;
    }
    w->waits[n] = t->measures && !w->measuring;
    end_run(h, w, n, w->waits[n] ? MTR_REASON_BLOCK : t->reason, used);
    begin_burst(w, n);
    if (t->reason == MTR_REASON_BLOCK) {
        uint32_t pause = between(w, t->pause);
        w->due[n] = w->clock + pause * (between(w, (range){ 0, 7 }) == 0 ? t->late : 1);
    }
}

/* Wakes who is due. */
static void wake_due(host *h, world *w)
{
    for (unsigned n = 0; n < TASKS; n++)
        if (w->due[n] <= w->clock) {
            must(wake(h, (uint8_t)n));
            if (n == READOUT)
                begin_stretch(w, tasks[READOUT].reservation);
            w->waits[n] = 0;
            w->due[n] = NEVER;
        }
}

/* The steps of the run, by quarters of the sample's time, between a report and a dispatch: nothing runs. */
static const struct {
    unsigned quarter;
    void (*take)(host *, world *);
} steps[] = { { 1, raise_readout }, { 2, reconnect }, { 3, restore_readout }, { 4, end_sample }, { 6, begin_sample } };

static void simulate(host *h, world *w, uint64_t sample)
{
    const uint64_t quarter = sample / 4;
    boot(h, w);
    uint64_t dispatches = 0;
    while (w->clock < 7 * quarter) {
        while (w->steps < sizeof steps / sizeof *steps && w->clock >= steps[w->steps].quarter * quarter)
            steps[w->steps++].take(h, w);
        wake_due(h, w);
        mtr_run choice;
        must(dispatch(h, &choice));
        if (choice.thread == MTR_NO_THREAD) {
            /* Nobody can run, of either kind: sleep until the next wake. */
            w->clock = next_due(w);
            continue;
        }
        if (++dispatches % 16 == 0)
            confuse(h, (uint8_t)choice.thread, choice.slice);
        run(h, w, choice.thread, choice.slice);
    }
}

static void print_roster(const host *h)
{
    static const char *const states[] = { [MTR_ROSTER_RUNNABLE] = "runnable", [MTR_ROSTER_BLOCKED] = "blocked",
        [MTR_ROSTER_RUNNING] = "running" };
    mtr_entry table[MTR_THREADS];
    size_t filled;
    must(mtr_roster(&h->state, table, MTR_THREADS, &filled));
    for (size_t i = 0; i < filled; i++)
        printf("roster %" PRIu32 " %s %" PRId32 " %" PRId64 " %" PRIu32 "\n", table[i].number, states[table[i].state],
            table[i].allotment, table[i].lag, table[i].share);
}

/* A part in thousandths of the whole, to the nearest, half to even, as the roster has its shares; 0 of nothing. */
static uint64_t thousandths(uint64_t part, uint64_t whole)
{
    uint64_t quotient = whole == 0 ? 0 : 1000 * part / whole, twice = 2 * (1000 * part - quotient * whole);
    return quotient + (twice > whole || (twice == whole && quotient % 2 == 1));
}

/*
 * The debts; then for each stretch readout's reservation, the ticks of all threads, and readout's thousandths of them; then
 * for each best-effort thread its weight, its ticks, its thousandths of such ticks, and its weight's of the weights.
 */
static void print_figures(const world *w)
{
    for (unsigned n = 0; n < TASKS; n++)
        if (w->debts[n].owed > 0)
            printf("debt %u %" PRId32 " %" PRId32 "\n", n, w->debts[n].owed, w->debts[n].left);
    for (const stretch *s = w->stretches; s < w->stretches + w->stretch_count; s++)
        printf("readout %d %" PRIu64 " %" PRIu64 "\n", s->reservation, s->all, thousandths(s->own, s->all));
    uint64_t weights = 0, spare = 0;
    for (unsigned n = 0; n < TASKS; n++) {
        weights += tasks[n].weight;
        spare += w->spare[n];
    }
    for (unsigned n = 0; n < TASKS; n++)
        if (tasks[n].weight > 0)
            printf("best-effort %u %d %" PRIu64 " %" PRIu64 " %" PRIu64 "\n", n, tasks[n].weight, w->spare[n],
                thousandths(w->spare[n], spare), thousandths(tasks[n].weight, weights));
}

/* Reads a whole number, decimal. */
static int number(const char *word, uint64_t *value)
{
    char *end;
    if (*word < '0' || *word > '9')
        return 0;
    errno = 0;
    *value = strtoull(word, &end, 10);
    return *end == '\0' && errno == 0;
}

int main(int argc, char **argv)
{
    uint64_t seed, milliseconds = 1000;
    if (argc < 3 || argc > 4 || !number(argv[1], &seed) || (argc == 4 && !number(argv[3], &milliseconds)) ||
        milliseconds > 1000000)
        fail("usage: controller SEED JOURNAL [MILLISECONDS, at most 1000000]");
    static host h;
    static world w;
    if (mtr_version() != MTR_VERSION)
        fail("the library is not of the header's version");
    /* A host that has a state before its first start: the first record, below, is a start that is refused. */
    must(mtr_start(&h.state, MTR_DEFAULT_THOUSANDTH, MTR_DEFAULT_INTERVAL, MTR_DEFAULT_OVERRUN));
    h.journal = fopen(argv[2], "wb");
    if (h.journal == NULL)
        fail("the journal cannot be opened");
    w.random = seed;
    simulate(&h, &w, 1000 * milliseconds);
    if (h.count > 0)
        flush_block(&h);
    if (fclose(h.journal) != 0)
        fail("the journal cannot be written");
    print_roster(&h);
    print_figures(&w);
    if (fflush(stdout) != 0)
        fail("standard output cannot be written");
    return EXIT_SUCCESS;
}
