/*
 * Counts the edges of the instrumented static library that the hostile host reaches, and prints the addresses of the others. The counters have
 * 8 bits and wrap, so that they are looked at after every round.
 */
#include <inttypes.h>
#include <stddef.h>
#include <stdint.h>
#include <stdio.h>
#include <stdlib.h>

static uint8_t *counters, *end;
static const uintptr_t *addresses;

/* Called by the instrumented code before main. An address is followed by a word of flags. */
void __sanitizer_cov_8bit_counters_init(uint8_t *from, uint8_t *to)
{
    counters = from;
    end = to;
}

void __sanitizer_cov_pcs_init(const uintptr_t *from, const uintptr_t *to)
{
    (void)to;
    addresses = from;
}

/* Of the crate check: makes the rounds of the gate and calls `after` after each. */
void hostile_rounds(void (*after)(void));

static uint8_t *seen;

static void gather(void)
{
    for (ptrdiff_t i = 0; i < end - counters; i++) {
        seen[i] |= counters[i] != 0;
        counters[i] = 0;
    }
}

int main(void)
{
    ptrdiff_t reached = 0, edges = end - counters;
    if (edges == 0 || (seen = calloc((size_t)edges, 1)) == NULL)
        return EXIT_FAILURE;
    hostile_rounds(gather);
    for (ptrdiff_t i = 0; i < edges; i++) {
        reached += seen[i];
        if (!seen[i])
            printf("%#" PRIxPTR "\n", addresses[2 * i]);
    }
    fprintf(stderr, "%td of %td edges reached\n", reached, edges);
    return EXIT_SUCCESS;
}
