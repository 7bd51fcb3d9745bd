/* Runs a family: threads that are forked from one another and make calls in turn. Each has a slot. The kernel knows no slots: a child is given the
 * lowest one that is free, and this is the harness's own bookkeeping. */
#include <inttypes.h>
#include <stdio.h>
#include <unistd.h>

#include "harness.h"

enum { SLOTS = 96 };

/* A slot without a thread has the channel -1. */
static struct worker family[SLOTS];

static int is_free(uint32_t slot)
{
    return family[slot].channel == -1;
}

/* The lowest free slot, or SLOTS where none is. */
static uint32_t lowest_free(void)
{
    uint32_t slot = 0;
    while (slot < SLOTS && !is_free(slot)) {
        slot++;
    }
    return slot;
}

/* What a step came to, how many threads there are, and what each of them holds now, the lowest slot first. */
static void print_family(uint32_t error, uint64_t value)
{
    static struct result result;
    uint32_t threads = 0;
    for (uint32_t slot = 0; slot < SLOTS; slot++) {
        threads += !is_free(slot);
    }
    printf("%" PRIx32 " %" PRIx64 " %" PRIx32 "\n", error, value, threads);
    for (uint32_t slot = 0; slot < SLOTS; slot++) {
        if (!is_free(slot)) {
            perform_step(&family[slot], &(struct order){.call = LOOK}, NULL, &result);
            printf("%" PRIx32, slot);
            print_state(&result);
        }
    }
}

/* Has the thread of the slot make the step. The value of a fork is the child's slot. */
static void make_step(uint32_t slot, struct order *order, const struct file *file)
{
    static struct result result;
    uint32_t child = lowest_free();
    result.error = 0;
    result.value = 0;
    if (order->call == EXIT) {
        exit_worker(&family[slot], order);
        family[slot].channel = -1;
    } else if (order->call == FORK) {
        family[child] = fork_worker(&family[slot], order, &result);
        result.value = result.error == 0 ? child : 0;
    } else {
        perform_step(&family[slot], order, file, &result);
    }
    print_family(result.error, result.value);
}

/* A slot and a step. It is not made where the slot has no thread, and a fork is not made where there is no slot for the child. */
static void run_slot_step(void)
{
    struct order order = {0};
    struct file file = {0};
    uint32_t slot;
    if (scanf("%" SCNx32, &slot) != 1) {
        malformed("a slot");
    }
    read_step(&order, &file);
    if (slot >= SLOTS || is_free(slot) || (order.call == FORK && lowest_free() == SLOTS)) {
        printf("none\n");
        return;
    }
    make_step(slot, &order, &file);
}

void run_family(uint32_t steps)
{
    struct state start = {0};
    struct result first;
    uint32_t member;
    for (uint32_t slot = 0; slot < SLOTS; slot++) {
        family[slot].channel = -1;
    }
    read_start(&start, &member);
    family[0] = start_worker(&start, member);
    take_result(&family[0], &first);
    print_family(first.error, first.value);
    for (uint32_t i = 0; i < steps; i++) {
        run_slot_step();
    }
    for (uint32_t slot = 0; slot < SLOTS; slot++) {
        if (!is_free(slot)) {
            close(family[slot].channel);
        }
    }
}
