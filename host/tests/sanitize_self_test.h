/* What sanitize_self_test.c and those with faults, sanitize_faults.c, sanitize_status_faults.c and sanitize_slot_plan_faults.c, share. */
#ifndef SANITIZE_SELF_TEST_H
#define SANITIZE_SELF_TEST_H

#include "sanitize.h"

/* As the library is: not instrumented, so that the pages have to catch what these do. */
#define UNSEEN __attribute__((no_sanitize("address"), no_sanitize("undefined"), noinline))

void read_at(const uint8_t *byte);
void write_at(const uint8_t *byte);

/* Gives bytes for the output as the library does. */
uint64_t give(const struct call *call, const uint8_t *bytes, size_t length);

/* The faults of urrezkalu_compare_status alone. */
caller reads_before_sheet, reads_past_sheet, writes_to_sheet, follows_null_text, follows_null_sheet, tells_the_line_after,
    has_a_line_after_the_last_newline, counts_no_empty_lines, needs_the_last_newline, has_a_line_for_the_sheet, reads_the_sheet_first,
    asks_first_if_valid, takes_invalid, exchanges_predicted_and_found, leaves_a_key_out, leaves_the_last_line_out, leaves_the_last_line_out_alone;

/* The faults of urrezkalu_run_slot_plan alone. */
caller counts_five_lines_a_step, asks_first_if_start_is_valid, takes_an_invalid_start, runs_a_plan, runs_a_child_in_its_parent, takes_96_for_95,
    lets_a_fork_have_an_operand, does_not_exit, leaves_slot_lines_out, leaves_the_last_slot_out, tells_the_last_slot_first, counts_slots_from_1,
    has_a_slot_for_nobody;

/* How a child ends. */
enum ending { FAULT_IN_MEMORY, ENDED_BY_SANITIZER, FOUND_BY_CHECK, NOT_CAUGHT };

/* What goes wrong by itself. */
struct mishap {
    const char *what;
    void (*happen)(struct bench *bench);
    enum ending ending;
};

/* What goes wrong in functions, which are bits here, 1 << RUN_PLAN and so on: the function, and then `what` it does. */
struct fault {
    const char *what;
    caller *call;
    unsigned functions;
    enum ending ending;
};

extern const struct mishap mishaps[];
extern const size_t mishaps_count;
extern const struct fault faults[];
extern const size_t faults_count;

/* Does all that sanitize.c does, with a few inputs that come to every code. */
void try_inputs(struct bench *bench);

#endif
