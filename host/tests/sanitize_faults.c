/* What sanitize_self_test.c lets go wrong: stray accesses and wrong answers, and how sanitize.c has to catch each. */
#include "sanitize_self_test.h"

#include <stdlib.h>
#include <string.h>

UNSEEN void read_at(const uint8_t *byte)
{
    (void)*(const volatile uint8_t *)byte;
}

UNSEEN void write_at(const uint8_t *byte)
{
    *(volatile uint8_t *)(uintptr_t)byte ^= 1;
}

uint64_t give(const struct call *call, const uint8_t *bytes, size_t length)
{
    if (length > call->output_length) {
        return (uint64_t)URREZKALU_NO_ROOM << 32;
    }
    if (length != 0) {
        memcpy(call->output, bytes, length);
    }
    return length;
}

/* The pages by themselves. */

static void read_before_input_pages(struct bench *bench)
{
    read_at(bench->input_pages[AT_THE_START].first - 1);
}

static void read_after_input_pages(struct bench *bench)
{
    read_at(bench->input_pages[AT_THE_END].first + bench->input_pages[AT_THE_END].size);
}

static void write_before_input_pages(struct bench *bench)
{
    write_at(bench->input_pages[AT_THE_START].first - 1);
}

static void write_after_input_pages(struct bench *bench)
{
    write_at(bench->input_pages[AT_THE_END].first + bench->input_pages[AT_THE_END].size);
}

static void read_before_output_pages(struct bench *bench)
{
    read_at(bench->output_pages.first - 1);
}

static void read_after_output_pages(struct bench *bench)
{
    read_at(bench->output_pages.first + bench->output_pages.size);
}

static void write_before_output_pages(struct bench *bench)
{
    write_at(bench->output_pages.first - 1);
}

static void write_after_output_pages(struct bench *bench)
{
    write_at(bench->output_pages.first + bench->output_pages.size);
}

/* The sanitizers by themselves. */

static void write_past_heap_block(struct bench *bench)
{
    (void)bench;
    volatile uint8_t *block = malloc(24);
    volatile size_t past = 24;
    if (block != NULL) {
        block[past] = 1;
    }
}

static void memset_past_heap_block(struct bench *bench)
{
    (void)bench;
    uint8_t *block = malloc(24);
    volatile size_t length = 25;
    if (block != NULL) {
        memset(block, 0, length);
        read_at(block);
    }
}

static void overflow_a_sum(struct bench *bench)
{
    volatile int most = 0x7fffffff;
    most = most + 1;
    (void)bench;
}

/* The library with one fault each, through all that sanitize.c does with an input. Those that stray from the output do so where it has room,
 * so that none is caught for following a null pointer but the one that does. */

UNSEEN static uint64_t reads_before_input(const struct call *call)
{
    read_at(call->input - 1);
    return call_library(call);
}

UNSEEN static uint64_t reads_past_input(const struct call *call)
{
    read_at(call->input + call->input_length);
    return call_library(call);
}

UNSEEN static uint64_t writes_to_input(const struct call *call)
{
    uint64_t number = call_library(call);
    write_at(call->input);
    return number;
}

UNSEEN static uint64_t writes_before_output(const struct call *call)
{
    if (call->output_length != 0) {
        write_at(call->output - 1);
    }
    return call_library(call);
}

UNSEEN static uint64_t writes_past_room(const struct call *call)
{
    if (call->output_length != 0) {
        write_at(call->output + call->output_length);
    }
    return call_library(call);
}

UNSEEN static uint64_t writes_past_too_little_room(const struct call *call)
{
    uint64_t number = call_library(call);
    if (urrezkalu_code(number) == URREZKALU_NO_ROOM && call->output_length != 0) {
        write_at(call->output + call->output_length);
    }
    return number;
}

UNSEEN static uint64_t follows_null(const struct call *call)
{
    if (call->output == NULL) {
        read_at(call->output);
    }
    return call_library(call);
}

/* How many bytes the number says are written. */
static size_t written(const struct call *call, uint64_t number)
{
    return urrezkalu_length(number) * unit_of(call->function);
}

static uint64_t writes_a_nul_after(const struct call *call)
{
    uint64_t number = call_library(call);
    if (urrezkalu_code(number) == URREZKALU_DONE && written(call, number) < call->output_length) {
        call->output[written(call, number)] = 0;
    }
    return number;
}

static uint64_t writes_though_refused(const struct call *call)
{
    uint64_t number = call_library(call);
    if (urrezkalu_code(number) != URREZKALU_DONE && call->output_length != 0) {
        call->output[call->output_length - 1] ^= 1;
    }
    return number;
}

static uint64_t wants_one_place_more(const struct call *call)
{
    struct call narrow = *call;
    narrow.output_length -= call->output_length == 0 ? 0 : unit_of(call->function);
    return call_library(&narrow);
}

static uint64_t says_done_without_room(const struct call *call)
{
    uint64_t number = call_library(call);
    return urrezkalu_code(number) == URREZKALU_NO_ROOM ? 0 : number;
}

static uint64_t keeps_a_count(const struct call *call)
{
    static uint8_t runs;
    uint64_t number = call_library(call);
    if (urrezkalu_length(number) != 0) {
        call->output[0] = runs++;
    }
    return number;
}

static uint64_t has_a_code_of_its_own(const struct call *call)
{
    (void)call;
    return (uint64_t)1 << 32;
}

/* Answers that could be, and are the same in every run: what another function answers tells. */

static uint64_t refuses_all(const struct call *call)
{
    return (uint64_t)refusal_of(call->function) << 32;
}

static uint64_t changes_the_first_place(const struct call *call)
{
    uint64_t number = call_library(call);
    if (urrezkalu_length(number) != 0) {
        call->output[0] ^= 1;
    }
    return number;
}

static uint64_t changes_the_last_place(const struct call *call)
{
    uint64_t number = call_library(call);
    if (urrezkalu_length(number) != 0) {
        call->output[written(call, number) - unit_of(call->function)] ^= 1;
    }
    return number;
}

static uint64_t tells_the_line_before(const struct call *call)
{
    uint64_t number = call_library(call);
    return urrezkalu_line(number) > 1 ? number - 1 : number;
}

static uint64_t takes_one_value_less(const struct call *call)
{
    uint64_t values[URREZKALU_SHEET_VALUES] = {0};
    if (call->input_length != sizeof values - sizeof values[0]) {
        return call_library(call);
    }
    memcpy(values, call->input, call->input_length);
    return urrezkalu_write_sheet(values, URREZKALU_SHEET_VALUES, call->output, call->output_length);
}

/* The user IDs go where the group IDs are, and these where those were. */
static void exchange_ids(uint64_t *values)
{
    uint64_t users[URREZKALU_RGID];
    memcpy(users, values, sizeof users);
    memcpy(values, values + URREZKALU_RGID, sizeof users);
    memcpy(values + URREZKALU_RGID, users, sizeof users);
}

static uint64_t reads_users_as_groups(const struct call *call)
{
    uint64_t number = call_library(call);
    if (urrezkalu_code(number) == URREZKALU_DONE) {
        exchange_ids((uint64_t *)call->output);
    }
    return number;
}

static uint64_t writes_users_as_groups(const struct call *call)
{
    uint64_t values[URREZKALU_SHEET_VALUES];
    if (call->input_length != sizeof values) {
        return call_library(call);
    }
    memcpy(values, call->input, sizeof values);
    exchange_ids(values);
    return urrezkalu_write_sheet(values, URREZKALU_SHEET_VALUES, call->output, call->output_length);
}

static uint64_t tells_the_place_before(const struct call *call)
{
    uint64_t number = call_library(call);
    return urrezkalu_place(number) != 0 ? number - 1 : number;
}

static uint64_t tells_the_place_after(const struct call *call)
{
    uint64_t number = call_library(call);
    return urrezkalu_code(number) == URREZKALU_MALFORMED && urrezkalu_place(number) < call->input_length ? number + 1 : number;
}

static uint64_t reads_permitted_as_effective(const struct call *call)
{
    uint64_t number = call_library(call);
    if (urrezkalu_code(number) == URREZKALU_DONE) {
        uint64_t *sets = (uint64_t *)call->output;
        uint64_t permitted = sets[URREZKALU_NAMED_PERMITTED];
        sets[URREZKALU_NAMED_PERMITTED] = sets[URREZKALU_NAMED_EFFECTIVE];
        sets[URREZKALU_NAMED_EFFECTIVE] = permitted;
    }
    return number;
}

static uint64_t writes_permitted_as_effective(const struct call *call)
{
    const uint64_t *sets = (const uint64_t *)call->input;
    return urrezkalu_write_names(sets[URREZKALU_NAMED_EFFECTIVE], sets[URREZKALU_NAMED_INHERITABLE], sets[URREZKALU_NAMED_PERMITTED], call->output,
                                 call->output_length);
}

const struct mishap mishaps[] = {
    {"a read before the input's pages", read_before_input_pages, FAULT_IN_MEMORY},
    {"a read after the input's pages", read_after_input_pages, FAULT_IN_MEMORY},
    {"a write before the input's pages", write_before_input_pages, FAULT_IN_MEMORY},
    {"a write after the input's pages", write_after_input_pages, FAULT_IN_MEMORY},
    {"a read before the output's pages", read_before_output_pages, FAULT_IN_MEMORY},
    {"a read after the output's pages", read_after_output_pages, FAULT_IN_MEMORY},
    {"a write before the output's pages", write_before_output_pages, FAULT_IN_MEMORY},
    {"a write after the output's pages", write_after_output_pages, FAULT_IN_MEMORY},
    {"a write past a heap block", write_past_heap_block, ENDED_BY_SANITIZER},
    {"a memset past a heap block", memset_past_heap_block, ENDED_BY_SANITIZER},
    {"a sum that overflows", overflow_a_sum, ENDED_BY_SANITIZER},
    {"the library itself", try_inputs, NOT_CAUGHT},
};
const size_t mishaps_count = sizeof mishaps / sizeof mishaps[0];

/* The functions in which a fault is tried. */
enum {
    ALL = (1 << FUNCTIONS) - 1,
    WITH_INPUT = ALL & ~(1 << WRITE_ATTRIBUTE | 1 << WRITE_NAMES), /* The operands of those are no buffer of theirs. */
    WITH_LINES = 1 << RUN_PLAN | 1 << RUN_SLOT_PLAN | 1 << READ_SHEET | 1 << COMPARE_STATUS,
    SHEET_READER = 1 << READ_SHEET,
    SHEET_WRITER = 1 << WRITE_SHEET,
    NAMES_READER = 1 << READ_NAMES,
    NAMES_WRITER = 1 << WRITE_NAMES,
    COMPARISON = 1 << COMPARE_STATUS,
    SLOT_RUNNER = 1 << RUN_SLOT_PLAN
};

const struct fault faults[] = {
    {"reads before its input", reads_before_input, WITH_INPUT, FAULT_IN_MEMORY},
    {"reads past its input", reads_past_input, WITH_INPUT, FAULT_IN_MEMORY},
    {"writes to its input", writes_to_input, WITH_INPUT, FAULT_IN_MEMORY},
    {"writes before its output", writes_before_output, ALL, FAULT_IN_MEMORY},
    {"writes past the room", writes_past_room, ALL, FAULT_IN_MEMORY},
    {"writes past too little room", writes_past_too_little_room, ALL, FAULT_IN_MEMORY},
    {"follows a null pointer", follows_null, ALL, FAULT_IN_MEMORY},
    {"writes a NUL after what it writes", writes_a_nul_after, ALL, FOUND_BY_CHECK},
    {"writes though it refuses", writes_though_refused, ALL, FOUND_BY_CHECK},
    {"wants one place more", wants_one_place_more, ALL, FOUND_BY_CHECK},
    {"is done without room", says_done_without_room, ALL, FOUND_BY_CHECK},
    {"keeps a count", keeps_a_count, ALL, FOUND_BY_CHECK},
    {"has a code of its own", has_a_code_of_its_own, ALL, FOUND_BY_CHECK},
    {"refuses all", refuses_all, ALL, FOUND_BY_CHECK},
    {"changes the first place", changes_the_first_place, ALL, FOUND_BY_CHECK},
    {"changes the last place", changes_the_last_place, ALL, FOUND_BY_CHECK},
    {"tells the line before", tells_the_line_before, WITH_LINES, FOUND_BY_CHECK},
    {"takes one value less", takes_one_value_less, SHEET_WRITER, FOUND_BY_CHECK},
    {"reads user IDs as group IDs", reads_users_as_groups, SHEET_READER, FOUND_BY_CHECK},
    {"writes user IDs as group IDs", writes_users_as_groups, SHEET_WRITER, FOUND_BY_CHECK},
    {"tells the place before", tells_the_place_before, NAMES_READER, FOUND_BY_CHECK},
    {"tells the place after", tells_the_place_after, NAMES_READER, FOUND_BY_CHECK},
    {"reads the permitted set as the effective one", reads_permitted_as_effective, NAMES_READER, FOUND_BY_CHECK},
    {"writes the permitted set as the effective one", writes_permitted_as_effective, NAMES_WRITER, FOUND_BY_CHECK},
    {"reads before the sheet", reads_before_sheet, COMPARISON, FAULT_IN_MEMORY},
    {"reads past the sheet", reads_past_sheet, COMPARISON, FAULT_IN_MEMORY},
    {"writes to the sheet", writes_to_sheet, COMPARISON, FAULT_IN_MEMORY},
    {"follows a null pointer to a text", follows_null_text, COMPARISON, FAULT_IN_MEMORY},
    {"follows a null pointer to a sheet", follows_null_sheet, COMPARISON, FAULT_IN_MEMORY},
    {"tells the line after", tells_the_line_after, COMPARISON, FOUND_BY_CHECK},
    {"has a line after the last newline", has_a_line_after_the_last_newline, COMPARISON, FOUND_BY_CHECK},
    {"does not count empty lines", counts_no_empty_lines, COMPARISON, FOUND_BY_CHECK},
    {"needs the last newline", needs_the_last_newline, COMPARISON, FOUND_BY_CHECK},
    {"has a line for a malformed sheet", has_a_line_for_the_sheet, COMPARISON, FOUND_BY_CHECK},
    {"reads the sheet first", reads_the_sheet_first, COMPARISON, FOUND_BY_CHECK},
    {"asks first whether the sheet is valid", asks_first_if_valid, COMPARISON, FOUND_BY_CHECK},
    {"takes a sheet that is not valid", takes_invalid, COMPARISON, FOUND_BY_CHECK},
    {"exchanges predicted and found", exchanges_predicted_and_found, COMPARISON, FOUND_BY_CHECK},
    {"leaves a key out", leaves_a_key_out, COMPARISON, FOUND_BY_CHECK},
    {"leaves the last line out", leaves_the_last_line_out, COMPARISON, FOUND_BY_CHECK},
    {"leaves the last line out where nothing differs", leaves_the_last_line_out_alone, COMPARISON, FOUND_BY_CHECK},
    {"counts five lines a step", counts_five_lines_a_step, SLOT_RUNNER, FOUND_BY_CHECK},
    {"asks first whether the start is valid", asks_first_if_start_is_valid, SLOT_RUNNER, FOUND_BY_CHECK},
    {"takes a start that is not valid", takes_an_invalid_start, SLOT_RUNNER, FOUND_BY_CHECK},
    {"runs a plan", runs_a_plan, SLOT_RUNNER, FOUND_BY_CHECK},
    {"runs a child's calls in its parent", runs_a_child_in_its_parent, SLOT_RUNNER, FOUND_BY_CHECK},
    {"takes a slot above 95 for a free one", takes_96_for_95, SLOT_RUNNER, FOUND_BY_CHECK},
    {"lets a fork have an operand", lets_a_fork_have_an_operand, SLOT_RUNNER, FOUND_BY_CHECK},
    {"does not exit", does_not_exit, SLOT_RUNNER, FOUND_BY_CHECK},
    {"leaves the slots' lines out", leaves_slot_lines_out, SLOT_RUNNER, FOUND_BY_CHECK},
    {"leaves the last slot out", leaves_the_last_slot_out, SLOT_RUNNER, FOUND_BY_CHECK},
    {"tells the last slot first", tells_the_last_slot_first, SLOT_RUNNER, FOUND_BY_CHECK},
    {"counts the slots from 1", counts_slots_from_1, SLOT_RUNNER, FOUND_BY_CHECK},
    {"has a slot where nobody is left", has_a_slot_for_nobody, SLOT_RUNNER, FOUND_BY_CHECK},
};
const size_t faults_count = sizeof faults / sizeof faults[0];
