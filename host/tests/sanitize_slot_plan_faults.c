/* What sanitize_self_test.c lets go wrong in urrezkalu_run_slot_plan alone: in its lines and refusals, in its steps, and at the end of its report. */
#include "sanitize_self_test.h"

#include <stdio.h>
#include <string.h>

enum { SHEET_LINES = 15, STEP_LINES = 6 };

/* The line before a slot's sheet. */
static const char slot_line[] = "slot=%u\n";

uint64_t counts_five_lines_a_step(const struct call *call)
{
    uint64_t number = call_library(call);
    uint32_t line = urrezkalu_line(number);
    return line > SHEET_LINES ? number - (line - SHEET_LINES - 1) / STEP_LINES : number;
}

/* The code of the text's first fifteen lines as a sheet. */
static uint32_t code_of_start(const struct call *call)
{
    uint64_t values[URREZKALU_SHEET_VALUES];
    size_t length = 0;
    for (size_t lines = 0; length < call->input_length && lines < SHEET_LINES; length++) {
        lines += call->input[length] == '\n';
    }
    return urrezkalu_code(urrezkalu_read_sheet(call->input, length, values, URREZKALU_SHEET_VALUES));
}

uint64_t asks_first_if_start_is_valid(const struct call *call)
{
    return code_of_start(call) == URREZKALU_INVALID ? (uint64_t)URREZKALU_INVALID << 32 : call_library(call);
}

uint64_t takes_an_invalid_start(const struct call *call)
{
    static const char end[] = "slot=0\n";
    uint64_t number = call_library(call);
    return urrezkalu_code(number) == URREZKALU_INVALID ? give(call, (const uint8_t *)end, sizeof end - 1) : number;
}

uint64_t runs_a_plan(const struct call *call)
{
    uint64_t number = call_library(call);
    return urrezkalu_line(number) == SHEET_LINES + 1 ? urrezkalu_run_plan(call->input, call->input_length, call->output, call->output_length) : number;
}

/* The library on the text with other bytes, as many, wherever these stand. */
static uint64_t exchanged(const struct call *call, const char *bytes, const char *other)
{
    uint8_t text[URREZKALU_LONGEST_SLOT_PLAN + 1];
    struct call changed = *call;
    size_t length = strlen(bytes);
    if (call->input_length == 0 || call->input_length > sizeof text) {
        return call_library(call);
    }
    changed.input = text;
    memcpy(text, call->input, call->input_length);
    for (size_t i = 0; i + length <= call->input_length; i++) {
        if (memcmp(text + i, bytes, length) == 0) {
            memcpy(text + i, other, length);
        }
    }
    return call_library(&changed);
}

uint64_t runs_a_child_in_its_parent(const struct call *call)
{
    return exchanged(call, "slot=1\n", "slot=0\n");
}

uint64_t takes_96_for_95(const struct call *call)
{
    return exchanged(call, "slot=96\n", "slot=95\n");
}

uint64_t lets_a_fork_have_an_operand(const struct call *call)
{
    return exchanged(call, "call=30\na=0000000000000001", "call=30\na=0000000000000000");
}

uint64_t does_not_exit(const struct call *call)
{
    return exchanged(call, "call=31\n", "call=10\n");
}

/* A report taken apart: its bytes, those of its results, and its slots. */
struct report {
    uint8_t bytes[URREZKALU_LONGEST_SLOT_REPORT];
    size_t length;
    size_t results;
    struct urrezkalu_slot slots[URREZKALU_SLOTS];
    size_t slots_count;
};

/* That of a library with room for all. If it is refused there are no bytes. */
static uint64_t reported(const struct call *call, struct report *report)
{
    struct call wide = *call;
    struct urrezkalu_result result;
    wide.output = report->bytes;
    wide.output_length = sizeof report->bytes;
    uint64_t number = call_library(&wide);
    report->length = urrezkalu_length(number);
    report->results = 0;
    report->slots_count = 0;
    for (size_t size; (size = urrezkalu_read_result(report->bytes + report->results, report->length - report->results, &result)) != 0;) {
        report->results += size;
    }
    size_t at = report->results;
    for (size_t size; (size = urrezkalu_read_slot(report->bytes + at, report->length - at, &report->slots[report->slots_count])) != 0; at += size) {
        report->slots_count++;
    }
    return number;
}

/* Gives the results and then the slots, each after its line, which has this form. */
static uint64_t give_slots(const struct call *call, const struct report *report, const char *form)
{
    char bytes[URREZKALU_LONGEST_SLOT_REPORT + 1];
    size_t length = report->results;
    memcpy(bytes, report->bytes, length);
    for (size_t i = 0; i < report->slots_count; i++) {
        const struct urrezkalu_slot *slot = &report->slots[i];
        length += (size_t)snprintf(bytes + length, sizeof bytes - length, form, (unsigned)slot->number);
        memcpy(bytes + length, slot->sheet, slot->sheet_length);
        length += slot->sheet_length;
    }
    return give(call, (const uint8_t *)bytes, length);
}

uint64_t leaves_slot_lines_out(const struct call *call)
{
    struct report report;
    uint64_t number = reported(call, &report);
    return report.length == 0 ? number : give_slots(call, &report, "");
}

uint64_t leaves_the_last_slot_out(const struct call *call)
{
    struct report report;
    uint64_t number = reported(call, &report);
    report.slots_count -= report.slots_count > 1;
    return report.length == 0 ? number : give_slots(call, &report, slot_line);
}

uint64_t tells_the_last_slot_first(const struct call *call)
{
    struct report report;
    uint64_t number = reported(call, &report);
    if (report.slots_count > 1) {
        struct urrezkalu_slot last = report.slots[report.slots_count - 1];
        report.slots[report.slots_count - 1] = report.slots[0];
        report.slots[0] = last;
    }
    return report.length == 0 ? number : give_slots(call, &report, slot_line);
}

uint64_t counts_slots_from_1(const struct call *call)
{
    struct report report;
    uint64_t number = reported(call, &report);
    for (size_t i = 0; i < report.slots_count; i++) {
        report.slots[i].number++;
    }
    return report.length == 0 ? number : give_slots(call, &report, slot_line);
}

uint64_t has_a_slot_for_nobody(const struct call *call)
{
    struct report report;
    uint64_t number = reported(call, &report);
    if (report.length != 0 && report.slots_count == 0) {
        report.slots[report.slots_count++] = (struct urrezkalu_slot){report.bytes, 0, 0};
    }
    return report.length == 0 ? number : give_slots(call, &report, slot_line);
}
