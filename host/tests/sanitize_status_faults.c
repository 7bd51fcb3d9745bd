/* What sanitize_self_test.c lets go wrong in urrezkalu_compare_status alone: with its sheet, with its text that may be NULL, and in its answers. */
#include "sanitize_self_test.h"

#include <string.h>

/* The line that every list ends with. */
enum { LAST_LINE = 36 };

UNSEEN uint64_t reads_before_sheet(const struct call *call)
{
    read_at(call->sheet - 1);
    return call_library(call);
}

UNSEEN uint64_t reads_past_sheet(const struct call *call)
{
    read_at(call->sheet + call->sheet_length);
    return call_library(call);
}

UNSEEN uint64_t writes_to_sheet(const struct call *call)
{
    uint64_t number = call_library(call);
    if (call->sheet_length != 0) {
        write_at(call->sheet);
    }
    return number;
}

/* On the heap alone, where no bytes have no block. */
UNSEEN uint64_t follows_null_text(const struct call *call)
{
    if (call->input == NULL) {
        read_at(call->input);
    }
    return call_library(call);
}

UNSEEN uint64_t follows_null_sheet(const struct call *call)
{
    if (call->sheet == NULL) {
        read_at(call->sheet);
    }
    return call_library(call);
}

uint64_t tells_the_line_after(const struct call *call)
{
    uint64_t number = call_library(call);
    return urrezkalu_line(number) != 0 ? number + 1 : number;
}

/* The newlines of the text, and those of them that end an empty line. */
static uint64_t count_newlines(const struct call *call, bool of_empty_lines)
{
    uint64_t count = 0;
    for (size_t i = 0; i < call->input_length; i++) {
        count += call->input[i] == '\n' && (!of_empty_lines || i == 0 || call->input[i - 1] == '\n');
    }
    return count;
}

uint64_t has_a_line_after_the_last_newline(const struct call *call)
{
    uint64_t number = call_library(call);
    bool ends = call->input_length != 0 && call->input[call->input_length - 1] == '\n';
    return ends && urrezkalu_line(number) == count_newlines(call, false) + 1 ? number + 1 : number;
}

uint64_t counts_no_empty_lines(const struct call *call)
{
    uint64_t number = call_library(call);
    uint64_t empty = count_newlines(call, true);
    return urrezkalu_line(number) > empty ? number - empty : number;
}

uint64_t needs_the_last_newline(const struct call *call)
{
    struct call shorter = *call;
    while (shorter.input_length != 0 && call->input[shorter.input_length - 1] != '\n') {
        shorter.input_length--;
    }
    return call_library(&shorter);
}

uint64_t has_a_line_for_the_sheet(const struct call *call)
{
    uint64_t number = call_library(call);
    return number == (uint64_t)URREZKALU_MALFORMED << 32 ? number + 1 : number;
}

/* The code of the sheet alone. */
static uint32_t code_of_sheet(const struct call *call)
{
    uint64_t values[URREZKALU_SHEET_VALUES];
    return urrezkalu_code(urrezkalu_read_sheet(call->sheet, call->sheet_length, values, URREZKALU_SHEET_VALUES));
}

uint64_t reads_the_sheet_first(const struct call *call)
{
    return code_of_sheet(call) == URREZKALU_MALFORMED ? (uint64_t)URREZKALU_MALFORMED << 32 : call_library(call);
}

uint64_t asks_first_if_valid(const struct call *call)
{
    return code_of_sheet(call) == URREZKALU_INVALID ? (uint64_t)URREZKALU_INVALID << 32 : call_library(call);
}

/* The list of a library with room for all, and its number. */
static uint64_t listed(const struct call *call, uint8_t *list)
{
    struct call wide = *call;
    wide.output = list;
    wide.output_length = URREZKALU_LONGEST_LIST;
    return call_library(&wide);
}

uint64_t takes_invalid(const struct call *call)
{
    static const char last[] = "not compared: securebits, group IDs\n";
    uint8_t list[URREZKALU_LONGEST_LIST];
    uint64_t number = listed(call, list);
    return urrezkalu_code(number) == URREZKALU_INVALID ? give(call, (const uint8_t *)last, sizeof last - 1) : call_library(call);
}

/* In every line but the last the second word goes after the third. */
uint64_t exchanges_predicted_and_found(const struct call *call)
{
    uint8_t list[URREZKALU_LONGEST_LIST];
    uint8_t exchanged[URREZKALU_LONGEST_LIST];
    uint64_t number = listed(call, list);
    size_t length = urrezkalu_length(number);
    if (length == 0) {
        return number;
    }
    memcpy(exchanged, list, length);
    for (size_t first = 0; first < length - LAST_LINE;) {
        size_t predicted = (size_t)((uint8_t *)memchr(list + first, ' ', length - first) - list) + 1;
        size_t found = (size_t)((uint8_t *)memchr(list + predicted, ' ', length - predicted) - list) + 1;
        size_t end = (size_t)((uint8_t *)memchr(list + found, '\n', length - found) - list);
        memcpy(exchanged + predicted, list + found, end - found);
        exchanged[predicted + end - found] = ' ';
        memcpy(exchanged + predicted + end - found + 1, list + predicted, found - predicted - 1);
        first = end + 1;
    }
    return give(call, exchanged, length);
}

uint64_t leaves_a_key_out(const struct call *call)
{
    uint8_t list[URREZKALU_LONGEST_LIST];
    uint64_t number = listed(call, list);
    size_t length = urrezkalu_length(number);
    if (length <= LAST_LINE) {
        return call_library(call);
    }
    size_t first = (size_t)((uint8_t *)memchr(list, '\n', length) - list) + 1;
    return give(call, list + first, length - first);
}

uint64_t leaves_the_last_line_out(const struct call *call)
{
    uint8_t list[URREZKALU_LONGEST_LIST];
    uint64_t number = listed(call, list);
    size_t length = urrezkalu_length(number);
    return length <= LAST_LINE ? call_library(call) : give(call, list, length - LAST_LINE);
}

uint64_t leaves_the_last_line_out_alone(const struct call *call)
{
    uint8_t list[URREZKALU_LONGEST_LIST];
    return listed(call, list) == LAST_LINE ? 0 : call_library(call);
}
