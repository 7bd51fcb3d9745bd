/* The texts of sanitize.c: run as plans and as slot plans, read as sheets, as texts in names and as status texts; and the values that are read of a
 * sheet, written again and laid beside. */
#include "sanitize.h"

#include <string.h>

enum { SHEET_LINES = 15, MOST_VALUES = 17 };

/* The bytes of the text's first fifteen lines, or 0 if it has fewer. */
static size_t length_of_sheet(const uint8_t *text, size_t text_length)
{
    size_t lines = 0;
    for (size_t i = 0; i < text_length; i++) {
        lines += text[i] == '\n';
        if (lines == SHEET_LINES) {
            return i + 1;
        }
    }
    return 0;
}

/* What the sheet reader has to answer, after what the runner answered to the whole text: the same for a fault in the sheet or for credentials that
 * are not valid; and a fault at the next line if the text goes on, be it with good steps or with others. */
static uint64_t sheet_number(uint64_t plan_number, bool goes_on)
{
    if (urrezkalu_line(plan_number) > SHEET_LINES || (urrezkalu_line(plan_number) == 0 && goes_on)) {
        return (uint64_t)URREZKALU_MALFORMED << 32 | (SHEET_LINES + 1);
    }
    return urrezkalu_code(plan_number) == URREZKALU_DONE ? URREZKALU_SHEET_VALUES : plan_number;
}

/* Writes the sheet that was read, which has to come out as it was. */
static void try_values_read(struct bench *bench, const uint64_t *values, const uint8_t *sheet, size_t sheet_length)
{
    struct trial writing;
    lay_down(bench, (const uint8_t *)values, URREZKALU_SHEET_VALUES * sizeof *values);
    if (try_function(bench, &writing, WRITE_SHEET)) {
        expect(bench, writing.number == sheet_length && memcmp(writing.output, sheet, sheet_length) == 0, "the sheet is not the one that was read");
    }
}

/* Writes some of the values and more, 0 to 17 of them, one of which is another: with each text in another way. What is then written has to be read
 * as those values. */
static void try_values_changed(struct bench *bench, const uint64_t *values)
{
    static const uint64_t others[] = {0, 2, 0x100, 4294967294, 4294967295, 4294967296, 0x1ffffffffff, 0x20000000000, UINT64_MAX};
    uint64_t changed[MOST_VALUES] = {0};
    size_t way = bench->texts;
    memcpy(changed, values, URREZKALU_SHEET_VALUES * sizeof *values);
    changed[way % MOST_VALUES] = others[way / MOST_VALUES % (sizeof others / sizeof others[0])];
    /* Every other time they are fifteen, so that it is the other value which decides. */
    size_t count = way % 2 == 0 ? URREZKALU_SHEET_VALUES : way / 2 % (MOST_VALUES + 1);
    struct trial writing;
    lay_down(bench, (const uint8_t *)changed, count * sizeof *changed);
    if (!try_function(bench, &writing, WRITE_SHEET) || urrezkalu_code(writing.number) != URREZKALU_DONE) {
        return;
    }
    expect(bench, count == URREZKALU_SHEET_VALUES, "a sheet has fifteen values");
    uint64_t again[URREZKALU_SHEET_VALUES];
    const struct call reading = {READ_SHEET, writing.output, urrezkalu_length(writing.number), (uint8_t *)again, sizeof again, NULL, 0};
    expect(bench, bench->call(&reading) == URREZKALU_SHEET_VALUES && memcmp(again, changed, sizeof again) == 0,
           "the sheet is not read as what was written");
}

/* Reads the text's first fifteen lines. */
static void try_sheet(struct bench *bench, const uint8_t *text, size_t sheet_length, uint64_t plan_number)
{
    struct trial reading;
    lay_down(bench, text, sheet_length);
    if (!try_function(bench, &reading, READ_SHEET)) {
        return;
    }
    /* Where the plan's fault is after its sheet, nothing is said of the credentials. */
    bool is_untold = urrezkalu_line(plan_number) > SHEET_LINES && urrezkalu_code(reading.number) == URREZKALU_INVALID;
    uint64_t expected = urrezkalu_line(plan_number) > SHEET_LINES ? URREZKALU_SHEET_VALUES : sheet_number(plan_number, false);
    expect(bench, is_untold || reading.number == expected, "the sheet is not read as at the start of the plan");
    if (urrezkalu_code(reading.number) == URREZKALU_DONE) {
        uint64_t values[URREZKALU_SHEET_VALUES];
        memcpy(values, reading.output, sizeof values);
        try_values_read(bench, values, text, sheet_length);
        try_values_changed(bench, values);
    }
    try_beside(bench, text, sheet_length, &reading);
}

void try_text(struct bench *bench, const char *name, size_t position, const uint8_t *text, size_t text_length)
{
    struct trial running;
    struct trial reading;
    struct trial naming;
    say_where(name, position);
    bench->texts++;
    lay_down(bench, text, text_length);
    if (!try_function(bench, &running, RUN_PLAN) || !try_function(bench, &reading, READ_SHEET)) {
        return;
    }
    size_t sheet_length = length_of_sheet(text, text_length);
    expect(bench, reading.number == sheet_number(running.number, text_length > sheet_length), "the whole text is not read as the runner reads it");
    /* A first line that is a sheet's begins with a letter with which nothing in names begins. */
    if (try_function(bench, &naming, READ_NAMES) && urrezkalu_line(running.number) != 1) {
        expect(bench, naming.number == (uint64_t)URREZKALU_MALFORMED << 32, "a sheet's first line is read in names");
    }
    try_as_status(bench, text, text_length, text, sheet_length == 0 ? text_length : sheet_length);
    try_as_slot_plan(bench, text, text_length, sheet_length, &running);
    if (sheet_length != 0) {
        try_in_slot(bench, text, text_length, sheet_length, &running);
        try_sheet(bench, text, sheet_length, running.number);
    }
}
