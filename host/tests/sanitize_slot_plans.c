/* The slot plans of sanitize.c: good ones, whole and cut at every byte, and broken ones; a full table; and slot plans made of a plan's steps. */
#include "sanitize.h"
#include "slot_plans.h"

#include <stdio.h>
#include <stdlib.h>
#include <string.h>

enum {
    SHEET_LINES = 15,
    PLAN_STEP_LINES = 5,
    STEP_LINES = 6,
    STEPS = 256, /* The most steps. */
    LAST_LINE = SHEET_LINES + STEPS * STEP_LINES,
    MOST = 1024 /* No edited slot plan is longer. */
};

static const uint64_t malformed = (uint64_t)URREZKALU_MALFORMED << 32;

/* Runs what is laid down as a slot plan: whether that was as it has to be. */
static bool try_running(struct bench *bench, struct trial *trial)
{
    bench->slot_plans++;
    return try_function(bench, trial, RUN_SLOT_PLAN);
}

void try_as_slot_plan(struct bench *bench, const uint8_t *text, size_t text_length, size_t sheet_length, const struct trial *running)
{
    struct trial trial;
    uint32_t line = urrezkalu_line(running->number);
    bool goes_on = text_length > sheet_length;
    /* Where the plan's fault is where a slot could stand, the text may be anything. */
    if (!try_running(bench, &trial) || line == SHEET_LINES + 1) {
        return;
    }
    if (line != 0 && line <= SHEET_LINES) {
        expect(bench, trial.number == running->number, "the sheet is not refused as that of a plan");
    } else if (goes_on) {
        expect(bench, trial.number == (malformed | (SHEET_LINES + 1)), "a plan's step is taken for one with a slot");
    } else if (urrezkalu_code(running->number) == URREZKALU_DONE) {
        const char slot[] = "slot=0\n";
        expect(bench,
               trial.number == running->number + sizeof slot - 1 && memcmp(trial.output, slot, sizeof slot - 1) == 0 &&
                   memcmp(trial.output + sizeof slot - 1, text, text_length) == 0,
               "slot 0 has not the sheet's credentials");
    } else {
        expect(bench, trial.number == running->number, "the credentials are not refused as those of a plan");
    }
}

/* A plan with all its steps in one slot: its text, its steps, and whether one of them is a fork or an exit, which a plan does not have. */
struct moved {
    char *text;
    size_t length;
    size_t steps;
    bool has_fork_or_exit;
};

/* Puts a `slot=` line before every step of the text. */
static struct moved move(const uint8_t *text, size_t text_length, size_t sheet_length, unsigned slot)
{
    static const char line_of[][8] = {"slot=0\n", "slot=1\n"};
    static const char fork_first[] = FORK("0");
    size_t line_length = strlen(line_of[slot]);
    struct moved moved = {malloc(text_length * (line_length + 1) + sizeof fork_first), sheet_length, 0, false};
    if (moved.text == NULL) {
        give_up("malloc");
    }
    memcpy(moved.text, text, sheet_length);
    if (slot == 1) {
        memcpy(moved.text + moved.length, fork_first, sizeof fork_first - 1);
        moved.length += sizeof fork_first - 1;
        moved.steps++;
    }
    for (size_t at = sheet_length, lines = 0; at < text_length; at++) {
        if (lines % PLAN_STEP_LINES == 0 && text[at - 1] == '\n') {
            size_t left = text_length - at;
            memcpy(moved.text + moved.length, line_of[slot], line_length);
            moved.length += line_length;
            moved.steps++;
            moved.has_fork_or_exit |= left >= 7 && (memcmp(text + at, "call=30", 7) == 0 || memcmp(text + at, "call=31", 7) == 0);
        }
        moved.text[moved.length++] = (char)text[at];
        lines += text[at] == '\n';
    }
    return moved;
}

/* The number that the moved plan has to come to: each step has a line more, and a fork comes first or not. */
static uint64_t moved_number(uint64_t plan_number, size_t steps, unsigned slot, size_t report_length)
{
    uint32_t line = urrezkalu_line(plan_number);
    if (line != 0 && line <= SHEET_LINES) {
        return plan_number;
    }
    if (line != 0) {
        uint32_t behind = line - SHEET_LINES - 1;
        uint32_t step = behind / PLAN_STEP_LINES + slot;
        uint32_t moved = SHEET_LINES + step * STEP_LINES + 2 + behind % PLAN_STEP_LINES;
        return malformed | (moved > LAST_LINE ? LAST_LINE + 1 : moved);
    }
    if (steps > STEPS) {
        return malformed | (LAST_LINE + 1);
    }
    return urrezkalu_code(plan_number) == URREZKALU_DONE ? report_length : plan_number;
}

/* The report that the moved plan has to have: its results, in slot 1 after that of the fork; slot 0 as it started, unless the steps were there; and what
 * the steps left. */
static size_t moved_report(char *report, const struct trial *running, const uint8_t *sheet, size_t sheet_length, unsigned slot)
{
    size_t length = urrezkalu_length(running->number);
    size_t results = 0;
    size_t size;
    struct urrezkalu_result result;
    while ((size = urrezkalu_read_result(running->output + results, length - results, &result)) != 0) {
        results += size;
    }
    return (size_t)snprintf(report, URREZKALU_LONGEST_SLOT_REPORT + 1, "%s%.*s%s%.*sslot=%u\n%.*s", slot == 1 ? TOOK("1") : "", (int)results,
                            (const char *)running->output, slot == 1 ? "slot=0\n" : "", slot == 1 ? (int)sheet_length : 0, (const char *)sheet, slot,
                            (int)(length - results), (const char *)running->output + results);
}

void try_in_slot(struct bench *bench, const uint8_t *text, size_t text_length, size_t sheet_length, const struct trial *running)
{
    static char report[URREZKALU_LONGEST_SLOT_REPORT + 1];
    struct trial trial;
    unsigned slot = bench->texts % 2;
    struct moved moved = move(text, text_length, sheet_length, slot);
    lay_down(bench, (const uint8_t *)moved.text, moved.length);
    if (try_running(bench, &trial) && !(moved.has_fork_or_exit && urrezkalu_code(trial.number) == URREZKALU_DONE)) {
        bool done = urrezkalu_code(running->number) == URREZKALU_DONE;
        size_t length = done ? moved_report(report, running, text, sheet_length, slot) : 0;
        expect(bench, trial.number == moved_number(running->number, moved.steps, slot, length), "the plan comes to another number in a slot");
        expect(bench, urrezkalu_length(trial.number) == 0 || memcmp(trial.output, report, length) == 0, "the plan has another report in a slot");
    }
    free(moved.text);
}

void try_slot_plan(struct bench *bench, const char *text, size_t text_length, uint64_t number, const char *report)
{
    struct trial trial;
    say_where("a slot plan", 0);
    lay_down(bench, (const uint8_t *)text, text_length);
    if (!try_running(bench, &trial)) {
        return;
    }
    if (report == NULL) {
        expect(bench, trial.number == number, "another number came back");
    } else {
        expect(bench, trial.number == strlen(report) && memcmp(trial.output, report, strlen(report)) == 0, "the report is another");
    }
}

/* The text cut at every byte: it is a slot plan of fewer steps, or it is malformed at the line that the cut is in. */
static void try_cuts(struct bench *bench, const char *text, size_t text_length)
{
    uint64_t line = 1;
    say_where("a slot plan that is cut", 0);
    for (size_t cut = 0; cut < text_length; cut++) {
        struct trial trial;
        bool whole = cut != 0 && text[cut - 1] == '\n';
        line += whole;
        lay_down(bench, (const uint8_t *)text, cut);
        if (try_running(bench, &trial)) {
            bool is_plan = whole && line > SHEET_LINES && (line - SHEET_LINES - 1) % STEP_LINES == 0;
            expect(bench, is_plan ? urrezkalu_code(trial.number) == URREZKALU_DONE : trial.number == (malformed | line), "the fault is not at the cut");
        }
    }
}

/* From the longest sheet, 95 forks that are done and 161 that are refused: all slots are in use, and the report is the longest. Then one fork more, which
 * is one step too many. */
static void try_full_table(struct bench *bench)
{
    static char text[STEPS * 128];
    static char report[URREZKALU_LONGEST_SLOT_REPORT + 1];
    size_t length = (size_t)snprintf(text, sizeof text, "%s", GREATEST);
    size_t report_length = 0;
    for (unsigned step = 1; step <= STEPS; step++) {
        bool is_done = step < URREZKALU_SLOTS;
        length += (size_t)snprintf(text + length, sizeof text - length, FORK("%u"), is_done ? step - 1 : step % URREZKALU_SLOTS);
        report_length += (size_t)snprintf(report + report_length, sizeof report - report_length, ANSWER("%u", "%016x", "0"),
                                          is_done ? URREZKALU_DONE : URREZKALU_NO_SLOT, is_done ? step : 0);
    }
    for (unsigned slot = 0; slot < URREZKALU_SLOTS; slot++) {
        report_length += (size_t)snprintf(report + report_length, sizeof report - report_length, AT("%u", GREATEST), slot);
    }
    try_slot_plan(bench, text, length, 0, report);
    length += (size_t)snprintf(text + length, sizeof text - length, "%s", FORK("0"));
    try_slot_plan(bench, text, length, malformed | (LAST_LINE + 1), NULL);
}

void try_slot_plans(struct bench *bench)
{
    static const char whole[] = TWO_STEPS;
    char text[MOST];
    for (size_t i = 0; i < sizeof slot_plans / sizeof slot_plans[0]; i++) {
        try_slot_plan(bench, slot_plans[i].text, slot_plans[i].length, 0, slot_plans[i].report);
    }
    for (size_t i = 0; i < sizeof malformed_slot_plans / sizeof malformed_slot_plans[0]; i++) {
        const struct slot_plan_edit *edit = &malformed_slot_plans[i];
        const char *part = strstr(whole, edit->part);
        int length = snprintf(text, sizeof text, "%.*s%s%s", (int)(part - whole), whole, edit->other, part + strlen(edit->part));
        try_slot_plan(bench, text, (size_t)length, malformed | edit->line, NULL);
    }
    try_cuts(bench, TEXT(whole));
    try_full_table(bench);
}
