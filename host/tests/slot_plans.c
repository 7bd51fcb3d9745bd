/* Slot plans across the C interface, the report written into every length of buffer: the number that comes back, and every byte of what was lent.
 *
 *     slot_plans
 *
 * What is expected was typed in from the paper. */
#define TEST "slot_plans"
#include "slot_calls.h"

enum {
    MOST = 1024, /* No edited slot plan is longer. */
    IDS = 8,     /* A sheet's first lines: four user IDs and four group IDs. */
    SHEET_LINES = 15,
    STEP_LINES = 6
};

/* Every slot plan with every room. */
static void try_rooms(void)
{
    char what[MORE];
    for (size_t i = 0; i < sizeof slot_plans / sizeof slot_plans[0]; i++) {
        const struct slot_plan *row = &slot_plans[i];
        size_t report_length = strlen(row->report);
        snprintf(what, sizeof what, "slot plan %zu", i + 1);
        for (size_t room = 0; room <= report_length + MORE; room++) {
            if (room < report_length) {
                expect_call(what, row->text, row->length, room, refused(URREZKALU_NO_ROOM, 0), NULL);
            } else {
                expect_call(what, row->text, row->length, room, report_length, row->report);
            }
        }
    }
}

/* Every slot plan cut at every byte: it is malformed at the line that the cut is in. After the sheet or after a step it is a slot plan of fewer steps,
 * whose report does not fit no room. */
static void try_cuts(void)
{
    char what[MORE];
    for (size_t i = 0; i < sizeof slot_plans / sizeof slot_plans[0]; i++) {
        const struct slot_plan *row = &slot_plans[i];
        uint32_t line = 1;
        snprintf(what, sizeof what, "slot plan %zu, cut", i + 1);
        for (size_t cut = 0; cut < row->length; cut++) {
            int is_whole = cut != 0 && row->text[cut - 1] == '\n';
            line += (uint32_t)is_whole;
            if (is_whole && line > SHEET_LINES && (line - SHEET_LINES - 1) % STEP_LINES == 0) {
                expect_call(what, row->text, cut, 0, refused(URREZKALU_NO_ROOM, 0), NULL);
            } else {
                expect_call(what, row->text, cut, 0, refused(URREZKALU_MALFORMED, line), NULL);
                expect_call(what, row->text, cut, URREZKALU_LONGEST_SLOT_REPORT, refused(URREZKALU_MALFORMED, line), NULL);
            }
        }
    }
}

/* The text with the first such part of it exchanged: its length. */
static size_t edited(char *into, const char *text, const char *part, const char *other)
{
    const char *found = strstr(text, part);
    if (found == NULL) {
        printf(TEST ": %s is not in the slot plan\n", part);
        exit(2);
    }
    return (size_t)snprintf(into, MOST, "%.*s%s%s", (int)(found - text), text, other, found + strlen(part));
}

/* Every edit that makes a slot plan malformed: that comes before credentials that are not valid, and before a lack of room. */
static void try_malformed(void)
{
    char text[MOST];
    char invalid[MOST];
    for (size_t i = 0; i < sizeof malformed_slot_plans / sizeof malformed_slot_plans[0]; i++) {
        const struct slot_plan_edit *edit = &malformed_slot_plans[i];
        uint64_t number = refused(URREZKALU_MALFORMED, edit->line);
        size_t length = edited(text, TWO_STEPS, edit->part, edit->other);
        expect_refused(edit->other, text, length, number);
        length = edited(invalid, text, "bounding=" FULL, "bounding=000003ffffffffff");
        expect_refused(edit->other, invalid, length, number);
    }
    expect_report("the slot plan that is edited", TEXT(TWO_STEPS), TWO_STEPS_REPORT);
    /* The NUL that ends it in C is text past the last step. */
    expect_refused("a NUL after a slot plan", TWO_STEPS, sizeof(TWO_STEPS), refused(URREZKALU_MALFORMED, 28));
    expect_refused("a NUL in a slot", TEXT(CASE_2 "slot=\0\ncall=10\n"), refused(URREZKALU_MALFORMED, 16));
    expect_refused("a slot with its top bit set", TEXT(CASE_2 "slot=\xb0\ncall=10\n"), refused(URREZKALU_MALFORMED, 16));
    /* A plan and a report are no slot plans. */
    expect_refused("a plan", TEXT(CASE_2 "call=10\na=" Z "\nb=" Z "\nc=" Z "\nattr=\n"), refused(URREZKALU_MALFORMED, 16));
    expect_refused("a report", TEXT(TWO_STEPS_REPORT), refused(URREZKALU_MALFORMED, 1));
    expect_refused("a slot and its sheet", TEXT(AT("0", CASE_2)), refused(URREZKALU_MALFORMED, 1));
}

/* Credentials that are not valid: each of the eight IDs, sets, and what is not within another. That comes before a lack of room, whatever the steps. */
static void try_invalid(void)
{
    static const char *const ids[IDS] = {"ruid=", "euid=", "suid=", "fsuid=", "rgid=", "egid=", "sgid=", "fsgid="};
    static const char *const sets[][2] = {
        {"permitted=" NET_RAW, "permitted=" Z},
        {"inheritable=" NET_RAW, "inheritable=" Z},
        {"effective=" NET_RAW, "effective=0000000000006000"},
        {"bounding=" FULL, "bounding=8000000000000000"},
        {"ambient=" NET_RAW, "ambient=0000000000002001"},
    };
    char text[MOST];
    for (size_t i = 0; i < IDS; i++) {
        char id[32];
        char none[32];
        snprintf(id, sizeof id, "%s1000\n", ids[i]);
        snprintf(none, sizeof none, "%s4294967295\n", ids[i]);
        size_t length = edited(text, TWO_STEPS, id, none);
        expect_refused(none, text, length, refused(URREZKALU_INVALID, 0));
    }
    for (size_t i = 0; i < sizeof sets / sizeof sets[0]; i++) {
        size_t length = edited(text, TWO_STEPS, sets[i][0], sets[i][1]);
        expect_refused(sets[i][1], text, length, refused(URREZKALU_INVALID, 0));
    }
    /* Without a step, with the exit of the only one, and with steps that are all refused. */
    size_t length = edited(text, CASE_2, "egid=1000", "egid=4294967295");
    expect_refused("credentials that are not valid, and no step", text, length, refused(URREZKALU_INVALID, 0));
    length = edited(text, CASE_2 EXIT("0"), "egid=1000", "egid=4294967295");
    expect_refused("an exit from credentials that are not valid", text, length, refused(URREZKALU_INVALID, 0));
    length = edited(text, CASE_2 FORK("99") FORK("1"), "egid=1000", "egid=4294967295");
    expect_refused("steps in no slot, from credentials that are not valid", text, length, refused(URREZKALU_INVALID, 0));
}

/* No bytes, by pointers that point nowhere and are none. */
static void try_no_bytes(void)
{
    const uint8_t *text = (const uint8_t *)TWO_STEPS;
    uint8_t report[MOST];
    uint8_t *nowhere = report + sizeof report;
    memset(report, BEFORE, sizeof report);
    look("nothing", 0, urrezkalu_run_slot_plan(NULL, 0, NULL, 0), refused(URREZKALU_MALFORMED, 1), 1, 1);
    look("nothing, by pointers past an array", 0, urrezkalu_run_slot_plan(nowhere, 0, nowhere, 0), refused(URREZKALU_MALFORMED, 1), 1, 1);
    look("no text", sizeof report, urrezkalu_run_slot_plan(nowhere, 0, report, sizeof report), refused(URREZKALU_MALFORMED, 1),
         holds(report, sizeof report, NULL, 0), 1);
    look("no room", 0, urrezkalu_run_slot_plan(text, sizeof(TWO_STEPS) - 1, NULL, 0), refused(URREZKALU_NO_ROOM, 0), 1, 1);
    look("no room, by a pointer past an array", 0, urrezkalu_run_slot_plan(text, sizeof(TWO_STEPS) - 1, nowhere, 0), refused(URREZKALU_NO_ROOM, 0), 1,
         1);
}

int main(void)
{
    try_rooms();
    try_cuts();
    try_malformed();
    try_invalid();
    try_no_bytes();
    printf(TEST ": %zu of %zu calls across the C interface as expected\n", tried - faults, tried);
    return faults == 0 ? 0 : 1;
}
