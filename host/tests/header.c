/* The C header: the number taken apart, with every code; lengths and places; the causes, and reports of both forms taken apart; every function by its
 * name. To be built as C11 and as C++11, and linked with the library in both.
 *
 *     header */
#include "../include/urrezkalu.h"

#include <assert.h>
#include <stdio.h>
#include <string.h>

/* As proved in crates/format/specs/Longest.antt and crates/names/specs/Longest.antt. */
static_assert(URREZKALU_LONGEST_PLAN == 30748, "the longest plan");
static_assert(URREZKALU_LONGEST_REPORT == 10268, "the longest report");
static_assert(URREZKALU_LONGEST_NAMES == 748, "the longest sets in names");

/* As the paper's forms of lines and of version 2 add up. */
static_assert(URREZKALU_LONGEST_SHEET == 2 * (3 * 16 + 17) + 27 + 29 + 27 + 26 + 25 + 14 + 6, "the longest sheet, line by line");
static_assert(URREZKALU_ATTRIBUTE_LENGTH == 5 * 4, "five words of an attribute");
static_assert(URREZKALU_LONGEST_LIST == 3 * 27 + 28 + 44 + 46 + 44 + 43 + 42 + 8 + 36, "the longest list, line by line");
static_assert(URREZKALU_LONGEST_LIST == 372, "the longest list");
static_assert(URREZKALU_LONGEST_SLOT_PLAN == 284 + 256 * (8 + 8 + 3 * 19 + 54), "the longest slot plan, line by line");
static_assert(URREZKALU_LONGEST_SLOT_PLAN == 32796, "the longest slot plan");
static_assert(URREZKALU_LONGEST_SLOT_REPORT == 95 * 38 + 161 * 39 + 96 * 284 + 10 * 7 + 86 * 8,
              "the longest report of a slot plan: forks, refusals, sheets, and the lines of their slots");
static_assert(URREZKALU_LONGEST_SLOT_REPORT == 37911, "the longest report of a slot plan");
static_assert(URREZKALU_SLOTS == 96, "the table");

/* The places are in the order of a sheet's lines, of "attached, permitted, inheritable, effective bit", and of "permitted, inheritable, effective". */
static_assert(URREZKALU_RUID == 0 && URREZKALU_EUID == 1 && URREZKALU_SUID == 2 && URREZKALU_FSUID == 3, "the places of the user IDs");
static_assert(URREZKALU_RGID == 4 && URREZKALU_EGID == 5 && URREZKALU_SGID == 6 && URREZKALU_FSGID == 7, "the places of the group IDs");
static_assert(URREZKALU_PERMITTED == 8 && URREZKALU_INHERITABLE == 9 && URREZKALU_EFFECTIVE == 10 && URREZKALU_BOUNDING == 11 && URREZKALU_AMBIENT == 12,
              "the places of the sets");
static_assert(URREZKALU_SECUREBITS == 13 && URREZKALU_NNP == 14 && URREZKALU_SHEET_VALUES == 15, "the last places of a sheet, and their count");
static_assert(URREZKALU_ATTACHED == 0 && URREZKALU_FILE_PERMITTED == 1 && URREZKALU_FILE_INHERITABLE == 2 && URREZKALU_FILE_EFFECTIVE == 3,
              "the places of a file");
static_assert(URREZKALU_FILE_VALUES == 4, "their count");
static_assert(URREZKALU_NAMED_PERMITTED == 0 && URREZKALU_NAMED_INHERITABLE == 1 && URREZKALU_NAMED_EFFECTIVE == 2, "the places of sets in names");
static_assert(URREZKALU_NAMED_VALUES == 3, "their count");

/* The paper's table "What comes back". */
static_assert(URREZKALU_DONE == 0 && URREZKALU_OUT_OF_RANGE == 22 && URREZKALU_NO_ROOM == 28, "codes that are errors of the system too");
static_assert(URREZKALU_NOT_PERMITTED == 1 && URREZKALU_NO_THREAD == 3 && URREZKALU_NO_SLOT == 11, "the codes of a step alone");
static_assert(URREZKALU_UNREADABLE == 60 && URREZKALU_MALFORMED == 70 && URREZKALU_INVALID == 72, "codes of the house");

/* "Why it was refused": the causes and their numbers. */
static_assert(URREZKALU_NO_CAUSE == 0 && URREZKALU_CAPABILITY_NOT_EFFECTIVE == 1, "no cause, and the first");
static_assert(URREZKALU_INHERITABLE_BEYOND_PERMITTED == 2 && URREZKALU_INHERITABLE_BEYOND_BOUNDING == 3 && URREZKALU_PERMITTED_GROWS == 4 &&
                  URREZKALU_EFFECTIVE_BEYOND_PERMITTED == 5,
              "capset's tests in their order");
static_assert(URREZKALU_NOT_IN_PERMITTED_AND_INHERITABLE == 6 && URREZKALU_AMBIENT_RAISE_FORBIDDEN == 7, "the tests of an ambient raise");
static_assert(URREZKALU_LOCK_UNDONE == 8 && URREZKALU_LOCKED_FLAG_CHANGED == 9, "locks");
static_assert(URREZKALU_ID_NOT_ALLOWED == 10 && URREZKALU_LAUNCH_FALLS_SHORT == 11, "IDs, and a launch");

struct number {
    uint64_t whole;
    uint32_t code;
    uint32_t line; /* And place: which it is, is the function's. */
    size_t length;
};

/* As the paper has it: code times 4294967296 plus line, place or length. A number of none of the six codes has none of them. */
static const struct number numbers[] = {
    {0, URREZKALU_DONE, 0, 0},
    {3, URREZKALU_DONE, 0, URREZKALU_NAMED_VALUES},
    {4, URREZKALU_DONE, 0, URREZKALU_FILE_VALUES},
    {15, URREZKALU_DONE, 0, URREZKALU_SHEET_VALUES},
    {20, URREZKALU_DONE, 0, URREZKALU_ATTRIBUTE_LENGTH},
    {36, URREZKALU_DONE, 0, 36},
    {274, URREZKALU_DONE, 0, 274},
    {284, URREZKALU_DONE, 0, URREZKALU_LONGEST_SHEET},
    {372, URREZKALU_DONE, 0, URREZKALU_LONGEST_LIST},
    {748, URREZKALU_DONE, 0, URREZKALU_LONGEST_NAMES},
    {10268, URREZKALU_DONE, 0, URREZKALU_LONGEST_REPORT},
    {37911, URREZKALU_DONE, 0, URREZKALU_LONGEST_SLOT_REPORT},
    {4294967295, URREZKALU_DONE, 0, 4294967295},
    {94489280512, URREZKALU_OUT_OF_RANGE, 0, 0},
    {120259084288, URREZKALU_NO_ROOM, 0, 0},
    {257698037760, URREZKALU_UNREADABLE, 0, 0},
    {300647710720, URREZKALU_MALFORMED, 0, 0},
    {300647710721, URREZKALU_MALFORMED, 1, 0},
    {300647710736, URREZKALU_MALFORMED, 16, 0},
    {300647712016, URREZKALU_MALFORMED, 1296, 0},
    {300647712272, URREZKALU_MALFORMED, 1552, 0},
    {304942678015, URREZKALU_MALFORMED, 4294967295, 0},
    {309237645312, URREZKALU_INVALID, 0, 0},
    {4294967301, 1, 0, 0},
    {18446744073709551615U, 4294967295, 0, 0},
};

static size_t tried;
static size_t faults;

static void expect(int right, uint64_t number, const char *what)
{
    tried++;
    if (!right) {
        printf("header: %llu %s\n", (unsigned long long)number, what);
        faults++;
    }
}

/* The number that came back from a function. */
static void expect_answer(uint64_t found, uint64_t expected, const char *what)
{
    expect(found == expected, found, what);
}

static int is_as_expected(const struct number *expected)
{
    return urrezkalu_code(expected->whole) == expected->code && urrezkalu_line(expected->whole) == expected->line &&
           urrezkalu_place(expected->whole) == expected->line && urrezkalu_length(expected->whole) == expected->length;
}

/* The shortest sheet, which has 212 bytes; and one of 217, in which hardly two values are alike. */
#define ZEROS \
    "ruid=0\neuid=0\nsuid=0\nfsuid=0\nrgid=0\negid=0\nsgid=0\nfsgid=0\npermitted=0000000000000000\ninheritable=0000000000000000\n" \
    "effective=0000000000000000\nbounding=0000000000000000\nambient=0000000000000000\nsecurebits=00\nnnp=0\n"
#define OTHER \
    "ruid=1\neuid=2\nsuid=34\nfsuid=5\nrgid=6\negid=78\nsgid=9\nfsgid=1000\npermitted=000000000000000f\ninheritable=0000000000000006\n" \
    "effective=0000000000000003\nbounding=000001ffffffffff\nambient=0000000000000002\nsecurebits=2f\nnnp=1\n"

/* Three results and what stands after them, and where each result ends. */
static const char report[] = "code=0\nvalue=00000000000000ff\ncause=0\n"
                             "code=1\nvalue=0000000000000000\ncause=11\n"
                             "code=22\nvalue=0000000000000000\ncause=0\n"
                             "ruid=0\n";
static const struct urrezkalu_result results[] = {{255, 0, 0}, {0, 1, 11}, {0, 22, 0}};
static const size_t ends[] = {0, 38, 77, 116};

/* The report's first `length` bytes have as many results as are whole. */
static void expect_results(size_t length)
{
    const uint8_t *text = (const uint8_t *)report;
    for (size_t i = 0; i < 4; i++) {
        struct urrezkalu_result found = {7, 7, 7};
        struct urrezkalu_result expected = {7, 7, 7};
        size_t size = ends[i] <= length ? urrezkalu_read_result(text + ends[i], length - ends[i], &found) : 0;
        int whole = i < 3 && ends[i + 1] <= length;
        if (whole) {
            expected = results[i];
        }
        expect(size == (whole ? ends[i + 1] - ends[i] : 0), length, "bytes of a report have another result");
        expect(found.value == expected.value && found.code == expected.code && found.cause == expected.cause, length,
               "bytes of a report have a result with other numbers");
    }
}

/* Texts that are near to a result and are none. */
static const char *const none[] = {
    "",
    "code=\nvalue=0\ncause=0\n",
    "code=+1\nvalue=0\ncause=1\n",
    "code=1 \nvalue=0\ncause=1\n",
    "code=1\nvalue=g\ncause=1\n",
    "code=1\nvalue=F\ncause=1\n",
    "code=1\nvalue=0\ncause=a\n",
    "code=1\ncause=1\nvalue=0\n",
    "code=4294967296\nvalue=0\ncause=1\n",
    "code=1\nvalue=00000000000000000\ncause=1\n",
    "code=1\nvalue=0\ncause=1",
    "Code=1\nvalue=0\ncause=1\n",
};

static void expect_no_results(void)
{
    for (size_t i = 0; i < sizeof none / sizeof none[0]; i++) {
        struct urrezkalu_result found;
        expect(urrezkalu_read_result((const uint8_t *)none[i], strlen(none[i]), &found) == 0, i, "is no result and was read as one");
    }
}

/* Two slots and what stands after them, and where each ends and its sheet begins. */
static const char slots[] = "slot=7\n" OTHER "slot=95\n" ZEROS "slot=96\n" ZEROS;
static const size_t slot_ends[] = {0, 224, 444};
static const size_t sheet_starts[] = {7, 232};
static const uint32_t slot_numbers[] = {7, 95};

/* The first `length` bytes have as many slots as are whole. */
static void expect_slots(size_t length)
{
    const uint8_t *text = (const uint8_t *)slots;
    for (size_t i = 0; i < 3; i++) {
        struct urrezkalu_slot found = {NULL, 7, 70};
        size_t size = slot_ends[i] <= length ? urrezkalu_read_slot(text + slot_ends[i], length - slot_ends[i], &found) : 0;
        if (i < 2 && slot_ends[i + 1] <= length) {
            expect(size == slot_ends[i + 1] - slot_ends[i] && found.number == slot_numbers[i], length, "bytes have another slot");
            expect(found.sheet == text + sheet_starts[i] && found.sheet_length == slot_ends[i + 1] - sheet_starts[i], length, "bytes have another sheet");
        } else {
            expect(size == 0 && found.sheet == NULL && found.sheet_length == 7 && found.number == 70, length, "bytes have no such slot");
        }
    }
}

/* What stands before a sheet and makes it no slot's. */
static const char *const no_slots[] = {
    "",           "slot=96\n",          "slot=100\n",  "slot=\n",    "slot=+1\n", "slot=1 \n", "slot=a\n",
    "slot=1\r\n", "slot=4294967296\n", "Slot=1\n",    "slot 1\n",   "slots=1\n", "call=1\n",  "slot=18446744073709551616\n",
};

static void expect_no_slots(void)
{
    char text[sizeof ZEROS + 32];
    struct urrezkalu_slot found;
    for (size_t i = 0; i < sizeof no_slots / sizeof no_slots[0]; i++) {
        size_t length = (size_t)snprintf(text, sizeof text, "%s" ZEROS, no_slots[i]);
        expect(urrezkalu_read_slot((const uint8_t *)text, length, &found) == 0, i, "is no slot and was read as one");
    }
    expect(urrezkalu_read_slot(NULL, 0, &found) == 0, 0, "bytes are no slot");
}

/* Every cause has words of its own, and no other number has. */
static void expect_words(void)
{
    for (uint32_t i = 0; i <= 12; i++) {
        int has = i >= URREZKALU_CAPABILITY_NOT_EFFECTIVE && i <= URREZKALU_LAUNCH_FALLS_SHORT;
        expect((strcmp(urrezkalu_cause_words(i), "no cause") != 0) == has, i, "has words for a cause, or none, wrongly");
        for (uint32_t j = 1; has && j < i; j++) {
            expect(strcmp(urrezkalu_cause_words(i), urrezkalu_cause_words(j)) != 0, i, "has the words of another cause");
        }
    }
}

/* A status text: none; beside no sheet; with no room; and with a list of two lines. */
static void expect_comparisons(void)
{
    static const char status[] = "Uid:\t0\t0\t0\t0\nCapInh:\t0000000000000000\nCapPrm:\t0000000000000000\nCapEff:\t0000000000000000\n"
                                 "CapBnd:\t000001ffffffffff\nCapAmb:\t0000000000000000\nNoNewPrivs:\t1\n";
    static const char sheet[] = "ruid=0\neuid=0\nsuid=0\nfsuid=0\nrgid=0\negid=0\nsgid=0\nfsgid=0\n"
                                "permitted=0000000000000000\ninheritable=0000000000000000\neffective=0000000000000000\n"
                                "bounding=000001ffffffffff\nambient=0000000000000000\nsecurebits=00\nnnp=0\n";
    static const char expected[] = "nnp 0 1\nnot compared: securebits, group IDs\n";
    const uint8_t *text = (const uint8_t *)status;
    const uint8_t *prediction = (const uint8_t *)sheet;
    size_t text_length = sizeof status - 1;
    size_t prediction_length = sizeof sheet - 1;
    uint8_t list[URREZKALU_LONGEST_LIST];
    expect_answer(urrezkalu_compare_status(NULL, 0, NULL, 0, NULL, 0), 300647710721, "comes back for an empty status text, malformed at line 1");
    expect_answer(urrezkalu_compare_status(text, text_length, NULL, 0, list, sizeof list), 300647710720, "comes back beside an empty sheet");
    expect_answer(urrezkalu_compare_status(text, text_length, prediction, prediction_length, NULL, 0), 120259084288, "comes back without room");
    uint64_t number = urrezkalu_compare_status(text, text_length, prediction, prediction_length, list, sizeof list);
    expect_answer(number, 44, "comes back for a list of two lines");
    expect(urrezkalu_length(number) == 44 && memcmp(list, expected, sizeof expected - 1) == 0, number, "bytes are not the list of two lines");
}

/* A slot plan: none; one without a step, with no room and with room; and one in which a child of slot 0 is left, which is then taken apart. */
static void expect_slot_plans(void)
{
    static const char plan[] = OTHER "slot=0\ncall=30\na=0000000000000000\nb=0000000000000000\nc=0000000000000000\nattr=\n"
                                     "slot=0\ncall=31\na=0000000000000000\nb=0000000000000000\nc=0000000000000000\nattr=\n";
    static const char expected[] = "code=0\nvalue=0000000000000001\ncause=0\ncode=0\nvalue=0000000000000000\ncause=0\nslot=1\n" OTHER;
    const uint8_t *text = (const uint8_t *)plan;
    uint8_t report[URREZKALU_LONGEST_SLOT_REPORT];
    struct urrezkalu_slot slot;
    uint64_t values[URREZKALU_SHEET_VALUES];
    expect_answer(urrezkalu_run_slot_plan(NULL, 0, NULL, 0), 300647710721, "comes back for an empty slot plan, malformed at line 1");
    expect_answer(urrezkalu_run_slot_plan(text, sizeof OTHER - 1, NULL, 0), 120259084288, "comes back for a slot plan without room");
    expect_answer(urrezkalu_run_slot_plan(text, sizeof OTHER - 1, report, sizeof report), 224, "comes back for a slot plan without a step");
    uint64_t number = urrezkalu_run_slot_plan(text, sizeof plan - 1, report, sizeof report);
    expect_answer(number, 300, "comes back for a slot plan of two steps");
    expect(memcmp(report, expected, sizeof expected - 1) == 0, number, "bytes are not the report of that slot plan");
    expect(urrezkalu_read_slot(report + 76, urrezkalu_length(number) - 76, &slot) == 224 && slot.number == 1, number, "bytes do not end with slot 1");
    expect_answer(urrezkalu_read_sheet(slot.sheet, slot.sheet_length, values, URREZKALU_SHEET_VALUES), 15, "comes back for the sheet of slot 1");
}

int main(void)
{
    for (size_t length = 0; length < sizeof report; length++) {
        expect_results(length);
    }
    expect_no_results();
    for (size_t length = 0; length < sizeof slots; length++) {
        expect_slots(length);
    }
    expect_no_slots();
    expect_words();
    for (size_t i = 0; i < sizeof numbers / sizeof numbers[0]; i++) {
        expect(is_as_expected(&numbers[i]), numbers[i].whole, "is taken apart wrongly");
    }
    /* The functions are found by their C names, from C++ too. */
    expect_answer(urrezkalu_run_plan(NULL, 0, NULL, 0), 300647710721, "comes back for an empty text, which is malformed at line 1");
    expect_answer(urrezkalu_read_sheet(NULL, 0, NULL, 0), 300647710721, "comes back for an empty sheet, which is malformed at line 1");
    expect_answer(urrezkalu_write_sheet(NULL, 0, NULL, 0), 309237645312, "comes back for no values, which are invalid");
    expect_answer(urrezkalu_read_attribute(NULL, 0, NULL, 0), 120259084288, "comes back for no attribute, to be read into no room");
    expect_answer(urrezkalu_write_attribute(0, 0, 0, NULL, 0), 120259084288, "comes back for empty sets, to be written into no room");
    expect_answer(urrezkalu_read_names(NULL, 0, NULL, 0), 120259084288, "comes back for an empty text in names, to be read into no room");
    expect_answer(urrezkalu_write_names(0, 0, 0, NULL, 0), 0, "comes back for empty sets in names, which need no room");
    expect_answer(urrezkalu_write_names(0, 0, 0x20000000000, NULL, 0), 94489280512, "comes back for capability 41 in names, which is out of range");
    expect_comparisons();
    expect_slot_plans();
    printf("header: %zu of %zu numbers as expected\n", tried - faults, tried);
    return faults == 0 ? 0 : 1;
}
