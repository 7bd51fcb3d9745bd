/* Slot plans that are put together, across the C interface: every slot and every number of a call, a table that is full, slots that are taken again,
 * every number of steps, the longest texts, and every byte in a `slot=` line.
 *
 *     slot_tables
 *
 * What is expected follows from the paper by the rule that each text is put together by. */
#define TEST "slot_tables"
#include "slot_calls.h"

#include <stdarg.h>

enum {
    NUMBERS = 100,   /* A slot and a call are below this. */
    STEPS = 256,     /* The most steps. */
    LAST_LINE = 1551 /* The last line of a slot plan with so many. */
};

#define ONES "ffffffffffffffff"

/* A text that grows. */
struct text {
    char bytes[2 * URREZKALU_LONGEST_SLOT_REPORT];
    size_t length;
};

/* The slot plan that is put together, and its report. */
static struct text plan;
static struct text report;

static void append(struct text *text, const char *form, ...)
{
    va_list values;
    va_start(values, form);
    text->length += (size_t)vsnprintf(text->bytes + text->length, sizeof text->bytes - text->length, form, values);
    va_end(values);
    if (text->length >= sizeof text->bytes) {
        printf(TEST ": a text is too long for this program\n");
        exit(2);
    }
}

static void begin(const char *sheet)
{
    plan.length = 0;
    report.length = 0;
    report.bytes[0] = '\0';
    append(&plan, "%s", sheet);
}

/* A step with this operand and what it answers. */
static void add(unsigned slot, unsigned call, unsigned a, unsigned code, unsigned value)
{
    append(&plan, "slot=%u\ncall=%u\na=%016x\nb=" Z "\nc=" Z "\nattr=\n", slot, call, a);
    append(&report, "code=%u\nvalue=%016x\ncause=0\n", code, value);
}

static void add_fork(unsigned slot, unsigned into)
{
    add(slot, 30, 0, URREZKALU_DONE, into);
}

static void add_exit(unsigned slot)
{
    add(slot, 31, 0, URREZKALU_DONE, 0);
}

/* From slot 0 alone to all: each child forks the next. */
static void add_all(void)
{
    for (unsigned slot = 1; slot < URREZKALU_SLOTS; slot++) {
        add_fork(slot - 1, slot);
    }
}

/* All slots are in use with this sheet. */
static void end_with_all(const char *sheet)
{
    for (unsigned slot = 0; slot < URREZKALU_SLOTS; slot++) {
        append(&report, "slot=%u\n%s", slot, sheet);
    }
}

/* Slot 0 alone is in use, with this sheet. */
static void end_with_first(const char *sheet)
{
    append(&report, "slot=0\n%s", sheet);
}

static void look_at(const char *what)
{
    expect_report(what, plan.bytes, plan.length, report.bytes);
}

/* Every call in every slot that is free or none. */
static void try_numbers(void)
{
    for (unsigned slot = 1; slot < NUMBERS; slot++) {
        begin(CASE_2);
        for (unsigned call = 0; call < NUMBERS; call++) {
            add(slot, call, slot % 2, slot < URREZKALU_SLOTS ? URREZKALU_NO_THREAD : URREZKALU_OUT_OF_RANGE, 0);
        }
        end_with_first(CASE_2);
        look_at("every call in a slot that is not in use");
    }
}

/* The table is full: no fork is done, whoever asks; with an operand it is out of range, and from no slot it is refused for that. */
static void try_full(void)
{
    begin(APART);
    add_all();
    for (unsigned slot = 0; slot < URREZKALU_SLOTS; slot++) {
        add(slot, 30, 0, URREZKALU_NO_SLOT, 0);
    }
    add(0, 30, 1, URREZKALU_OUT_OF_RANGE, 0);
    add(95, 30, 1, URREZKALU_OUT_OF_RANGE, 0);
    add(96, 30, 0, URREZKALU_OUT_OF_RANGE, 0);
    add(0, 32, 0, URREZKALU_OUT_OF_RANGE, 0);
    add(0, 31, 1, URREZKALU_OUT_OF_RANGE, 0);
    add(0, 30, 0, URREZKALU_NO_SLOT, 0);
    end_with_all(APART);
    look_at("a full table");
}

/* Each slot is left in turn, and the next fork takes it again. */
static void try_each_again(unsigned first)
{
    begin(APART);
    add_all();
    for (unsigned slot = first; slot < first + (STEPS - URREZKALU_SLOTS) / 2; slot++) {
        add_exit(slot);
        add_fork((slot + 1) % URREZKALU_SLOTS, slot);
    }
    add(first, 30, 0, URREZKALU_NO_SLOT, 0);
    end_with_all(APART);
    look_at("each slot left and taken again");
}

/* Every so many slots are left, the highest first; forks take them again, the lowest first, and then there is none. */
static void try_some_again(unsigned every)
{
    begin(APART);
    add_all();
    for (unsigned slot = URREZKALU_SLOTS; slot-- > 1;) {
        if (slot % every == 0) {
            add_exit(slot);
        }
    }
    for (unsigned slot = 1; slot < URREZKALU_SLOTS; slot++) {
        if (slot % every == 0) {
            add_fork(1, slot);
        }
    }
    add(1, 30, 0, URREZKALU_NO_SLOT, 0);
    end_with_all(APART);
    look_at("some slots left and taken again");
}

/* All leave, the highest first; then each step that names a slot is refused. */
static void try_all_gone(void)
{
    begin(APART);
    add_all();
    for (unsigned slot = URREZKALU_SLOTS; slot-- > 0;) {
        add_exit(slot);
    }
    for (unsigned slot = 40; slot < NUMBERS; slot++) {
        add(slot, 30, 0, slot < URREZKALU_SLOTS ? URREZKALU_NO_THREAD : URREZKALU_OUT_OF_RANGE, 0);
    }
    look_at("nobody left");
}

/* Each slot has a sheet of its own: its filesystem group is its parent's, and then 1000 more than its slot. Capability 6 is SETGID. */
static void try_own_sheets(void)
{
    static const char *const sheet = NO_USERS "rgid=0\negid=0\nsgid=0\nfsgid=%u\n"
        SETS("0000000000000040", Z, "0000000000000040", FULL, Z) FLAGS("00", "0");
    char start[URREZKALU_LONGEST_SHEET + 1];
    snprintf(start, sizeof start, sheet, 1000U);
    begin(start);
    for (unsigned slot = 1; slot < URREZKALU_SLOTS; slot++) {
        add_fork(slot - 1, slot);
        add(slot, 22, 1000 + slot, URREZKALU_DONE, 1000 + slot - 1);
    }
    for (unsigned slot = 0; slot < URREZKALU_SLOTS; slot++) {
        append(&report, "slot=%u\n", slot);
        append(&report, sheet, 1000 + slot);
    }
    look_at("a sheet of its own in each slot");
}

/* Every number of steps up to the most, and then one and more than one too many. */
static void try_counts(void)
{
    for (unsigned steps = 0; steps <= STEPS; steps++) {
        begin(CASE_2);
        for (unsigned i = 0; i < steps; i++) {
            add(0, 10, 0, URREZKALU_DONE, 0);
        }
        end_with_first(CASE_2);
        look_at("a number of steps");
    }
    for (unsigned more = 0; more < 50; more++) {
        add(0, 10, 0, URREZKALU_DONE, 0);
        expect_refused("more steps than there can be", plan.bytes, plan.length, refused(URREZKALU_MALFORMED, LAST_LINE + 1));
    }
}

/* The longest slot plan, without its last byte, and with one byte more, whatever it is. */
static void try_longest_plan(void)
{
    static const char step[] = STEP("99", "99", ONES, ONES, ONES, ONES ONES ONES);
    begin(GREATEST);
    for (unsigned i = 0; i < STEPS; i++) {
        append(&plan, "%s", step);
        append(&report, REFUSED("22"));
    }
    end_with_first(GREATEST);
    expect_call("the longest slot plan", plan.bytes, URREZKALU_LONGEST_SLOT_PLAN, report.length, report.length, report.bytes);
    look_at("the longest slot plan");
    expect_refused("the longest without its last byte", plan.bytes, plan.length - 1, refused(URREZKALU_MALFORMED, LAST_LINE));
    for (unsigned byte = 0; byte < 256; byte++) {
        plan.bytes[plan.length] = (char)byte;
        expect_call("one byte more than the longest", plan.bytes, plan.length + 1, 0, refused(URREZKALU_MALFORMED, LAST_LINE + 1), NULL);
    }
}

/* The longest report, by each code that makes a result as long as it can be. */
static void try_longest_report(void)
{
    static const struct {
        unsigned slot;
        unsigned call;
        const char *answer;
    } longest[] = {{96, 10, REFUSED("22")}, {0, 30, REFUSED("11")}, {95, 15, FORBIDDEN("10")}};
    static const char *const sheet = USERS("4294967294", "4294967294", "4294967294", "4294967294")
        GROUPS("4294967294", "4294967294", "4294967294", "4294967294") SETS(FULL, FULL, Z, FULL, FULL) FLAGS("ff", "1");
    for (size_t i = 0; i < sizeof longest / sizeof longest[0]; i++) {
        begin(sheet);
        add_all();
        for (unsigned step = URREZKALU_SLOTS - 1; step < STEPS; step++) {
            append(&plan, "slot=%u\ncall=%u\na=" Z "\nb=" Z "\nc=" Z "\nattr=\n", longest[i].slot, longest[i].call);
            append(&report, "%s", longest[i].answer);
        }
        end_with_all(sheet);
        expect_call("the longest report", plan.bytes, plan.length, URREZKALU_LONGEST_SLOT_REPORT, URREZKALU_LONGEST_SLOT_REPORT, report.bytes);
        look_at("the longest report");
    }
}

/* One byte of a `slot=` line is another. In the key or for the newline it makes the line malformed. A digit is another slot, but a first one of two is no
 * 0; a newline for the second of two ends the line, and the next is empty. */
static void try_byte(const char *line, size_t column, unsigned byte)
{
    char changed[MORE];
    size_t digits = strlen(line) - 6;
    snprintf(changed, sizeof changed, "%s", line);
    changed[column] = (char)byte;
    begin(CASE_2);
    size_t at = plan.length + column;
    append(&plan, "%scall=10\na=" Z "\nb=" Z "\nc=" Z "\nattr=\n", line);
    plan.bytes[at] = (char)byte;
    int is_digit = byte >= '0' && byte <= '9';
    if (byte == (unsigned char)line[column] || (column >= 5 && column < 5 + digits && is_digit && (digits == 1 || changed[5] != '0'))) {
        unsigned slot = (unsigned)strtoul(changed + 5, NULL, 10);
        unsigned code = slot == 0 ? URREZKALU_DONE : slot < URREZKALU_SLOTS ? URREZKALU_NO_THREAD : URREZKALU_OUT_OF_RANGE;
        append(&report, "code=%u\nvalue=" Z "\ncause=0\n", code);
        end_with_first(CASE_2);
        look_at("a byte of a slot");
    } else {
        uint32_t fault = byte == '\n' && column == 6 && digits == 2 ? 17 : 16;
        expect_refused("a byte that is none of a slot", plan.bytes, plan.length, refused(URREZKALU_MALFORMED, fault));
    }
}

int main(void)
{
    static const char *const lines[] = {"slot=0\n", "slot=5\n", "slot=42\n", "slot=91\n"};
    try_numbers();
    try_full();
    try_each_again(0);
    try_each_again(URREZKALU_SLOTS - (STEPS - URREZKALU_SLOTS) / 2);
    for (unsigned every = 2; every <= 50; every++) {
        try_some_again(every);
    }
    try_all_gone();
    try_own_sheets();
    try_counts();
    try_longest_plan();
    try_longest_report();
    for (size_t i = 0; i < sizeof lines / sizeof lines[0]; i++) {
        for (size_t column = 0; column < strlen(lines[i]); column++) {
            for (unsigned byte = 0; byte < 256; byte++) {
                try_byte(lines[i], column, byte);
            }
        }
    }
    printf(TEST ": %zu of %zu calls across the C interface as expected\n", tried - faults, tried);
    return faults == 0 ? 0 : 1;
}
