/* The proved library, for C11 and C++11: plans, slot plans, credential sheets, file attributes, capability sets in names, and status files beside a
 * prediction.
 *
 * A plan is a text: the credentials that a thread starts with, then up to 256 calls. urrezkalu_run_plan writes the report: what each call
 * answers and what the thread holds after the last, or it says why the plan is refused. Every text gets an answer. urrezkalu_read_result takes a
 * report apart, step by step.
 *
 *     uint8_t report[URREZKALU_LONGEST_REPORT];
 *     uint64_t number = urrezkalu_run_plan(plan, plan_length, report, sizeof report);
 *     if (urrezkalu_code(number) == URREZKALU_DONE) {
 *         fwrite(report, 1, urrezkalu_length(number), stdout);
 *     }
 *
 * A slot plan is of a whole family: there are 96 slots, each free or with a thread in it, and each step names the slot whose thread makes the call. A
 * thread can fork and exit besides. urrezkalu_run_slot_plan writes the report: what each step answers, and then, of each slot that is in use after the
 * last, its number and what its thread holds. urrezkalu_read_slot takes this end apart.
 *
 *     uint8_t report[URREZKALU_LONGEST_SLOT_REPORT];
 *     size_t length = urrezkalu_length(urrezkalu_run_slot_plan(plan, plan_length, report, sizeof report));
 *     uint64_t values[URREZKALU_SLOTS][URREZKALU_SHEET_VALUES];
 *     struct urrezkalu_result result;
 *     struct urrezkalu_slot slot;
 *     size_t at = 0, size;
 *     for (; (size = urrezkalu_read_result(report + at, length - at, &result)) != 0; at += size) {
 *         printf("code %u\n", (unsigned)result.code);
 *     }
 *     for (; (size = urrezkalu_read_slot(report + at, length - at, &slot)) != 0; at += size) {
 *         urrezkalu_read_sheet(slot.sheet, slot.sheet_length, values[slot.number], URREZKALU_SHEET_VALUES);
 *     }
 *
 * A sheet is the text of credentials alone, as a plan begins and a report ends with one: urrezkalu_read_sheet gives its values as numbers,
 * urrezkalu_write_sheet makes a sheet of them. An attribute is the bytes of a file's security.capability: urrezkalu_read_attribute gives the
 * file's sets and its effective bit, urrezkalu_write_attribute the bytes that an installer sets on a file.
 *
 *     uint8_t attribute[URREZKALU_ATTRIBUTE_LENGTH];
 *     uint64_t number = urrezkalu_write_attribute(permitted, inheritable, 1, attribute, sizeof attribute);
 *     if (urrezkalu_code(number) == URREZKALU_DONE) {
 *         setxattr(path, "security.capability", attribute, urrezkalu_length(number), 0);
 *     }
 *
 * A text in names stands for three capability sets, permitted, inheritable and effective, in the form of cap_text_formats(7): urrezkalu_read_names
 * gives the sets, urrezkalu_write_names makes a text of them. `cap_net_raw+ep cap_kill=i` has CAP_NET_RAW effective and permitted, and CAP_KILL
 * inheritable.
 *
 *     uint64_t sets[URREZKALU_NAMED_VALUES];
 *     uint64_t number = urrezkalu_read_names(text, text_length, sets, URREZKALU_NAMED_VALUES);
 *     if (urrezkalu_code(number) == URREZKALU_MALFORMED) {
 *         fprintf(stderr, "malformed at place %u\n", (unsigned)urrezkalu_place(number));
 *     }
 *
 * A status file is what /proc/PID/status of proc(5) gives for a running thread. urrezkalu_compare_status lays it beside a sheet, such as the one that
 * a report ends with, and lists what differs: `effective 0000000000002000 0000000000000000` where CAP_NET_RAW is predicted and no capability is found.
 *
 *     uint8_t list[URREZKALU_LONGEST_LIST];
 *     uint64_t number = urrezkalu_compare_status(status, status_length, sheet, sheet_length, list, sizeof list);
 *     if (urrezkalu_code(number) == URREZKALU_DONE) {
 *         fwrite(list, 1, urrezkalu_length(number), stdout);
 *     }
 *
 * Link with libcapi.a. It needs no other library; the symbols that it leaves open are memcpy and memset, which every C library has.
 *
 * What holds of all nine functions:
 *
 * One number comes back: the code times 4294967296, plus the line or the place of a fault, or plus how much was written. urrezkalu_code,
 * urrezkalu_line, urrezkalu_place and urrezkalu_length take it apart. What would be refused for several reasons is refused for the first, in the
 * order that the function names.
 *
 * What is written stands at the front of the buffer, a text with no NUL after it, and what the buffer holds past that is as it was. Where a
 * function refuses, for whatever reason, all of the buffer is as it was. What is handed over to be read is only read. It may have any bytes,
 * NUL too, and needs none after it.
 *
 * A pointer must point to as many bytes or values that can be read, or written, as the length or count after it says. A pointer whose length
 * or count is 0 is never followed, so that NULL with 0 is fine: an empty text, no attribute, no values, or a buffer with no room.
 *
 * What is read and what is written must not overlap. Nothing in C stops a caller, and nothing here looks: the buffer may then be written over
 * what is still to be read, and neither the number nor any byte of either means anything.
 *
 * Nothing is allocated, and nothing is kept from one call to the next: any number of threads may call at once, each with a buffer of its own,
 * and so may a signal handler. The time is in proportion to the text. urrezkalu_run_slot_plan needs some 41 KiB of stack, urrezkalu_run_plan
 * some 4.5 KiB, urrezkalu_compare_status less than 2 KiB, the others less than 1.5 KiB. */
#ifndef URREZKALU_H
#define URREZKALU_H

#include <stddef.h>
#include <stdint.h>

#ifdef __cplusplus
extern "C" {
#endif

/* The codes. Each function names those that it has. A step has one of those up to 22 or URREZKALU_UNREADABLE, and only one of a slot plan
 * URREZKALU_NO_THREAD or URREZKALU_NO_SLOT. */
enum {
    URREZKALU_DONE = 0,          /* Done. */
    URREZKALU_NOT_PERMITTED = 1, /* Of a step alone: the rules refuse it, and it has a cause. */
    URREZKALU_NO_THREAD = 3,     /* Of a step alone: the slot that it names is not in use. */
    URREZKALU_NO_SLOT = 11,      /* Of a step alone, a fork: no slot is free. */
    URREZKALU_OUT_OF_RANGE = 22, /* A set has a bit above 40, a file's effective bit is neither 0 nor 1; a step makes no call, its slot is above 95. */
    URREZKALU_NO_ROOM = 28,      /* What is to be written is longer than the buffer. */
    URREZKALU_UNREADABLE = 60,   /* The bytes are no attribute. A step: those of its attribute. */
    URREZKALU_MALFORMED = 70,    /* The text is no plan, sheet or status file: urrezkalu_line says where. Or no text in names: urrezkalu_place does. */
    URREZKALU_INVALID = 72       /* The credentials are not valid: those that a plan starts with, a sheet's, or values for one. */
};

enum {
    /* The most bytes that a plan has. A longer text is refused, and its first URREZKALU_LONGEST_PLAN + 1 bytes decide the line; so
     * nobody needs to read or pass more than those. */
    URREZKALU_LONGEST_PLAN = 30748,
    /* The most bytes that a report has: a buffer of this length is never too short. */
    URREZKALU_LONGEST_REPORT = 10268,
    /* The most bytes that a slot plan has. Of a longer text, here too, the first URREZKALU_LONGEST_SLOT_PLAN + 1 bytes decide the line. */
    URREZKALU_LONGEST_SLOT_PLAN = 32796,
    /* The most bytes that a slot plan's report has: a buffer of this length is never too short. */
    URREZKALU_LONGEST_SLOT_REPORT = 37911,
    /* The slots of a slot plan: 0 to one less than this. */
    URREZKALU_SLOTS = 96,
    /* The most bytes that a sheet has: a buffer of this length is never too short. Of a longer text, here too, the first
     * URREZKALU_LONGEST_SHEET + 1 bytes decide the line. */
    URREZKALU_LONGEST_SHEET = 284,
    /* The bytes of every attribute that is written. */
    URREZKALU_ATTRIBUTE_LENGTH = 20,
    /* The most bytes that sets have which are written in names: a buffer of this length is never too short. A text that is read may be longer; it
     * has no greatest length. */
    URREZKALU_LONGEST_NAMES = 748,
    /* The most bytes that a list of what differs has: a buffer of this length is never too short. A status file has no greatest length. */
    URREZKALU_LONGEST_LIST = 372
};

/* Why the rules refuse a step, URREZKALU_NOT_PERMITTED. Where several hold at once, the lowest is told. urrezkalu_cause_words has them in words. */
enum {
    URREZKALU_NO_CAUSE = 0, /* Of every other step. */
    /* A capability that the call needs is not effective. */
    URREZKALU_CAPABILITY_NOT_EFFECTIVE = 1,
    /* capset, without CAP_SETPCAP: the new inheritable set goes beyond the inheritable and the permitted set together. */
    URREZKALU_INHERITABLE_BEYOND_PERMITTED = 2,
    /* capset: the new inheritable set goes beyond the inheritable and the bounding set together. */
    URREZKALU_INHERITABLE_BEYOND_BOUNDING = 3,
    /* capset: the new permitted set goes beyond the permitted set. */
    URREZKALU_PERMITTED_GROWS = 4,
    /* capset: the new effective set goes beyond the new permitted set. */
    URREZKALU_EFFECTIVE_BEYOND_PERMITTED = 5,
    /* Ambient raise: the capability is not in both the permitted and the inheritable set. */
    URREZKALU_NOT_IN_PERMITTED_AND_INHERITABLE = 6,
    /* Ambient raise: SECBIT_NO_CAP_AMBIENT_RAISE is set. */
    URREZKALU_AMBIENT_RAISE_FORBIDDEN = 7,
    /* A lock of the securebits would be undone. */
    URREZKALU_LOCK_UNDONE = 8,
    /* A locked flag of the securebits would be changed; keep-caps by its own call also where it would stay as it is. */
    URREZKALU_LOCKED_FLAG_CHANGED = 9,
    /* An ID is not among those that the thread may take. */
    URREZKALU_ID_NOT_ALLOWED = 10,
    /* A launch does not give the whole of the file's permitted set, and the file's effective bit is on. */
    URREZKALU_LAUNCH_FALLS_SHORT = 11
};

/* What a report says of a step. */
struct urrezkalu_result {
    uint64_t value; /* What a call that is done gives, and a fork the slot that it takes; 0 for a refusal. */
    uint32_t code;
    uint32_t cause;
};

/* What a slot plan's report says of a slot in use: its number, and where in the report its sheet stands. */
struct urrezkalu_slot {
    const uint8_t *sheet;
    size_t sheet_length;
    uint32_t number;
};

/* The places of a sheet's values, in the order of its lines. In a set, bit n is capability n. */
enum {
    URREZKALU_RUID = 0,         /* The user IDs: real, */
    URREZKALU_EUID = 1,         /* effective, */
    URREZKALU_SUID = 2,         /* saved, */
    URREZKALU_FSUID = 3,        /* filesystem. */
    URREZKALU_RGID = 4,         /* The group IDs: real, */
    URREZKALU_EGID = 5,         /* effective, */
    URREZKALU_SGID = 6,         /* saved, */
    URREZKALU_FSGID = 7,        /* filesystem. */
    URREZKALU_PERMITTED = 8,    /* The five capability sets. */
    URREZKALU_INHERITABLE = 9,
    URREZKALU_EFFECTIVE = 10,
    URREZKALU_BOUNDING = 11,
    URREZKALU_AMBIENT = 12,
    URREZKALU_SECUREBITS = 13,
    URREZKALU_NNP = 14,         /* No-new-privs, 0 or 1. */
    URREZKALU_SHEET_VALUES = 15 /* How many they are. */
};

/* The places of a file's values. */
enum {
    URREZKALU_ATTACHED = 0,         /* 1 if the file has an attribute, else 0, and then the others are 0 too. */
    URREZKALU_FILE_PERMITTED = 1,   /* Its two capability sets. */
    URREZKALU_FILE_INHERITABLE = 2,
    URREZKALU_FILE_EFFECTIVE = 3,   /* Its effective bit, 0 or 1. */
    URREZKALU_FILE_VALUES = 4       /* How many they are. */
};

/* The places of the three sets of a text in names. */
enum {
    URREZKALU_NAMED_PERMITTED = 0,
    URREZKALU_NAMED_INHERITABLE = 1,
    URREZKALU_NAMED_EFFECTIVE = 2,
    URREZKALU_NAMED_VALUES = 3 /* How many they are. */
};

/* Runs the plan and writes its report at the front of the buffer `report`, which has room for `report_length` bytes.
 *
 * Refusals, in this order: URREZKALU_MALFORMED; URREZKALU_INVALID, for the credentials that the plan starts with; URREZKALU_NO_ROOM. A step
 * that is refused does not refuse the plan: its code and its cause are in the report. */
uint64_t urrezkalu_run_plan(const uint8_t *plan, size_t plan_length, uint8_t *report, size_t report_length);

/* Runs the slot plan and writes its report at the front of the buffer `report`, which has room for `report_length` bytes.
 *
 * A slot plan is a sheet and 0 to 256 steps, each of six lines: `slot=`, 0 to 99 and written as `call=` is, and then the five of a plan's step. At
 * first slot 0 is in use, with the sheet's credentials, and all others are free. Call 30 is fork: it copies all of the credentials in the named slot to
 * the lowest free slot, whose number is its value. Call 31 is exit: it frees the named slot, be it slot 0 or the last in use, and a later fork can take
 * it again. Both use no operand and no attribute. Any other call is made by the thread in the named slot, as in a plan, and changes no other slot.
 *
 * The report has the results, as a plan's has, and then for each slot in use, the lowest first, a line `slot=` and its sheet. Where none is in use it
 * ends after the results.
 *
 * Refusals, in this order: URREZKALU_MALFORMED; URREZKALU_INVALID, for the credentials that the slot plan starts with; URREZKALU_NO_ROOM. A step that
 * is refused does not refuse the slot plan. Its refusals, in this order: URREZKALU_OUT_OF_RANGE, for a slot above 95; URREZKALU_NO_THREAD; those of the
 * call, with URREZKALU_OUT_OF_RANGE for a fork or an exit that has a nonzero operand or an attribute; URREZKALU_NO_SLOT. */
uint64_t urrezkalu_run_slot_plan(const uint8_t *plan, size_t plan_length, uint8_t *report, size_t report_length);

/* Reads a sheet into the first URREZKALU_SHEET_VALUES of the `values_count` values, and URREZKALU_SHEET_VALUES is the length that comes back.
 *
 * Refusals, in this order: URREZKALU_MALFORMED, text past the sheet's fifteen lines being a fault at line 16; URREZKALU_INVALID;
 * URREZKALU_NO_ROOM, for fewer than URREZKALU_SHEET_VALUES values. */
uint64_t urrezkalu_read_sheet(const uint8_t *text, size_t text_length, uint64_t *values, size_t values_count);

/* Writes the sheet of the values at the front of the buffer `sheet`, which has room for `sheet_length` bytes.
 *
 * Refusals, in this order: URREZKALU_INVALID; URREZKALU_NO_ROOM. Invalid are values that are not exactly URREZKALU_SHEET_VALUES; a user ID or a
 * group ID above 4294967294; a set with a bit above 40; an effective set that is not within the permitted one; an ambient set that is not within
 * both the permitted and the inheritable one; securebits above 255; a no-new-privs that is neither 0 nor 1. */
uint64_t urrezkalu_write_sheet(const uint64_t *values, size_t values_count, uint8_t *sheet, size_t sheet_length);

/* Reads an attribute of version 1 or 2 into the first URREZKALU_FILE_VALUES of the `values_count` values, and URREZKALU_FILE_VALUES is the
 * length that comes back. No bytes are a file without an attribute, which is not refused.
 *
 * Refusals, in this order: URREZKALU_UNREADABLE, for any other bytes than those of an attribute; URREZKALU_NO_ROOM, for fewer than
 * URREZKALU_FILE_VALUES values. */
uint64_t urrezkalu_read_attribute(const uint8_t *attribute, size_t attribute_length, uint64_t *values, size_t values_count);

/* Writes the attribute of version 2 that has these sets and this effective bit, 0 or 1, into the first URREZKALU_ATTRIBUTE_LENGTH bytes of the
 * buffer `attribute`, which has room for `attribute_length` bytes.
 *
 * Refusals, in this order: URREZKALU_OUT_OF_RANGE; URREZKALU_NO_ROOM. */
uint64_t urrezkalu_write_attribute(uint64_t permitted, uint64_t inheritable, uint64_t effective, uint8_t *attribute, size_t attribute_length);

/* Reads a text in names into the first URREZKALU_NAMED_VALUES of the `values_count` values, and URREZKALU_NAMED_VALUES is the length that comes
 * back.
 *
 * A text is clauses with spaces, tabs or newlines between them, any number of these, which can stand at both ends too. A clause is names joined by
 * commas, or `all`, or nothing, which both mean all 41 capabilities; and then one operator or more, each with its flags. `=` takes the capabilities
 * out of all three sets and then gives them to the sets of its flags, `+` gives them to those sets, `-` takes them out of those. The flags are `e`,
 * `i` and `p`, for effective, inheritable and permitted, in any order, also repeated; only `=` can have none. A clause without names begins with
 * `=`. The sets are empty at first, and everything is done from left to right: text without a clause is three empty sets. The names are those of
 * linux/capability.h. Names and `all` are read in either case, each letter by itself; flags are lower case.
 *
 * Refusals, in this order: URREZKALU_MALFORMED, for any other text; URREZKALU_NO_ROOM, for fewer than URREZKALU_NAMED_VALUES values. Whether the
 * sets are those of valid credentials is not asked. */
uint64_t urrezkalu_read_names(const uint8_t *text, size_t text_length, uint64_t *values, size_t values_count);

/* Writes the sets in names at the front of the buffer `text`, which has room for `text_length` bytes: one clause for each capability that is in any
 * of them, by number, with its name in lower case, `=`, and its flags in the order e, i, p; one space between clauses, and no newline after the last.
 * Three empty sets are the empty text, which fits a buffer of no bytes. What is written is read as the sets that it was written for.
 *
 * Refusals, in this order: URREZKALU_OUT_OF_RANGE; URREZKALU_NO_ROOM. */
uint64_t urrezkalu_write_names(uint64_t permitted, uint64_t inheritable, uint64_t effective, uint8_t *text, size_t text_length);

/* Lays a status file beside the credentials of a sheet, which are the predicted ones, and writes what differs at the front of the buffer `list`, which
 * has room for `list_length` bytes.
 *
 * The list has a line for each value that differs, in the order of a sheet: ruid, euid, suid, fsuid, permitted, inheritable, effective, bounding,
 * ambient, nnp. A line is the key, the predicted value and the found one, with one space between, the values as a sheet has them. Then there is always
 * the line `not compared: securebits, group IDs`, which alone is the list where nothing differs. Every line ends in a newline.
 *
 * Seven lines of the status file are wanted, once each and in this order: Uid, CapInh, CapPrm, CapEff, CapBnd, CapAmb, NoNewPrivs. Such a line is its
 * name, a colon, and its values, each after one tab and in the digits of a sheet: four IDs, a set, or 0 or 1. What is found need not be valid: an ID of
 * 4294967295 and a bit above 40 are read and listed. A line that does not begin with one of the seven names and a colon is passed over, whatever bytes
 * it has. The newline of the last line may be missing.
 *
 * Refusals, in this order: URREZKALU_MALFORMED with a line of at least 1, for the status file; URREZKALU_MALFORMED with line 0, for a sheet that is no
 * sheet; URREZKALU_INVALID, for the sheet's credentials; URREZKALU_NO_ROOM. The status file's line is that of its first fault: a wanted line that is
 * malformed, or is not the next one due, which one that comes again never is; or the line after the last, where one is still due at the end. A line
 * of 4294967295 or more is given as 4294967295. */
uint64_t urrezkalu_compare_status(const uint8_t *status, size_t status_length, const uint8_t *sheet, size_t sheet_length, uint8_t *list,
                                  size_t list_length);

/* One of the codes above. */
static inline uint32_t urrezkalu_code(uint64_t number)
{
    return (uint32_t)(number >> 32);
}

/* The first line at fault, for URREZKALU_MALFORMED of a plan, a slot plan, a sheet or a status file. Of a plan, 1 to 1296, of a slot plan, 1 to 1552,
 * and of a sheet, 1 to 16, it is one more than the complete correct lines before it. Of a status file it is 1 or more, and 4294967295 stands for that
 * line or any greater one; where urrezkalu_compare_status has 0, it is the sheet beside it that is malformed. 0 for the other codes. Of a text in names
 * the number has no line, but a place: urrezkalu_place. */
static inline uint32_t urrezkalu_line(uint64_t number)
{
    return urrezkalu_code(number) == URREZKALU_MALFORMED ? (uint32_t)(number & UINT32_MAX) : 0;
}

/* The place at fault, for URREZKALU_MALFORMED of urrezkalu_read_names: the length of the text's longest beginning that some bytes complete to a
 * text in names. The byte at that place, counted from 0, cannot stand there; where the place is the text's length, the text only ends too early.
 * 4294967295 stands for that place or any greater one. 0 for the other codes, but 0 is a place too: that of the first byte. */
static inline uint32_t urrezkalu_place(uint64_t number)
{
    return urrezkalu_code(number) == URREZKALU_MALFORMED ? (uint32_t)(number & UINT32_MAX) : 0;
}

/* How much was written at the front of the buffer: the bytes of a report, a sheet, an attribute, a text in names or a list, or the count of values. 0
 * where the function refused, and for three empty sets in names. */
static inline size_t urrezkalu_length(uint64_t number)
{
    return urrezkalu_code(number) == URREZKALU_DONE ? (size_t)(number & UINT32_MAX) : 0;
}

/* For those that take a report apart: the number of the line `key`, digits of that base and a newline, which begins at `at`; the position past it comes
 * back, or 0 where there is no such line. */
static inline size_t urrezkalu_read_line_(const uint8_t *text, size_t length, size_t at, const char *key, unsigned base, uint64_t *number)
{
    for (; *key != '\0'; key++, at++) {
        if (at >= length || text[at] != (uint8_t)*key) {
            return 0;
        }
    }
    size_t first = at;
    *number = 0;
    for (; at < length; at++) {
        unsigned decimal = text[at] - (unsigned)'0';
        unsigned letter = text[at] - (unsigned)'a';
        unsigned digit = decimal < 10 ? decimal : letter < 6 ? 10 + letter : base;
        if (digit >= base || at - first == 16) {
            break;
        }
        *number = *number * base + digit;
    }
    return at > first && at < length && text[at] == '\n' ? at + 1 : 0;
}

/* Reads the result of a step at the front of a report, or of what is left of one, and gives how many bytes its lines have. 0 comes back, and
 * `result` is as it was, where no result stands there: that is so after the last, where the sheet or the first slot begins or the report ends. */
static inline size_t urrezkalu_read_result(const uint8_t *report, size_t report_length, struct urrezkalu_result *result)
{
    uint64_t code, value, cause;
    size_t at = urrezkalu_read_line_(report, report_length, 0, "code=", 10, &code);
    at = at == 0 ? 0 : urrezkalu_read_line_(report, report_length, at, "value=", 16, &value);
    at = at == 0 ? 0 : urrezkalu_read_line_(report, report_length, at, "cause=", 10, &cause);
    if (at == 0 || code > UINT32_MAX || cause > UINT32_MAX) {
        return 0;
    }
    result->value = value;
    result->code = (uint32_t)code;
    result->cause = (uint32_t)cause;
    return at;
}

/* Reads the slot at the front of what is left of a slot plan's report after its results, and gives how many bytes its `slot=` line and its sheet have.
 * 0 comes back, and `slot` is as it was, where no slot stands there: that is so at the report's end, after the last. The sheet is the fifteen lines
 * that follow, for urrezkalu_read_sheet or to lay a status file beside it; nothing is asked of them here. */
static inline size_t urrezkalu_read_slot(const uint8_t *report, size_t report_length, struct urrezkalu_slot *slot)
{
    uint64_t number;
    size_t first = urrezkalu_read_line_(report, report_length, 0, "slot=", 10, &number);
    if (first == 0 || number >= URREZKALU_SLOTS) {
        return 0;
    }
    size_t end = first;
    for (size_t lines = 0; lines < URREZKALU_SHEET_VALUES; end++) {
        if (end == report_length) {
            return 0;
        }
        lines += report[end] == '\n';
    }
    slot->sheet = report + first;
    slot->sheet_length = end - first;
    slot->number = (uint32_t)number;
    return end;
}

/* A cause in words. */
static inline const char *urrezkalu_cause_words(uint32_t cause)
{
    switch (cause) {
    case URREZKALU_CAPABILITY_NOT_EFFECTIVE:
        return "a needed capability is not effective";
    case URREZKALU_INHERITABLE_BEYOND_PERMITTED:
        return "the new inheritable set goes beyond the inheritable and permitted sets, and CAP_SETPCAP is not effective";
    case URREZKALU_INHERITABLE_BEYOND_BOUNDING:
        return "the new inheritable set goes beyond the inheritable and bounding sets";
    case URREZKALU_PERMITTED_GROWS:
        return "the new permitted set goes beyond the permitted set";
    case URREZKALU_EFFECTIVE_BEYOND_PERMITTED:
        return "the new effective set goes beyond the new permitted set";
    case URREZKALU_NOT_IN_PERMITTED_AND_INHERITABLE:
        return "the capability is not in both the permitted and the inheritable set";
    case URREZKALU_AMBIENT_RAISE_FORBIDDEN:
        return "SECBIT_NO_CAP_AMBIENT_RAISE forbids to raise an ambient capability";
    case URREZKALU_LOCK_UNDONE:
        return "a lock of the securebits would be undone";
    case URREZKALU_LOCKED_FLAG_CHANGED:
        return "a locked flag of the securebits would be set or cleared";
    case URREZKALU_ID_NOT_ALLOWED:
        return "an ID is not among those allowed";
    case URREZKALU_LAUNCH_FALLS_SHORT:
        return "the launch falls short of the file's permitted set";
    default:
        return "no cause";
    }
}

#ifdef __cplusplus
}
#endif

#endif
