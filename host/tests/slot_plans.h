/* What slot_plans.c, slot_tables.c and those of sanitize.c share: the lines of slot plans and reports, slot plans with their reports, and edits that make
 * one malformed. Typed in from the paper. */
#ifndef SLOT_PLANS_H
#define SLOT_PLANS_H

#include "../include/urrezkalu.h"

/* A text and its length. */
#define TEXT(text) text, sizeof(text) - 1

#define Z "0000000000000000"
#define FULL "000001ffffffffff"
#define NET_RAW "0000000000002000"

/* The lines of a sheet. */
#define USERS(real, effective, saved, filesystem) "ruid=" real "\neuid=" effective "\nsuid=" saved "\nfsuid=" filesystem "\n"
#define GROUPS(real, effective, saved, filesystem) "rgid=" real "\negid=" effective "\nsgid=" saved "\nfsgid=" filesystem "\n"
#define SETS(permitted, inheritable, effective, bounding, ambient) \
    "permitted=" permitted "\ninheritable=" inheritable "\neffective=" effective "\nbounding=" bounding "\nambient=" ambient "\n"
#define FLAGS(securebits, nnp) "securebits=" securebits "\nnnp=" nnp "\n"

/* The sheets: no two values alike; the paper's report of case 2; all capabilities; the shortest; the longest. */
#define APART_USERS USERS("7", "1002", "65534", "4294967294")
#define APART_GROUPS GROUPS("5", "1003", "65533", "4294967293")
#define APART_SETS SETS("0000011223344556", "0000018a9bacbdce", "0000010203040506", "000000fedcba9876", "0000010000000400")
#define APART APART_USERS APART_GROUPS APART_SETS FLAGS("b1", "1")
#define CASE_2_IDS USERS("1000", "1000", "1000", "1000") GROUPS("1000", "1000", "1000", "1000")
#define CASE_2 CASE_2_IDS SETS(NET_RAW, NET_RAW, NET_RAW, FULL, NET_RAW) FLAGS("00", "0")
#define NO_USERS USERS("0", "0", "0", "0")
#define NO_GROUPS GROUPS("0", "0", "0", "0")
#define ROOT NO_USERS NO_GROUPS SETS(FULL, Z, FULL, FULL, Z) FLAGS("00", "0")
#define ZEROS NO_USERS NO_GROUPS SETS(Z, Z, Z, Z, Z) FLAGS("00", "0")
#define GREATEST \
    USERS("4294967294", "4294967294", "4294967294", "4294967294") GROUPS("4294967294", "4294967294", "4294967294", "4294967294") \
    SETS(FULL, FULL, FULL, FULL, FULL) FLAGS("ff", "1")

/* A child of ROOT that became user 1000. */
#define FALLEN USERS("1000", "1000", "1000", "1000") NO_GROUPS SETS(Z, Z, Z, FULL, Z) FLAGS("00", "0")

/* Steps. */
#define STEP(slot, call, a, b, c, attribute) "slot=" slot "\ncall=" call "\na=" a "\nb=" b "\nc=" c "\nattr=" attribute "\n"
#define CALL(slot, call, a) STEP(slot, call, a, Z, Z, "")
#define FORK(slot) CALL(slot, "30", Z)
#define EXIT(slot) CALL(slot, "31", Z)
#define SETUID_1000(slot) CALL(slot, "15", "00000000000003e8")

/* Answers. */
#define ANSWER(code, value, cause) "code=" code "\nvalue=" value "\ncause=" cause "\n"
#define GIVES(value) ANSWER("0", value, "0")
#define DONE GIVES(Z)
#define TOOK(digit) GIVES("000000000000000" digit)
#define REFUSED(code) ANSWER(code, Z, "0")
#define FORBIDDEN(cause) ANSWER("1", Z, cause)

/* A slot in use at the end. */
#define AT(slot, sheet) "slot=" slot "\n" sheet

struct slot_plan {
    const char *text;
    size_t length;
    const char *report;
};

static const struct slot_plan slot_plans[] = {
    /* No step. */
    {TEXT(APART), AT("0", APART)},
    {TEXT(CASE_2), AT("0", CASE_2)},
    {TEXT(ZEROS), AT("0", ZEROS)},
    {TEXT(GREATEST), AT("0", GREATEST)},
    /* A fork copies all. An exit frees the slot; the last one leaves nothing after the results. */
    {TEXT(APART FORK("0")), TOOK("1") AT("0", APART) AT("1", APART)},
    {TEXT(GREATEST FORK("0") FORK("1")), TOOK("1") TOOK("2") AT("0", GREATEST) AT("1", GREATEST) AT("2", GREATEST)},
    {TEXT(APART EXIT("0")), DONE},
    {TEXT(APART FORK("0") EXIT("0")), TOOK("1") DONE AT("1", APART)},
    {TEXT(APART FORK("0") EXIT("1")), TOOK("1") DONE AT("0", APART)},
    {TEXT(ZEROS FORK("0") EXIT("0") EXIT("1")), TOOK("1") DONE DONE},
    {TEXT(ZEROS EXIT("0") EXIT("0") FORK("0") CALL("0", "10", Z) CALL("0", "99", Z) CALL("95", "10", Z) CALL("96", "10", Z)),
     DONE REFUSED("3") REFUSED("3") REFUSED("3") REFUSED("3") REFUSED("3") REFUSED("22")},
    /* A fork takes the lowest free slot, be it one that was never in use or one that was left, also slot 0. */
    {TEXT(ZEROS FORK("0") FORK("0") FORK("1") EXIT("2") EXIT("1") FORK("3") FORK("3") FORK("3")),
     TOOK("1") TOOK("2") TOOK("3") DONE DONE TOOK("1") TOOK("2") TOOK("4") AT("0", ZEROS) AT("1", ZEROS) AT("2", ZEROS) AT("3", ZEROS) AT("4", ZEROS)},
    {TEXT(ZEROS FORK("0") FORK("0") EXIT("0") EXIT("1") FORK("2") EXIT("2") FORK("0")),
     TOOK("1") TOOK("2") DONE DONE TOOK("0") DONE TOOK("1") AT("0", ZEROS) AT("1", ZEROS)},
    /* A call changes the slot that it names and no other: the ambient set, the securebits, the bounding set, the filesystem IDs. */
    {TEXT(APART FORK("0") CALL("1", "8", Z) CALL("1", "7", "000000000000000a") CALL("0", "7", "000000000000000a")),
     TOOK("1") DONE DONE TOOK("1") AT("0", APART)
         AT("1", APART_USERS APART_GROUPS SETS("0000011223344556", "0000018a9bacbdce", "0000010203040506", "000000fedcba9876", Z) FLAGS("b1", "1"))},
    {TEXT(APART FORK("0") CALL("0", "9", "00000000000000b5") CALL("0", "10", Z) CALL("1", "10", Z)),
     TOOK("1") DONE GIVES("00000000000000b5") GIVES("00000000000000b1") AT("0", APART_USERS APART_GROUPS APART_SETS FLAGS("b5", "1")) AT("1", APART)},
    {TEXT(APART FORK("0") CALL("1", "3", "0000000000000001") CALL("0", "4", "0000000000000001") CALL("1", "4", "0000000000000001")),
     TOOK("1") DONE TOOK("1") DONE AT("0", APART) AT("1", APART_USERS APART_GROUPS SETS("0000011223344556", "0000018a9bacbdce", "0000010203040506",
                                                                                     "000000fedcba9874", "0000010000000400") FLAGS("b1", "1"))},
    {TEXT(APART FORK("0") CALL("0", "18", "0000000000000007") CALL("1", "18", "00000000ffffffff") CALL("1", "22", "0000000000000005")
              CALL("0", "22", "00000000ffffffff")),
     TOOK("1") GIVES("00000000fffffffe") GIVES("00000000fffffffe") GIVES("00000000fffffffd") GIVES("00000000fffffffd")
         AT("0", USERS("7", "1002", "65534", "7") APART_GROUPS APART_SETS FLAGS("b1", "1"))
             AT("1", APART_USERS GROUPS("5", "1003", "65533", "5") APART_SETS FLAGS("b1", "1"))},
    /* A launch: case 3 in the child, case 2 in its parent. */
    {TEXT(CASE_2 FORK("0") STEP("1", "1", Z, Z, Z, "0100000200040000000000000000000000000000") CALL("0", "1", Z)),
     TOOK("1") DONE DONE AT("0", CASE_2) AT("1", CASE_2_IDS SETS("0000000000000400", NET_RAW, "0000000000000400", FULL, Z) FLAGS("00", "0"))},
    /* What a child is refused leaves all as it was: an ID, a drop, a capset, an attribute, a call that is none. */
    {TEXT(CASE_2 FORK("0") CALL("1", "15", Z) CALL("1", "3", "0000000000000011") STEP("1", "2", NET_RAW, "0000000000004000", NET_RAW, "")
              STEP("1", "1", Z, Z, Z, "ff") CALL("1", "99", Z)),
     TOOK("1") FORBIDDEN("10") FORBIDDEN("1") FORBIDDEN("2") REFUSED("60") REFUSED("22") AT("0", CASE_2) AT("1", CASE_2)},
    /* A child has its parent's credentials of that moment, and what its slot had before is gone. */
    {TEXT(ROOT FORK("0") SETUID_1000("1") FORK("1") FORK("0") EXIT("1") FORK("3") SETUID_1000("3")),
     TOOK("1") DONE TOOK("2") TOOK("3") DONE TOOK("1") DONE AT("0", ROOT) AT("1", ROOT) AT("2", FALLEN) AT("3", FALLEN)},
    {TEXT(ROOT FORK("0") CALL("1", "13", "0000000000000001") EXIT("0") FORK("1") SETUID_1000("1") CALL("0", "14", Z)),
     TOOK("1") DONE DONE TOOK("0") DONE TOOK("1") AT("0", NO_USERS NO_GROUPS SETS(FULL, Z, FULL, FULL, Z) FLAGS("00", "1"))
         AT("1", USERS("1000", "1000", "1000", "1000") NO_GROUPS SETS(Z, Z, Z, FULL, Z) FLAGS("00", "1"))},
    /* Keep-caps is copied with the rest; that the parent then clears it is the parent's. */
    {TEXT(ROOT CALL("0", "11", "0000000000000001") FORK("0") CALL("0", "11", Z) SETUID_1000("1") SETUID_1000("0")),
     DONE TOOK("1") DONE DONE DONE AT("0", FALLEN) AT("1", USERS("1000", "1000", "1000", "1000") NO_GROUPS SETS(FULL, Z, Z, FULL, Z) FLAGS("10", "0"))},
    /* 22 for a slot above 95 comes first, then 3, and then all else. */
    {TEXT(CASE_2 CALL("96", "10", Z) FORK("97") EXIT("98") CALL("99", "99", Z) STEP("96", "1", Z, Z, Z, "ff") CALL("96", "15", Z)),
     REFUSED("22") REFUSED("22") REFUSED("22") REFUSED("22") REFUSED("22") REFUSED("22") AT("0", CASE_2)},
    {TEXT(CASE_2 CALL("1", "10", Z) FORK("95") EXIT("1") CALL("9", "99", Z) CALL("10", "0", Z) STEP("1", "1", Z, Z, Z, "ff") CALL("94", "15", Z)
              CALL("1", "30", "0000000000000001") STEP("1", "31", Z, Z, Z, "00") STEP("1", "10", Z, Z, "8000000000000000", "")),
     REFUSED("3") REFUSED("3") REFUSED("3") REFUSED("3") REFUSED("3") REFUSED("3") REFUSED("3") REFUSED("3") REFUSED("3") REFUSED("3") AT("0", CASE_2)},
    /* Fork and exit use no operand and no attribute, readable or not. */
    {TEXT(CASE_2 CALL("0", "30", "0000000000000001") STEP("0", "30", Z, "8000000000000000", Z, "") STEP("0", "30", Z, Z, "0000000100000000", "")
              STEP("0", "30", Z, Z, Z, "00") STEP("0", "30", Z, Z, Z, "0100000200200000000000000000000000000000") FORK("0")),
     REFUSED("22") REFUSED("22") REFUSED("22") REFUSED("22") REFUSED("22") TOOK("1") AT("0", CASE_2) AT("1", CASE_2)},
    {TEXT(CASE_2 CALL("0", "31", "8000000000000000") STEP("0", "31", Z, "0000000000000001", Z, "") STEP("0", "31", Z, Z, "0000000100000000", "")
              STEP("0", "31", Z, Z, Z, "ff") STEP("0", "31", Z, Z, Z, "0100000200200000000000000000000000000000") CALL("0", "7", "000000000000000d")),
     REFUSED("22") REFUSED("22") REFUSED("22") REFUSED("22") REFUSED("22") TOOK("1") AT("0", CASE_2)},
    /* The numbers about fork and exit are no calls. */
    {TEXT(CASE_2 CALL("0", "0", Z) CALL("0", "23", Z) CALL("0", "29", Z) CALL("0", "32", Z) CALL("0", "99", Z)),
     REFUSED("22") REFUSED("22") REFUSED("22") REFUSED("22") REFUSED("22") AT("0", CASE_2)},
};

/* Its lines: the sheet, 1 to 15; the fork, 16 to 21; the bounding read of a child, 22 to 27. */
#define TWO_STEPS CASE_2 FORK("0") CALL("1", "4", "0000000000000011")
#define TWO_STEPS_REPORT TOOK("1") TOOK("1") AT("0", CASE_2) AT("1", CASE_2)

/* Edits of that slot plan that make it malformed, each at this line. */
static const struct slot_plan_edit {
    const char *part;
    const char *other;
    uint32_t line;
} malformed_slot_plans[] = {
    {"ruid=1000", "ruid=01000", 1},
    {"rgid=1000", "gid=1000", 5},
    {"nnp=0", "nnp=2", 15},
    {"nnp=0\n", "", 15},
    {"nnp=0\n", "nnp=0\n\n", 16},
    {"nnp=0\n", "nnp=0\nslot=0\n", 17},
    /* The slot is written as the call is. */
    {"slot=0\n", "", 16},
    {"slot=0\n", "\n", 16},
    {"slot=0", "slot=", 16},
    {"slot=0", "slot=00", 16},
    {"slot=0", "slot=01", 16},
    {"slot=0", "slot=095", 16},
    {"slot=0", "slot=100", 16},
    {"slot=0", "slot=101", 16},
    {"slot=0", "slot=256", 16},
    {"slot=0", "slot=4294967296", 16},
    {"slot=0", "slot=18446744073709551616", 16},
    {"slot=0", "slot=-0", 16},
    {"slot=0", "slot=+0", 16},
    {"slot=0", "slot= 0", 16},
    {"slot=0", "slot=0 ", 16},
    {"slot=0", "slot=0\r", 16},
    {"slot=0", "slot=a", 16},
    {"slot=0", "slot=0x0", 16},
    {"slot=0", "slot=0000000000000000", 16},
    {"slot=0", "slot=,", 16},
    {"slot=0", "Slot=0", 16},
    {"slot=0", "slots=0", 16},
    {"slot=0", " slot=0", 16},
    {"slot=0", "slot =0", 16},
    {"slot=0", "slot:0", 16},
    {"slot=0", "slot0", 16},
    {"slot=0\ncall=30\n", "call=30\nslot=0\n", 16},
    {"slot=0\n", "slot=0\nslot=0\n", 17},
    {"slot=0\n", "slot=0\n\n", 17},
    /* The other lines of both steps. */
    {"call=30\n", "", 17},
    {"call=30", "call=030", 17},
    {"call=30", "call=100", 17},
    {"call=30", "call=fork", 17},
    {"call=30\na=0", "call=30\na=", 18},
    {"call=30\na=0", "call=30\na=00", 18},
    {"call=30\na=" Z "\nb=", "call=30\na=" Z "\nc=", 19},
    {"call=30\na=" Z "\nb=" Z "\nc=", "call=30\na=" Z "\nb=" Z "\nattr=", 20},
    {"attr=\nslot=1", "slot=1", 21},
    {"attr=\nslot=1", "attr=0\nslot=1", 21},
    {"attr=\nslot=1", "attr=" Z Z Z "00\nslot=1", 21},
    {"attr=\nslot=1", "attr=\n\nslot=1", 22},
    {"slot=1\n", "", 22},
    {"slot=1", "slot=01", 22},
    {"slot=1", "slot=100", 22},
    {"slot=1\n", "slot=1", 22},
    {"call=4\n", "", 23},
    {"call=4", "call=", 23},
    {"a=0000000000000011", "a=11", 24},
    {"0011\nb=0", "0011\nb=G", 25},
    {"0011\nb=" Z "\nc=0", "0011\nb=" Z "\nc=A", 26},
    {"0011\nb=" Z "\nc=" Z "\nattr=\n", "0011\nb=" Z "\nc=" Z "\n", 27},
    {"0011\nb=" Z "\nc=" Z "\nattr=\n", "0011\nb=" Z "\nc=" Z "\nattr=", 27},
    /* What stands after a step is a step. */
    {"0011\nb=" Z "\nc=" Z "\nattr=\n", "0011\nb=" Z "\nc=" Z "\nattr=\n\n", 28},
    {"0011\nb=" Z "\nc=" Z "\nattr=\n", "0011\nb=" Z "\nc=" Z "\nattr=\ncall=10\n", 28},
    {"0011\nb=" Z "\nc=" Z "\nattr=\n", "0011\nb=" Z "\nc=" Z "\nattr=\nslot=1\n", 29},
};

#endif
