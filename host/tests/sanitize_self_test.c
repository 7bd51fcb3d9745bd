/* Shows that sanitize.c bites: stray accesses and wrong answers, each in a child of its own, and how each has to end. */
#define _DEFAULT_SOURCE
#include "sanitize_self_test.h"
#include "slot_plans.h"

#include <fcntl.h>
#include <signal.h>
#include <stdio.h>
#include <stdlib.h>
#include <sys/wait.h>
#include <unistd.h>

static const char *const endings[] = {"a fault in memory", "an end by the sanitizers", "a fault that was counted", "no fault"};

/* Slot plans: a family in which a child clears its ambient set, and whose other steps are refused; one that nobody is left of; one that is malformed in
 * its third step; and that with a start that is not valid, and its beginning. */
static void try_slot_inputs(struct bench *bench)
{
    static const char family[] = CASE_2 FORK("0") CALL("1", "8", Z) CALL("96", "10", Z) CALL("5", "10", Z) CALL("0", "30", "0000000000000001");
    static const char report[] = TOOK("1") DONE REFUSED("22") REFUSED("3") REFUSED("22") AT("0", CASE_2)
        AT("1", CASE_2_IDS SETS(NET_RAW, NET_RAW, NET_RAW, FULL, Z) FLAGS("00", "0"));
    static const char broken[] = ZEROS FORK("0") EXIT("0") "slot=01\n";
    static const char invalid[] = NO_USERS NO_GROUPS SETS(Z, Z, FULL, Z, Z) FLAGS("00", "0") FORK("0") EXIT("0") "slot=01\n";
    static const uint64_t malformed_number = (uint64_t)URREZKALU_MALFORMED << 32 | 28;
    try_slot_plan(bench, TEXT(family), 0, report);
    try_slot_plan(bench, TEXT(ZEROS EXIT("0")), 0, DONE);
    try_slot_plan(bench, TEXT(broken), malformed_number, NULL);
    try_slot_plan(bench, TEXT(invalid), malformed_number, NULL);
    try_slot_plan(bench, invalid, sizeof invalid - sizeof "slot=01\n", (uint64_t)URREZKALU_INVALID << 32, NULL);
}

/* A sheet, with the values in it changed in all ways; the same cut short; a plan. Attributes: none, of both versions, and an unreadable one. Texts in
 * names: a good one, and so its sets, and a broken one; and sets that are out of range. Status texts: one from which the sheet differs in two keys and
 * one from which it does not; faults after an empty line, at a wanted line and at the end; none; and beside no sheet and one that is not valid. */
void try_inputs(struct bench *bench)
{
    static const char plan[] = "ruid=1\neuid=2\nsuid=3\nfsuid=4\nrgid=5\negid=6\nsgid=7\nfsgid=8\n"
                               "permitted=0000000000000007\ninheritable=0000000000000006\neffective=0000000000000003\n"
                               "bounding=000001ffffffffff\nambient=0000000000000002\nsecurebits=01\nnnp=0\n"
                               "call=8\na=0000000000000000\nb=0000000000000000\nc=0000000000000000\nattr=\n";
    static const size_t sheet_length = 212;
    static const uint8_t version_1[12] = {1, 0, 0, 1, 0, 0x20};
    static const uint8_t version_2[20] = {1, 0, 0, 2, 0, 0x20};
    static const char malformed[] = "cap_kill=e cap_chown";
    static const uint64_t in_range[URREZKALU_NAMED_VALUES] = {0x1, 0x20, 0x20};
    static const uint64_t out_of_range[URREZKALU_NAMED_VALUES] = {0, 0, 0x20000000000};
    static const char sets[] = "\nCapInh:\t0000000000000006\nCapPrm:\t0000000000000007\nCapEff:\t0000000000000003\nCapBnd:\t000001ffffffffff\n"
                               "CapAmb:\t0000000000000002\nNoNewPrivs:\t0";
    static const char invalid[] = "ruid=1\neuid=2\nsuid=3\nfsuid=4\nrgid=5\negid=6\nsgid=7\nfsgid=4294967295\n"
                                  "permitted=0000000000000007\ninheritable=0000000000000006\neffective=0000000000000003\n"
                                  "bounding=000001ffffffffff\nambient=0000000000000002\nsecurebits=01\nnnp=0\n";
    static const uint64_t malformed_number = (uint64_t)URREZKALU_MALFORMED << 32;
    char same[256];
    char other[256];
    size_t same_length = (size_t)snprintf(same, sizeof same, "Uid:\t1\t2\t3\t4%s", sets);
    size_t other_length = (size_t)snprintf(other, sizeof other, "Uid:\t1\t4\t3\t2%s\n", sets);
    for (unsigned way = 0; way < 36; way++) {
        try_text(bench, "self-test", 0, (const uint8_t *)plan, sheet_length);
    }
    try_text(bench, "self-test", 0, (const uint8_t *)plan, sheet_length - 1);
    try_text(bench, "self-test", 0, (const uint8_t *)plan, sizeof plan - 1);
    try_attribute(bench, version_1, 0);
    try_attribute(bench, version_1, sizeof version_1);
    try_attribute(bench, version_2, sizeof version_2);
    try_attribute(bench, version_2, sizeof version_2 - 1);
    try_named_text(bench, "cap_chown=p cap_kill=ei", in_range);
    try_malformed_text(bench, malformed, sizeof malformed, sizeof malformed - 1);
    try_sets(bench, out_of_range);
    try_status(bench, same, same_length, plan, sheet_length, 0, "not compared: securebits, group IDs\n");
    try_status(bench, other, other_length, plan, sheet_length, 0, "euid 2 4\nfsuid 4 2\nnot compared: securebits, group IDs\n");
    try_status(bench, "\n\nCapInh:\n", 10, plan, sheet_length, malformed_number | 3, NULL);
    try_status(bench, "Name:\tx\n", 8, invalid, sizeof invalid - 1, malformed_number | 2, NULL);
    try_status(bench, "Name:\tx\n", 8, plan, sheet_length - 1, malformed_number | 2, NULL);
    try_status(bench, NULL, 0, plan, sheet_length, malformed_number | 1, NULL);
    try_status(bench, same, same_length, NULL, 0, malformed_number, NULL);
    try_status(bench, same, same_length, invalid, sizeof invalid - 1, (uint64_t)URREZKALU_INVALID << 32, NULL);
    try_slot_inputs(bench);
}

/* What a child has to do: a mishap, or, if there is none, inputs with a fault in that function. */
struct test {
    const struct mishap *mishap;
    const struct fault *fault;
    enum function function;
};

/* What this process has to do, being a child. */
static struct test task;

static uint64_t call_with_fault(const struct call *call)
{
    return call->function == task.function ? task.fault->call(call) : call_library(call);
}

/* What the test does, in a child whose messages nobody needs and in which a fault in memory is not turned into anything else. */
_Noreturn static void in_the_child(struct test test)
{
    int nowhere = open("/dev/null", O_WRONLY);
    if (nowhere < 0 || dup2(nowhere, STDERR_FILENO) < 0 || signal(SIGSEGV, SIG_DFL) == SIG_ERR) {
        _exit(TROUBLE);
    }
    struct bench bench;
    task = test;
    set_up(&bench, test.fault == NULL ? call_library : call_with_fault);
    if (test.mishap != NULL) {
        test.mishap->happen(&bench);
    } else {
        try_inputs(&bench);
    }
    _exit(bench.faults == 0 ? 0 : FAULTS);
}

static enum ending ending_of(int status)
{
    if (WIFSIGNALED(status) && WTERMSIG(status) == SIGSEGV) {
        return FAULT_IN_MEMORY;
    }
    if (WIFEXITED(status)) {
        switch (WEXITSTATUS(status)) {
        case 0:
            return NOT_CAUGHT;
        case FAULTS:
            return FOUND_BY_CHECK;
        case SANITIZER:
            return ENDED_BY_SANITIZER;
        }
    }
    fprintf(stderr, "sanitize: self-test: a child came to the unexpected status %#x\n", (unsigned)status);
    exit(TROUBLE);
}

static bool ends_as_expected(struct test test, const char *who, const char *what, enum ending expected)
{
    int status;
    pid_t child = fork();
    if (child == 0) {
        in_the_child(test);
    }
    if (child < 0 || waitpid(child, &status, 0) != child) {
        give_up("fork");
    }
    enum ending found = ending_of(status);
    if (found != expected) {
        printf("sanitize: self-test: %s%s comes to %s, and should come to %s\n", who, what, endings[found], endings[expected]);
    }
    return found == expected;
}

int self_test(void)
{
    size_t all = 0;
    size_t right = 0;
    for (size_t i = 0; i < mishaps_count; i++) {
        all++;
        right += ends_as_expected((struct test){.mishap = &mishaps[i]}, "", mishaps[i].what, mishaps[i].ending);
    }
    for (size_t i = 0; i < faults_count; i++) {
        for (enum function function = 0; function < FUNCTIONS; function++) {
            if ((faults[i].functions & 1U << function) != 0) {
                const struct test test = {.fault = &faults[i], .function = function};
                char who[64];
                snprintf(who, sizeof who, "%s that ", name_of(function));
                all++;
                right += ends_as_expected(test, who, faults[i].what, faults[i].ending);
            }
        }
    }
    printf("sanitize: self-test: %zu of %zu as expected\n", right, all);
    return right == all ? 0 : FAULTS;
}
