/* An installer's check: plans are run before they are installed.
 *
 *     check_plans [--slots] PLAN..
 *
 * With --slots the plans are slot plans. For a plan that is accepted, its name and its report go to standard output. Why another is refused goes
 * to standard error, with file and line in the form that editors understand; and so does, after the report of one that is accepted, why a step of
 * it is refused, with the line where the step begins. Every plan is looked at, whatever the ones before it came to. The status is 0 if all are
 * accepted, 1 if one is refused, and 2 if one cannot be read, if the output cannot be written, or if no plan is named. */
#include "urrezkalu.h"

#include <errno.h>
#include <signal.h>
#include <stdbool.h>
#include <stdio.h>
#include <string.h>

/* What has been found, and the exit status that says so. The greatest of several counts. */
enum status { ACCEPTED = 0, REFUSED = 1, FAILED = 2 };

/* How many lines of a plan a sheet has. */
enum { SHEET_LINES = 15 };

/* What plans and slot plans differ in. */
struct form {
    uint64_t (*run)(const uint8_t *plan, size_t plan_length, uint8_t *report, size_t report_length);
    unsigned step_lines; /* How many lines a step has. */
    const char *no_call; /* What a step is that is out of range. */
};
static const struct form plans = {urrezkalu_run_plan, 5, "number, operands and attribute make no call"};
static const struct form slot_plans = {urrezkalu_run_slot_plan, 6, "slot, number, operands and attribute make no call"};

/* The first bytes of a file. One byte more than the longest plan of either form has is enough: what stands after it decides nothing. */
struct text {
    uint8_t bytes[URREZKALU_LONGEST_SLOT_PLAN + 1];
    size_t length;
};

/* Reads the file's first bytes into `text`. If that fails, errno has the reason. */
static bool read_text(const char *name, struct text *text)
{
    FILE *file = fopen(name, "rb");
    if (file == NULL) {
        return false;
    }
    text->length = fread(text->bytes, 1, sizeof text->bytes, file);
    bool failed = ferror(file) != 0;
    int reason = errno;
    fclose(file);
    errno = reason;
    return !failed;
}

/* Writes the plan's name and its report at once, so that reports and messages come in the order of the plans. */
static enum status write_report(const char *name, const uint8_t *report, size_t length)
{
    if (printf("%s: accepted\n", name) < 0 || fwrite(report, 1, length, stdout) != length || fflush(stdout) != 0) {
        fprintf(stderr, "check_plans: cannot write to standard output: %s\n", strerror(errno));
        return FAILED;
    }
    return ACCEPTED;
}

/* Why a step is refused. */
static const char *reason(const struct form *form, const struct urrezkalu_result *result)
{
    switch (result->code) {
    case URREZKALU_NOT_PERMITTED:
        return urrezkalu_cause_words(result->cause);
    case URREZKALU_NO_THREAD:
        return "the slot is not in use";
    case URREZKALU_NO_SLOT:
        return "no slot is free";
    case URREZKALU_UNREADABLE:
        return "the attribute cannot be read";
    default:
        return form->no_call;
    }
}

/* Says of each step in the report that is refused why, and on which line of the plan it begins. */
static void tell_refused_steps(const struct form *form, const char *name, const uint8_t *report, size_t length)
{
    struct urrezkalu_result result;
    size_t size;
    for (unsigned step = 1; (size = urrezkalu_read_result(report, length, &result)) != 0; step++) {
        if (result.code != URREZKALU_DONE) {
            unsigned line = SHEET_LINES + form->step_lines * (step - 1) + 1;
            fprintf(stderr, "%s:%u: step %u is refused: %s\n", name, line, step, reason(form, &result));
        }
        report += size;
        length -= size;
    }
}

static enum status check_text(const struct form *form, const char *name, const struct text *text)
{
    uint8_t report[URREZKALU_LONGEST_SLOT_REPORT];
    uint64_t number = form->run(text->bytes, text->length, report, sizeof report);
    enum status written;
    switch (urrezkalu_code(number)) {
    case URREZKALU_DONE:
        written = write_report(name, report, urrezkalu_length(number));
        if (written == ACCEPTED) {
            tell_refused_steps(form, name, report, urrezkalu_length(number));
        }
        return written;
    case URREZKALU_MALFORMED:
        fprintf(stderr, "%s:%u: malformed plan: this line is the first that is missing, incomplete or wrong\n", name,
                (unsigned)urrezkalu_line(number));
        return REFUSED;
    case URREZKALU_INVALID:
        fprintf(stderr, "%s: the credentials at the start are not valid\n", name);
        return REFUSED;
    default:
        /* URREZKALU_NO_ROOM, which does not come with a buffer of that length. What has no report is not accepted, in any case. */
        fprintf(stderr, "%s: the report does not fit the buffer\n", name);
        return REFUSED;
    }
}

static enum status check_file(const struct form *form, const char *name)
{
    struct text text;
    if (!read_text(name, &text)) {
        fprintf(stderr, "%s: cannot be read: %s\n", name, strerror(errno));
        return FAILED;
    }
    return check_text(form, name, &text);
}

int main(int argc, char **argv)
{
    bool has_slots = argc >= 2 && strcmp(argv[1], "--slots") == 0;
    int first = has_slots ? 2 : 1;
    if (argc <= first) {
        fprintf(stderr, "usage: check_plans [--slots] PLAN..\n");
        return FAILED;
    }
    /* A reader of the output that goes away is a failure to write, with its message and its status. */
    signal(SIGPIPE, SIG_IGN);
    enum status worst = ACCEPTED;
    for (int i = first; i < argc; i++) {
        enum status found = check_file(has_slots ? &slot_plans : &plans, argv[i]);
        worst = found > worst ? found : worst;
    }
    return (int)worst;
}
