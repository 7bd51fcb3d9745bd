/* The C interface with buffers of every length about the report's: the number that comes back and every byte of the buffer.
 *
 *     buffers PLAN REPORT
 *
 * PLAN is a plan that runs, REPORT its report. Bytes past the report have to stay, and a refused plan changes none. */
#include "../include/urrezkalu.h"

#include <stdio.h>
#include <stdlib.h>
#include <string.h>

enum {
    LONGEST = URREZKALU_LONGEST_PLAN + 1,
    IDS = 8 /* A sheet's first lines: four user IDs and four group IDs. */
};

static size_t tried;
static size_t faults;

static size_t read_file(const char *name, uint8_t *into)
{
    FILE *file = fopen(name, "rb");
    if (file == NULL) {
        perror(name);
        exit(2);
    }
    size_t length = fread(into, 1, LONGEST, file);
    fclose(file);
    return length;
}

/* Runs the plan in a heap buffer of just that many bytes, each 0xA5 before, and looks at the number and at every byte. */
static void expect(const char *what, const uint8_t *plan, size_t plan_length, size_t room, uint64_t number, const uint8_t *report, size_t report_length)
{
    uint8_t *buffer = malloc(room == 0 ? 1 : room);
    uint8_t *text = malloc(plan_length == 0 ? 1 : plan_length);
    memset(buffer, 0xA5, room);
    if (plan_length != 0) {
        memcpy(text, plan, plan_length);
    }
    tried++;
    uint64_t found = urrezkalu_run_plan(text, plan_length, buffer, room);
    int same = found == number;
    for (size_t i = 0; i < room; i++) {
        same = same && buffer[i] == (i < report_length ? report[i] : 0xA5);
    }
    if (!same) {
        printf("buffers: %s, room for %zu bytes: %#llx came back, %#llx was expected, or a byte of the buffer is wrong\n", what, room,
               (unsigned long long)found, (unsigned long long)number);
        faults++;
    }
    free(buffer);
    free(text);
}

/* An ID of 4294967295 is not valid, be it a user's or a group's, whatever the room. */
static void try_invalid_ids(const uint8_t *plan, size_t plan_length)
{
    static uint8_t invalid[LONGEST + 16];
    const uint8_t *end = plan;
    for (size_t id = 0; id < IDS; id++) {
        const uint8_t *digits = (const uint8_t *)memchr(end, '=', plan_length - (size_t)(end - plan)) + 1;
        end = memchr(digits, '\n', plan_length - (size_t)(digits - plan));
        size_t front = (size_t)(digits - plan);
        size_t rest = plan_length - (size_t)(end - plan);
        memcpy(invalid, plan, front);
        size_t length = front + (size_t)sprintf((char *)invalid + front, "4294967295");
        memcpy(invalid + length, end, rest);
        for (size_t room = 0; room <= 512; room += 64) {
            expect("a start that is not valid", invalid, length + rest, room, (uint64_t)URREZKALU_INVALID << 32, plan, 0);
        }
    }
}

int main(int argc, char **argv)
{
    static uint8_t plan[LONGEST], report[LONGEST];
    if (argc != 3) {
        return 2;
    }
    size_t plan_length = read_file(argv[1], plan);
    size_t report_length = read_file(argv[2], report);

    /* From no byte to one byte short there is no room; exactly right and longer, the report and what was past it. */
    for (size_t room = 0; room <= report_length + 64; room++) {
        if (room < report_length) {
            expect("a plan that runs", plan, plan_length, room, (uint64_t)URREZKALU_NO_ROOM << 32, report, 0);
        } else {
            expect("a plan that runs", plan, plan_length, room, report_length, report, report_length);
        }
    }
    /* Cut anywhere it is malformed, at the line that the cut is in; cut after the sheet or after a step it is a plan of fewer steps, whose
     * report does not fit 64 bytes. */
    uint64_t line = 1;
    for (size_t cut = 0; cut < plan_length; cut++) {
        int whole = cut != 0 && plan[cut - 1] == '\n';
        line += (uint64_t)whole;
        if (whole && line >= 16 && (line - 16) % 5 == 0) {
            expect("a plan of fewer steps", plan, cut, 64, (uint64_t)URREZKALU_NO_ROOM << 32, report, 0);
        } else {
            expect("a plan cut short", plan, cut, 64, (uint64_t)URREZKALU_MALFORMED << 32 | line, report, 0);
        }
    }
    try_invalid_ids(plan, plan_length);
    /* No plan and no buffer, by null pointers. */
    tried++;
    if (urrezkalu_run_plan(NULL, 0, NULL, 0) != ((uint64_t)URREZKALU_MALFORMED << 32 | 1)) {
        printf("buffers: null pointers with length 0\n");
        faults++;
    }
    printf("buffers: %zu of %zu runs across the C interface as expected\n", tried - faults, tried);
    return faults == 0 ? 0 : 1;
}
