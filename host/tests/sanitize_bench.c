/* The bench of sanitize.c: one function on one input, in all places with all rooms. */
#include "sanitize.h"

#include <stdio.h>
#include <stdlib.h>
#include <string.h>
#include <sys/mman.h>

enum {
    MORE = 64,            /* How many bytes more room than enough is. */
    SHORTEST_SHEET = 212, /* The bytes of a sheet of zeros. */
    SHORTEST_RESULT = 38, /* The bytes of a step's result, which alone is a slot plan's report after the exit of the only thread. */
    SHORTEST_LIST = 36,   /* The bytes of the line that every list ends with. */
    VALUE = sizeof(uint64_t)
};

/* The line of a fault is 0, for the sheet beside the text, or any line of the text or the one after the last. */
#define ANY_LINE UINT32_MAX

/* What each function may answer, and with which rooms it is run. */
static const struct nature {
    const char *name;
    size_t unit;          /* The bytes of one place in its output. */
    size_t least;         /* The fewest and the most places that it writes. */
    size_t most;
    size_t longest_input; /* The most bytes of an input with which it is done. */
    uint32_t last_line;   /* The greatest line of a fault, or 0 if it reads no text; or ANY_LINE. */
    uint32_t refusal;     /* The code of its other refusal, where there is room. If that is URREZKALU_MALFORMED, it has a place and no line. */
    size_t rooms;         /* Such an input is run with 0 to so many places; others, or all if that is 0, with room about what is written. */
} functions[FUNCTIONS] = {
    [RUN_PLAN] = {"urrezkalu_run_plan", 1, SHORTEST_SHEET, URREZKALU_LONGEST_REPORT, URREZKALU_LONGEST_PLAN, 1296, URREZKALU_INVALID, 0},
    [RUN_SLOT_PLAN] = {"urrezkalu_run_slot_plan", 1, SHORTEST_RESULT, URREZKALU_LONGEST_SLOT_REPORT, URREZKALU_LONGEST_SLOT_PLAN, 1552,
                       URREZKALU_INVALID, 0},
    [READ_SHEET] = {"urrezkalu_read_sheet", VALUE, URREZKALU_SHEET_VALUES, URREZKALU_SHEET_VALUES, URREZKALU_LONGEST_SHEET, 16, URREZKALU_INVALID, 17},
    [WRITE_SHEET] = {"urrezkalu_write_sheet", 1, SHORTEST_SHEET, URREZKALU_LONGEST_SHEET, URREZKALU_SHEET_VALUES * VALUE, 0, URREZKALU_INVALID, 0},
    [READ_ATTRIBUTE] = {"urrezkalu_read_attribute", VALUE, URREZKALU_FILE_VALUES, URREZKALU_FILE_VALUES, URREZKALU_ATTRIBUTE_LENGTH, 0,
                        URREZKALU_UNREADABLE, 13},
    [WRITE_ATTRIBUTE] = {"urrezkalu_write_attribute", 1, URREZKALU_ATTRIBUTE_LENGTH, URREZKALU_ATTRIBUTE_LENGTH, 3 * VALUE, 0, URREZKALU_OUT_OF_RANGE,
                         32},
    [READ_NAMES] = {"urrezkalu_read_names", VALUE, URREZKALU_NAMED_VALUES, URREZKALU_NAMED_VALUES, SIZE_MAX, 0, URREZKALU_MALFORMED, 5},
    [WRITE_NAMES] = {"urrezkalu_write_names", 1, 0, URREZKALU_LONGEST_NAMES, 3 * VALUE, 0, URREZKALU_OUT_OF_RANGE, URREZKALU_LONGEST_NAMES + 4},
    [COMPARE_STATUS] = {"urrezkalu_compare_status", 1, SHORTEST_LIST, URREZKALU_LONGEST_LIST, SIZE_MAX, ANY_LINE, URREZKALU_INVALID, 0},
};

/* The run that is under way. It stands here for the message about a run that never comes back, which can be given nothing. */
static struct {
    const char *name;
    size_t position;
    enum function function;
    size_t input_length;
    size_t sheet_length;
    enum place place;
    size_t room;
    bool is_under_way;
} now;

const char *name_of(enum function function)
{
    return functions[function].name;
}

size_t unit_of(enum function function)
{
    return functions[function].unit;
}

uint32_t refusal_of(enum function function)
{
    return functions[function].refusal;
}

/* Pages and heap blocks are aligned for values, and so is a whole number of values at the end of pages. */
uint64_t call_library(const struct call *call)
{
    const uint64_t *values = (const uint64_t *)call->input;
    switch (call->function) {
    case RUN_SLOT_PLAN:
        return urrezkalu_run_slot_plan(call->input, call->input_length, call->output, call->output_length);
    case READ_SHEET:
        return urrezkalu_read_sheet(call->input, call->input_length, (uint64_t *)call->output, call->output_length / VALUE);
    case WRITE_SHEET:
        return urrezkalu_write_sheet(values, call->input_length / VALUE, call->output, call->output_length);
    case READ_ATTRIBUTE:
        return urrezkalu_read_attribute(call->input, call->input_length, (uint64_t *)call->output, call->output_length / VALUE);
    case WRITE_ATTRIBUTE:
        return urrezkalu_write_attribute(values[0], values[1], values[2], call->output, call->output_length);
    case READ_NAMES:
        return urrezkalu_read_names(call->input, call->input_length, (uint64_t *)call->output, call->output_length / VALUE);
    case WRITE_NAMES:
        return urrezkalu_write_names(values[0], values[1], values[2], call->output, call->output_length);
    case COMPARE_STATUS:
        return urrezkalu_compare_status(call->input, call->input_length, call->sheet, call->sheet_length, call->output, call->output_length);
    default:
        return urrezkalu_run_plan(call->input, call->input_length, call->output, call->output_length);
    }
}

void say_where(const char *name, size_t position)
{
    now.name = name;
    now.position = position;
}

static void name_the_function(void)
{
    fprintf(stderr, "sanitize: %s", now.name);
    if (now.position != 0) {
        fprintf(stderr, ", text %zu", now.position);
    }
    fprintf(stderr, ", %s of %zu bytes", name_of(now.function), now.input_length);
    if (now.function == COMPARE_STATUS) {
        fprintf(stderr, " beside a sheet of %zu", now.sheet_length);
    }
}

static void name_the_run(const char *what)
{
    static const char *const places[PLACES] = {"at the end of the pages", "at the start of the pages", "on the heap"};
    name_the_function();
    fprintf(stderr, ", %s, room for %zu bytes: %s\n", places[now.place], now.room, what);
}

void name_the_last_run(void)
{
    if (now.is_under_way) {
        name_the_run("this run did not come back");
    }
}

void expect(struct bench *bench, bool right, const char *what)
{
    if (!right) {
        name_the_function();
        fprintf(stderr, ": %s\n", what);
        bench->faults++;
    }
}

static void expect_of_run(struct bench *bench, bool right, const char *what)
{
    if (!right) {
        name_the_run(what);
        bench->faults++;
    }
}

/* No bytes are no block: a null pointer. */
static uint8_t *heap_block(size_t length)
{
    uint8_t *block = length == 0 ? NULL : malloc(length);
    if (block == NULL && length != 0) {
        give_up("malloc");
    }
    return block;
}

/* Each place has a pattern of its own, so that no byte can be written unseen by being what stands there. None of them is text. */
void set_up(struct bench *bench, caller *call)
{
    *bench = (struct bench){.call = call};
    for (size_t place = 0; place < ON_THE_HEAP; place++) {
        bench->input_pages[place] = map_guarded(URREZKALU_LONGEST_SLOT_PLAN);
        bench->sheet_pages[place] = map_guarded(URREZKALU_LONGEST_SHEET);
    }
    bench->output_pages = map_guarded(URREZKALU_LONGEST_SLOT_REPORT + MORE);
    for (size_t place = 0; place < PLACES; place++) {
        bench->patterns[place] = heap_block(bench->output_pages.size);
        for (size_t i = 0; i < bench->output_pages.size; i++) {
            bench->patterns[place][i] = (uint8_t)(0x80 + (i * 7 + place * 41) % 127);
        }
    }
}

void clear_away(struct bench *bench)
{
    for (size_t place = 0; place < PLACES; place++) {
        free(bench->patterns[place]);
    }
    unmap_guarded(bench->output_pages);
    for (size_t place = 0; place < ON_THE_HEAP; place++) {
        unmap_guarded(bench->sheet_pages[place]);
        unmap_guarded(bench->input_pages[place]);
    }
}

/* The first of `length` bytes at the end or at the start of the pages. */
static uint8_t *within(struct guarded pages, enum place place, size_t length)
{
    return place == AT_THE_END ? pages.first + (pages.size - length) : pages.first;
}

/* Lays bytes into the pages of every place but the heap. More bytes than are usual have pages of their own, and they go with them: many pages are slow
 * to allow. */
static void lay_into(struct guarded *pages_of_places, size_t usual, const uint8_t *bytes, size_t length)
{
    size_t least = length > usual ? length : usual;
    for (enum place place = 0; place < ON_THE_HEAP; place++) {
        struct guarded *pages = &pages_of_places[place];
        if (pages->size != whole_pages(least)) {
            unmap_guarded(*pages);
            *pages = map_guarded(least);
        }
        allow(*pages, PROT_READ | PROT_WRITE);
        if (length != 0) {
            memcpy(within(*pages, place, length), bytes, length);
        }
        allow(*pages, PROT_READ);
    }
}

void lay_down(struct bench *bench, const uint8_t *input, size_t input_length)
{
    bench->input = input;
    bench->input_length = input_length;
    lay_into(bench->input_pages, URREZKALU_LONGEST_SLOT_PLAN, input, input_length);
}

void lay_beside(struct bench *bench, const uint8_t *sheet, size_t sheet_length)
{
    bench->sheet = sheet;
    bench->sheet_length = sheet_length;
    lay_into(bench->sheet_pages, URREZKALU_LONGEST_SHEET, sheet, sheet_length);
}

/* What a run has to read, in its place. */
struct reading {
    const uint8_t *input;
    const uint8_t *sheet;
};

/* In the pages of the place that is named by now. */
static struct reading in_the_pages(const struct bench *bench)
{
    return (struct reading){within(bench->input_pages[now.place], now.place, bench->input_length),
                            now.function == COMPARE_STATUS ? within(bench->sheet_pages[now.place], now.place, now.sheet_length) : NULL};
}

static uint64_t run(struct bench *bench, const struct trial *trial, struct reading reading, uint8_t *output)
{
    if (now.room != 0) {
        memcpy(output, bench->patterns[now.place], now.room);
    }
    bench->runs++;
    now.is_under_way = true;
    uint64_t number =
        bench->call(&(struct call){trial->function, reading.input, bench->input_length, output, now.room, reading.sheet, now.sheet_length});
    now.is_under_way = false;
    return number;
}

/* Runs the function and looks at the number and at the output, in which all that is not written must be the pattern. */
static void run_and_look(struct bench *bench, const struct trial *trial, struct reading reading, uint8_t *output)
{
    uint64_t number = run(bench, trial, reading, output);
    size_t length = urrezkalu_length(trial->number) * unit_of(trial->function);
    bool fits = length <= now.room;
    size_t written = fits ? length : 0;
    const uint8_t *pattern = bench->patterns[now.place];
    expect_of_run(bench, number == (fits ? trial->number : (uint64_t)URREZKALU_NO_ROOM << 32), "the wrong number came back");
    expect_of_run(bench, written == 0 || memcmp(output, trial->output, written) == 0, "what is written is not that of the first run");
    expect_of_run(bench, now.room == written || memcmp(output + written, pattern + written, now.room - written) == 0,
                  "a byte has changed that is none of those written");
}

static void run_with_room(struct bench *bench, const struct trial *trial, struct reading reading, size_t room)
{
    now.room = room;
    if (now.place == ON_THE_HEAP) {
        uint8_t *output = heap_block(room);
        run_and_look(bench, trial, reading, output);
        free(output);
    } else {
        run_and_look(bench, trial, reading, within(bench->output_pages, now.place, room));
    }
}

/* Runs the function with all rooms, in the place that is named by now. */
static void run_with_all_rooms(struct bench *bench, const struct trial *trial, struct reading reading)
{
    const struct nature *function = &functions[trial->function];
    if (function->rooms != 0 && bench->input_length <= function->longest_input) {
        for (size_t places = 0; places <= function->rooms; places++) {
            run_with_room(bench, trial, reading, places * function->unit);
        }
        return;
    }
    /* What is refused must leave any buffer alone, and one with room for all too. */
    bool done = urrezkalu_code(trial->number) == URREZKALU_DONE;
    size_t enough = (done ? urrezkalu_length(trial->number) : function->most) * function->unit;
    run_with_room(bench, trial, reading, 0);
    run_with_room(bench, trial, reading, enough - function->unit);
    run_with_room(bench, trial, reading, enough);
    run_with_room(bench, trial, reading, enough + MORE);
}

/* A heap block with these bytes. */
static uint8_t *copy_on_the_heap(const uint8_t *bytes, size_t length)
{
    uint8_t *block = heap_block(length);
    if (length != 0) {
        memcpy(block, bytes, length);
    }
    return block;
}

/* Input and sheet are heap blocks of just their lengths, and so is each output. */
static void run_on_the_heap(struct bench *bench, const struct trial *trial)
{
    now.place = ON_THE_HEAP;
    uint8_t *input = copy_on_the_heap(bench->input, bench->input_length);
    uint8_t *sheet = copy_on_the_heap(bench->sheet, now.sheet_length);
    run_with_all_rooms(bench, trial, (struct reading){input, sheet});
    expect_of_run(bench, bench->input_length == 0 || memcmp(input, bench->input, bench->input_length) == 0, "the input has changed");
    expect_of_run(bench, now.sheet_length == 0 || memcmp(sheet, bench->sheet, now.sheet_length) == 0, "the sheet has changed");
    free(sheet);
    free(input);
}

/* Finds out what the function comes to where there is room for all that it can write, and whether that is an answer of its at all. */
static void first_run(struct bench *bench, struct trial *trial)
{
    const struct nature *function = &functions[trial->function];
    now.place = AT_THE_END;
    now.room = function->most * function->unit;
    uint8_t *output = within(bench->output_pages, now.place, now.room);
    trial->number = run(bench, trial, in_the_pages(bench), output);
    memcpy(trial->output, output, now.room);
    uint32_t code = urrezkalu_code(trial->number);
    uint64_t rest = trial->number & UINT32_MAX;
    if (code == URREZKALU_DONE) {
        bench->done[trial->function]++;
        expect_of_run(bench, rest >= function->least && rest <= function->most, "it writes nothing of this length");
        expect_of_run(bench, bench->input_length <= function->longest_input, "it is done with nothing of this length");
    } else if (code == URREZKALU_MALFORMED && code != function->refusal) {
        bench->refused[trial->function]++;
        bool is_any = function->last_line == ANY_LINE;
        expect_of_run(bench, rest >= !is_any && rest <= (is_any ? bench->input_length + 1 : function->last_line), "no fault has this line");
    } else {
        bench->refused[trial->function]++;
        size_t last_place = code == URREZKALU_MALFORMED ? bench->input_length : 0;
        expect_of_run(bench, code == function->refusal && rest <= last_place, "there is no such number where there is room");
    }
}

bool try_function(struct bench *bench, struct trial *trial, enum function function)
{
    size_t faults = bench->faults;
    trial->function = function;
    now.function = function;
    now.input_length = bench->input_length;
    now.sheet_length = function == COMPARE_STATUS ? bench->sheet_length : 0;
    first_run(bench, trial);
    if (bench->faults != faults) {
        return false;
    }
    for (now.place = 0; now.place < ON_THE_HEAP; now.place++) {
        run_with_all_rooms(bench, trial, in_the_pages(bench));
    }
    run_on_the_heap(bench, trial);
    return bench->faults == faults;
}
