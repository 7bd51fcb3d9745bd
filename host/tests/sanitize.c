/* The C interface under the address and undefined-behaviour sanitizers, and between inaccessible pages.
 *
 *     sanitize PLAN.. [-]      runs the plans, and with `-` a stream of them on standard input; and attributes, texts in names, status texts and
 *                              slot plans of its own
 *     sanitize --self-test     shows that the guards and the checks catch what they are there for
 *
 * In the stream each plan is its length, 32 bits with the least significant byte first, and then its bytes.
 *
 * A text is run as a plan, and read as a sheet, whole and in its first fifteen lines; what is read is written again. It is read as a text in names
 * too, and as a status text beside its own first lines. Beside a sheet there is laid a status text of its values, and one with another value. The text
 * is run as a slot plan, and so is the slot plan that has its steps in slot 0, or in slot 1 after a fork. Texts that are in names, status texts and slot
 * plans are good and broken, the good ones whole and cut at every byte. Attributes are of every length from none to past the
 * longest. Each function is called with no room, with one place too few, with exactly enough and with more; to read values, to write an attribute
 * or to write sets in names, with every number of places from none to past enough. All that in three places: with all buffers at the very end, and
 * then at the very start, of mappings that have inaccessible pages on both sides, what is read in pages that cannot be written; and then in heap
 * blocks of just their lengths. The library itself is not instrumented, so that the sanitizers see only what it hands to the C library; the pages
 * are what ends this program for certain at the library's first byte out of bounds. What is in a buffer and is not written must keep its pattern,
 * all runs on one input must agree, and so must the functions with each other. */
#include "sanitize.h"

#include <sanitizer/common_interface_defs.h>
#include <stdio.h>
#include <stdlib.h>
#include <string.h>

/* No text is longer; in a stream a greater length is a sign that it is out of step. */
enum { LARGEST_TEXT = 16 << 20 };

/* The sanitizers ask for their settings before main. A status of its own tells an end by them from all others. */
const char *__asan_default_options(void);
const char *__ubsan_default_options(void);

const char *__asan_default_options(void)
{
    return "exitcode=99";
}

const char *__ubsan_default_options(void)
{
    return "exitcode=99";
}

/* Room for a text of that length. */
static uint8_t *text_block(size_t length)
{
    uint8_t *block = malloc(length == 0 ? 1 : length);
    if (block == NULL) {
        give_up("malloc");
    }
    return block;
}

static void try_file(struct bench *bench, const char *name)
{
    FILE *file = fopen(name, "rb");
    if (file == NULL) {
        give_up(name);
    }
    uint8_t *text = text_block(LARGEST_TEXT);
    size_t length = fread(text, 1, LARGEST_TEXT, file);
    if (ferror(file)) {
        give_up(name);
    }
    if (!feof(file)) {
        fprintf(stderr, "sanitize: %s is too long for this program\n", name);
        exit(TROUBLE);
    }
    fclose(file);
    try_text(bench, name, 0, text, length);
    free(text);
}

static void try_stream(struct bench *bench, FILE *stream)
{
    uint8_t head[4];
    size_t got;
    for (size_t position = 1; (got = fread(head, 1, sizeof head, stream)) == sizeof head; position++) {
        size_t length = (size_t)head[0] | (size_t)head[1] << 8 | (size_t)head[2] << 16 | (size_t)head[3] << 24;
        if (length > LARGEST_TEXT) {
            fprintf(stderr, "sanitize: text %zu in the stream has %zu bytes: the stream is out of step\n", position, length);
            exit(TROUBLE);
        }
        uint8_t *text = text_block(length);
        if (length != 0 && fread(text, 1, length, stream) != length) {
            fprintf(stderr, "sanitize: the stream ends within text %zu\n", position);
            exit(TROUBLE);
        }
        try_text(bench, "standard input", position, text, length);
        free(text);
    }
    if (got != 0 || ferror(stream)) {
        fprintf(stderr, "sanitize: the stream ends within a length, or cannot be read\n");
        exit(TROUBLE);
    }
}

/* Whether each function was done with an input and refused another: else the plans show little. */
static bool has_seen_enough(const struct bench *bench)
{
    bool enough = true;
    for (enum function function = 0; function < FUNCTIONS; function++) {
        if (bench->done[function] == 0 || bench->refused[function] == 0) {
            fprintf(stderr, "sanitize: %s was done %zu times and refused %zu times: other plans are needed\n", name_of(function),
                    bench->done[function], bench->refused[function]);
            enough = false;
        }
    }
    return enough;
}

int main(int argc, char **argv)
{
    if (argc == 2 && strcmp(argv[1], "--self-test") == 0) {
        return self_test();
    }
    struct bench bench;
    set_up(&bench, call_library);
    __sanitizer_set_death_callback(name_the_last_run);
    for (int i = 1; i < argc; i++) {
        if (strcmp(argv[i], "-") == 0) {
            try_stream(&bench, stdin);
        } else {
            try_file(&bench, argv[i]);
        }
    }
    try_attributes(&bench);
    try_names(&bench);
    try_statuses(&bench);
    try_slot_plans(&bench);
    clear_away(&bench);
    if (bench.texts == 0) {
        fprintf(stderr, "sanitize: no plans: sanitize PLAN.. [-], or sanitize --self-test\n");
        return TROUBLE;
    }
    printf("sanitize: %zu texts, %zu attributes, %zu texts in names, %zu status texts, %zu slot plans, %zu runs, %zu faults\n", bench.texts,
           bench.attributes, bench.names, bench.statuses, bench.slot_plans, bench.runs, bench.faults);
    if (bench.faults != 0) {
        return FAULTS;
    }
    return has_seen_enough(&bench) ? 0 : TROUBLE;
}
