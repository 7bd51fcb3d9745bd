/* The texts in names of sanitize.c: good ones, whole and cut at every byte, and broken ones; and sets, which are written and read again. */
#include "sanitize.h"
#include "names.h"

#include <stdio.h>
#include <string.h>

enum {
    OPERANDS = 128, /* How many sets are written besides those of texts. */
    MOST = 32       /* No name with its flags is longer. */
};

/* Reads the bytes as a text in names: whether that was as it has to be. */
static bool try_reading(struct bench *bench, const char *text, size_t length, struct trial *trial)
{
    say_where("a text in names", 0);
    bench->names++;
    lay_down(bench, (const uint8_t *)text, length);
    return try_function(bench, trial, READ_NAMES);
}

/* Reads the beginning of a text: if it is not read as sets, it only ends too early. */
static void try_beginning(struct bench *bench, const char *text, size_t length)
{
    struct trial reading;
    if (try_reading(bench, text, length, &reading)) {
        expect(bench, urrezkalu_code(reading.number) == URREZKALU_DONE || urrezkalu_place(reading.number) == length,
               "the place of a beginning is not its end");
    }
}

void try_sets(struct bench *bench, const uint64_t *sets)
{
    struct trial writing;
    say_where("sets", 0);
    lay_down(bench, (const uint8_t *)sets, URREZKALU_NAMED_VALUES * sizeof *sets);
    if (!try_function(bench, &writing, WRITE_NAMES)) {
        return;
    }
    bool in_range = (sets[0] | sets[1] | sets[2]) >> CAPABILITIES == 0;
    expect(bench, (urrezkalu_code(writing.number) == URREZKALU_DONE) == in_range, "what is in range is refused, or what is not is written");
    if (in_range) {
        uint64_t again[URREZKALU_NAMED_VALUES];
        const struct call reading = {READ_NAMES, writing.output, urrezkalu_length(writing.number), (uint8_t *)again, sizeof again, NULL, 0};
        expect(bench, bench->call(&reading) == URREZKALU_NAMED_VALUES && memcmp(again, sets, sizeof again) == 0,
               "the text is not read as what was written");
    }
}

void try_named_text(struct bench *bench, const char *text, const uint64_t *sets)
{
    struct trial reading;
    size_t length = strlen(text);
    if (try_reading(bench, text, length, &reading)) {
        expect(bench, reading.number == URREZKALU_NAMED_VALUES && memcmp(reading.output, sets, URREZKALU_NAMED_VALUES * sizeof *sets) == 0,
               "the text is not read as its sets");
    }
    for (size_t cut = 0; cut < length; cut++) {
        try_beginning(bench, text, cut);
    }
    try_sets(bench, sets);
}

void try_malformed_text(struct bench *bench, const char *text, size_t text_length, size_t place)
{
    struct trial reading;
    if (try_reading(bench, text, text_length, &reading)) {
        expect(bench, reading.number == ((uint64_t)URREZKALU_MALFORMED << 32 | place), "the text is not malformed at its place");
    }
    try_beginning(bench, text, place);
}

void try_names(struct bench *bench)
{
    for (size_t i = 0; i < sizeof written_texts / sizeof written_texts[0]; i++) {
        try_named_text(bench, written_texts[i].text, written_texts[i].sets);
    }
    for (size_t i = 0; i < sizeof other_texts / sizeof other_texts[0]; i++) {
        try_named_text(bench, other_texts[i].text, other_texts[i].sets);
    }
    for (size_t i = 0; i < sizeof malformed_texts / sizeof malformed_texts[0]; i++) {
        try_malformed_text(bench, malformed_texts[i].text, malformed_texts[i].length, malformed_texts[i].place);
    }
    for (size_t n = 0; n < CAPABILITIES; n++) {
        const uint64_t sets[URREZKALU_NAMED_VALUES] = {(uint64_t)1 << n, 0, (uint64_t)1 << n};
        char text[MOST];
        snprintf(text, sizeof text, "%s+ep", names[n]);
        try_named_text(bench, text, sets);
    }
    uint64_t state = 0x9e3779b97f4a7c15;
    for (unsigned variant = 0; variant < OPERANDS; variant++) {
        const uint64_t sets[URREZKALU_NAMED_VALUES] = {make_set(variant, &state), make_set(variant / 4, &state), make_set(variant / 16, &state)};
        try_sets(bench, sets);
    }
}
