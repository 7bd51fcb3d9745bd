/* The attributes of sanitize.c: bytes of every length, read; and what is read of them, written again. */
#include "sanitize.h"

#include <string.h>

enum {
    LONGEST = 32,   /* Attributes of 0 to so many bytes are tried. */
    VARIANTS = 64,  /* How many of each length. */
    OPERANDS = 512, /* How many sets and bits are written besides. */
    FIRST_WORD = 4, /* The bytes of an attribute's first word, and of the two versions. */
    VERSION_1 = 12,
    VERSION_2 = 20,
    CAPABILITIES = 41
};

/* A row of numbers in no order, the same in every run. */
static uint64_t next(uint64_t *state)
{
    *state ^= *state << 13;
    *state ^= *state >> 7;
    *state ^= *state << 17;
    return *state;
}

/* Writes sets and bit: done exactly if no capability is above 40 and the bit is 0 or 1, and then to be read as what was written. */
static void try_operands(struct bench *bench, const uint64_t *operands, struct trial *writing)
{
    lay_down(bench, (const uint8_t *)operands, 3 * sizeof *operands);
    if (!try_function(bench, writing, WRITE_ATTRIBUTE)) {
        return;
    }
    bool in_range = (operands[0] | operands[1]) >> CAPABILITIES == 0 && operands[2] <= 1;
    expect(bench, (urrezkalu_code(writing->number) == URREZKALU_DONE) == in_range, "what is in range is refused, or what is not is written");
    if (in_range) {
        const uint64_t expected[URREZKALU_FILE_VALUES] = {1, operands[0], operands[1], operands[2]};
        uint64_t again[URREZKALU_FILE_VALUES];
        const struct call reading = {READ_ATTRIBUTE, writing->output, URREZKALU_ATTRIBUTE_LENGTH, (uint8_t *)again, sizeof again, NULL, 0};
        expect(bench, bench->call(&reading) == URREZKALU_FILE_VALUES && memcmp(again, expected, sizeof again) == 0,
               "the attribute is not read as what was written");
    }
}

void try_attribute(struct bench *bench, const uint8_t *attribute, size_t attribute_length)
{
    struct trial reading;
    say_where("an attribute", 0);
    bench->attributes++;
    lay_down(bench, attribute, attribute_length);
    if (!try_function(bench, &reading, READ_ATTRIBUTE) || urrezkalu_code(reading.number) != URREZKALU_DONE) {
        expect(bench, attribute_length != 0, "no bytes are refused");
        return;
    }
    uint64_t values[URREZKALU_FILE_VALUES];
    memcpy(values, reading.output, sizeof values);
    expect(bench, values[URREZKALU_ATTACHED] == (attribute_length != 0), "attached are bytes, and no bytes are not");
    if (attribute_length == 0) {
        expect(bench, (values[URREZKALU_FILE_PERMITTED] | values[URREZKALU_FILE_INHERITABLE] | values[URREZKALU_FILE_EFFECTIVE]) == 0,
               "no bytes have a set or a bit");
        return;
    }
    struct trial writing;
    try_operands(bench, &values[URREZKALU_FILE_PERMITTED], &writing);
    if (attribute_length == VERSION_2) {
        expect(bench, memcmp(writing.output, attribute, VERSION_2) == 0, "the attribute is not the one that was read");
    } else {
        /* Version 1 has the low words where version 2 has them. */
        expect(bench, memcmp(writing.output + FIRST_WORD, attribute + FIRST_WORD, VERSION_1 - FIRST_WORD) == 0, "the sets are not those that were read");
    }
}

/* Bytes of that length, of every four variants each more like an attribute than the one before. */
static void make_attribute(uint8_t *bytes, size_t length, unsigned variant, uint64_t *state)
{
    unsigned likeness = length < FIRST_WORD ? 0 : variant % 4;
    for (size_t i = 0; i < length; i++) {
        bytes[i] = (uint8_t)next(state);
    }
    if (likeness >= 1) {
        bytes[0] &= 1;
        bytes[1] = 0;
        bytes[2] = 0;
    }
    if (likeness >= 2) {
        /* The revision of that length, and now and then the other. */
        bytes[3] = (length < VERSION_2) == (variant % 16 < 12) ? 1 : 2;
    }
    if (likeness >= 3 && length >= VERSION_2) {
        static const uint8_t highest[] = {0xff, 1, 0, 0};
        for (size_t i = 0; i < sizeof highest; i++) {
            bytes[12 + i] &= highest[i];
            bytes[16 + i] &= highest[i];
        }
    }
}

uint64_t make_set(unsigned variant, uint64_t *state)
{
    uint64_t any = next(state);
    switch (variant % 4) {
    case 0:
        return any >> (64 - CAPABILITIES);
    case 1:
        return UINT64_MAX >> (64 - CAPABILITIES);
    case 2:
        return (uint64_t)1 << any % 64;
    default:
        return any;
    }
}

void try_attributes(struct bench *bench)
{
    uint64_t state = 0x9e3779b97f4a7c15;
    for (size_t length = 0; length <= LONGEST; length++) {
        for (unsigned variant = 0; variant < VARIANTS; variant++) {
            uint8_t bytes[LONGEST];
            make_attribute(bytes, length, variant, &state);
            try_attribute(bench, bytes, length);
        }
    }
    say_where("sets and a bit", 0);
    for (unsigned variant = 0; variant < OPERANDS; variant++) {
        struct trial writing;
        uint64_t bit = variant % 8 == 7 ? next(&state) : variant % 3;
        const uint64_t operands[3] = {make_set(variant / 8, &state), make_set(variant / 32, &state), bit};
        try_operands(bench, operands, &writing);
    }
}
