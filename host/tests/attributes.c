/* File attributes across the C interface, read into every count of values and written into every length of buffer: the number that comes back,
 * and every byte of what was lent.
 *
 *     attributes
 *
 * What is expected was typed in from the paper. */
#define TEST "attributes"
#include "lent.h"

enum { LONGEST = 32 /* Attributes of up to so many bytes are tried. */ };

struct file {
    const char *digits; /* The attribute in hex. */
    uint64_t values[URREZKALU_FILE_VALUES];
};

/* Attributes of version 2: first word, low permitted, low inheritable, high permitted, high inheritable. The paper's own is the first; then one
 * of empty sets, every byte for itself, one bit at an edge of each word, and all. */
static const struct file version_2[] = {
    {"0100000200200000000000000000000000000000", {1, 0x2000, 0, 1}},
    {"0000000200000000000000000000000000000000", {1, 0, 0, 0}},
    {"0100000212345678123456789a0000009a010000", {1, 0x9a78563412, 0x19a78563412, 1}},
    {"0000000211223344556677888100000042010000", {1, 0x8144332211, 0x14288776655, 0}},
    {"0100000201000000000000800001000001000000", {1, 0x10000000001, 0x180000000, 1}},
    {"01000002ffffffffffffffffff010000ff010000", {1, 0x1ffffffffff, 0x1ffffffffff, 1}},
};

/* Attributes of version 1: first word, permitted, inheritable. Beside each the version 2 of what is read from it. */
static const struct {
    struct file file;
    const char *written;
} version_1[] = {
    {{"010000010020000000000000", {1, 0x2000, 0, 1}}, "0100000200200000000000000000000000000000"},
    {{"000000010000000000000000", {1, 0, 0, 0}}, "0000000200000000000000000000000000000000"},
    {{"000000011122334455667788", {1, 0x44332211, 0x88776655, 0}}, "0000000211223344556677880000000000000000"},
    {{"01000001ffffffffffffffff", {1, 0xffffffff, 0xffffffff, 1}}, "01000002ffffffffffffffff0000000000000000"},
};

/* Bytes that are no attribute. */
static const char *const unreadable[] = {
    "00",
    "000000",
    "01000002",
    "0100000200200000",
    "01000001002000000000",
    /* A length that is the other revision's. */
    "010000020020000000000000",
    "0100000100200000000000000000000000000000",
    /* One byte less and one more. */
    "0100000100200000000000",
    "01000001002000000000000000",
    "01000002002000000000000000000000000000",
    "010000020020000000000000000000000000000000",
    /* Revision 3, with its further word and without. */
    "010000030020000000000000000000000000000000000000",
    "0100000300200000000000000000000000000000",
    /* The first word with its most significant byte first. */
    "0200000100002000000000000000000000000000",
    /* Capability 41, permitted and inheritable. */
    "0100000200000000000000000002000000000000",
    "0100000200000000000000000000000000020000",
};

/* Sets and bits that are out of range, alone and together. */
static const struct {
    uint64_t permitted;
    uint64_t inheritable;
    uint64_t effective;
} out_of_range[] = {
    {0x20000000000, 0, 0},
    {0, 0x20000000000, 1},
    {0x8000000000000000, 0x1ffffffffff, 1},
    {0x1ffffffffff, 0x3ffffffffff, 0},
    {0xffffffffffffffff, 0xffffffffffffffff, 1},
    {0, 0, 2},
    {0x2000, 0x2000, 256},
    {0x2000, 0, 4294967296},
    {0x2000, 0, 4294967297},
    {0, 0, 0xffffffffffffffff},
    {0x20000000000, 0x20000000000, 2},
};

static void expect_read(const char *what, const uint8_t *attribute, size_t length, size_t count, uint64_t number, const uint64_t *values)
{
    size_t size = count * sizeof *values;
    uint8_t *lent_attribute = lend(attribute, length);
    uint64_t *lent_values = lend(NULL, size);
    uint64_t found = urrezkalu_read_attribute(lent_attribute, length, lent_values, count);
    size_t written = values == NULL ? 0 : URREZKALU_FILE_VALUES * sizeof *values;
    int is_unread = length == 0 || memcmp(lent_attribute, attribute, length) == 0;
    look(what, count, found, number, holds((uint8_t *)lent_values, size, values, written), is_unread);
    free(lent_values);
    free(lent_attribute);
}

static void expect_written(const char *what, const uint64_t *file, size_t room, uint64_t number, const uint8_t *attribute)
{
    uint8_t *lent = lend(NULL, room);
    uint64_t found =
        urrezkalu_write_attribute(file[URREZKALU_FILE_PERMITTED], file[URREZKALU_FILE_INHERITABLE], file[URREZKALU_FILE_EFFECTIVE], lent, room);
    look(what, room, found, number, holds(lent, room, attribute, attribute == NULL ? 0 : URREZKALU_ATTRIBUTE_LENGTH), 1);
    free(lent);
}

/* Bytes are read as these values, where there is room for them. */
static void expect_values(const char *what, const uint8_t *attribute, size_t length, const uint64_t *values)
{
    for (size_t count = 0; count <= 13; count++) {
        if (count < URREZKALU_FILE_VALUES) {
            expect_read(what, attribute, length, count, refused(URREZKALU_NO_ROOM, 0), NULL);
        } else {
            expect_read(what, attribute, length, count, URREZKALU_FILE_VALUES, values);
        }
    }
}

/* Bytes are unreadable whether there is room or not. */
static void expect_unreadable(const char *what, const uint8_t *attribute, size_t length)
{
    for (size_t count = 0; count <= 13; count++) {
        expect_read(what, attribute, length, count, refused(URREZKALU_UNREADABLE, 0), NULL);
    }
}

/* Values are written as these bytes, where there is room for them. */
static void expect_bytes(const char *what, const uint64_t *file, const uint8_t *attribute)
{
    for (size_t room = 0; room <= 2 * LONGEST; room++) {
        if (room < URREZKALU_ATTRIBUTE_LENGTH) {
            expect_written(what, file, room, refused(URREZKALU_NO_ROOM, 0), NULL);
        } else {
            expect_written(what, file, room, URREZKALU_ATTRIBUTE_LENGTH, attribute);
        }
    }
}

/* Values are out of range whether there is room or not. */
static void expect_out_of_range(const char *what, uint64_t permitted, uint64_t inheritable, uint64_t effective)
{
    const uint64_t file[URREZKALU_FILE_VALUES] = {1, permitted, inheritable, effective};
    for (size_t room = 0; room <= LONGEST; room++) {
        expect_written(what, file, room, refused(URREZKALU_OUT_OF_RANGE, 0), NULL);
    }
}

/* The bytes that these digits stand for: how many they are. */
static size_t bytes_of(const char *digits, uint8_t *bytes)
{
    size_t length = strlen(digits) / 2;
    for (size_t i = 0; i < length; i++) {
        const char pair[] = {digits[2 * i], digits[2 * i + 1], '\0'};
        bytes[i] = (uint8_t)strtoul(pair, NULL, 16);
    }
    return length;
}

static void try_tables(void)
{
    uint8_t bytes[LONGEST];
    uint8_t written[LONGEST];
    for (size_t i = 0; i < sizeof version_2 / sizeof version_2[0]; i++) {
        size_t length = bytes_of(version_2[i].digits, bytes);
        expect_values(version_2[i].digits, bytes, length, version_2[i].values);
        expect_bytes(version_2[i].digits, version_2[i].values, bytes);
    }
    for (size_t i = 0; i < sizeof version_1 / sizeof version_1[0]; i++) {
        size_t length = bytes_of(version_1[i].file.digits, bytes);
        expect_values(version_1[i].file.digits, bytes, length, version_1[i].file.values);
        bytes_of(version_1[i].written, written);
        expect_bytes(version_1[i].written, version_1[i].file.values, written);
    }
    for (size_t i = 0; i < sizeof unreadable / sizeof unreadable[0]; i++) {
        size_t length = bytes_of(unreadable[i], bytes);
        expect_unreadable(unreadable[i], bytes, length);
    }
    for (size_t i = 0; i < sizeof out_of_range / sizeof out_of_range[0]; i++) {
        expect_out_of_range("values that are out of range", out_of_range[i].permitted, out_of_range[i].inheritable, out_of_range[i].effective);
    }
}

/* No bytes: none attached, by a null pointer and by one that points nowhere. */
static void try_none_attached(void)
{
    static const uint64_t none[URREZKALU_FILE_VALUES] = {0, 0, 0, 0};
    expect_values("no attribute", NULL, 0, none);
    uint64_t values[URREZKALU_FILE_VALUES] = {1, 1, 1, 1};
    const uint8_t *nowhere = (const uint8_t *)values + sizeof values;
    uint64_t number = urrezkalu_read_attribute(nowhere, 0, values, URREZKALU_FILE_VALUES);
    look("no attribute, by a pointer past an array", URREZKALU_FILE_VALUES, number, URREZKALU_FILE_VALUES, memcmp(values, none, sizeof none) == 0, 1);
}

/* Every length with every revision, all else being 0: only two pairs are those of an attribute. */
static void try_lengths(void)
{
    static const uint64_t empty_sets[URREZKALU_FILE_VALUES] = {1, 0, 0, 0};
    for (size_t length = 1; length <= LONGEST; length++) {
        for (unsigned revision = 0; revision < 256; revision++) {
            uint8_t bytes[LONGEST] = {0, 0, 0, (uint8_t)revision};
            if ((length == 12 && revision == 1) || (length == 20 && revision == 2)) {
                expect_values("a revision with its length", bytes, length, empty_sets);
            } else {
                expect_unreadable("a revision with another length", bytes, length);
            }
        }
    }
}

/* Each bit of version 2 by itself: the effective bit, the other bits of the first word, and those of the four words, 0 to 40 of either set. */
static void try_bits(void)
{
    static const unsigned lowest[] = {0, 0, 32, 32};
    for (unsigned bit = 0; bit < 8 * URREZKALU_ATTRIBUTE_LENGTH; bit++) {
        uint8_t bytes[URREZKALU_ATTRIBUTE_LENGTH] = {0, 0, 0, 2};
        bytes[bit / 8] ^= (uint8_t)(1 << bit % 8);
        uint64_t values[URREZKALU_FILE_VALUES] = {1, 0, 0, 0};
        if (bit == 0) {
            values[URREZKALU_FILE_EFFECTIVE] = 1;
            expect_values("the effective bit", bytes, sizeof bytes, values);
            expect_bytes("the effective bit", values, bytes);
        } else if (bit < 32) {
            expect_unreadable("another bit of the first word", bytes, sizeof bytes);
        } else {
            unsigned word = bit / 32 - 1;
            unsigned capability = bit % 32 + lowest[word];
            size_t set = word % 2 == 0 ? URREZKALU_FILE_PERMITTED : URREZKALU_FILE_INHERITABLE;
            values[set] = (uint64_t)1 << capability;
            if (capability <= 40) {
                expect_values("a capability", bytes, sizeof bytes, values);
                expect_bytes("a capability", values, bytes);
            } else {
                expect_unreadable("a capability above 40", bytes, sizeof bytes);
                expect_out_of_range("a capability above 40", values[URREZKALU_FILE_PERMITTED], values[URREZKALU_FILE_INHERITABLE], 0);
            }
        }
    }
}

int main(void)
{
    try_tables();
    try_none_attached();
    try_lengths();
    try_bits();
    printf(TEST ": %zu of %zu calls across the C interface as expected\n", tried - faults, tried);
    return faults == 0 ? 0 : 1;
}
