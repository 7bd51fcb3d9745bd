/* Sheets across the C interface, read into every count of values and written into every length of buffer: the number that comes back, and every
 * byte of what was lent.
 *
 *     sheets
 *
 * What is expected was typed in from the paper. */
#define TEST "sheets"
#include "lent.h"

enum {
    MOST = 512,     /* No edited sheet is longer. */
    LONG = 1 << 20, /* The bytes of a long text. */
    SETS = 5
};

struct sheet {
    const char *text;
    size_t length;
    uint64_t values[URREZKALU_SHEET_VALUES];
};

static const uint64_t full = 0x1ffffffffff;

/* The paper's report of case 2; one in which no two values are alike; the shortest; the longest. */
static const struct sheet sheets[] = {
    {"ruid=1000\neuid=1000\nsuid=1000\nfsuid=1000\nrgid=1000\negid=1000\nsgid=1000\nfsgid=1000\n"
     "permitted=0000000000002000\ninheritable=0000000000002000\neffective=0000000000002000\nbounding=000001ffffffffff\nambient=0000000000002000\n"
     "securebits=00\nnnp=0\n",
     236,
     {1000, 1000, 1000, 1000, 1000, 1000, 1000, 1000, 0x2000, 0x2000, 0x2000, 0x1ffffffffff, 0x2000, 0, 0}},
    {"ruid=7\neuid=1002\nsuid=65534\nfsuid=4294967294\nrgid=5\negid=1003\nsgid=65533\nfsgid=4294967293\n"
     "permitted=0000011223344556\ninheritable=0000018a9bacbdce\neffective=0000010203040506\nbounding=000000fedcba9876\nambient=0000010000000400\n"
     "securebits=b1\nnnp=1\n",
     244,
     {7, 1002, 65534, 4294967294, 5, 1003, 65533, 4294967293, 0x11223344556, 0x18a9bacbdce, 0x10203040506, 0xfedcba9876, 0x10000000400, 0xb1, 1}},
    {"ruid=0\neuid=0\nsuid=0\nfsuid=0\nrgid=0\negid=0\nsgid=0\nfsgid=0\n"
     "permitted=0000000000000000\ninheritable=0000000000000000\neffective=0000000000000000\nbounding=0000000000000000\nambient=0000000000000000\n"
     "securebits=00\nnnp=0\n",
     212,
     {0, 0, 0, 0, 0, 0, 0, 0, 0, 0, 0, 0, 0, 0, 0}},
    {"ruid=4294967294\neuid=4294967294\nsuid=4294967294\nfsuid=4294967294\nrgid=4294967294\negid=4294967294\nsgid=4294967294\nfsgid=4294967294\n"
     "permitted=000001ffffffffff\ninheritable=000001ffffffffff\neffective=000001ffffffffff\nbounding=000001ffffffffff\nambient=000001ffffffffff\n"
     "securebits=ff\nnnp=1\n",
     284,
     {4294967294, 4294967294, 4294967294, 4294967294, 4294967294, 4294967294, 4294967294, 4294967294, 0x1ffffffffff, 0x1ffffffffff, 0x1ffffffffff,
      0x1ffffffffff, 0x1ffffffffff, 0xff, 1}},
};
static const struct sheet *const case_2 = &sheets[0];

/* Edits of case 2's sheet that make it malformed, each at this line. */
static const struct {
    const char *good;
    const char *broken;
    uint32_t line;
} malformed[] = {
    {"ruid=1000\n", "", 1},
    {"ruid=1000", "ruid =1000", 1},
    {"ruid=1000", "ruid=4294967296", 1},
    {"ruid=1000", "ruid=18446744073709552616", 1},
    {"euid=1000", "euid=01000", 2},
    {"euid=1000", "euid=", 2},
    {"suid=1000", "suid=+1000", 3},
    {"suid=1000\nfsuid=1000\n", "fsuid=1000\nsuid=1000\n", 3},
    {"fsuid=1000", "fsuid=3e8", 4},
    {"rgid=1000\negid=1000\nsgid=1000\nfsgid=1000\n", "", 5},
    {"rgid=1000", "rgid=4294967296", 5},
    {"rgid=1000\negid=1000\n", "egid=1000\nrgid=1000\n", 5},
    {"egid=1000", "egid=01000", 6},
    {"egid=1000", "euid=1000", 6},
    {"sgid=1000", "sgid=", 7},
    {"sgid=1000\n", "", 7},
    {"fsgid=1000", "fsgid=-1000", 8},
    {"fsgid=1000", "fsgid=18446744073709552616", 8},
    {"permitted=0000000000002000", "permitted=000000000002000", 9},
    {"inheritable=0000000000002000", "inheritable=00000000000002000", 10},
    {"effective=0000000000002000", "effective=0x00000000002000", 11},
    {"bounding=000001ffffffffff", "bounding=000001Ffffffffff", 12},
    {"ambient=0000000000002000", "ambient=000000000000200g", 13},
    {"ambient=0000000000002000\n", "ambient=0000000000002000\r\n", 13},
    {"securebits=00", "securebits=0", 14},
    {"securebits=00", "securebits=100", 14},
    {"nnp=0", "nnp=2", 15},
    {"nnp=0", "nnp=00", 15},
    {"nnp=0\n", "nnp=0", 15},
    {"nnp=0\n", "nnp=0\n\n", 16},
    {"nnp=0\n", "nnp=0\nx", 16},
    {"nnp=0\n", "nnp=0\nnnp=0\n", 16},
    {"nnp=0\n", "nnp=0\ncall=8\na=0000000000000000\nb=0000000000000000\nc=0000000000000000\nattr=\n", 16},
    /* Malformed comes before invalid. */
    {"ruid=1000\neuid=1000", "ruid=4294967295\neuid=x", 2},
};

/* Edits of case 2's sheet that leave it a sheet, of credentials that are not valid; and the value that says the same. */
static const struct {
    const char *valid;
    const char *invalid;
    size_t place;
    uint64_t value;
} invalid[] = {
    {"ruid=1000", "ruid=4294967295", URREZKALU_RUID, 4294967295},
    {"euid=1000", "euid=4294967295", URREZKALU_EUID, 4294967295},
    {"suid=1000", "suid=4294967295", URREZKALU_SUID, 4294967295},
    {"fsuid=1000", "fsuid=4294967295", URREZKALU_FSUID, 4294967295},
    {"rgid=1000", "rgid=4294967295", URREZKALU_RGID, 4294967295},
    {"egid=1000", "egid=4294967295", URREZKALU_EGID, 4294967295},
    {"sgid=1000", "sgid=4294967295", URREZKALU_SGID, 4294967295},
    {"fsgid=1000", "fsgid=4294967295", URREZKALU_FSGID, 4294967295},
    {"permitted=0000000000002000", "permitted=0000020000002000", URREZKALU_PERMITTED, 0x20000002000},
    {"permitted=0000000000002000", "permitted=0000000000000000", URREZKALU_PERMITTED, 0},
    {"inheritable=0000000000002000", "inheritable=0000020000002000", URREZKALU_INHERITABLE, 0x20000002000},
    {"inheritable=0000000000002000", "inheritable=0000000000000000", URREZKALU_INHERITABLE, 0},
    {"effective=0000000000002000", "effective=0000000000006000", URREZKALU_EFFECTIVE, 0x6000},
    {"bounding=000001ffffffffff", "bounding=000003ffffffffff", URREZKALU_BOUNDING, 0x3ffffffffff},
    {"bounding=000001ffffffffff", "bounding=8000000000000000", URREZKALU_BOUNDING, 0x8000000000000000},
    {"ambient=0000000000002000", "ambient=0000000000000001", URREZKALU_AMBIENT, 1},
};

/* Values that no line can have, and that do not wrap to one it can. */
static const struct {
    size_t place;
    uint64_t value;
} unwritable[] = {
    {URREZKALU_RUID, 4294967296},
    {URREZKALU_EUID, 4294968296},
    {URREZKALU_SUID, 0x8000000000000000},
    {URREZKALU_FSUID, 0xffffffffffffffff},
    {URREZKALU_RGID, 4294967296},
    {URREZKALU_EGID, 4294968296},
    {URREZKALU_SGID, 0x8000000000000000},
    {URREZKALU_FSGID, 0xffffffffffffffff},
    {URREZKALU_PERMITTED, 0xffffffffffffffff},
    {URREZKALU_SECUREBITS, 256},
    {URREZKALU_SECUREBITS, 4294967296},
    {URREZKALU_SECUREBITS, 0xffffffffffffffff},
    {URREZKALU_NNP, 2},
    {URREZKALU_NNP, 4294967296},
    {URREZKALU_NNP, 0xffffffffffffffff},
};

static void expect_read(const char *what, const char *text, size_t length, size_t count, uint64_t number, const uint64_t *values)
{
    size_t size = count * sizeof *values;
    uint8_t *lent_text = lend(text, length);
    uint64_t *lent_values = lend(NULL, size);
    uint64_t found = urrezkalu_read_sheet(lent_text, length, lent_values, count);
    size_t written = values == NULL ? 0 : URREZKALU_SHEET_VALUES * sizeof *values;
    int is_unread = length == 0 || memcmp(lent_text, text, length) == 0;
    look(what, count, found, number, holds((uint8_t *)lent_values, size, values, written), is_unread);
    free(lent_values);
    free(lent_text);
}

static void expect_written(const char *what, const uint64_t *values, size_t count, size_t room, uint64_t number, const struct sheet *sheet)
{
    uint64_t *lent_values = lend(values, count * sizeof *values);
    uint8_t *lent_sheet = lend(NULL, room);
    uint64_t found = urrezkalu_write_sheet(lent_values, count, lent_sheet, room);
    size_t length = sheet == NULL ? 0 : sheet->length;
    int is_unread = count == 0 || memcmp(lent_values, values, count * sizeof *values) == 0;
    look(what, room, found, number, holds(lent_sheet, room, sheet == NULL ? NULL : sheet->text, length), is_unread);
    free(lent_sheet);
    free(lent_values);
}

/* A text is refused thus whether it lacks room or not: with no values, one too few, just enough, and more. */
static void expect_refused_text(const char *what, const char *text, size_t length, uint64_t number)
{
    static const size_t counts[] = {0, 14, 15, 17};
    for (size_t i = 0; i < sizeof counts / sizeof counts[0]; i++) {
        expect_read(what, text, length, counts[i], number, NULL);
    }
}

/* Values are not valid whether the sheet has room or not. */
static void expect_invalid_values(const char *what, const uint64_t *values, size_t count)
{
    static const size_t rooms[] = {0, 211, 212, URREZKALU_LONGEST_SHEET, URREZKALU_LONGEST_SHEET + 1};
    for (size_t i = 0; i < sizeof rooms / sizeof rooms[0]; i++) {
        expect_written(what, values, count, rooms[i], refused(URREZKALU_INVALID, 0), NULL);
    }
}

static void expect_invalid_value(const char *what, size_t place, uint64_t value)
{
    uint64_t values[URREZKALU_SHEET_VALUES];
    memcpy(values, case_2->values, sizeof values);
    values[place] = value;
    expect_invalid_values(what, values, URREZKALU_SHEET_VALUES);
}

/* Case 2's sheet with a part of it exchanged: its length. */
static size_t edited(char *into, const char *part, const char *other)
{
    const char *found = strstr(case_2->text, part);
    if (found == NULL) {
        printf(TEST ": %s is not in the sheet\n", part);
        exit(2);
    }
    int front = (int)(found - case_2->text);
    return (size_t)snprintf(into, MOST, "%.*s%s%s", front, case_2->text, other, found + strlen(part));
}

static void try_sheet(const struct sheet *sheet)
{
    if (strlen(sheet->text) != sheet->length) {
        printf(TEST ": a sheet of %zu bytes has %zu\n", sheet->length, strlen(sheet->text));
        exit(2);
    }
    for (size_t count = 0; count <= 20; count++) {
        if (count < URREZKALU_SHEET_VALUES) {
            expect_read("a sheet", sheet->text, sheet->length, count, refused(URREZKALU_NO_ROOM, 0), NULL);
        } else {
            expect_read("a sheet", sheet->text, sheet->length, count, URREZKALU_SHEET_VALUES, sheet->values);
        }
    }
    for (size_t room = 0; room <= sheet->length + 64; room++) {
        if (room < sheet->length) {
            expect_written("a sheet's values", sheet->values, URREZKALU_SHEET_VALUES, room, refused(URREZKALU_NO_ROOM, 0), NULL);
        } else {
            expect_written("a sheet's values", sheet->values, URREZKALU_SHEET_VALUES, room, sheet->length, sheet);
        }
    }
    /* Cut anywhere it is malformed, at the line that the cut is in. */
    uint32_t line = 1;
    for (size_t cut = 0; cut < sheet->length; cut++) {
        line += cut != 0 && sheet->text[cut - 1] == '\n';
        expect_refused_text("a sheet cut short", sheet->text, cut, refused(URREZKALU_MALFORMED, line));
    }
    /* The NUL that ends it in C is text past the sheet. */
    expect_refused_text("a sheet and a NUL", sheet->text, sheet->length + 1, refused(URREZKALU_MALFORMED, 16));
}

static void try_edits(void)
{
    char text[MOST];
    for (size_t i = 0; i < sizeof malformed / sizeof malformed[0]; i++) {
        size_t length = edited(text, malformed[i].good, malformed[i].broken);
        expect_refused_text(malformed[i].broken, text, length, refused(URREZKALU_MALFORMED, malformed[i].line));
    }
    for (size_t i = 0; i < sizeof invalid / sizeof invalid[0]; i++) {
        size_t length = edited(text, invalid[i].valid, invalid[i].invalid);
        expect_refused_text(invalid[i].invalid, text, length, refused(URREZKALU_INVALID, 0));
        expect_invalid_value(invalid[i].invalid, invalid[i].place, invalid[i].value);
    }
    for (size_t i = 0; i < sizeof unwritable / sizeof unwritable[0]; i++) {
        expect_invalid_value("a value that no line has", unwritable[i].place, unwritable[i].value);
    }
}

/* Values are fifteen, and any other count of them is not valid. */
static void try_counts(void)
{
    uint64_t values[2 * URREZKALU_SHEET_VALUES];
    for (size_t i = 0; i < sizeof values / sizeof values[0]; i++) {
        values[i] = case_2->values[i % URREZKALU_SHEET_VALUES];
    }
    for (size_t count = 0; count <= sizeof values / sizeof values[0]; count++) {
        if (count != URREZKALU_SHEET_VALUES) {
            expect_invalid_values("not fifteen values", values, count);
        }
    }
}

/* A bit above 40 in any of the five sets. */
static void try_bits(void)
{
    for (size_t set = URREZKALU_PERMITTED; set < URREZKALU_PERMITTED + SETS; set++) {
        for (unsigned bit = 41; bit < 64; bit++) {
            uint64_t values[URREZKALU_SHEET_VALUES] = {0, 0, 0, 0, 0, 0, 0, 0, full, full, full, full, full, 0, 0};
            values[set] |= (uint64_t)1 << bit;
            expect_invalid_values("a bit above 40", values, URREZKALU_SHEET_VALUES);
        }
    }
}

/* What stands after one byte more than the longest sheet decides nothing, however much it is. */
static void try_long_texts(void)
{
    static char text[LONG];
    memset(text, '\n', sizeof text);
    expect_refused_text("newlines", text, sizeof text, refused(URREZKALU_MALFORMED, 1));
    for (size_t i = 0; i < sizeof sheets / sizeof sheets[0]; i++) {
        memset(text, '\n', sizeof text);
        memcpy(text, sheets[i].text, sheets[i].length);
        expect_refused_text("a sheet and newlines", text, sizeof text, refused(URREZKALU_MALFORMED, 16));
        expect_refused_text("a sheet and newlines, cut", text, URREZKALU_LONGEST_SHEET + 1, refused(URREZKALU_MALFORMED, 16));
        /* The digit of the last line. */
        text[sheets[i].length - 2] = '2';
        expect_refused_text("a broken sheet and newlines", text, sizeof text, refused(URREZKALU_MALFORMED, 15));
        expect_refused_text("a broken sheet and newlines, cut", text, URREZKALU_LONGEST_SHEET + 1, refused(URREZKALU_MALFORMED, 15));
    }
}

int main(void)
{
    for (size_t i = 0; i < sizeof sheets / sizeof sheets[0]; i++) {
        try_sheet(&sheets[i]);
    }
    try_edits();
    try_counts();
    try_bits();
    try_long_texts();
    printf(TEST ": %zu of %zu calls across the C interface as expected\n", tried - faults, tried);
    return faults == 0 ? 0 : 1;
}
