/* Capability sets in names across the C interface, read into every count of values and written into every length of buffer: the number that comes
 * back, and every byte of what was lent.
 *
 *     names
 *
 * What is expected was typed in from the paper. */
#define TEST "names"
#include "lent.h"
#include "names.h"

#include <ctype.h>

enum {
    MOST_VALUES = 5, /* Texts are read into 0 to so many values. */
    MORE = 64,       /* The longest buffer has so many bytes more than a text. */
    MOST = 128,      /* No text that is put together here is longer, but the longest and the long ones. */
    LONG = 1 << 20   /* The bytes of a long text. */
};

static const uint64_t full = 0x1ffffffffff;

/* Beginnings, and every byte that can follow each. */
static const struct {
    const char *beginning;
    const char *followers;
} beginnings[] = {
    {"", " \t\n=aAcC"},
    {" ", " \t\n=aAcC"},
    {"cap_kill=e ", " \t\n=aAcC"},
    {"c", "aA"},
    {"A", "lL"},
    {"cap", "_"},
    {"cap_", "abcdfiklmnpswABCDFIKLMNPSW"},
    {"CAP_SET", "fgpuFGPU"},
    {"cap_sys", "_lL"},
    {"cap_sys_", "abcmnprtABCMNPRT"},
    {"cap_net_b", "irIR"},
    {"cap_audit_", "crwCRW"},
    {"cap_setpca", "pP"},
    {"cap_kill", ",=+-"},
    {"cap_kill,", "cC"},
    {"cap_kill,cap_bpf", ",=+-"},
    {"all", "=+-"},
    {"=", "eip=+- \t\n"},
    {"cap_kill=", "eip=+- \t\n"},
    {"cap_kill+", "eip"},
    {"all-", "eip"},
    {"cap_kill+p", "eip=+- \t\n"},
    {"cap_kill=e=", "eip=+- \t\n"},
    {"cap_kill=e-", "eip"},
};

static void expect_read(const char *what, const void *text, size_t length, size_t count, uint64_t number, const uint64_t *sets)
{
    size_t size = count * sizeof *sets;
    uint8_t *lent_text = lend(text, length);
    uint64_t *lent_values = lend(NULL, size);
    uint64_t found = urrezkalu_read_names(lent_text, length, lent_values, count);
    size_t given = sets == NULL ? 0 : URREZKALU_NAMED_VALUES * sizeof *sets;
    int is_unread = length == 0 || memcmp(lent_text, text, length) == 0;
    look(what, count, found, number, holds((uint8_t *)lent_values, size, sets, given), is_unread);
    free(lent_values);
    free(lent_text);
}

static void expect_written(const char *what, const uint64_t *sets, size_t room, uint64_t number, const char *text, size_t length)
{
    uint8_t *lent = lend(NULL, room);
    uint64_t found =
        urrezkalu_write_names(sets[URREZKALU_NAMED_PERMITTED], sets[URREZKALU_NAMED_INHERITABLE], sets[URREZKALU_NAMED_EFFECTIVE], lent, room);
    look(what, room, found, number, holds(lent, room, text, length), 1);
    free(lent);
}

/* A text is read as these sets, where there is room for them. */
static void expect_sets(const char *text, size_t length, const uint64_t *sets)
{
    for (size_t count = 0; count <= MOST_VALUES; count++) {
        if (count < URREZKALU_NAMED_VALUES) {
            expect_read(text, text, length, count, refused(URREZKALU_NO_ROOM, 0), NULL);
        } else {
            expect_read(text, text, length, count, URREZKALU_NAMED_VALUES, sets);
        }
    }
}

/* A text is malformed whether there is room or not. */
static void expect_malformed(const char *what, const void *text, size_t length, uint32_t place)
{
    for (size_t count = 0; count <= MOST_VALUES; count++) {
        expect_read(what, text, length, count, refused(URREZKALU_MALFORMED, place), NULL);
    }
}

/* Sets are written as this text, where there is room for it. */
static void expect_text(const uint64_t *sets, const char *text, size_t length)
{
    for (size_t room = 0; room <= length + MORE; room++) {
        if (room < length) {
            expect_written(text, sets, room, refused(URREZKALU_NO_ROOM, 0), NULL, 0);
        } else {
            expect_written(text, sets, room, length, text, length);
        }
    }
}

/* Whether a beginning is a whole text: it ends between clauses, or its last clause has an operator and ends with neither `+` nor `-`. */
static int is_whole(const char *text, size_t length)
{
    int ends = 1;
    int has_operator = 0;
    for (size_t i = 0; i < length; i++) {
        int is_blank = memchr(" \t\n", text[i], 3) != NULL;
        has_operator = !is_blank && (has_operator || memchr("=+-", text[i], 3) != NULL);
        ends = is_blank || (has_operator && memchr("+-", text[i], 2) == NULL);
    }
    return ends;
}

/* A beginning is read as some sets if it is a whole text, and else ends too early. */
static void expect_beginning(const char *what, const char *text, size_t length)
{
    if (!is_whole(text, length)) {
        expect_malformed(what, text, length, (uint32_t)length);
        return;
    }
    uint64_t *lent = lend(NULL, MOST_VALUES * sizeof *lent);
    uint64_t found = urrezkalu_read_names((const uint8_t *)text, length, lent, MOST_VALUES);
    size_t given = URREZKALU_NAMED_VALUES * sizeof *lent;
    int is_within = (lent[URREZKALU_NAMED_PERMITTED] | lent[URREZKALU_NAMED_INHERITABLE] | lent[URREZKALU_NAMED_EFFECTIVE]) <= full;
    look(what, MOST_VALUES, found, URREZKALU_NAMED_VALUES, is_within && holds((uint8_t *)lent, MOST_VALUES * sizeof *lent, lent, given), 1);
    free(lent);
}

/* The text, and the text cut at every byte. */
static void try_text(const struct named_text *text)
{
    size_t length = strlen(text->text);
    expect_sets(text->text, length, text->sets);
    for (size_t cut = 0; cut < length; cut++) {
        expect_beginning("a text cut short", text->text, cut);
    }
    /* The NUL that ends it in C ends no text. */
    expect_malformed("a text and a NUL", text->text, length + 1, (uint32_t)length);
}

static void try_tables(void)
{
    for (size_t i = 0; i < sizeof written_texts / sizeof written_texts[0]; i++) {
        try_text(&written_texts[i]);
        expect_text(written_texts[i].sets, written_texts[i].text, strlen(written_texts[i].text));
    }
    for (size_t i = 0; i < sizeof other_texts / sizeof other_texts[0]; i++) {
        try_text(&other_texts[i]);
    }
    for (size_t i = 0; i < sizeof malformed_texts / sizeof malformed_texts[0]; i++) {
        expect_malformed(malformed_texts[i].text, malformed_texts[i].text, malformed_texts[i].length, malformed_texts[i].place);
    }
}

/* Every byte after a beginning: those that can follow make another, and all others are at fault. */
static void try_bytes(void)
{
    for (size_t i = 0; i < sizeof beginnings / sizeof beginnings[0]; i++) {
        char text[MOST];
        size_t length = strlen(beginnings[i].beginning);
        memcpy(text, beginnings[i].beginning, length);
        for (int byte = 0; byte < 256; byte++) {
            text[length] = (char)byte;
            if (byte != 0 && strchr(beginnings[i].followers, byte) != NULL) {
                expect_beginning(beginnings[i].beginning, text, length + 1);
            } else {
                expect_malformed(beginnings[i].beginning, text, length + 1, (uint32_t)length);
            }
        }
    }
}

/* Every name with all kinds of flags, in lower case and in upper. */
static void try_names(void)
{
    static const char *const flags[] = {"", "p", "i", "ip", "e", "ep", "ei", "eip"};
    for (size_t n = 0; n < CAPABILITIES; n++) {
        for (uint64_t way = 1; way < sizeof flags / sizeof flags[0]; way++) {
            const uint64_t sets[URREZKALU_NAMED_VALUES] = {(way & 1) << n, (way >> 1 & 1) << n, (way >> 2) << n};
            char text[MOST];
            size_t length = (size_t)snprintf(text, sizeof text, "%s=%s", names[n], flags[way]);
            expect_sets(text, length, sets);
            expect_text(sets, text, length);
            for (char *letter = text; *letter != '='; letter++) {
                *letter = (char)toupper(*letter);
            }
            expect_sets(text, length, sets);
        }
    }
}

/* Every two names: joined, in either order, and each in a set of its own, by number. */
static void try_pairs(void)
{
    for (size_t n = 0; n < CAPABILITIES; n++) {
        for (size_t m = n + 1; m < CAPABILITIES; m++) {
            const uint64_t one = (uint64_t)1 << n;
            const uint64_t other = (uint64_t)1 << m;
            const uint64_t joined[URREZKALU_NAMED_VALUES] = {0, one | other, 0};
            const uint64_t apart[URREZKALU_NAMED_VALUES] = {one, 0, other};
            char text[MOST];
            expect_sets(text, (size_t)snprintf(text, sizeof text, "%s,%s+i", names[n], names[m]), joined);
            expect_sets(text, (size_t)snprintf(text, sizeof text, "%s,%s+i", names[m], names[n]), joined);
            expect_text(apart, text, (size_t)snprintf(text, sizeof text, "%s=p %s=e", names[n], names[m]));
        }
    }
}

/* A bit above 40 in any of the three sets, alone and beside all others, whether there is room or not. */
static void try_bits(void)
{
    for (size_t set = 0; set < URREZKALU_NAMED_VALUES; set++) {
        for (unsigned bit = CAPABILITIES; bit < 64; bit++) {
            uint64_t alone[URREZKALU_NAMED_VALUES] = {0, 0, 0};
            uint64_t beside[URREZKALU_NAMED_VALUES] = {full, full, full};
            alone[set] = (uint64_t)1 << bit;
            beside[set] |= (uint64_t)1 << bit;
            for (size_t room = 0; room <= URREZKALU_LONGEST_NAMES + MORE; room++) {
                expect_written("a bit above 40", alone, room, refused(URREZKALU_OUT_OF_RANGE, 0), NULL, 0);
                expect_written("a bit above 40 beside all others", beside, room, refused(URREZKALU_OUT_OF_RANGE, 0), NULL, 0);
            }
        }
    }
}

/* All of them in all three sets. */
static void try_longest(void)
{
    const uint64_t sets[URREZKALU_NAMED_VALUES] = {full, full, full};
    char text[URREZKALU_LONGEST_NAMES + 1];
    size_t length = 0;
    for (size_t n = 0; n < CAPABILITIES; n++) {
        length += (size_t)snprintf(text + length, sizeof text - length, "%s%s=eip", n == 0 ? "" : " ", names[n]);
    }
    if (length != URREZKALU_LONGEST_NAMES) {
        printf(TEST ": the longest sets in names have %zu bytes\n", length);
        faults++;
        return;
    }
    expect_sets(text, length, sets);
    expect_text(sets, text, length);
}

/* A text has no greatest length: blanks, and clauses without end; and after them a byte that is at fault. */
static void try_long_texts(void)
{
    static const uint64_t none[URREZKALU_NAMED_VALUES] = {0, 0, 0};
    static const uint64_t kill[URREZKALU_NAMED_VALUES] = {0, 0, 0x20};
    static const char clause[] = "cap_kill+e\n";
    static char text[LONG];
    memset(text, ' ', sizeof text);
    expect_read("blanks", text, sizeof text, MOST_VALUES, URREZKALU_NAMED_VALUES, none);
    text[sizeof text - 1] = '+';
    expect_malformed("blanks and a plus", text, sizeof text, LONG - 1);
    for (size_t i = 0; i < sizeof text; i++) {
        text[i] = clause[i % (sizeof clause - 1)];
    }
    size_t whole = sizeof text - sizeof text % (sizeof clause - 1);
    expect_read("clauses", text, whole, MOST_VALUES, URREZKALU_NAMED_VALUES, kill);
    text[whole] = '+';
    expect_malformed("clauses and a plus", text, whole + 1, (uint32_t)whole);
}

/* No bytes, by pointers that point nowhere and are none. */
static void try_no_bytes(void)
{
    static const uint64_t none[URREZKALU_NAMED_VALUES] = {0, 0, 0};
    uint64_t values[URREZKALU_NAMED_VALUES] = {1, 1, 1};
    uint8_t *nowhere = (uint8_t *)values + sizeof values;
    uint64_t number = urrezkalu_read_names(nowhere, 0, values, URREZKALU_NAMED_VALUES);
    look("no text, by a pointer past an array", URREZKALU_NAMED_VALUES, number, URREZKALU_NAMED_VALUES, memcmp(values, none, sizeof none) == 0, 1);
    look("empty sets, by a pointer past an array", 0, urrezkalu_write_names(0, 0, 0, nowhere, 0), 0, 1, 1);
}

int main(void)
{
    try_tables();
    try_bytes();
    try_names();
    try_pairs();
    try_bits();
    try_longest();
    try_long_texts();
    try_no_bytes();
    printf(TEST ": %zu of %zu calls across the C interface as expected\n", tried - faults, tried);
    return faults == 0 ? 0 : 1;
}
