/* Status texts beside sheets across the C interface, the list written into every length of buffer: the number that comes back, and every byte of what
 * was lent.
 *
 *     status
 *
 * What is expected was typed in from the paper. */
#define TEST "status"
#include "status_calls.h"
#include "status_malformed.h"

enum { MOST = 512 /* No edited sheet is longer. */ };

/* Edits of case 2's sheet that leave no sheet. The last leaves values that are not valid too. */
static const struct edit {
    const char *part;
    const char *other;
} malformed_sheets[] = {
    {"ruid=1000\n", ""},
    {"ruid=1000", " ruid=1000"},
    {"ruid=1000", "Uid:\t1000\t1000\t1000\t1000"},
    {"ruid=1000", "ruid=4294967296"},
    {"euid=1000", "euid=01000"},
    {"suid=1000", "suid="},
    {"suid=1000\nfsuid=1000\n", "fsuid=1000\nsuid=1000\n"},
    {"fsuid=1000", "fsuid 1000"},
    {"rgid=1000\negid=1000\nsgid=1000\nfsgid=1000\n", ""},
    {"rgid=1000", "rgid=4294967296"},
    {"egid=1000", "egid=-1"},
    {"permitted=0000000000002000", "permitted=000000000002000"},
    {"permitted=0000000000002000\ninheritable=0000000000002000\n", "inheritable=0000000000002000\npermitted=0000000000002000\n"},
    {"inheritable=0000000000002000", "inheritable=00000000000002000"},
    {"effective=0000000000002000", "effective=\t0000000000002000"},
    {"bounding=000001ffffffffff", "bounding=000001FFffffffff"},
    {"ambient=0000000000002000\n", "ambient=0000000000002000\r\n"},
    {"securebits=00\n", ""},
    {"securebits=00", "securebits=000"},
    {"nnp=0", "nnp=2"},
    /* The last newline of a sheet is not optional, and nothing comes after it, be it what a plan or a report goes on with or comes from. */
    {"nnp=0\n", "nnp=0"},
    {"nnp=0\n", "nnp=0\n\n"},
    {"nnp=0\n", "nnp=0\nx"},
    {"nnp=0\n", "nnp=0\ncall=8\na=0000000000000000\nb=0000000000000000\nc=0000000000000000\nattr=\n"},
    {"ruid=1000", "code=0\nvalue=0000000000000000\ncause=0\nruid=1000"},
    {"ruid=1000\neuid=1000", "ruid=4294967295\neuid=x"},
};

/* Edits of case 2's sheet that leave it a sheet, of credentials that are not valid. Those of group IDs are not compared, and asked all the same. */
static const struct edit invalid_sheets[] = {
    {"ruid=1000", "ruid=4294967295"},
    {"euid=1000", "euid=4294967295"},
    {"suid=1000", "suid=4294967295"},
    {"fsuid=1000", "fsuid=4294967295"},
    {"rgid=1000", "rgid=4294967295"},
    {"egid=1000", "egid=4294967295"},
    {"sgid=1000", "sgid=4294967295"},
    {"fsgid=1000", "fsgid=4294967295"},
    {"permitted=0000000000002000", "permitted=0000020000002000"},
    {"permitted=0000000000002000", "permitted=0000000000000000"},
    {"inheritable=0000000000002000", "inheritable=8000000000002000"},
    {"inheritable=0000000000002000", "inheritable=0000000000000000"},
    {"effective=0000000000002000", "effective=0000000000006000"},
    {"bounding=000001ffffffffff", "bounding=000003ffffffffff"},
    {"bounding=000001ffffffffff", "bounding=ffffffffffffffff"},
    {"ambient=0000000000002000", "ambient=0000000000000001"},
};

/* A text and a sheet are refused thus with every room. */
static void expect_refused(const char *what, const char *text, size_t length, const char *sheet, size_t sheet_length, uint64_t number)
{
    for (size_t room = 0; room <= URREZKALU_LONGEST_LIST + MORE; room++) {
        expect_call(what, text, length, sheet, sheet_length, room, number, NULL);
    }
}

/* The list is this one, where there is room for it. */
static void expect_list(const char *what, const char *text, size_t length, const char *sheet, const char *list)
{
    size_t list_length = strlen(list);
    for (size_t room = 0; room <= list_length + MORE; room++) {
        if (room < list_length) {
            expect_call(what, text, length, sheet, strlen(sheet), room, refused(URREZKALU_NO_ROOM, 0), NULL);
        } else {
            expect_call(what, text, length, sheet, strlen(sheet), room, list_length, list);
        }
    }
}

/* Case 2's sheet with a part of it exchanged: its length. */
static size_t edited(char *into, const struct edit *edit)
{
    const char *sheet = predictions[CASE_2];
    const char *found = strstr(sheet, edit->part);
    if (found == NULL) {
        printf(TEST ": %s is not in the sheet\n", edit->part);
        exit(2);
    }
    return (size_t)snprintf(into, MOST, "%.*s%s%s", (int)(found - sheet), sheet, edit->other, found + strlen(edit->part));
}

/* Which wanted line these bytes begin, or WANTED. */
static size_t which_wanted(const char *line, size_t length)
{
    size_t which = 0;
    while (which < WANTED && (length < strlen(wanted[which].beginning) || memcmp(line, wanted[which].beginning, strlen(wanted[which].beginning)) != 0)) {
        which++;
    }
    return which;
}

/* Whether a wanted line that has lost its end is still one: a Uid line is, if a digit of its fourth value is left. */
static int is_still_whole(const char *line, size_t length)
{
    size_t tabs = 0;
    for (size_t i = 0; i < length; i++) {
        tabs += line[i] == '\t';
    }
    return which_wanted(line, length) == 0 && tabs == 4 && line[length - 1] != '\t';
}

/* The line of the fault in a text, which was read before it was cut here; 0 if all wanted lines are left. A line that lost its end is at fault itself if
 * it still begins as a wanted one and is not whole. Otherwise one is still due at the end, and that is the line after the last, where no line begins
 * after the last newline. */
static uint32_t line_of_cut(const char *text, size_t length, size_t cut)
{
    uint32_t lines = 0;
    size_t whole = 0;
    for (size_t first = 0; first < cut;) {
        const char *newline = memchr(text + first, '\n', length - first);
        size_t end = newline == NULL ? length : (size_t)(newline - text);
        size_t left = end <= cut ? end : cut;
        lines++;
        if (which_wanted(text + first, left - first) != WANTED) {
            if (left != end && !is_still_whole(text + first, left - first)) {
                return lines;
            }
            whole++;
        }
        first = end + 1;
    }
    return whole == WANTED ? 0 : lines + 1;
}

/* Every text that is read: with every room, and cut at every byte. */
static void try_compared(void)
{
    char what[MORE];
    for (size_t i = 0; i < sizeof compared_texts / sizeof compared_texts[0]; i++) {
        const struct compared_text *row = &compared_texts[i];
        const char *sheet = predictions[row->prediction];
        snprintf(what, sizeof what, "text %zu of those that are read", i + 1);
        expect_list(what, row->text, row->length, sheet, row->list);
        snprintf(what, sizeof what, "text %zu of those that are read, cut", i + 1);
        for (size_t cut = 0; cut < row->length; cut++) {
            uint32_t line = line_of_cut(row->text, row->length, cut);
            uint64_t number = line == 0 ? strlen(row->list) : refused(URREZKALU_MALFORMED, line);
            expect_call(what, row->text, cut, sheet, strlen(sheet), URREZKALU_LONGEST_LIST, number, line == 0 ? row->list : NULL);
        }
    }
}

/* Every text that is malformed: that comes before all that is wrong with a sheet, and before a lack of room. */
static void try_malformed(void)
{
    char malformed[MOST];
    char invalid[MOST];
    size_t malformed_length = edited(malformed, &malformed_sheets[0]);
    size_t invalid_length = edited(invalid, &invalid_sheets[0]);
    for (size_t i = 0; i < sizeof malformed_statuses / sizeof malformed_statuses[0]; i++) {
        const struct malformed_status *row = &malformed_statuses[i];
        uint64_t number = refused(URREZKALU_MALFORMED, row->line);
        char what[MORE];
        snprintf(what, sizeof what, "text %zu of those that are malformed", i + 1);
        expect_refused(what, row->text, row->length, predictions[APART], strlen(predictions[APART]), number);
        expect_refused(what, row->text, row->length, malformed, malformed_length, number);
        expect_refused(what, row->text, row->length, invalid, invalid_length, number);
        expect_refused(what, row->text, row->length, NULL, 0, number);
    }
}

/* Beside a text that is read: every sheet that is none, with line 0, which comes before values that are not valid; every sheet of such values; and each
 * of both comes before a lack of room. */
static void try_sheets(void)
{
    const char *sheet = predictions[CASE_2];
    char text[MOST];
    for (size_t i = 0; i < sizeof malformed_sheets / sizeof malformed_sheets[0]; i++) {
        size_t length = edited(text, &malformed_sheets[i]);
        expect_refused(malformed_sheets[i].other, TEXT(WHOLE), text, length, refused(URREZKALU_MALFORMED, 0));
    }
    for (size_t i = 0; i < sizeof invalid_sheets / sizeof invalid_sheets[0]; i++) {
        size_t length = edited(text, &invalid_sheets[i]);
        expect_refused(invalid_sheets[i].other, TEXT(WHOLE), text, length, refused(URREZKALU_INVALID, 0));
    }
    for (size_t cut = 0; cut < strlen(sheet); cut++) {
        expect_call("a sheet cut short", TEXT(WHOLE), sheet, cut, URREZKALU_LONGEST_LIST, refused(URREZKALU_MALFORMED, 0), NULL);
    }
    /* The NUL that ends it in C is text past the sheet. */
    expect_refused("a sheet and a NUL", TEXT(WHOLE), sheet, strlen(sheet) + 1, refused(URREZKALU_MALFORMED, 0));
    /* What is found is that of values which are not valid: it is still these that are asked. */
    size_t length = edited(text, &invalid_sheets[0]);
    expect_refused("values that are not valid, and found", TEXT("Uid:\t4294967295\t1000\t1000\t1000\n" INH PRM EFF BND AMB NNP), text, length,
                   refused(URREZKALU_INVALID, 0));
}

/* No bytes, by pointers that point nowhere and are none; and an empty sheet, which is malformed. */
static void try_no_bytes(void)
{
    const uint8_t *text = (const uint8_t *)WHOLE;
    const uint8_t *sheet = (const uint8_t *)predictions[APART];
    size_t length = sizeof(WHOLE) - 1;
    size_t sheet_length = strlen(predictions[APART]);
    uint8_t list[URREZKALU_LONGEST_LIST];
    uint8_t *nowhere = list + sizeof list;
    memset(list, BEFORE, sizeof list);
    look("nothing", 0, urrezkalu_compare_status(NULL, 0, NULL, 0, NULL, 0), refused(URREZKALU_MALFORMED, 1), 1, 1);
    look("nothing, by pointers past an array", 0, urrezkalu_compare_status(nowhere, 0, nowhere, 0, nowhere, 0), refused(URREZKALU_MALFORMED, 1), 1, 1);
    look("no text", sizeof list, urrezkalu_compare_status(nowhere, 0, sheet, sheet_length, list, sizeof list), refused(URREZKALU_MALFORMED, 1),
         holds(list, sizeof list, NULL, 0), 1);
    look("no sheet", sizeof list, urrezkalu_compare_status(text, length, nowhere, 0, list, sizeof list), refused(URREZKALU_MALFORMED, 0),
         holds(list, sizeof list, NULL, 0), 1);
    look("no sheet and no room", 0, urrezkalu_compare_status(text, length, NULL, 0, NULL, 0), refused(URREZKALU_MALFORMED, 0), 1, 1);
    look("no room", 0, urrezkalu_compare_status(text, length, sheet, sheet_length, NULL, 0), refused(URREZKALU_NO_ROOM, 0), 1, 1);
    look("no room, by a pointer past an array", 0, urrezkalu_compare_status(text, length, sheet, sheet_length, nowhere, 0),
         refused(URREZKALU_NO_ROOM, 0), 1, 1);
}

int main(void)
{
    try_compared();
    try_malformed();
    try_sheets();
    try_no_bytes();
    printf(TEST ": %zu of %zu calls across the C interface as expected\n", tried - faults, tried);
    return faults == 0 ? 0 : 1;
}
