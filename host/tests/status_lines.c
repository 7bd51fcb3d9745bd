/* Status texts that are put together, across the C interface: every byte of a text changed, lines of every kind that are passed over, long texts.
 *
 *     status_lines
 *
 * What is expected follows from the place of what was put in, by the paper's rules of what a wanted line is. */
#define TEST "status_lines"
#include "status_calls.h"
#include "status_malformed.h"

enum {
    MOST = 4096,   /* No text that is put together here is longer, but the long ones. */
    LONG = 1 << 20 /* How many bytes a long text has before, between or after its wanted lines. */
};

/* Lines that are passed over. */
static const struct {
    const char *text;
    size_t length;
} unwanted[] = {
    {TEXT("")},           {TEXT("x")},           {TEXT("Name:\tcat")},      {TEXT("Gid:\t0\t0\t0\t0")}, {TEXT("CapSet:\t0")},
    {TEXT("Uid")},        {TEXT("Ui")},          {TEXT("Uid\t0\t0\t0\t0")}, {TEXT("Uid 0")},            {TEXT("Uid=0")},
    {TEXT(" Uid:\t0")},   {TEXT("\tUid:\t0")},   {TEXT("uid:\t0")},         {TEXT("UID:\t0")},          {TEXT("Uids:\t0")},
    {TEXT("Uid :\t0")},   {TEXT("EUid:\t0")},    {TEXT("CapInh")},          {TEXT("CapInhX:\t0")},      {TEXT("CapPrm\0:\t0")},
    {TEXT("Capeff:\t0")}, {TEXT("CapBnd\xff:")}, {TEXT("CapAm:\t0")},       {TEXT("NoNewPriv:\t0")},    {TEXT("NoNewPrivs")},
    {TEXT("\0")},         {TEXT("\0Uid:\t0")},   {TEXT("\xff")},            {TEXT("\xffUid:\t0")},      {TEXT("\r")},
    {TEXT(":")},          {TEXT("::Uid:")},      {TEXT("x Uid:\t0")},       {TEXT("Cap\0Inh:\t0")},     {TEXT("Name:\tUid:\t0")},
};
enum { UNWANTED = sizeof unwanted / sizeof unwanted[0] };

/* A text that is put together. */
struct text {
    char bytes[MOST];
    size_t length;
};

static void append(struct text *text, const char *bytes, size_t length)
{
    if (length > sizeof text->bytes - text->length) {
        printf(TEST ": a text has no room for %zu bytes more\n", length);
        exit(2);
    }
    memcpy(text->bytes + text->length, bytes, length);
    text->length += length;
}

/* Beside the sheet in which no two values are alike, with room for any list: this one, */
static void expect_one_list(const char *what, const char *text, size_t length, const char *list)
{
    expect_call(what, text, length, predictions[APART], strlen(predictions[APART]), URREZKALU_LONGEST_LIST, strlen(list), list);
}

/* or a fault at this line. */
static void expect_one_fault(const char *what, const char *text, size_t length, uint32_t line)
{
    const char *sheet = predictions[APART];
    expect_call(what, text, length, sheet, strlen(sheet), URREZKALU_LONGEST_LIST, refused(URREZKALU_MALFORMED, line), NULL);
}

/* Every line that is passed over: three of it before, between and after the wanted ones, the last with no newline too; and one before every fault. */
static void try_unwanted(void)
{
    for (size_t i = 0; i < UNWANTED; i++) {
        for (size_t gap = 0; gap <= WANTED; gap++) {
            struct text text = {.length = 0};
            for (size_t which = 0; which <= WANTED; which++) {
                for (size_t again = 0; which == gap && again < 3; again++) {
                    append(&text, unwanted[i].text, unwanted[i].length);
                    append(&text, "\n", 1);
                }
                if (which < WANTED) {
                    append(&text, wanted[which].line, strlen(wanted[which].line));
                }
            }
            expect_one_list("lines that are passed over", text.bytes, text.length, LAST);
            expect_one_list("lines that are passed over, the last newline missing", text.bytes, text.length - 1, LAST);
        }
        for (size_t j = 0; j < sizeof malformed_statuses / sizeof malformed_statuses[0]; j++) {
            struct text text = {.length = 0};
            append(&text, unwanted[i].text, unwanted[i].length);
            append(&text, "\n", 1);
            append(&text, malformed_statuses[j].text, malformed_statuses[j].length);
            expect_one_fault("a line that is passed over, and a fault", text.bytes, text.length, malformed_statuses[j].line + 1);
        }
    }
}

/* Every byte before a wanted name, and every byte between it and its colon. Such a line is passed over, but for a newline before the name, which
 * leaves it a wanted line, and a colon after it. */
static void try_near_names(void)
{
    for (size_t which = 0; which < WANTED; which++) {
        size_t name = strlen(wanted[which].beginning) - 1;
        for (unsigned byte = 0; byte < 256; byte++) {
            const char added = (char)byte;
            struct text before = {.length = 0};
            struct text within = {.length = 0};
            append(&before, &added, 1);
            append(&before, wanted[which].beginning, name + 1);
            append(&before, TEXT("\n" WHOLE));
            append(&within, wanted[which].beginning, name);
            append(&within, &added, 1);
            append(&within, TEXT(":\n" WHOLE));
            if (added == '\n') {
                expect_one_fault("a newline before a name", before.bytes, before.length, 2);
            } else {
                expect_one_list("a byte before a name", before.bytes, before.length, LAST);
            }
            if (added == ':') {
                expect_one_fault("two colons", within.bytes, within.length, 1);
            } else {
                expect_one_list("a byte after a name", within.bytes, within.length, LAST);
            }
        }
    }
}

/* What a byte of a whole text is: of a name or its colon, of a value, or one that parts these. */
struct site {
    size_t which;  /* The wanted line, from 0. */
    size_t column; /* In that line. */
    size_t value;  /* For a digit: which value of the line, from 0, and where in the line that is. */
    size_t first;
    size_t past;
    int is_name;
    int is_digit;
};

static struct site site_of(size_t which, size_t column)
{
    const char *line = wanted[which].line;
    struct site site = {which, column, 0, 0, 0, column < strlen(wanted[which].beginning), 0};
    site.is_digit = !site.is_name && line[column] != '\t' && line[column] != '\n';
    for (size_t i = 0; site.is_digit && i < column; i++) {
        if (line[i] == '\t') {
            site.value += site.first != 0;
            site.first = i + 1;
        }
    }
    site.past = site.first + strcspn(line + site.first, "\t\n");
    return site;
}

/* Whether these digits are a value of that line: an ID up to 4294967295 with no leading zero, lower-case hex, 0 or 1. */
static int is_value(size_t which, const char *digits, size_t length)
{
    static const char *const allowed[WANTED] = {"0123456789", "0123456789abcdef", "0123456789abcdef", "0123456789abcdef", "0123456789abcdef",
                                                "0123456789abcdef", "01"};
    for (size_t i = 0; i < length; i++) {
        if (digits[i] == '\0' || strchr(allowed[which], digits[i]) == NULL) {
            return 0;
        }
    }
    return which != 0 || length == 1 || (digits[0] != '0' && (length < 10 || memcmp(digits, "4294967295", 10) <= 0));
}

/* One byte of a whole text is another one. In a name or for a colon it makes the line one that is passed over, and the next wanted one is not due; a
 * newline there makes two lines of it. Between values and at the end it makes the line malformed. A digit is another found value, and anything else
 * malformed; but a newline after the first digit of the last ID ends that line, and what is left of the ID is a line to be passed over. */
static void try_byte(const struct site *site, char byte)
{
    struct text text = {.length = 0};
    char list[URREZKALU_LONGEST_LIST + 1];
    const char *line = wanted[site->which].line;
    uint32_t number = (uint32_t)site->which + 1;
    size_t changed = 0;
    for (size_t which = 0; which < WANTED; which++) {
        changed += which < site->which ? strlen(wanted[which].line) : 0;
        append(&text, wanted[which].line, strlen(wanted[which].line));
    }
    const char *found = text.bytes + changed + site->first;
    text.bytes[changed + site->column] = byte;
    int found_length = (int)(site->past - site->first);
    if (site->is_digit && site->which == 0 && site->value == 3 && site->column > site->first && byte == '\n') {
        found_length = (int)(site->column - site->first);
    }
    if (byte == line[site->column]) {
        expect_one_list("a byte that is the same", text.bytes, text.length, LAST);
    } else if (site->is_name) {
        expect_one_fault("a byte of a name", text.bytes, text.length, number + 1 + (byte == '\n'));
    } else if (site->is_digit && is_value(site->which, found, (size_t)found_length)) {
        snprintf(list, sizeof list, "%s %.*s %.*s\n" LAST, wanted[site->which].keys[site->value], (int)(site->past - site->first), line + site->first,
                 found_length, found);
        expect_one_list("a digit that is another", text.bytes, text.length, list);
    } else {
        expect_one_fault("a byte of a value", text.bytes, text.length, number);
    }
}

static void try_bytes(void)
{
    for (size_t which = 0; which < WANTED; which++) {
        for (size_t column = 0; column < strlen(wanted[which].line); column++) {
            struct site site = site_of(which, column);
            for (unsigned byte = 0; byte < 256; byte++) {
                try_byte(&site, (char)byte);
            }
        }
    }
}

/* A megabyte of one piece again and again, as often as it is whole in it, between a front and a back: done if the line is 0. The line is that of a text
 * without the megabyte, and its lines are counted in. */
static void try_long_text(const char *front, const char *piece, size_t piece_length, const char *back, uint32_t line)
{
    static char text[LONG + MOST];
    size_t pieces = LONG / piece_length;
    size_t length = strlen(front);
    size_t lines = 0;
    memcpy(text, front, length);
    for (size_t i = 0; i < pieces; i++, length += piece_length) {
        memcpy(text + length, piece, piece_length);
    }
    memcpy(text + length, back, strlen(back));
    length += strlen(back);
    for (size_t i = 0; i < piece_length; i++) {
        lines += piece[i] == '\n';
    }
    if (line == 0) {
        expect_one_list("a long text", text, length, LAST);
    } else {
        expect_one_fault("a long text", text, length, line + (uint32_t)(pieces * lines));
    }
}

/* Long texts: lines that are passed over, short and long, and a fault after them. */
static void try_long_texts(void)
{
    static const struct {
        const char *text;
        size_t length;
    } pieces[] = {{TEXT("\n")}, {TEXT("Threads:\t1\n")}, {TEXT("\0\xff\n")}, {TEXT("Uid\n")}, {TEXT(" CapInh:\t0\n\n\nx\n")}};
    for (size_t i = 0; i < sizeof pieces / sizeof pieces[0]; i++) {
        try_long_text("", pieces[i].text, pieces[i].length, "", 1);
        try_long_text("", pieces[i].text, pieces[i].length, "x", 2);
        try_long_text("", pieces[i].text, pieces[i].length, WHOLE, 0);
        try_long_text("", pieces[i].text, pieces[i].length, "Uid:\n" WHOLE, 1);
        try_long_text("", pieces[i].text, pieces[i].length, PRM, 1);
        try_long_text("", pieces[i].text, pieces[i].length, UID "\n" INH EFF, 4);
        try_long_text(UID INH, pieces[i].text, pieces[i].length, PRM EFF BND AMB NNP, 0);
        try_long_text(UID INH, pieces[i].text, pieces[i].length, "", 3);
        try_long_text(UID INH, pieces[i].text, pieces[i].length, "CapPrm:\t0\n", 3);
        try_long_text(WHOLE, pieces[i].text, pieces[i].length, "", 0);
        try_long_text(WHOLE, pieces[i].text, pieces[i].length, "Uid", 0);
        try_long_text(WHOLE, pieces[i].text, pieces[i].length, NNP, 8);
    }
    /* One line of a megabyte, passed over; and as values. */
    try_long_text("", TEXT("x"), "", 2);
    try_long_text("", TEXT("x"), "\n" WHOLE, 0);
    try_long_text(UID INH, TEXT("\0"), "\nCapEff:", 4);
    try_long_text("Uid:\t7\t1002\t65534\t", TEXT("4294967294"), "\n" INH PRM EFF BND AMB NNP, 1);
    try_long_text("Uid:\t", TEXT("0"), "\n", 1);
    try_long_text("Uid:", TEXT("\t7"), "\n", 1);
    try_long_text(UID "CapInh:\t", TEXT("0"), "\n" PRM EFF BND AMB NNP, 2);
    try_long_text(UID INH PRM EFF BND AMB "NoNewPrivs:\t", TEXT("1"), "", 7);
    try_long_text(UID INH PRM EFF BND AMB "NoNewPrivs:\t1\nUid", TEXT("x"), ":", 0);
}

/* A sheet of a megabyte is none. */
static void try_long_sheet(void)
{
    static char sheet[LONG];
    size_t length = strlen(predictions[APART]);
    memset(sheet, '\n', sizeof sheet);
    memcpy(sheet, predictions[APART], length);
    expect_call("a sheet and newlines", TEXT(WHOLE), sheet, sizeof sheet, URREZKALU_LONGEST_LIST, refused(URREZKALU_MALFORMED, 0), NULL);
    expect_call("a sheet and newlines, beside a fault", TEXT(UID), sheet, sizeof sheet, URREZKALU_LONGEST_LIST, refused(URREZKALU_MALFORMED, 2), NULL);
}

int main(void)
{
    try_unwanted();
    try_near_names();
    try_bytes();
    try_long_texts();
    try_long_sheet();
    printf(TEST ": %zu of %zu calls across the C interface as expected\n", tried - faults, tried);
    return faults == 0 ? 0 : 1;
}
