/* The status texts of sanitize.c: good ones, whole and cut at every byte, and broken ones, beside sheets; and texts made of a sheet's values. */
#include "sanitize.h"
#include "status_malformed.h"

#include <inttypes.h>
#include <stdio.h>
#include <string.h>

enum {
    MOST = 256,   /* No status text of a sheet's values is longer. */
    COMPARED = 10 /* How many values of a sheet are compared. */
};

/* The compared values: their keys, their places in a sheet, and how a list has them. */
static const struct {
    const char *key;
    size_t place;
    bool is_set;
} compared[COMPARED] = {
    {"ruid", URREZKALU_RUID, false},           {"euid", URREZKALU_EUID, false},
    {"suid", URREZKALU_SUID, false},           {"fsuid", URREZKALU_FSUID, false},
    {"permitted", URREZKALU_PERMITTED, true},  {"inheritable", URREZKALU_INHERITABLE, true},
    {"effective", URREZKALU_EFFECTIVE, true},  {"bounding", URREZKALU_BOUNDING, true},
    {"ambient", URREZKALU_AMBIENT, true},      {"nnp", URREZKALU_NNP, false},
};

/* Runs what is laid down as a status text beside the sheet: whether that was as it has to be. */
static bool try_comparing(struct bench *bench, const uint8_t *sheet, size_t sheet_length, struct trial *trial)
{
    bench->statuses++;
    lay_beside(bench, sheet, sheet_length);
    return try_function(bench, trial, COMPARE_STATUS);
}

/* A list has this text. */
static void expect_list(struct bench *bench, const struct trial *comparing, const char *list)
{
    size_t length = strlen(list);
    expect(bench, comparing->number == length && memcmp(comparing->output, list, length) == 0, "the list is another");
}

/* Whether a line of the text begins with one of the wanted names and a colon. */
static bool has_wanted_line(const uint8_t *text, size_t text_length)
{
    static const char *const beginnings[] = {"Uid:", "CapInh:", "CapPrm:", "CapEff:", "CapBnd:", "CapAmb:", "NoNewPrivs:"};
    bool has = false;
    for (size_t i = 0; i < text_length; i++) {
        for (size_t j = 0; (i == 0 || text[i - 1] == '\n') && j < sizeof beginnings / sizeof beginnings[0]; j++) {
            size_t length = strlen(beginnings[j]);
            has = has || (length <= text_length - i && memcmp(text + i, beginnings[j], length) == 0);
        }
    }
    return has;
}

void try_as_status(struct bench *bench, const uint8_t *text, size_t text_length, const uint8_t *sheet, size_t sheet_length)
{
    struct trial comparing;
    if (!try_comparing(bench, sheet, sheet_length, &comparing) || has_wanted_line(text, text_length)) {
        return;
    }
    size_t lines = text_length != 0 && text[text_length - 1] != '\n';
    for (size_t i = 0; i < text_length; i++) {
        lines += text[i] == '\n';
    }
    expect(bench, comparing.number == ((uint64_t)URREZKALU_MALFORMED << 32 | (lines + 1)), "the fault is not at the line after the last");
}

/* The status text of the values. */
static size_t status_of(const uint64_t *values, char *text)
{
    return (size_t)snprintf(text, MOST,
                            "Uid:\t%" PRIu64 "\t%" PRIu64 "\t%" PRIu64 "\t%" PRIu64 "\nCapInh:\t%016" PRIx64 "\nCapPrm:\t%016" PRIx64
                            "\nCapEff:\t%016" PRIx64 "\nCapBnd:\t%016" PRIx64 "\nCapAmb:\t%016" PRIx64 "\nNoNewPrivs:\t%" PRIu64 "\n",
                            values[URREZKALU_RUID], values[URREZKALU_EUID], values[URREZKALU_SUID], values[URREZKALU_FSUID],
                            values[URREZKALU_INHERITABLE], values[URREZKALU_PERMITTED], values[URREZKALU_EFFECTIVE], values[URREZKALU_BOUNDING],
                            values[URREZKALU_AMBIENT], values[URREZKALU_NNP]);
}

/* Runs the status text of these values beside the sheet, which come to this list. */
static void try_values(struct bench *bench, const uint64_t *values, const uint8_t *sheet, size_t sheet_length, const char *list)
{
    struct trial comparing;
    char text[MOST];
    size_t length = status_of(values, text);
    lay_down(bench, (const uint8_t *)text, length);
    if (try_comparing(bench, sheet, sheet_length, &comparing)) {
        expect_list(bench, &comparing, list);
    }
}

/* The values of the sheet give the last line alone, and so with each text in another way one value that is another gives a line. */
static void try_values_found(struct bench *bench, const uint64_t *predicted, const uint8_t *sheet, size_t sheet_length)
{
    uint64_t found[URREZKALU_SHEET_VALUES];
    char list[URREZKALU_LONGEST_LIST + 1];
    size_t way = bench->texts % COMPARED;
    size_t place = compared[way].place;
    memcpy(found, predicted, sizeof found);
    try_values(bench, found, sheet, sheet_length, LAST);
    found[place] ^= 1;
    const char *form = compared[way].is_set ? "%s %016" PRIx64 " %016" PRIx64 "\n" LAST : "%s %" PRIu64 " %" PRIu64 "\n" LAST;
    snprintf(list, sizeof list, form, compared[way].key, predicted[place], found[place]);
    try_values(bench, found, sheet, sheet_length, list);
}

void try_beside(struct bench *bench, const uint8_t *sheet, size_t sheet_length, const struct trial *reading)
{
    struct trial comparing;
    if (urrezkalu_code(reading->number) == URREZKALU_DONE) {
        uint64_t values[URREZKALU_SHEET_VALUES];
        memcpy(values, reading->output, sizeof values);
        try_values_found(bench, values, sheet, sheet_length);
        return;
    }
    lay_down(bench, (const uint8_t *)WHOLE, sizeof(WHOLE) - 1);
    if (try_comparing(bench, sheet, sheet_length, &comparing)) {
        expect(bench, comparing.number == (uint64_t)urrezkalu_code(reading->number) << 32, "the sheet is not refused as the sheet reader refuses it");
    }
}

void try_status(struct bench *bench, const char *text, size_t text_length, const char *sheet, size_t sheet_length, uint64_t number, const char *list)
{
    struct trial comparing;
    say_where("a status text", 0);
    lay_down(bench, (const uint8_t *)text, text_length);
    if (!try_comparing(bench, (const uint8_t *)sheet, sheet_length, &comparing)) {
        return;
    }
    if (list == NULL) {
        expect(bench, comparing.number == number, "another number came back");
    } else {
        expect_list(bench, &comparing, list);
    }
}

/* The text cut at every byte: it has its list, or it is malformed at the line that the cut is in or at the next. */
static void try_cuts(struct bench *bench, const struct compared_text *row)
{
    const char *sheet = predictions[row->prediction];
    uint64_t line = 1;
    say_where("a status text that is cut", 0);
    for (size_t cut = 0; cut < row->length; cut++) {
        struct trial comparing;
        line += cut != 0 && row->text[cut - 1] == '\n';
        lay_down(bench, (const uint8_t *)row->text, cut);
        if (!try_comparing(bench, (const uint8_t *)sheet, strlen(sheet), &comparing)) {
            continue;
        }
        if (urrezkalu_code(comparing.number) == URREZKALU_DONE) {
            expect_list(bench, &comparing, row->list);
        } else {
            uint32_t found = urrezkalu_line(comparing.number);
            expect(bench, urrezkalu_code(comparing.number) == URREZKALU_MALFORMED && (found == line || found == line + 1),
                   "the fault is at no line of the cut");
        }
    }
}

void try_statuses(struct bench *bench)
{
    static const char invalid[] = "ruid=1000\neuid=1000\nsuid=1000\nfsuid=1000\nrgid=1000\negid=1000\nsgid=1000\nfsgid=4294967295\n"
                                  "permitted=0000000000002000\ninheritable=0000000000002000\neffective=0000000000002000\n"
                                  "bounding=000001ffffffffff\nambient=0000000000002000\nsecurebits=00\nnnp=0\n";
    const char *sheet = predictions[APART];
    for (size_t i = 0; i < sizeof compared_texts / sizeof compared_texts[0]; i++) {
        const struct compared_text *row = &compared_texts[i];
        try_status(bench, row->text, row->length, predictions[row->prediction], strlen(predictions[row->prediction]), 0, row->list);
        try_cuts(bench, row);
    }
    for (size_t i = 0; i < sizeof malformed_statuses / sizeof malformed_statuses[0]; i++) {
        const struct malformed_status *row = &malformed_statuses[i];
        uint64_t number = (uint64_t)URREZKALU_MALFORMED << 32 | row->line;
        try_status(bench, row->text, row->length, sheet, strlen(sheet), number, NULL);
        try_status(bench, row->text, row->length, sheet, strlen(sheet) - 1, number, NULL);
        try_status(bench, row->text, row->length, invalid, sizeof invalid - 1, number, NULL);
    }
    try_status(bench, TEXT(WHOLE), invalid, sizeof invalid - 1, (uint64_t)URREZKALU_INVALID << 32, NULL);
    for (size_t cut = 0; cut < strlen(sheet); cut++) {
        try_status(bench, TEXT(WHOLE), sheet, cut, (uint64_t)URREZKALU_MALFORMED << 32, NULL);
    }
}
