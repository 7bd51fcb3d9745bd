/* What status.c and status_lines.c share: calls with memory that is lent, and the wanted lines. Whoever includes it has defined TEST. */
#ifndef STATUS_CALLS_H
#define STATUS_CALLS_H

#include "lent.h"
#include "status.h"

enum {
    MORE = 64, /* The longest buffer has so many bytes more than a list, or than the longest list. */
    WANTED = 7
};

/* A wanted line: how it begins, the line of a whole text, and the keys of its values. */
static const struct {
    const char *beginning;
    const char *line;
    const char *keys[4];
} wanted[WANTED] = {
    {"Uid:", UID, {"ruid", "euid", "suid", "fsuid"}},
    {"CapInh:", INH, {"inheritable"}},
    {"CapPrm:", PRM, {"permitted"}},
    {"CapEff:", EFF, {"effective"}},
    {"CapBnd:", BND, {"bounding"}},
    {"CapAmb:", AMB, {"ambient"}},
    {"NoNewPrivs:", NNP, {"nnp"}},
};

/* One call. Beside a list that is NULL it is refused. */
static inline void expect_call(const char *what, const char *text, size_t length, const char *sheet, size_t sheet_length, size_t room,
                               uint64_t number, const char *list)
{
    uint8_t *lent_text = lend(text, length);
    uint8_t *lent_sheet = lend(sheet, sheet_length);
    uint8_t *lent_list = lend(NULL, room);
    uint64_t found = urrezkalu_compare_status(lent_text, length, lent_sheet, sheet_length, lent_list, room);
    int is_unread = (length == 0 || memcmp(lent_text, text, length) == 0) && (sheet_length == 0 || memcmp(lent_sheet, sheet, sheet_length) == 0);
    look(what, room, found, number, holds(lent_list, room, list, list == NULL ? 0 : strlen(list)), is_unread);
    free(lent_list);
    free(lent_sheet);
    free(lent_text);
}

#endif
