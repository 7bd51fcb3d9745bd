/* What slot_plans.c and slot_tables.c share: a call with memory that is lent. Whoever includes it has defined TEST. */
#ifndef SLOT_CALLS_H
#define SLOT_CALLS_H

#include "lent.h"
#include "slot_plans.h"

enum { MORE = 64 /* The longest buffer has so many bytes more than a report. */ };

/* One call. Beside a report that is NULL it is refused. */
static inline void expect_call(const char *what, const char *text, size_t length, size_t room, uint64_t number, const char *report)
{
    uint8_t *lent_text = lend(text, length);
    uint8_t *lent_report = lend(NULL, room);
    uint64_t found = urrezkalu_run_slot_plan(lent_text, length, lent_report, room);
    int is_unread = length == 0 || memcmp(lent_text, text, length) == 0;
    look(what, room, found, number, holds(lent_report, room, report, report == NULL ? 0 : strlen(report)), is_unread);
    free(lent_report);
    free(lent_text);
}

/* The report is this one: there is room for it exactly, one byte less, and more. */
static inline void expect_report(const char *what, const char *text, size_t length, const char *report)
{
    size_t report_length = strlen(report);
    expect_call(what, text, length, report_length, report_length, report);
    expect_call(what, text, length, report_length - 1, refused(URREZKALU_NO_ROOM, 0), NULL);
    expect_call(what, text, length, URREZKALU_LONGEST_SLOT_REPORT + MORE, report_length, report);
}

/* The text is refused thus, whether there is no room, too little or enough. */
static inline void expect_refused(const char *what, const char *text, size_t length, uint64_t number)
{
    static const size_t rooms[] = {0, 1, 300, URREZKALU_LONGEST_REPORT, URREZKALU_LONGEST_SLOT_REPORT};
    for (size_t i = 0; i < sizeof rooms / sizeof rooms[0]; i++) {
        expect_call(what, text, length, rooms[i], number, NULL);
    }
}

#endif
