/* What sanitize.c, its pages, its bench, its trials and its self-test share. */
#ifndef SANITIZE_H
#define SANITIZE_H

#include "../include/urrezkalu.h"

#include <stdbool.h>

enum {
    FAULTS = 1,    /* The status after a run with a wrong number or a wrong byte. */
    TROUBLE = 2,   /* The status where this program cannot do its work. */
    SANITIZER = 99 /* The status with which the sanitizers end it. */
};

/* Pages that can be used, between pages that cannot. */
struct guarded {
    uint8_t *first;
    size_t size;
};

/* Prints the system's reason and ends the program. */
_Noreturn void give_up(const char *what);

/* The bytes of as many whole pages as `least` bytes need. */
size_t whole_pages(size_t least);

struct guarded map_guarded(size_t least);
void unmap_guarded(struct guarded pages);

/* Allows the pages what `protection` says, as mprotect does. */
void allow(struct guarded pages, int protection);

/* The functions of the header. */
enum function {
    RUN_PLAN,
    RUN_SLOT_PLAN,
    READ_SHEET,
    WRITE_SHEET,
    READ_ATTRIBUTE,
    WRITE_ATTRIBUTE,
    READ_NAMES,
    WRITE_NAMES,
    COMPARE_STATUS,
    FUNCTIONS
};

/* A call of any of them, with what it reads and what it may write as bytes. What urrezkalu_write_attribute and urrezkalu_write_names have for an
 * input are their operands. urrezkalu_compare_status alone has a sheet beside its input. */
struct call {
    enum function function;
    const uint8_t *input;
    size_t input_length;
    uint8_t *output;
    size_t output_length;
    const uint8_t *sheet;
    size_t sheet_length;
};

/* What makes the calls: the library, or in the self-test one that does something wrong. */
typedef uint64_t caller(const struct call *call);

uint64_t call_library(const struct call *call);

const char *name_of(enum function function);

/* The bytes of one place in what the function writes: of a value, or of a byte. */
size_t unit_of(enum function function);

/* The code of its refusal that has no line and is not for want of room. That of urrezkalu_read_names has a place. */
uint32_t refusal_of(enum function function);

/* Where input and output of a run are. The pages come first: there a stray access has no way to spoil the heap unseen. */
enum place { AT_THE_END, AT_THE_START, ON_THE_HEAP, PLACES };

/* An input and a sheet with pages of their own for each place but the heap, the pages for an output, what stands where nothing is written, and what
 * has been counted. */
struct bench {
    caller *call;
    const uint8_t *input;
    size_t input_length;
    struct guarded input_pages[ON_THE_HEAP];
    const uint8_t *sheet;
    size_t sheet_length;
    struct guarded sheet_pages[ON_THE_HEAP];
    struct guarded output_pages;
    uint8_t *patterns[PLACES];
    size_t texts;
    size_t attributes;
    size_t names;
    size_t statuses;
    size_t slot_plans;
    size_t done[FUNCTIONS]; /* The inputs with which each function was done, and those that it refused. */
    size_t refused[FUNCTIONS];
    size_t runs;
    size_t faults;
};

void set_up(struct bench *bench, caller *call);
void clear_away(struct bench *bench);

/* What the next runs are of, for messages: the name of a file, or a place in a stream, from 1. */
void say_where(const char *name, size_t position);

/* For the message about a run that never comes back. */
void name_the_last_run(void);

/* Lays the input down for the next runs, in pages that cannot be written. */
void lay_down(struct bench *bench, const uint8_t *input, size_t input_length);

/* Lays the sheet down that stands beside the input of urrezkalu_compare_status, likewise. */
void lay_beside(struct bench *bench, const uint8_t *sheet, size_t sheet_length);

/* A function on the input that is laid down, and what it came to in its first run, which has room for all that it can write. */
struct trial {
    enum function function;
    uint64_t number;
    uint8_t output[URREZKALU_LONGEST_SLOT_REPORT];
};

/* Runs the function in all places with all rooms: whether that was as it has to be. */
bool try_function(struct bench *bench, struct trial *trial, enum function function);

/* Counts a fault of the input and the function that were tried last, unless all is right. */
void expect(struct bench *bench, bool right, const char *what);

/* Runs a text: as a plan, as a slot plan and with its steps in a slot, as a sheet, as one in names and as a status text; its first fifteen lines as a
 * sheet, also beside status texts; and the values of that. */
void try_text(struct bench *bench, const char *name, size_t position, const uint8_t *text, size_t text_length);

/* Runs the bytes as an attribute, and what they are read as. */
void try_attribute(struct bench *bench, const uint8_t *attribute, size_t attribute_length);

/* Runs attributes of 0 to 32 bytes, and sets and bits in range and out of it. */
void try_attributes(struct bench *bench);

/* A set, by the two lowest bits of `variant` in range, full, of one capability, or of any 64. */
uint64_t make_set(unsigned variant, uint64_t *state);

/* Runs a text in names that stands for these three sets, the same cut at every byte, and the sets. */
void try_named_text(struct bench *bench, const char *text, const uint64_t *sets);

/* Runs a text that is malformed at this place, and what is before the place. */
void try_malformed_text(struct bench *bench, const char *text, size_t text_length, size_t place);

/* Runs three sets: they are written in names, and what is written is read. */
void try_sets(struct bench *bench, const uint64_t *sets);

/* Runs texts in names, good and broken, and sets in range and out of it. */
void try_names(struct bench *bench);

/* Runs the text, which is laid down, as a status text beside the sheet. */
void try_as_status(struct bench *bench, const uint8_t *text, size_t text_length, const uint8_t *sheet, size_t sheet_length);

/* Runs status texts beside the sheet, after what the sheet reader came to with it. */
void try_beside(struct bench *bench, const uint8_t *sheet, size_t sheet_length, const struct trial *reading);

/* Runs a status text beside a sheet, which come to this number, and if they do not refuse it to this list. */
void try_status(struct bench *bench, const char *text, size_t text_length, const char *sheet, size_t sheet_length, uint64_t number, const char *list);

/* Runs status texts, good and broken, the good ones whole and cut at every byte, beside sheets, good and broken. */
void try_statuses(struct bench *bench);

/* Runs the text, which is laid down, as a slot plan, after what it came to as a plan. */
void try_as_slot_plan(struct bench *bench, const uint8_t *text, size_t text_length, size_t sheet_length, const struct trial *running);

/* Runs the slot plan in which all steps of a text are in slot 0, or in slot 1 after a fork, after what it came to as a plan. */
void try_in_slot(struct bench *bench, const uint8_t *text, size_t text_length, size_t sheet_length, const struct trial *running);

/* Runs a slot plan, which comes to this number, and if it is not refused to this report. */
void try_slot_plan(struct bench *bench, const char *text, size_t text_length, uint64_t number, const char *report);

/* Runs slot plans, good and broken, the good ones whole and cut at every byte. */
void try_slot_plans(struct bench *bench);

/* Shows that stray accesses and wrong answers are caught: 0 if they all are. */
int self_test(void);

#endif
