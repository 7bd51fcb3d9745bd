/* What sheets.c, attributes.c, names.c and those of status texts and slot plans share: memory that is lent to the library, what it holds before and
 * after, and what is counted. Whoever includes it has defined TEST, the name of the test in its messages. */
#ifndef LENT_H
#define LENT_H

#include "../include/urrezkalu.h"

#include <stdio.h>
#include <stdlib.h>
#include <string.h>

/* What lent memory holds before, in each of its bytes. No text and no attribute of these tests has it. */
enum { BEFORE = 0xA5 };

/* The number of a refusal. */
static inline uint64_t refused(uint32_t code, uint32_t line)
{
    return (uint64_t)code << 32 | line;
}

/* A heap block of just so many bytes, with this content or else with BEFORE in each. Of no bytes there is none: NULL. */
static inline void *lend(const void *content, size_t size)
{
    if (size == 0) {
        return NULL;
    }
    void *block = malloc(size);
    if (block == NULL) {
        perror("malloc");
        exit(2);
    }
    if (content == NULL) {
        memset(block, BEFORE, size);
    } else {
        memcpy(block, content, size);
    }
    return block;
}

/* Whether the block's first bytes are what was to be written, and all others as they were lent. */
static inline int holds(const uint8_t *block, size_t size, const void *written, size_t written_size)
{
    if (written_size > size || (written_size != 0 && memcmp(block, written, written_size) != 0)) {
        return 0;
    }
    for (size_t i = written_size; i < size; i++) {
        if (block[i] != BEFORE) {
            return 0;
        }
    }
    return 1;
}

/* What has been counted. */
static size_t tried;
static size_t faults;

/* Looks at a call that came back: its number, what was lent to be written, and whether what was lent to be read is as it was. */
static inline void look(const char *what, size_t room, uint64_t found, uint64_t expected, int is_written, int is_unread)
{
    tried++;
    if (found != expected || !is_written || !is_unread) {
        printf(TEST ": %s, room for %zu: %#llx came back, %#llx was expected%s%s\n", what, room, (unsigned long long)found, (unsigned long long)expected,
               is_written ? "" : "; what was lent to be written is wrong", is_unread ? "" : "; what was lent to be read has changed");
        faults++;
    }
}

#endif
