/* The place and the line of a fault where they no longer fit 32 bits: a text in names of more than 4 GiB, blanks and then a `+`; and a status text of
 * as many lines, which are empty.
 *
 *     far_place          reads one such text of each kind, which takes some seconds
 *     far_place --all    reads those about the edge too: the last place and line that are told as they are, and the next two
 *
 * The blanks are newlines, which end an empty line of a status text each. One block of them is mapped again and again, so that the text takes little
 * memory. Where the system has no such block, or no room for so many addresses, this is said and nothing is tried. */
#define _GNU_SOURCE
#include "../include/urrezkalu.h"

#include <errno.h>
#include <stdio.h>
#include <stdlib.h>
#include <string.h>
#include <sys/mman.h>
#include <unistd.h>

enum { BLOCK = 1 << 20 };

/* The blocks of the longest text. The last two are this program's own, so that it can put a fault into them. */
static const size_t blocks = 4097;
static const size_t own_blocks = 2;

/* How many blanks stand before the fault, and the place that comes back: 4294967295 for that one or any greater. */
static const struct {
    size_t blanks;
    uint32_t place;
} texts[] = {
    {4294967307, 4294967295},
    {4294967294, 4294967294},
    {4294967295, 4294967295},
    {4294967296, 4294967295},
};

/* How many newlines stand before what ends the status text, and the line that comes back. Where nothing stands there, Uid is due at the line after
 * the last; and a CapInh is not due. */
static const struct {
    size_t newlines;
    const char *end;
    uint32_t line;
} status_texts[] = {
    {4294967307, "", 4294967295},
    {4294967293, "", 4294967294},
    {4294967294, "", 4294967295},
    {4294967295, "", 4294967295},
    {4294967296, "", 4294967295},
    {4294967293, "CapInh:", 4294967294},
    {4294967294, "CapInh:", 4294967295},
    {4294967295, "CapInh:", 4294967295},
    {4294967307, "CapInh:", 4294967295},
};

/* Ends the program, with nothing tried. */
_Noreturn static void pass_over(const char *what)
{
    printf("far_place: passed over, since %s: %s\n", what, strerror(errno));
    exit(0);
}

/* A file in memory, one block of blanks. */
static int block_of_blanks(void)
{
    int file = memfd_create("blanks", 0);
    if (file < 0 || ftruncate(file, BLOCK) != 0) {
        pass_over("there are no files in memory");
    }
    void *block = mmap(NULL, BLOCK, PROT_READ | PROT_WRITE, MAP_SHARED, file, 0);
    if (block == MAP_FAILED) {
        pass_over("a file in memory cannot be mapped");
    }
    memset(block, '\n', BLOCK);
    munmap(block, BLOCK);
    return file;
}

/* All blocks, one after the other. */
static uint8_t *many_blanks(void)
{
    int file = block_of_blanks();
    uint8_t *text = mmap(NULL, blocks * BLOCK, PROT_NONE, MAP_PRIVATE | MAP_ANONYMOUS | MAP_NORESERVE, -1, 0);
    if (text == MAP_FAILED) {
        pass_over("there is no room for 4 GiB of addresses");
    }
    for (size_t i = 0; i < blocks; i++) {
        int is_own = i >= blocks - own_blocks;
        int protection = is_own ? PROT_READ | PROT_WRITE : PROT_READ;
        if (mmap(text + i * BLOCK, BLOCK, protection, MAP_FIXED | (is_own ? MAP_PRIVATE : MAP_SHARED), file, 0) == MAP_FAILED) {
            pass_over("a block cannot be mapped so often");
        }
    }
    close(file);
    return text;
}

/* Whether the text in names has its place. */
static int has_place(uint8_t *text, size_t blanks, uint32_t place)
{
    static const uint64_t before[URREZKALU_NAMED_VALUES] = {1, 2, 3};
    uint64_t values[URREZKALU_NAMED_VALUES];
    memcpy(values, before, sizeof values);
    text[blanks] = '+';
    uint64_t number = urrezkalu_read_names(text, blanks + 1, values, URREZKALU_NAMED_VALUES);
    text[blanks] = '\n';
    if (urrezkalu_code(number) == URREZKALU_MALFORMED && urrezkalu_place(number) == place && memcmp(values, before, sizeof values) == 0) {
        return 1;
    }
    printf("far_place: after %zu blanks: %#llx came back, or a value has changed\n", blanks, (unsigned long long)number);
    return 0;
}

/* Whether the status text has its line. */
static int has_line(uint8_t *text, size_t newlines, const char *end, uint32_t line)
{
    static const uint8_t before[URREZKALU_LONGEST_LIST] = {1, 2, 3};
    uint8_t list[URREZKALU_LONGEST_LIST];
    memcpy(list, before, sizeof list);
    memcpy(text + newlines, end, strlen(end));
    uint64_t number = urrezkalu_compare_status(text, newlines + strlen(end), NULL, 0, list, sizeof list);
    memset(text + newlines, '\n', strlen(end));
    if (urrezkalu_code(number) == URREZKALU_MALFORMED && urrezkalu_line(number) == line && memcmp(list, before, sizeof list) == 0) {
        return 1;
    }
    printf("far_place: after %zu newlines and `%s`: %#llx came back, or a byte has changed\n", newlines, end, (unsigned long long)number);
    return 0;
}

int main(int argc, char **argv)
{
    if (argc > 2 || (argc == 2 && strcmp(argv[1], "--all") != 0)) {
        fprintf(stderr, "usage: far_place [--all]\n");
        return 2;
    }
    size_t places = argc == 2 ? sizeof texts / sizeof texts[0] : 1;
    size_t lines = argc == 2 ? sizeof status_texts / sizeof status_texts[0] : 1;
    size_t right = 0;
    uint8_t *text = many_blanks();
    for (size_t i = 0; i < places; i++) {
        right += (size_t)has_place(text, texts[i].blanks, texts[i].place);
    }
    for (size_t i = 0; i < lines; i++) {
        right += (size_t)has_line(text, status_texts[i].newlines, status_texts[i].end, status_texts[i].line);
    }
    printf("far_place: %zu of %zu places and lines as expected\n", right, places + lines);
    return right == places + lines ? 0 : 1;
}
