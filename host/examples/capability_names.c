/* An installer's capabilities in names: the sets that a text stands for, and the text that stands for sets.
 *
 *     capability_names TEXT
 *     capability_names --write PERMITTED INHERITABLE EFFECTIVE
 *
 * TEXT is in the form of cap_text_formats(7), as cap_net_raw+ep is; with - in its place, all of standard input is. Its three sets go to standard
 * output, in the lines that a sheet has for them. PERMITTED, INHERITABLE and EFFECTIVE are sets, of 1 to 16 hex digits: the text that stands for
 * them goes to standard output. Hex letters are lower case. The status is 0 if that is done, 1 if the text is malformed or a set has a bit above
 * 40, and 2 for other arguments, or if the input cannot be read or the output cannot be written. */
#include "urrezkalu.h"

#include <errno.h>
#include <inttypes.h>
#include <signal.h>
#include <stdbool.h>
#include <stdio.h>
#include <stdlib.h>
#include <string.h>

enum status { DONE = 0, REFUSED = 1, FAILED = 2 };

enum {
    FIRST_ROOM = 4096, /* The bytes that standard input is thought to have, until it has more. */
    SHOWN = 64         /* The most bytes before a fault that a message shows. */
};

static enum status complain(enum status status, const char *message)
{
    fprintf(stderr, "capability_names: %s\n", message);
    return status;
}

/* With the reason that errno has. */
static enum status fail(const char *message)
{
    fprintf(stderr, "capability_names: %s: %s\n", message, strerror(errno));
    return FAILED;
}

/* To be called after output that has failed or succeeded so far. */
static enum status finish(bool succeeded)
{
    return succeeded && fflush(stdout) == 0 ? DONE : fail("cannot write to standard output");
}

/* Bytes in quotes, those that are no printable ASCII by their numbers. */
static void print_quoted(const uint8_t *bytes, size_t length)
{
    fputc('"', stderr);
    for (size_t i = 0; i < length; i++) {
        switch (bytes[i]) {
        case '\t':
            fputs("\\t", stderr);
            break;
        case '\n':
            fputs("\\n", stderr);
            break;
        case '\r':
            fputs("\\r", stderr);
            break;
        case '\'':
        case '"':
        case '\\':
            fprintf(stderr, "\\%c", bytes[i]);
            break;
        default:
            fprintf(stderr, bytes[i] >= ' ' && bytes[i] <= '~' ? "%c" : "\\x%02x", bytes[i]);
        }
    }
    fputc('"', stderr);
}

/* Says where a text is malformed, after what, and whether a byte is at fault or the text's end. */
static enum status complain_of_place(const uint8_t *text, size_t length, uint32_t place)
{
    if (place == UINT32_MAX) {
        /* Which byte it is, the number does not tell. */
        return complain(REFUSED, "malformed at place 4294967295 or a greater one");
    }
    size_t from = place <= SHOWN ? 0 : place - SHOWN;
    fprintf(stderr, "capability_names: malformed at place %" PRIu32 ", after %s", place, from == 0 ? "" : "..");
    print_quoted(text + from, place - from);
    fprintf(stderr, ": ");
    if (place == length) {
        fprintf(stderr, "the text ends too early\n");
    } else {
        print_quoted(text + place, 1);
        fprintf(stderr, " cannot stand there\n");
    }
    return REFUSED;
}

static enum status read_names(const uint8_t *text, size_t length)
{
    uint64_t sets[URREZKALU_NAMED_VALUES];
    uint64_t number = urrezkalu_read_names(text, length, sets, URREZKALU_NAMED_VALUES);
    if (urrezkalu_code(number) != URREZKALU_DONE) {
        /* URREZKALU_MALFORMED: there is room. */
        return complain_of_place(text, length, urrezkalu_place(number));
    }
    return finish(printf("permitted=%016" PRIx64 "\ninheritable=%016" PRIx64 "\neffective=%016" PRIx64 "\n", sets[URREZKALU_NAMED_PERMITTED],
                         sets[URREZKALU_NAMED_INHERITABLE], sets[URREZKALU_NAMED_EFFECTIVE]) >= 0);
}

/* Adds what standard input has to the text, which is empty at first. If that fails, errno has the reason. */
static bool read_input(uint8_t **text, size_t *length)
{
    size_t room = 0;
    while (feof(stdin) == 0) {
        if (*length == room) {
            room = room == 0 ? FIRST_ROOM : 2 * room;
            uint8_t *larger = realloc(*text, room);
            if (larger == NULL) {
                return false;
            }
            *text = larger;
        }
        *length += fread(*text + *length, 1, room - *length, stdin);
        if (ferror(stdin) != 0) {
            return false;
        }
    }
    return true;
}

static enum status read_names_of_input(void)
{
    uint8_t *text = NULL;
    size_t length = 0;
    enum status status = read_input(&text, &length) ? read_names(text, length) : fail("cannot read standard input");
    free(text);
    return status;
}

static bool is_set(const char *text)
{
    size_t digits = strspn(text, "0123456789abcdef");
    return digits >= 1 && digits <= 16 && text[digits] == '\0';
}

static enum status write_names(const char *permitted, const char *inheritable, const char *effective)
{
    if (!is_set(permitted) || !is_set(inheritable) || !is_set(effective)) {
        return complain(FAILED, "a set is 1 to 16 hex digits, 0 to 9 and a to f");
    }
    uint8_t text[URREZKALU_LONGEST_NAMES];
    uint64_t number = urrezkalu_write_names(strtoull(permitted, NULL, 16), strtoull(inheritable, NULL, 16), strtoull(effective, NULL, 16), text,
                                            sizeof text);
    if (urrezkalu_code(number) != URREZKALU_DONE) {
        /* URREZKALU_OUT_OF_RANGE: there is room. */
        return complain(REFUSED, "a set has a bit above 40");
    }
    return finish(printf("%.*s\n", (int)urrezkalu_length(number), (const char *)text) >= 0);
}

int main(int argc, char **argv)
{
    /* A reader of the output that goes away is a failure to write, with its message and its status. */
    signal(SIGPIPE, SIG_IGN);
    if (argc == 5 && strcmp(argv[1], "--write") == 0) {
        return (int)write_names(argv[2], argv[3], argv[4]);
    }
    if (argc == 2 && strcmp(argv[1], "-") == 0) {
        return (int)read_names_of_input();
    }
    if (argc == 2 && strcmp(argv[1], "--write") != 0) {
        return (int)read_names((const uint8_t *)argv[1], strlen(argv[1]));
    }
    fprintf(stderr, "usage: capability_names TEXT\n       capability_names --write PERMITTED INHERITABLE EFFECTIVE\n");
    return FAILED;
}
