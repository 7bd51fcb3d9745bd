/* An installer's attribute: the bytes that give a file its capabilities, and what capabilities bytes give a file.
 *
 *     attribute_bytes PERMITTED INHERITABLE BIT
 *     attribute_bytes --read ATTRIBUTE
 *
 * PERMITTED and INHERITABLE are sets, of 1 to 16 hex digits; BIT is the effective bit, 0 or 1. The attribute, which an installer sets as
 * security.capability, goes to standard output in 40 hex digits. ATTRIBUTE is bytes in hex, and none for a file without an attribute: what they
 * are read as goes to standard output. Hex letters are lower case. The status is 0 if that is done, 1 if a set has a bit above 40 or the
 * attribute is unreadable, and 2 for other arguments, or if the output cannot be written. */
#include "urrezkalu.h"

#include <errno.h>
#include <inttypes.h>
#include <signal.h>
#include <stdbool.h>
#include <stdio.h>
#include <stdlib.h>
#include <string.h>

enum status { DONE = 0, REFUSED = 1, FAILED = 2 };

static enum status complain(enum status status, const char *message)
{
    fprintf(stderr, "attribute_bytes: %s\n", message);
    return status;
}

/* To be called after output that has failed or succeeded so far. */
static enum status finish(bool succeeded)
{
    if (!succeeded || fflush(stdout) != 0) {
        fprintf(stderr, "attribute_bytes: cannot write to standard output: %s\n", strerror(errno));
        return FAILED;
    }
    return DONE;
}

static bool is_hex(const char *text)
{
    return text[strspn(text, "0123456789abcdef")] == '\0';
}

static bool is_set(const char *text)
{
    size_t length = strlen(text);
    return length >= 1 && length <= 16 && is_hex(text);
}

static enum status write_attribute(const char *permitted, const char *inheritable, const char *bit)
{
    if (!is_set(permitted) || !is_set(inheritable)) {
        return complain(FAILED, "a set is 1 to 16 hex digits, 0 to 9 and a to f");
    }
    if (strcmp(bit, "0") != 0 && strcmp(bit, "1") != 0) {
        return complain(FAILED, "the effective bit is 0 or 1");
    }
    uint8_t attribute[URREZKALU_ATTRIBUTE_LENGTH];
    uint64_t number = urrezkalu_write_attribute(strtoull(permitted, NULL, 16), strtoull(inheritable, NULL, 16), bit[0] == '1', attribute,
                                                sizeof attribute);
    if (urrezkalu_code(number) != URREZKALU_DONE) {
        /* URREZKALU_OUT_OF_RANGE: there is room, and the bit is 0 or 1. */
        return complain(REFUSED, "a set has a bit above 40");
    }
    char digits[2 * URREZKALU_ATTRIBUTE_LENGTH + 1];
    for (size_t i = 0; i < urrezkalu_length(number); i++) {
        sprintf(digits + 2 * i, "%02x", attribute[i]);
    }
    return finish(puts(digits) >= 0);
}

static enum status read_attribute(const char *digits)
{
    if (!is_hex(digits) || strlen(digits) % 2 != 0) {
        return complain(FAILED, "an attribute is pairs of hex digits, 0 to 9 and a to f");
    }
    /* One byte more than an attribute has is enough: no longer one is readable. */
    uint8_t attribute[URREZKALU_ATTRIBUTE_LENGTH + 1];
    size_t length = 0;
    for (; length < sizeof attribute && digits[2 * length] != '\0'; length++) {
        const char pair[] = {digits[2 * length], digits[2 * length + 1], '\0'};
        attribute[length] = (uint8_t)strtoul(pair, NULL, 16);
    }
    uint64_t values[URREZKALU_FILE_VALUES];
    uint64_t number = urrezkalu_read_attribute(attribute, length, values, URREZKALU_FILE_VALUES);
    if (urrezkalu_code(number) != URREZKALU_DONE) {
        /* URREZKALU_UNREADABLE: there is room. */
        return complain(REFUSED, "the attribute is unreadable");
    }
    return finish(printf("attached=%" PRIu64 " permitted=%016" PRIx64 " inheritable=%016" PRIx64 " effective=%" PRIu64 "\n",
                         values[URREZKALU_ATTACHED], values[URREZKALU_FILE_PERMITTED], values[URREZKALU_FILE_INHERITABLE],
                         values[URREZKALU_FILE_EFFECTIVE]) >= 0);
}

int main(int argc, char **argv)
{
    /* A reader of the output that goes away is a failure to write, with its message and its status. */
    signal(SIGPIPE, SIG_IGN);
    if (argc == 3 && strcmp(argv[1], "--read") == 0) {
        return (int)read_attribute(argv[2]);
    }
    if (argc == 4) {
        return (int)write_attribute(argv[1], argv[2], argv[3]);
    }
    fprintf(stderr, "usage: attribute_bytes PERMITTED INHERITABLE BIT\n       attribute_bytes --read ATTRIBUTE\n");
    return FAILED;
}
