/* The text that the harness is given and the text that it writes, as harness.c has them. Numbers are in hex. */
#include <inttypes.h>
#include <stdio.h>
#include <stdlib.h>
#include <string.h>
#include <unistd.h>

#include "harness.h"

/* The flags of a launch. */
enum { SET_USER_ID = 1, SET_GROUP_ID = 2, NOSUID = 4 };

_Noreturn void malformed(const char *what)
{
    fprintf(stderr, "kernel: %s is malformed on the harness's standard input\n", what);
    _exit(2);
}

/* An attribute's length and its bytes as one number of hex digits, or `-` where there are none. */
static void read_attribute(struct file *file)
{
    unsigned length;
    char digits[2 * LONGEST_ATTRIBUTE + 1];
    if (scanf("%x %48s", &length, digits) != 2 || length > LONGEST_ATTRIBUTE || (length != 0 && strlen(digits) != 2 * length)) {
        malformed("an attribute");
    }
    file->attribute_length = length;
    for (unsigned i = 0; i < length; i++) {
        sscanf(digits + 2 * i, "%2" SCNx8, &file->attribute[i]);
    }
}

void read_image(void)
{
    uint32_t count;
    if (scanf(" image %" SCNx32, &count) != 1) {
        malformed("the image");
    }
    struct file *files = calloc((size_t)count + 1, sizeof *files);
    if (files == NULL) {
        give_up("the image");
    }
    for (uint32_t i = 0; i < count; i++) {
        if (scanf("%" SCNx32 " %" SCNx32, &files[i].owner, &files[i].group) != 2) {
            malformed("a file of the image");
        }
        read_attribute(&files[i]);
    }
    make_image(files, count);
    free(files);
}

static int read_ids(uint32_t ids[IDS])
{
    return scanf("%" SCNx32 " %" SCNx32 " %" SCNx32 " %" SCNx32, &ids[REAL], &ids[EFFECTIVE], &ids[SAVED], &ids[FILESYSTEM]);
}

/* The fields of a sheet: four user IDs, four group IDs, five sets, securebits, no-new-privs. Then one supplementary group or ffffffff. */
void read_start(struct state *start, uint32_t *member)
{
    int found = read_ids(start->uids) + read_ids(start->gids);
    found += scanf("%" SCNx64 " %" SCNx64 " %" SCNx64, &start->permitted, &start->inheritable, &start->effective);
    found += scanf("%" SCNx64 " %" SCNx64, &start->bounding, &start->ambient);
    found += scanf("%" SCNx32 " %" SCNx32 " %" SCNx32, &start->securebits, &start->nnp, member);
    if (found != 16) {
        malformed("a start");
    }
}

/* The call and its operands; then, meant for launches, the tracer, whether the file's group may not execute it, the file's number in the image
 * or ffffffff, and the attribute. */
void read_step(struct order *order, struct file *file)
{
    int found = scanf("%" SCNx32 " %" SCNx64 " %" SCNx64 " %" SCNx64, &order->call, &order->operands[0], &order->operands[1], &order->operands[2]);
    uint32_t without_group_execution;
    found += scanf("%" SCNx32 " %" SCNx32 " %" SCNx32, &order->tracer, &without_group_execution, &file->image);
    if (found != 7) {
        malformed("a step");
    }
    read_attribute(file);
    uint64_t flags = order->operands[1];
    file->owner = (uint32_t)order->operands[0];
    file->group = (uint32_t)order->operands[2];
    file->mode = (without_group_execution ? 0745 : 0755) | (flags & SET_USER_ID ? 04000 : 0) | (flags & SET_GROUP_ID ? 02000 : 0);
    file->nosuid = (flags & NOSUID) != 0;
}

static void print_ids(const uint32_t ids[IDS])
{
    printf(" %" PRIx32 " %" PRIx32 " %" PRIx32 " %" PRIx32, ids[REAL], ids[EFFECTIVE], ids[SAVED], ids[FILESYSTEM]);
}

/* The fields of a sheet, and the length of the status file, whose text stands after the line. */
void print_state(const struct result *result)
{
    const struct state *after = &result->after;
    print_ids(after->uids);
    print_ids(after->gids);
    printf(" %" PRIx64 " %" PRIx64 " %" PRIx64, after->permitted, after->inheritable, after->effective);
    printf(" %" PRIx64 " %" PRIx64 " %" PRIx32 " %" PRIx32, after->bounding, after->ambient, after->securebits, after->nnp);
    printf(" %zx\n", result->status.length);
    fwrite(result->status.text, 1, result->status.length, stdout);
}
