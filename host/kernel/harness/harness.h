/* What the parts of the harness share. It is one program in two roles: the harness, which prepares files and hands out orders, and
 * the thread, whose credentials are looked at. A launch executes a copy of this same program, which goes on with the next order. */
#ifndef HARNESS_H
#define HARNESS_H

#include <stddef.h>
#include <stdint.h>
#include <sys/types.h>

enum { REAL, EFFECTIVE, SAVED, FILESYSTEM, IDS };

enum { LONGEST_ATTRIBUTE = 24, LONGEST_PATH = 64, LONGEST_STATUS = 16384 };

/* The socket that a thread keeps over every launch: orders come in on it, results go out. */
enum { CHANNEL = 3 };

/* The orders that the harness has to know: to look, which is only to tell what the thread holds; a launch; the two operations of a slot plan. */
enum { LOOK = 0, EXECVE = 1, FORK = 30, EXIT = 31 };

/* Who traces a launch: nobody, the parent by the thread's own PTRACE_TRACEME, or the harness by PTRACE_SEIZE. */
enum { UNTRACED, TRACED_BY_REQUEST, TRACED_BY_SEIZURE };

/* "No group" among the supplementary ones, and "no file" of the image. */
#define NONE UINT32_MAX

struct state {
    uint32_t uids[IDS];
    uint32_t gids[IDS];
    uint64_t permitted, inheritable, effective, bounding, ambient;
    uint32_t securebits, nnp;
};

/* The text of a /proc/PID/status. A NUL stands after it. */
struct status {
    size_t length;
    char text[LONGEST_STATUS];
};

/* One call for the thread to make; `path` is the file of a launch. An order to fork comes with the descriptor of the child's channel. */
struct order {
    uint64_t operands[3];
    uint32_t call, tracer;
    char path[LONGEST_PATH];
};

/* What a call came to: 0 or errno, the value, who tells it and whose child that is, what the thread holds after it, and the text that says so. */
struct result {
    uint64_t value;
    struct state after;
    uint32_t error;
    pid_t self, parent;
    struct status status;
};

/* The file of a launch. `image` numbers a file of the image, whose owner, group and attribute are fixed; NONE is the file that can be changed. */
struct file {
    uint32_t owner, group, mode, image;
    int nosuid;
    size_t attribute_length;
    uint8_t attribute[LONGEST_ATTRIBUTE];
};

/* A thread at work and the harness's end of its channel. */
struct worker {
    pid_t pid;
    int channel;
};

/* harness.c. Says what failed, with errno, and ends the process with status 2: the machine is not as the harness needs it. */
_Noreturn void give_up(const char *what);

/* text.c */
_Noreturn void malformed(const char *what);
void read_image(void);
void read_start(struct state *start, uint32_t *member);
void read_step(struct order *order, struct file *file);
void print_state(const struct result *result);

/* worker.c */
struct worker start_worker(const struct state *start, uint32_t member);
struct worker fork_worker(const struct worker *worker, const struct order *order, struct result *result);
void perform_step(const struct worker *worker, struct order *order, const struct file *file, struct result *result);
void take_result(const struct worker *worker, struct result *result);
void exit_worker(const struct worker *worker, const struct order *order);
void end_workers(void);

/* family.c */
void run_family(uint32_t steps);

/* thread.c */
_Noreturn void obey(void);
void keep_channel(int channel);
void read_state(struct state *state, struct status *status);
int set_capabilities(uint64_t permitted, uint64_t inheritable, uint64_t effective);

/* start.c */
void become(const struct state *start, uint32_t member);

/* files.c */
void prepare_places(const char *tag);
void make_image(const struct file *files, uint32_t count);
void prepare_file(const struct file *file, char *path);

#endif
