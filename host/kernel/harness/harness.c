/* Runs plans on the kernel: for each, a thread is put into the plan's start, makes its calls, and is looked at after every one. Slot plans are run by
 * families of threads, all of which are looked at after every step.
 *
 *     harness TAG
 *
 * TAG names the run's mounts. Standard input, numbers in hex: `image COUNT` and COUNT lines `OWNER GROUP LENGTH BYTES`, the files whose attributes
 * setxattr(2) refuses; then any number of plans, each `plan STEPS`, a line of the start and STEPS lines of a step (see `read_start` and `read_step`),
 * and of slot plans, each `family STEPS` and the same with a slot before every step. Standard output: a line about the machine; then for each plan a line
 * for the start and one for each step: errno, value, state and the length of the thread's status file, whose text stands after the line. For a slot plan a
 * line for the start and one for each step: errno, value, and how many threads there are, and then as many lines of a slot, its state and the length of its
 * status file, each with that text after it; or `none` for a step that there is no thread to make or no slot to fork into. Status 2: the machine is not as it
 * has to be. */
#define _GNU_SOURCE
#include <errno.h>
#include <inttypes.h>
#include <sched.h>
#include <signal.h>
#include <stdio.h>
#include <stdlib.h>
#include <string.h>
#include <sys/prctl.h>
#include <sys/resource.h>
#include <sys/wait.h>
#include <unistd.h>

#include "harness.h"

/* How many seconds a plan may take. */
enum { PATIENCE = 20 };

_Noreturn void give_up(const char *what)
{
    fprintf(stderr, "kernel: %s: %s\n", what, strerror(errno));
    _exit(2);
}

static void out_of_patience(int signal)
{
    (void)signal;
    static const char message[] = "kernel: a plan did not end in time\n";
    (void)!write(2, message, sizeof message - 1);
    _exit(2);
}

static void print_result(const struct result *result)
{
    printf("%" PRIx32 " %" PRIx64, result->error, result->value);
    print_state(result);
}

static void run_step(const struct worker *worker)
{
    static struct result result;
    struct order order = {0};
    struct file file = {0};
    read_step(&order, &file);
    perform_step(worker, &order, &file, &result);
    print_result(&result);
}

static void run_plan(uint32_t steps)
{
    static struct result first;
    struct state start = {0};
    uint32_t member;
    read_start(&start, &member);
    struct worker worker = start_worker(&start, member);
    take_result(&worker, &first);
    print_result(&first);
    for (uint32_t i = 0; i < steps; i++) {
        run_step(&worker);
    }
    close(worker.channel);
}

static void run_in_time(void (*run)(uint32_t steps), uint32_t steps)
{
    alarm(PATIENCE);
    run(steps);
    end_workers();
    alarm(0);
    fflush(stdout);
}

/* What a start can be made of: the harness's own permitted and bounding sets. */
static void print_machine(void)
{
    struct state own;
    static struct status status;
    read_state(&own, &status);
    printf("machine %" PRIx64 " %" PRIx64 "\n", own.permitted, own.bounding);
    fflush(stdout);
}

/* Number 1 of a process namespace: when it ends, by whatever cause, every thread in the namespace is ended, and the mounts with them. */
static _Noreturn void harness(const char *tag)
{
    char form[7];
    uint32_t steps;
    struct rlimit unlimited = {RLIM_INFINITY, RLIM_INFINITY};
    signal(SIGALRM, out_of_patience);
    setrlimit(RLIMIT_NPROC, &unlimited);
    prepare_places(tag);
    print_machine();
    read_image();
    while (scanf("%6s %" SCNx32, form, &steps) == 2) {
        run_in_time(strcmp(form, "family") == 0 ? run_family : run_plan, steps);
    }
    exit(feof(stdin) ? 0 : 2);
}

int main(int argc, char **argv)
{
    if (argc == 1 && strcmp(argv[0], "launched") == 0) {
        obey();
    }
    if (argc != 2) {
        fprintf(stderr, "harness TAG\n");
        return 2;
    }
    if (geteuid() != 0) {
        fprintf(stderr, "kernel: needs root: it gives threads other IDs and capabilities and mounts filesystems in a namespace of its own\n");
        return 2;
    }
    if (unshare(CLONE_NEWNS | CLONE_NEWPID) != 0) {
        give_up("unshare");
    }
    pid_t inside = fork();
    if (inside == 0) {
        if (prctl(PR_SET_PDEATHSIG, SIGKILL) != 0) {
            give_up("PR_SET_PDEATHSIG");
        }
        harness(argv[1]);
    }
    int status;
    if (inside == -1 || waitpid(inside, &status, 0) != inside) {
        give_up("fork");
    }
    return WIFEXITED(status) ? WEXITSTATUS(status) : 2;
}
