/* The harness's side of the threads: starts them, hands out orders, takes results, and sees threads end. */
#define _GNU_SOURCE
#include <poll.h>
#include <stdio.h>
#include <string.h>
#include <sys/ptrace.h>
#include <sys/socket.h>
#include <sys/syscall.h>
#include <sys/wait.h>
#include <unistd.h>

#include "harness.h"

/* Over a channel an order goes as a whole, and so does a result. */
static void open_channel(int ends[2])
{
    if (socketpair(AF_UNIX, SOCK_SEQPACKET | SOCK_CLOEXEC, 0, ends) != 0) {
        give_up("socketpair");
    }
}

/* The harness's end of the channel is closed by the launch or here. */
struct worker start_worker(const struct state *start, uint32_t member)
{
    int ends[2];
    open_channel(ends);
    struct worker worker = {fork(), ends[0]};
    if (worker.pid == -1) {
        give_up("fork");
    }
    if (worker.pid == 0) {
        close(ends[0]);
        keep_channel(ends[1]);
        become(start, member);
        obey();
    }
    close(ends[1]);
    return worker;
}

/* `passed` is the descriptor that goes along with an order to fork, and -1 with any other. */
static void give_order(const struct worker *worker, const struct order *order, int passed)
{
    struct iovec bytes = {(void *)order, sizeof *order};
    struct msghdr message = {.msg_iov = &bytes, .msg_iovlen = 1};
    union {
        struct cmsghdr header;
        char room[CMSG_SPACE(sizeof passed)];
    } rights = {.header = {.cmsg_len = CMSG_LEN(sizeof passed), .cmsg_level = SOL_SOCKET, .cmsg_type = SCM_RIGHTS}};
    if (passed != -1) {
        memcpy(CMSG_DATA(&rights.header), &passed, sizeof passed);
        message.msg_control = &rights;
        message.msg_controllen = sizeof rights;
    }
    if (sendmsg(worker->channel, &message, MSG_NOSIGNAL) != sizeof *order) {
        give_up("the thread");
    }
}

void take_result(const struct worker *worker, struct result *result)
{
    if (recv(worker->channel, result, sizeof *result, 0) != sizeof *result) {
        fprintf(stderr, "kernel: the thread ended in the middle of a plan\n");
        _exit(2);
    }
}

static void seize(const struct worker *worker)
{
    if (ptrace(PTRACE_SEIZE, worker->pid, NULL, (void *)(long)PTRACE_O_TRACEEXEC) != 0) {
        give_up("PTRACE_SEIZE");
    }
}

/* A traced launch stops after it is done, or by a signal that the thread sends itself after it is refused. */
static void let_go(const struct worker *worker)
{
    int status;
    if (waitpid(worker->pid, &status, 0) != worker->pid || !WIFSTOPPED(status)) {
        give_up("the stop of a traced launch");
    }
    if (ptrace(PTRACE_DETACH, worker->pid, NULL, NULL) != 0) {
        give_up("PTRACE_DETACH");
    }
}

void perform_step(const struct worker *worker, struct order *order, const struct file *file, struct result *result)
{
    if (order->call == EXECVE) {
        prepare_file(file, order->path);
    }
    if (order->tracer == TRACED_BY_SEIZURE) {
        seize(worker);
    }
    give_order(worker, order, -1);
    if (order->tracer != UNTRACED) {
        let_go(worker);
    }
    take_result(worker, result);
}

/* The number that fork(2) gives the parent has to be that of the process that then speaks up on the child's channel, and this has to be the parent's
 * child. Where the fork is refused there is none: its channel is -1. */
struct worker fork_worker(const struct worker *worker, const struct order *order, struct result *result)
{
    static struct result first;
    int ends[2];
    open_channel(ends);
    give_order(worker, order, ends[1]);
    close(ends[1]);
    take_result(worker, result);
    struct worker child = {(pid_t)result->value, ends[0]};
    if (result->error != 0) {
        close(child.channel);
        return (struct worker){0, -1};
    }
    take_result(&child, &first);
    if (first.self != child.pid || first.parent != worker->pid) {
        fprintf(stderr, "kernel: process %d, child of %d, is not the child %d of %d\n", first.self, first.parent, child.pid, worker->pid);
        _exit(2);
    }
    return child;
}

/* A thread that exits tells nothing more. That it is gone is seen at its process. */
void exit_worker(const struct worker *worker, const struct order *order)
{
    struct pollfd process = {(int)syscall(SYS_pidfd_open, worker->pid, 0), POLLIN, 0};
    give_order(worker, order, -1);
    if (process.fd == -1 || poll(&process, 1, -1) != 1) {
        give_up("the exit of a thread");
    }
    close(process.fd);
    close(worker->channel);
}

/* Threads end when their channels are closed. Those whose parent is gone are the harness's to wait for, it being number 1 of its namespace. */
void end_workers(void)
{
    while (waitpid(-1, NULL, 0) > 0) {
    }
}
