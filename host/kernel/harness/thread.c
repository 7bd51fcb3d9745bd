/* The thread: makes the calls that it is ordered to make, by the system calls themselves, and tells what it holds after each. */
#define _GNU_SOURCE
#include <errno.h>
#include <fcntl.h>
#include <linux/capability.h>
#include <linux/prctl.h>
#include <signal.h>
#include <stdlib.h>
#include <string.h>
#include <sys/ptrace.h>
#include <sys/socket.h>
#include <sys/syscall.h>
#include <unistd.h>

#include "harness.h"

/* The calls by the plan's numbers. */
enum {
    CAPSET = 2,
    BOUNDING_DROP,
    BOUNDING_READ,
    AMBIENT_RAISE,
    AMBIENT_LOWER,
    AMBIENT_IS_SET,
    AMBIENT_CLEAR,
    SET_SECUREBITS,
    GET_SECUREBITS,
    SET_KEEP_CAPS,
    GET_KEEP_CAPS,
    SET_NO_NEW_PRIVS,
    GET_NO_NEW_PRIVS,
    SETUID,
    SETREUID,
    SETRESUID,
    SETFSUID,
    SETGID,
    SETREGID,
    SETRESGID,
    SETFSGID
};

/* The value of a line of /proc/self/status, past its key. */
static const char *line(const char *status, const char *key)
{
    const char *found = strstr(status, key);
    if (found == NULL) {
        give_up(key);
    }
    return found + strlen(key);
}

static uint64_t hex_line(const char *status, const char *key)
{
    return strtoull(line(status, key), NULL, 16);
}

static void ids_line(const char *status, const char *key, uint32_t ids[IDS])
{
    const char *at = line(status, key);
    for (int i = 0; i < IDS; i++) {
        char *end;
        ids[i] = (uint32_t)strtoul(at, &end, 10);
        at = end;
    }
}

static void read_status(struct status *status)
{
    int descriptor = open("/proc/self/status", O_RDONLY | O_CLOEXEC);
    ssize_t more;
    status->length = 0;
    while ((more = read(descriptor, status->text + status->length, sizeof status->text - 1 - status->length)) > 0) {
        status->length += (size_t)more;
    }
    if (more == -1 || status->length == 0 || status->length == sizeof status->text - 1) {
        give_up("/proc/self/status");
    }
    close(descriptor);
    status->text[status->length] = '\0';
}

void read_state(struct state *state, struct status *status)
{
    const char *text = status->text;
    read_status(status);
    ids_line(text, "\nUid:", state->uids);
    ids_line(text, "\nGid:", state->gids);
    state->permitted = hex_line(text, "\nCapPrm:");
    state->inheritable = hex_line(text, "\nCapInh:");
    state->effective = hex_line(text, "\nCapEff:");
    state->bounding = hex_line(text, "\nCapBnd:");
    state->ambient = hex_line(text, "\nCapAmb:");
    state->nnp = (uint32_t)hex_line(text, "\nNoNewPrivs:");
    state->securebits = (uint32_t)syscall(SYS_prctl, PR_GET_SECUREBITS, 0, 0, 0, 0);
}

int set_capabilities(uint64_t permitted, uint64_t inheritable, uint64_t effective)
{
    struct __user_cap_header_struct header = {_LINUX_CAPABILITY_VERSION_3, 0};
    struct __user_cap_data_struct words[_LINUX_CAPABILITY_U32S_3] = {
        {(uint32_t)effective, (uint32_t)permitted, (uint32_t)inheritable},
        {(uint32_t)(effective >> 32), (uint32_t)(permitted >> 32), (uint32_t)(inheritable >> 32)},
    };
    return (int)syscall(SYS_capset, &header, words);
}

/* Returns only where the launch is refused. The stop by SIGTRAP is where the tracer lets go, as it does after a launch that is done;
 * were the tracer gone, the signal would end the thread. */
static long launch(const struct order *order)
{
    char *arguments[] = {"launched", NULL}, *environment[] = {NULL};
    if (order->tracer == TRACED_BY_REQUEST && ptrace(PTRACE_TRACEME, 0, NULL, NULL) != 0) {
        give_up("PTRACE_TRACEME");
    }
    long returned = syscall(SYS_execve, order->path, arguments, environment);
    int error = errno;
    if (order->tracer != UNTRACED) {
        kill(getpid(), SIGTRAP);
    }
    errno = error;
    return returned;
}

void keep_channel(int channel)
{
    int aside = fcntl(channel, F_DUPFD, CHANNEL + 1);
    close(channel);
    if (dup2(aside, CHANNEL) == -1) {
        give_up("the channel");
    }
    close(aside);
}

/* The child goes on with what it is told on its own channel, and the parent does not keep that. */
static long fork_child(const struct order *order, int channel)
{
    long returned = syscall(SYS_fork, order->operands[0], order->operands[1], order->operands[2]);
    int error = errno;
    if (returned == 0) {
        keep_channel(channel);
    } else {
        close(channel);
    }
    errno = error;
    return returned;
}

/* Operands that a call does not use stand in the registers after those that it does: the kernel sees them there. */
static long perform(const struct order *order, int channel)
{
    uint64_t a = order->operands[0], b = order->operands[1], c = order->operands[2];
    switch (order->call) {
    case LOOK:
        return 0;
    case EXECVE:
        return launch(order);
    case CAPSET:
        return set_capabilities(a, b, c);
    case BOUNDING_DROP:
        return syscall(SYS_prctl, PR_CAPBSET_DROP, a, b, c, 0);
    case BOUNDING_READ:
        return syscall(SYS_prctl, PR_CAPBSET_READ, a, b, c, 0);
    case AMBIENT_RAISE:
        return syscall(SYS_prctl, PR_CAP_AMBIENT, PR_CAP_AMBIENT_RAISE, a, b, c);
    case AMBIENT_LOWER:
        return syscall(SYS_prctl, PR_CAP_AMBIENT, PR_CAP_AMBIENT_LOWER, a, b, c);
    case AMBIENT_IS_SET:
        return syscall(SYS_prctl, PR_CAP_AMBIENT, PR_CAP_AMBIENT_IS_SET, a, b, c);
    case AMBIENT_CLEAR:
        return syscall(SYS_prctl, PR_CAP_AMBIENT, PR_CAP_AMBIENT_CLEAR_ALL, a, b, c);
    case SET_SECUREBITS:
        return syscall(SYS_prctl, PR_SET_SECUREBITS, a, b, c, 0);
    case GET_SECUREBITS:
        return syscall(SYS_prctl, PR_GET_SECUREBITS, a, b, c, 0);
    case SET_KEEP_CAPS:
        return syscall(SYS_prctl, PR_SET_KEEPCAPS, a, b, c, 0);
    case GET_KEEP_CAPS:
        return syscall(SYS_prctl, PR_GET_KEEPCAPS, a, b, c, 0);
    case SET_NO_NEW_PRIVS:
        return syscall(SYS_prctl, PR_SET_NO_NEW_PRIVS, a, b, c, 0);
    case GET_NO_NEW_PRIVS:
        return syscall(SYS_prctl, PR_GET_NO_NEW_PRIVS, a, b, c, 0);
    case SETUID:
        return syscall(SYS_setuid, a, b, c);
    case SETREUID:
        return syscall(SYS_setreuid, a, b, c);
    case SETRESUID:
        return syscall(SYS_setresuid, a, b, c);
    case SETFSUID:
        return syscall(SYS_setfsuid, a, b, c);
    case SETGID:
        return syscall(SYS_setgid, a, b, c);
    case SETREGID:
        return syscall(SYS_setregid, a, b, c);
    case SETRESGID:
        return syscall(SYS_setresgid, a, b, c);
    case SETFSGID:
        return syscall(SYS_setfsgid, a, b, c);
    case FORK:
        return fork_child(order, channel);
    case EXIT:
        return syscall(SYS_exit_group, a, b, c);
    default:
        errno = ENOSYS;
        return -1;
    }
}

static void tell(long returned)
{
    struct result result = {.self = getpid(), .parent = getppid()};
    if (returned == -1) {
        result.error = (uint32_t)errno;
    } else {
        result.value = (uint64_t)returned;
    }
    read_state(&result.after, &result.status);
    if (write(CHANNEL, &result, sizeof result) != sizeof result) {
        _exit(1);
    }
}

/* Takes the next order, and where it is to fork the descriptor that came along. Says whether there is one. */
static int take_order(struct order *order, int *channel)
{
    struct iovec bytes = {order, sizeof *order};
    union {
        struct cmsghdr header;
        char room[CMSG_SPACE(sizeof *channel)];
    } rights;
    struct msghdr message = {.msg_iov = &bytes, .msg_iovlen = 1, .msg_control = &rights, .msg_controllen = sizeof rights};
    if (recvmsg(CHANNEL, &message, 0) != sizeof *order) {
        return 0;
    }
    const struct cmsghdr *passed = CMSG_FIRSTHDR(&message);
    if (passed != NULL) {
        memcpy(channel, CMSG_DATA(passed), sizeof *channel);
    }
    return 1;
}

/* The first result is that of the start, or of the launch that this is the new image of. The end of the orders ends the thread. */
_Noreturn void obey(void)
{
    struct order order;
    int channel = -1;
    tell(0);
    while (take_order(&order, &channel)) {
        tell(perform(&order, channel));
    }
    _exit(0);
}
