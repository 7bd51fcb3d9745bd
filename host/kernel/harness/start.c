/* Puts the thread into the credentials that a plan starts with. */
#define _GNU_SOURCE
#include <grp.h>
#include <linux/capability.h>
#include <linux/prctl.h>
#include <linux/securebits.h>
#include <sys/syscall.h>
#include <unistd.h>

#include "harness.h"

static void control(const char *what, unsigned long option, unsigned long a, unsigned long b)
{
    if (syscall(SYS_prctl, option, a, b, 0, 0) != 0) {
        give_up(what);
    }
}

/* The one supplementary group, or none. */
static void set_member(uint32_t member)
{
    if (syscall(SYS_setgroups, member == NONE ? 0 : 1, &member) != 0) {
        give_up("setgroups");
    }
}

/* Four IDs by two calls: setresuid and setfsuid, or those of groups. The second cannot fail, and the first state would show if it had. */
static void set_ids(const char *what, long set_three, long set_filesystem, const uint32_t ids[IDS])
{
    if (syscall(set_three, ids[REAL], ids[EFFECTIVE], ids[SAVED]) != 0) {
        give_up(what);
    }
    syscall(set_filesystem, ids[FILESYSTEM]);
}

/* The order in which every valid start can be reached that is within the harness's own sets: what takes a capability away from the thread comes
 * after what needs it. The inheritable set comes before the bounding set is cut, since it cannot be raised past that afterwards; the ambient set
 * before securebits can forbid it; IDs under NO_SETUID_FIXUP, so that they take no set along; locks after the last change of a flag. */
void become(const struct state *start, uint32_t member)
{
    struct state own;
    static struct status status;
    read_state(&own, &status);
    set_member(member);
    set_ids("setresgid", SYS_setresgid, SYS_setfsgid, start->gids);
    if (set_capabilities(own.permitted, start->inheritable, own.permitted) != 0) {
        give_up("capset of the inheritable set");
    }
    for (unsigned long capability = 0; capability <= CAP_LAST_CAP; capability++) {
        if (start->ambient >> capability & 1) {
            control("ambient raise", PR_CAP_AMBIENT, PR_CAP_AMBIENT_RAISE, capability);
        }
    }
    control("NO_SETUID_FIXUP", PR_SET_SECUREBITS, SECBIT_NO_SETUID_FIXUP, 0);
    set_ids("setresuid", SYS_setresuid, SYS_setfsuid, start->uids);
    for (unsigned long capability = 0; capability <= CAP_LAST_CAP; capability++) {
        if ((own.bounding & ~start->bounding) >> capability & 1) {
            control("bounding drop", PR_CAPBSET_DROP, capability, 0);
        }
    }
    control("securebits", PR_SET_SECUREBITS, start->securebits, 0);
    if (set_capabilities(start->permitted, start->inheritable, start->effective) != 0) {
        give_up("capset");
    }
    if (start->nnp) {
        control("no-new-privs", PR_SET_NO_NEW_PRIVS, 1, 0);
    }
}
