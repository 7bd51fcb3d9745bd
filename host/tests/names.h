/* What names.c and sanitize_names.c share: the capabilities' names, and texts in names with what they come to. Typed in, the names from
 * linux/capability.h, all else from the paper. */
#ifndef NAMES_H
#define NAMES_H

#include "../include/urrezkalu.h"

enum { CAPABILITIES = 41 };

/* By number, in lower case. names_header.py holds the library's against the system's own header. */
static const char *const names[CAPABILITIES] = {
    "cap_chown", "cap_dac_override", "cap_dac_read_search", "cap_fowner", "cap_fsetid", "cap_kill", "cap_setgid",
    "cap_setuid", "cap_setpcap", "cap_linux_immutable", "cap_net_bind_service", "cap_net_broadcast", "cap_net_admin",
    "cap_net_raw", "cap_ipc_lock", "cap_ipc_owner", "cap_sys_module", "cap_sys_rawio", "cap_sys_chroot",
    "cap_sys_ptrace", "cap_sys_pacct", "cap_sys_admin", "cap_sys_boot", "cap_sys_nice", "cap_sys_resource",
    "cap_sys_time", "cap_sys_tty_config", "cap_mknod", "cap_lease", "cap_audit_write", "cap_audit_control",
    "cap_setfcap", "cap_mac_override", "cap_mac_admin", "cap_syslog", "cap_wake_alarm", "cap_block_suspend",
    "cap_audit_read", "cap_perfmon", "cap_bpf", "cap_checkpoint_restore",
};

/* A text in names, and the sets that it stands for. */
struct named_text {
    const char *text;
    uint64_t sets[URREZKALU_NAMED_VALUES];
};

/* In the one form that is written: none, one capability in each way, some, each with its own flags. */
static const struct named_text written_texts[] = {
    {"", {0, 0, 0}},
    {"cap_chown=p", {1, 0, 0}},
    {"cap_chown=i", {0, 1, 0}},
    {"cap_chown=e", {0, 0, 1}},
    {"cap_net_raw=ep", {0x2000, 0, 0x2000}},
    {"cap_kill=ei cap_mknod=ip", {0x8000000, 0x8000020, 0x20}},
    {"cap_chown=p cap_kill=ei cap_net_raw=ep", {0x2001, 0x20, 0x2020}},
    {"cap_setfcap=e cap_mac_override=i cap_checkpoint_restore=eip", {0x10000000000, 0x10100000000, 0x10080000000}},
    {"cap_chown=eip cap_dac_override=ip cap_dac_read_search=ep cap_fowner=p cap_fsetid=ei cap_kill=i cap_setgid=e cap_setuid=eip cap_setpcap=ip "
     "cap_linux_immutable=ep cap_net_bind_service=p cap_net_broadcast=ei cap_net_admin=i cap_net_raw=e cap_ipc_lock=eip cap_ipc_owner=ip "
     "cap_sys_module=ep cap_sys_rawio=p cap_sys_chroot=ei cap_sys_ptrace=i cap_sys_pacct=e cap_sys_admin=eip cap_sys_boot=ip cap_sys_nice=ep "
     "cap_sys_resource=p cap_sys_time=ei cap_sys_tty_config=i cap_mknod=e cap_lease=eip cap_audit_write=ip cap_audit_control=ep cap_setfcap=p "
     "cap_mac_override=ei cap_mac_admin=i cap_syslog=e cap_wake_alarm=eip cap_block_suspend=ip cap_audit_read=ep cap_perfmon=p cap_bpf=ei "
     "cap_checkpoint_restore=i",
     {0x78f1e3c78f, 0x19b366cd9b3, 0xad5ab56ad5}},
};

/* In other forms. */
static const struct named_text other_texts[] = {
    {"cap_net_raw+ep", {0x2000, 0, 0x2000}},
    /* Blanks: no clause, between clauses, at both ends. */
    {" ", {0, 0, 0}},
    {"\t\n \n", {0, 0, 0}},
    {"\n cap_kill=e\tcap_chown=p\ncap_fsetid=i \t", {1, 0x10, 0x20}},
    /* Names in either case, joined, given twice. */
    {"Cap_Net_RAW+p aLL+i", {0x2000, 0x1ffffffffff, 0}},
    {"CAP_SYS_ADMIN,cap_bPF=pe", {0x8000200000, 0, 0x8000200000}},
    {"cap_chown,cap_bpf,cap_chown=i", {0, 0x8000000001, 0}},
    {"cap_kill,cap_kill-p cap_kill,cap_kill+e", {0, 0, 0x20}},
    /* Flags in any order, also repeated. */
    {"cap_chown=pie cap_kill+peep", {0x21, 1, 0x21}},
    {"cap_kill=eeeeiiii", {0, 0x20, 0x20}},
    /* All, by its name and without. */
    {"all=eip", {0x1ffffffffff, 0x1ffffffffff, 0x1ffffffffff}},
    {"ALL+i", {0, 0x1ffffffffff, 0}},
    {"=p+e", {0x1ffffffffff, 0, 0x1ffffffffff}},
    {"=", {0, 0, 0}},
    {"=+i", {0, 0x1ffffffffff, 0}},
    {"=-e", {0, 0, 0}},
    {"==e", {0, 0, 0x1ffffffffff}},
    /* `=` takes and gives, `+` gives, `-` takes. */
    {"=eip cap_kill=p", {0x1ffffffffff, 0x1ffffffffdf, 0x1ffffffffdf}},
    {"=eip cap_kill=", {0x1ffffffffdf, 0x1ffffffffdf, 0x1ffffffffdf}},
    {"=e =i", {0, 0x1ffffffffff, 0}},
    {"all=ep cap_kill-ip", {0x1ffffffffdf, 0, 0x1ffffffffff}},
    {"all=p cap_chown,cap_checkpoint_restore-p", {0xfffffffffe, 0, 0}},
    {"cap_chown-eip", {0, 0, 0}},
    /* Operators and clauses from left to right. */
    {"cap_chown=ei-e+p cap_kill+e=", {1, 1, 0}},
    {"cap_chown+e-e+e", {0, 0, 1}},
    {"cap_chown-e+e-e", {0, 0, 0}},
    {"cap_chown=e=i=p", {1, 0, 0}},
    {"cap_chown+p cap_chown+i cap_chown+e", {1, 1, 1}},
    {"cap_kill=eip cap_chown+e cap_kill-eip", {0, 0, 1}},
};

/* Malformed texts, each at this place. */
#define TEXT(text) text, sizeof(text) - 1
static const struct {
    const char *text;
    size_t length;
    uint32_t place;
} malformed_texts[] = {
    /* What begins no clause: a clause without names begins with `=`. */
    {TEXT("+e"), 0},
    {TEXT("-e"), 0},
    {TEXT("e"), 0},
    {TEXT(",cap_kill=e"), 0},
    {TEXT("cap_kill=e -e"), 11},
    {TEXT("=e +e"), 3},
    /* What only ends too early. */
    {TEXT("c"), 1},
    {TEXT("cap_net_r"), 9},
    {TEXT("cap_net_raw"), 11},
    {TEXT("cap_kill,"), 9},
    {TEXT("cap_kill+"), 9},
    {TEXT("cap_kill=e-"), 11},
    {TEXT("all"), 3},
    /* `+` and `-` need a flag, and flags are lower case. */
    {TEXT("cap_kill+ cap_chown=e"), 9},
    {TEXT("cap_kill-=e"), 9},
    {TEXT("cap_kill=e++p"), 11},
    {TEXT("cap_kill=eE"), 10},
    {TEXT("cap_kill+P"), 9},
    {TEXT("cap_kill=x"), 9},
    /* `all` stands alone. */
    {TEXT("all,cap_chown=e"), 3},
    {TEXT("cap_chown,all=e"), 10},
    {TEXT("alll=e"), 3},
    /* What is no name: numbers, names without their front, with another end, with a blank within. */
    {TEXT("5=e"), 0},
    {TEXT("cap_kill=e 5=e"), 11},
    {TEXT("cap_5=e"), 4},
    {TEXT("chown=e"), 1},
    {TEXT("cap_chowns=e"), 9},
    {TEXT("cap_sysadmin=e"), 7},
    {TEXT("cap_net_bind_server=e"), 17},
    {TEXT("cap_net raw=e"), 7},
    {TEXT("cap_setp=e"), 8},
    /* Letters that are none in ASCII: a Kelvin sign for K, a long s for s. */
    {TEXT("cap_\xe2\x84\xaaill=e"), 4},
    {TEXT("cap_\xc5\xbfyslog=e"), 4},
    /* No blank stands within a clause, and no comma but between names. */
    {TEXT("cap_kill =e"), 8},
    {TEXT("cap_kill= e"), 10},
    {TEXT("cap_kill, cap_chown=e"), 9},
    {TEXT("cap_kill ,cap_chown=e"), 8},
    {TEXT("cap_kill,,cap_chown=e"), 9},
    {TEXT("cap_kill=e,cap_chown=e"), 10},
    /* Other bytes part no clauses and end no text. */
    {TEXT("cap_kill=e\r\n"), 10},
    {TEXT("cap_kill=e\vcap_chown=e"), 10},
    {TEXT("cap_kill=e\0"), 10},
    {TEXT("\0cap_kill=e"), 0},
    {TEXT("\xef\xbb\xbf" "cap_kill=e"), 0},
};

#endif
