#!/bin/sh
# Runs the example that lays status files beside a plan's prediction. Standard output, standard error and status have to be what is expected here, to
# the byte. Files and expected lines are typed in from the paper, those of the examples from their workings.
#
#     compare_status.sh RUST-PROGRAM EXAMPLES
#
# EXAMPLES is the directory of the example plans.
. "$(dirname "$0")/both.sh"
examples=$(realpath -- "$2")
start_rust compare_status "$1"

usage='usage: compare_status PLAN STATUS..'
not_compared='not compared: securebits, group IDs'
due='Uid, CapInh, CapPrm, CapEff, CapBnd, CapAmb, NoNewPrivs'
broken_plan='malformed plan: this line is the first that is missing, incomplete or wrong'
none=0000000000000000
full=000001ffffffffff

# faulty FILE LINE SHOWN: a wanted line that is malformed or not the next one due. cut_short FILE LINE: a line is still due at the end.
faulty() {
    says "$1:$2: malformed status file: \"$3\" is not in its form or not the next of $due"
}
cut_short() {
    says "$1:$2: malformed status file: it ends before it has all of $due"
}
# agrees FILE
agrees() {
    prints "$1: nothing differs"
}

# The examples: a log script that has raw I/O as its plan predicts, and not as the mended one does; one that is mended; a burner that was started
# without the drop of SETUID and without no-new-privs.
cp "$examples"/*.plan "$examples"/status/*.status .
agrees log-script.status
prints "$not_compared"
check 'the log script with raw I/O, as predicted' 0 log-script.plan log-script.status
retaken='log-script-mended.plan:26: step 3 is refused: the new inheritable set goes beyond the inheritable and permitted sets, and CAP_SETPCAP'
retaken="$retaken is not effective"
raw_io() {
    for set in permitted inheritable effective; do
        prints "$1: $set is 0000000000020000 (cap_sys_rawio), predicted 0000000000000000 (none)"
    done
}
says "$retaken"
raw_io log-script.status
prints "$not_compared"
check 'the log script with raw I/O, mended' 1 log-script-mended.plan log-script.status
says "$retaken"
agrees log-script-mended.status
prints "$not_compared"
check 'the mended log script' 0 log-script-mended.plan log-script-mended.status
burner() {
    says 'burner-start.plan:66: step 11 is refused: a needed capability is not effective'
    found='000001ffffdeefff (all but cap_net_admin,cap_sys_module,cap_sys_admin)'
    predicted='000001ffffdeef7f (all but cap_setuid,cap_net_admin,cap_sys_module,cap_sys_admin)'
    prints "burner.status: bounding is $found, predicted $predicted; more: cap_setuid"
    prints 'burner.status: nnp is 0, predicted 1'
    prints "$not_compared"
}
burner
check 'the burner' 1 burner-start.plan burner.status
grep -v '^CapEff' burner.status >no-effective.status
says 'burner-start.plan:66: step 11 is refused: a needed capability is not effective'
faulty no-effective.status 46 'CapBnd:\t000001ffffdeefff'
check 'the burner without its effective set' 2 burner-start.plan no-effective.status

# A plan without steps, and the status file of the same credentials; IDs and sets are all different.
cat >start.plan <<END
ruid=2
euid=20
suid=30000
fsuid=4294967294
rgid=3
egid=40
sgid=50000
fsgid=4294967293
permitted=000000000000203f
inheritable=000000000000003e
effective=0000000000002003
bounding=000001ffffffffff
ambient=000000000000003c
securebits=ac
nnp=1
END
# status UID INHERITABLE PERMITTED EFFECTIVE BOUNDING AMBIENT NNP: the seven lines.
status() {
    printf 'Uid:\t%s\nCapInh:\t%s\nCapPrm:\t%s\nCapEff:\t%s\nCapBnd:\t%s\nCapAmb:\t%s\nNoNewPrivs:\t%s\n' "$@"
}
tab=$(printf '\t')
ids="2${tab}20${tab}30000${tab}4294967294"
inheritable=000000000000003e
permitted=000000000000203f
effective=0000000000002003
ambient=000000000000003c
status "$ids" $inheritable $permitted $effective $full $ambient 1 >same
agrees same
prints "$not_compared"
check 'the same values' 0 start.plan same

# shows LINE..: the status file `other` differs in these lines.
shows() {
    for line; do
        prints "other: $line"
    done
    prints "$not_compared"
    check "$1" 1 start.plan other
}
# Each ID, and no-new-privs.
status "1${tab}20${tab}30000${tab}4294967294" $inheritable $permitted $effective $full $ambient 1 >other
shows 'ruid is 1, predicted 2'
status "2${tab}0${tab}30000${tab}4294967294" $inheritable $permitted $effective $full $ambient 1 >other
shows 'euid is 0, predicted 20'
status "2${tab}20${tab}4294967294${tab}4294967294" $inheritable $permitted $effective $full $ambient 1 >other
shows 'suid is 4294967294, predicted 30000'
status "2${tab}20${tab}30000${tab}4294967295" $inheritable $permitted $effective $full $ambient 1 >other
shows 'fsuid is 4294967295 (no user ID), predicted 4294967294'
status "$ids" $inheritable $permitted $effective $full $ambient 0 >other
shows 'nnp is 0, predicted 1'

# Each set, with names: none, some, more than half, all; both more and less; bits above 40.
status "$ids" $inheritable $none $effective $full $ambient 1 >other
of_permitted='(cap_chown,cap_dac_override,cap_dac_read_search,cap_fowner,cap_fsetid,cap_kill,cap_net_raw)'
shows "permitted is $none (none), predicted $permitted $of_permitted"
status "$ids" 000001c00000003e $permitted $effective $full $ambient 1 >other
of_inheritable='cap_dac_override,cap_dac_read_search,cap_fowner,cap_fsetid,cap_kill'
shows "inheritable is 000001c00000003e ($of_inheritable,cap_perfmon,cap_bpf,cap_checkpoint_restore), predicted \
$inheritable ($of_inheritable); more: cap_perfmon,cap_bpf,cap_checkpoint_restore"
status "$ids" $inheritable $permitted 0000000000002000 $full $ambient 1 >other
of_effective='cap_chown,cap_dac_override,cap_net_raw'
shows "effective is 0000000000002000 (cap_net_raw), predicted $effective ($of_effective); less: cap_chown,cap_dac_override"
status "$ids" $inheritable $permitted 000000000000e001 $full $ambient 1 >other
shows "effective is 000000000000e001 (cap_chown,cap_net_raw,cap_ipc_lock,cap_ipc_owner), predicted $effective ($of_effective)\
; more: cap_ipc_lock,cap_ipc_owner; less: cap_dac_override"
status "$ids" $inheritable $permitted $effective 000001fffffdffff $ambient 1 >other
shows "bounding is 000001fffffdffff (all but cap_sys_rawio), predicted $full (all); less: cap_sys_rawio"
status "$ids" $inheritable $permitted $effective $none $ambient 1 >other
shows "bounding is $none (none), predicted $full (all)"
status "$ids" $inheritable $permitted $effective ffffffffffffffff $ambient 1 >other
above='no capability of these 41'
shows "bounding is ffffffffffffffff (all and fffffe0000000000, $above), predicted $full (all); more: fffffe0000000000, $above"
status "$ids" $inheritable $permitted $effective $full 0000020000000000 1 >other
of_ambient='cap_dac_read_search,cap_fowner,cap_fsetid,cap_kill'
shows "ambient is 0000020000000000 (0000020000000000, $above), predicted $ambient ($of_ambient); more: 0000020000000000, $above\
; less: $of_ambient"
status "$ids" $inheritable $permitted $effective $full 800000000000003c 1 >other
shows "ambient is 800000000000003c ($of_ambient and 8000000000000000, $above), predicted $ambient ($of_ambient); more: 8000000000000000, $above"
# Twenty capabilities are named, of twenty-one those that are missing.
low='cap_chown,cap_dac_override,cap_dac_read_search,cap_fowner,cap_fsetid,cap_kill,cap_setgid,cap_setuid,cap_setpcap,cap_linux_immutable'
low="$low,cap_net_bind_service,cap_net_broadcast,cap_net_admin,cap_net_raw,cap_ipc_lock,cap_ipc_owner,cap_sys_module,cap_sys_rawio"
low="$low,cap_sys_chroot,cap_sys_ptrace"
high='cap_sys_admin,cap_sys_boot,cap_sys_nice,cap_sys_resource,cap_sys_time,cap_sys_tty_config,cap_mknod,cap_lease,cap_audit_write'
high="$high,cap_audit_control,cap_setfcap,cap_mac_override,cap_mac_admin,cap_syslog,cap_wake_alarm,cap_block_suspend,cap_audit_read,cap_perfmon"
high="$high,cap_bpf,cap_checkpoint_restore"
status "$ids" $inheritable $permitted $effective 00000000000fffff $ambient 1 >other
shows "bounding is 00000000000fffff ($low), predicted $full (all); less: all but $low"
status "$ids" $inheritable $permitted $effective 00000000001fffff $ambient 1 >other
shows "bounding is 00000000001fffff (all but $high), predicted $full (all); less: $high"

# All ten keys, in the order of the sheet.
status "0${tab}0${tab}0${tab}0" 0000000000000001 0000000000000002 $none 0000000000000004 $none 0 >other
shows 'ruid is 0, predicted 2' 'euid is 0, predicted 20' 'suid is 0, predicted 30000' 'fsuid is 0, predicted 4294967294' \
    "permitted is 0000000000000002 (cap_dac_override), predicted $permitted $of_permitted\
; less: cap_chown,cap_dac_read_search,cap_fowner,cap_fsetid,cap_kill,cap_net_raw" \
    "inheritable is 0000000000000001 (cap_chown), predicted $inheritable ($of_inheritable); more: cap_chown; less: $of_inheritable" \
    "effective is $none (none), predicted $effective ($of_effective)" \
    "bounding is 0000000000000004 (cap_dac_read_search), predicted $full (all); less: all but cap_dac_read_search" \
    "ambient is $none (none), predicted $ambient ($of_ambient)" 'nnp is 0, predicted 1'

# Other lines, whatever they hold; no last newline.
{
    printf 'Uid\n Uid:\t1\nuid:\t1\n\0\377\n\n'
    cat same
    printf 'CapInhX:\t1\nGid:\t9\t9\t9\t9\nNoNewPriv:'
} >lines
agrees lines
prints "$not_compared"
check 'other lines' 0 start.plan lines
head -c -1 same >no-newline
agrees no-newline
prints "$not_compared"
check 'no last newline' 0 start.plan no-newline

# Several files: every one is looked at, and the greatest status counts.
status "$ids" $inheritable $permitted $effective $full $ambient 0 >other
agrees same
prints 'other: nnp is 0, predicted 1'
agrees same
prints "$not_compared"
check 'one of three differs' 1 start.plan same other same
agrees same
agrees lines
prints "$not_compared"
check 'none of two differs' 0 start.plan same lines
: >empty
prints 'other: nnp is 0, predicted 1'
cut_short empty 1
says 'missing: cannot be read: No such file or directory'
agrees same
prints "$not_compared"
check 'two of four cannot be used' 2 start.plan other empty missing same
cut_short empty 1
agrees same
prints "$not_compared"
check 'the first of two cannot be used' 2 start.plan empty same
cut_short empty 1
says '.: cannot be read: Is a directory'
check 'no file can be used' 2 start.plan empty .

# Standard input, once: a status file, the plan.
reads same
agrees 'standard input'
prints "$not_compared"
check 'a status file on standard input' 0 start.plan -
reads other
agrees same
prints 'standard input: nnp is 0, predicted 1'
prints "$not_compared"
check 'a file and standard input' 1 start.plan same -
reads start.plan
agrees same
prints "$not_compared"
check 'the plan on standard input' 0 - same
reads log-script-mended.plan
says "standard input${retaken#log-script-mended.plan}"
raw_io log-script.status
prints "$not_compared"
check 'a refused step on standard input' 1 - log-script.status
reads broken.plan
says "standard input:24: $broken_plan"
check 'a malformed plan on standard input' 2 - same
cut_short 'standard input' 1
check 'an empty standard input' 2 start.plan -
reads .
says 'standard input: cannot be read: Is a directory'
check 'a directory on standard input' 2 start.plan -
reads same
says 'compare_status: standard input can be read once, and - stands more often'
check 'standard input twice' 2 start.plan - -
reads start.plan
says 'compare_status: standard input can be read once, and - stands more often'
check 'standard input for the plan and for a status file' 2 - -
cp same ./-
agrees ./-
prints "$not_compared"
check 'a file of that name' 0 start.plan ./-

# malformed LINE SHOWN: the status file `broken` is refused at this line, of which this is shown.
malformed() {
    faulty broken "$1" "$2"
    check "$2" 2 start.plan broken
}
# instead LINE TEXT: `broken` is the same values with another text for one line, and two lines before the first.
instead() {
    {
        printf 'Name:\tx\n\n'
        head -n $(($1 - 1)) same
        printf '%s\n' "$2"
        tail -n +$(($1 + 1)) same
    } >broken
}
instead 1 "Uid:${tab}2${tab}20${tab}30000"
malformed 3 'Uid:\t2\t20\t30000'
instead 1 "Uid:$tab$ids${tab}1"
malformed 3 'Uid:\t2\t20\t30000\t4294967294\t1'
instead 1 "Uid:${tab}2${tab}20${tab}30000${tab}4294967296"
malformed 3 'Uid:\t2\t20\t30000\t4294967296'
instead 1 "Uid:${tab}02${tab}20${tab}30000${tab}4294967294"
malformed 3 'Uid:\t02\t20\t30000\t4294967294'
instead 1 "Uid: 2${tab}20${tab}30000${tab}4294967294"
malformed 3 'Uid: 2\t20\t30000\t4294967294'
instead 1 'Uid:'
malformed 3 'Uid:'
instead 2 "CapInh:${tab}000000000000003E"
malformed 4 'CapInh:\t000000000000003E'
instead 3 "CapPrm:${tab}203f"
malformed 5 'CapPrm:\t203f'
instead 4 "CapEff:$tab$effective$(printf '\r')"
malformed 6 'CapEff:\t0000000000002003\r'
instead 5 "CapBnd:$tab${full}0"
malformed 7 'CapBnd:\t000001ffffffffff0'
instead 6 "CapAmb:$tab$(printf '\377\\"')"
malformed 8 'CapAmb:\t\xff\\\"'
instead 7 "NoNewPrivs:${tab}2"
malformed 9 'NoNewPrivs:\t2'
# A line that is not the next one due: missing, twice, also after all seven, exchanged.
instead 4 x
malformed 7 'CapBnd:\t000001ffffffffff'
instead 4 "CapPrm:$tab$permitted"
malformed 6 'CapPrm:\t000000000000203f'
{
    cat same
    printf 'x\nUid:\t%s' "$ids"
} >broken
malformed 9 'Uid:\t2\t20\t30000\t4294967294'
tac same >broken
malformed 1 'NoNewPrivs:\t1'
# Of a line of more than 64 bytes the first are shown.
letters=$(printf '%060d' 0)
instead 1 "Uid:$letters"
malformed 3 "Uid:$letters"
instead 1 "Uid:${letters}00"
says "broken:3: malformed status file: \"Uid:$letters\".. is not in its form or not the next of $due"
check 'a long line at fault' 2 start.plan broken
# One still due at the end.
cut() {
    cut_short broken "$1"
    check "one is due at line $1" 2 start.plan broken
}
printf x >broken
cut 2
printf 'x\n' >broken
cut 2
head -n 6 same >broken
cut 7
head -n 1 same >broken
cut 2
head -c 100 /dev/zero >broken
cut 2

# A megabyte before the first line and after the last; more than 16 MiB, which are not looked at.
head -c 1100000 /dev/zero | tr '\0' '\n' >newlines
cat newlines same newlines >large
agrees large
prints "$not_compared"
check 'over two megabytes' 0 start.plan large
cut_short newlines 1100001
check 'over a megabyte of newlines' 2 start.plan newlines
{
    cat same
    head -c 16777216 /dev/zero
} >huge
head -c 16777216 huge >greatest
agrees greatest
prints "$not_compared"
check '16 MiB' 0 start.plan greatest
head -c 16777217 huge >huge-by-one
says 'huge-by-one: cannot be used: longer than 16777216 bytes'
check 'one byte more' 2 start.plan huge-by-one
says '/dev/zero: cannot be used: longer than 16777216 bytes'
agrees same
prints "$not_compared"
check 'a device that never ends' 2 start.plan /dev/zero same
rm large newlines huge greatest huge-by-one

# Plans that cannot be used: the status files are not looked at.
says "broken.plan:24: $broken_plan"
check 'a malformed plan' 2 broken.plan same missing
says 'invalid-sheet.plan: the credentials at the start are not valid'
check 'a start that is not valid' 2 invalid-sheet.plan same
says "same:1: $broken_plan"
check 'a status file for the plan' 2 same start.plan
says 'missing.plan: cannot be read: No such file or directory'
check 'a missing plan' 2 missing.plan same
says '.: cannot be read: Is a directory'
check 'a directory for the plan' 2 . same
says "/dev/zero:1: $broken_plan"
check 'a device that never ends for the plan' 2 /dev/zero same

# Other files that cannot be read; names that are no words.
says ': cannot be read: No such file or directory'
check 'an empty name' 2 start.plan ''
says 'same/x: cannot be read: Not a directory'
check 'a file for a directory' 2 start.plan same/x
if test "$(id -u)" -ne 0; then
    cp same locked
    chmod 000 locked
    says 'locked: cannot be read: Permission denied'
    check 'a file that may not be read' 2 start.plan locked
fi
odd=$(printf 'a %%s \377.status')
cp other "./$odd"
prints "$odd: nnp is 0, predicted 1"
prints "$not_compared"
check 'an odd name' 1 start.plan "$odd"
says "--help: cannot be read: No such file or directory"
check 'a name like an option' 2 start.plan --help

# Arguments that are none of these.
says "$usage"
check 'no arguments' 2
says "$usage"
check 'a plan alone' 2 start.plan
says "$usage"
check 'standard input alone' 2 -

check_unwritable compare_status start.plan same
finish
