#!/bin/sh
# Runs the two examples that read and write capabilities in names, in C and in Rust, on the same arguments and input. Standard output, standard error
# and status of both have to be what is expected here, to the byte, and so the same. Texts and sets are typed in from the paper.
#
#     capability_names.sh C-PROGRAM RUST-PROGRAM
. "$(dirname "$0")/both.sh"
start capability_names "$1" "$2"

usage='usage: capability_names TEXT
       capability_names --write PERMITTED INHERITABLE EFFECTIVE'
no_set='capability_names: a set is 1 to 16 hex digits, 0 to 9 and a to f'
out_of_range='capability_names: a set has a bit above 40'

# shows PERMITTED INHERITABLE EFFECTIVE: the lines for these sets, which have 16 digits.
shows() {
    prints "permitted=$1"
    prints "inheritable=$2"
    prints "effective=$3"
}
# both_ways TEXT PERMITTED INHERITABLE EFFECTIVE: written and read, each from the other.
both_ways() {
    prints "$1"
    check "$1, written" 0 --write "$2" "$3" "$4"
    shows "$2" "$3" "$4"
    check "$1, read" 0 "$1"
}
none=0000000000000000
full=000001ffffffffff
net_raw=0000000000002000
all='cap_chown=eip cap_dac_override=eip cap_dac_read_search=eip cap_fowner=eip cap_fsetid=eip cap_kill=eip cap_setgid=eip '
all=$all'cap_setuid=eip cap_setpcap=eip cap_linux_immutable=eip cap_net_bind_service=eip cap_net_broadcast=eip cap_net_admin=eip '
all=$all'cap_net_raw=eip cap_ipc_lock=eip cap_ipc_owner=eip cap_sys_module=eip cap_sys_rawio=eip cap_sys_chroot=eip cap_sys_ptrace=eip '
all=$all'cap_sys_pacct=eip cap_sys_admin=eip cap_sys_boot=eip cap_sys_nice=eip cap_sys_resource=eip cap_sys_time=eip '
all=$all'cap_sys_tty_config=eip cap_mknod=eip cap_lease=eip cap_audit_write=eip cap_audit_control=eip cap_setfcap=eip cap_mac_override=eip '
all=$all'cap_mac_admin=eip cap_syslog=eip cap_wake_alarm=eip cap_block_suspend=eip cap_audit_read=eip cap_perfmon=eip cap_bpf=eip '
all=$all'cap_checkpoint_restore=eip'
test ${#all} -eq 748
both_ways '' $none $none $none
both_ways 'cap_net_raw=ep' $net_raw $none $net_raw
both_ways 'cap_sys_rawio=i' $none 0000000000020000 $none
both_ways 'cap_chown=p cap_kill=ei cap_net_raw=ep' 0000000000002001 0000000000000020 0000000000002020
both_ways 'cap_checkpoint_restore=eip' 0000010000000000 0000010000000000 0000010000000000
both_ways "$all" $full $full $full

# Other forms of a text; fewer digits are the same set.
shows $net_raw $none $net_raw
check 'the form of the fitters' 0 cap_net_raw+ep
shows $none $full $full
check 'all, without names' 0 =ei
shows 000001ffffffffde 0000000000000021 $none
check 'several clauses' 0 "$(printf ' all=p\n\tCap_Kill,CAP_CHOWN=i ')"
prints 'cap_chown=p cap_fowner=i cap_net_raw=e'
check 'short sets' 0 --write 1 8 2000

# Standard input: none, one line, one without its newline, clauses line by line, over a megabyte.
shows $none $none $none
check 'an empty input' 0 -
echo cap_net_raw+ep >line
reads line
shows $net_raw $none $net_raw
check 'a line' 0 -
printf cap_net_raw+ep >no-newline
reads no-newline
shows $net_raw $none $net_raw
check 'no newline' 0 -
printf 'cap_chown=p\ncap_kill=ei\n\ncap_net_raw=ep\n' >lines
reads lines
shows 0000000000002001 0000000000000020 0000000000002020
check 'lines' 0 -
yes cap_kill+e | head -n 100000 >large
reads large
shows $none $none 0000000000000020
check 'over a megabyte' 0 -
{
    cat large
    echo cap_kill
} >large-broken
reads large-broken
last='\ncap_kill+e\ncap_kill+e\ncap_kill+e\ncap_kill+e\ncap_kill+e\ncap_kill'
says "capability_names: malformed at place 1100008, after ..\"$last\": \"\\n\" cannot stand there"
check 'over a megabyte, and a fault' 1 -
head -c 1100000 /dev/zero >nul
reads nul
says 'capability_names: malformed at place 0, after "": "\x00" cannot stand there'
check 'NULs' 1 -
reads .
says 'capability_names: cannot read standard input: Is a directory'
check 'a directory' 2 -

# malformed TEXT PLACE AFTER WHY: as an argument and as the input.
malformed() {
    printf %s "$1" >text
    says "capability_names: malformed at place $2, after $3: $4"
    check "'$1'" 1 "$1"
    reads text
    says "capability_names: malformed at place $2, after $3: $4"
    check "'$1' as the input" 1 -
}
early='the text ends too early'
malformed +e 0 '""' '"+" cannot stand there'
malformed --help 0 '""' '"-" cannot stand there'
malformed cap_net_raw 11 '"cap_net_raw"' "$early"
malformed cap_kill+ 9 '"cap_kill+"' "$early"
malformed 'cap_kill=e cap_' 15 '"cap_kill=e cap_"' "$early"
malformed cap_net_bind_server=e 17 '"cap_net_bind_serv"' '"e" cannot stand there'
malformed all,cap_chown=e 3 '"all"' '"," cannot stand there'
malformed cap_chown,all=e 10 '"cap_chown,"' '"a" cannot stand there'
malformed cap_kill=E 9 '"cap_kill="' '"E" cannot stand there'
malformed 'cap_kill =e' 8 '"cap_kill"' '" " cannot stand there'
# Bytes that are no words: blanks, quotes, a backslash, a percent sign, bytes that are no ASCII.
malformed "$(printf '\tcap_kill=e\n\\')" 12 '"\tcap_kill=e\n"' '"\\" cannot stand there'
malformed "$(printf 'cap_kill=e\r')" 10 '"cap_kill=e"' '"\r" cannot stand there'
malformed 'cap_kill="e"' 9 '"cap_kill="' '"\"" cannot stand there'
malformed "cap_kill='e'" 9 '"cap_kill="' '"\'"'"'" cannot stand there'
malformed 'cap_kill=%s' 9 '"cap_kill="' '"%" cannot stand there'
malformed "$(printf 'cap_kill=\377')" 9 '"cap_kill="' '"\xff" cannot stand there'
malformed "$(printf 'cap_kill=\177')" 9 '"cap_kill="' '"\x7f" cannot stand there'
malformed "$(printf 'cap_kill=\303\251')" 9 '"cap_kill="' '"\xc3" cannot stand there'
# Of more than 64 bytes the last are shown.
spaces=$(printf '%63s' '')
malformed "$spaces+" 63 "\"$spaces\"" '"+" cannot stand there'
malformed "$spaces +" 64 "\"$spaces \"" '"+" cannot stand there'
malformed "$spaces  +" 65 "..\"$spaces \"" '"+" cannot stand there'

# Refusals of sets: capability 40 is the last.
prints 'cap_checkpoint_restore=p'
check 'capability 40' 0 --write 10000000000 0 0
says "$out_of_range"
check 'capability 41, permitted' 1 --write 20000000000 0 0
says "$out_of_range"
check 'capability 41, inheritable' 1 --write 0 20000000000 0
says "$out_of_range"
check 'capability 41, effective' 1 --write 0 0 20000000000
says "$out_of_range"
check 'sixteen ones' 1 --write ffffffffffffffff ffffffffffffffff ffffffffffffffff

# Arguments that are none of these.
says "$usage"
check 'no arguments' 2
says "$usage"
check 'two texts' 2 cap_kill=e cap_chown=e
says "$usage"
check 'the input and a text' 2 - cap_chown=e
says "$usage"
check 'no sets' 2 --write
says "$usage"
check 'two sets' 2 --write 2000 0
says "$usage"
check 'four sets' 2 --write 2000 0 2000 0
says "$usage"
check 'three sets and no word' 2 2000 0 2000
for set in '' 00000000000002000 2000h 0x2000 2A +2000 -1 ' 2000' '2000 ' "$(printf '\377')"; do
    for place in 1 2 3; do
        says "$no_set"
        case $place in
        1) check "'$set' for the permitted set" 2 --write "$set" 0 0 ;;
        2) check "'$set' for the inheritable set" 2 --write 0 "$set" 0 ;;
        3) check "'$set' for the effective set" 2 --write 0 0 "$set" ;;
        esac
    done
done
says "$no_set"
check 'the arguments are looked at before the range' 2 --write 20000000000 0 x

check_unwritable capability_names cap_net_raw+ep
finish
