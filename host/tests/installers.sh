#!/bin/sh
# Runs the two examples that check plans and slot plans, in C and in Rust, on the same arguments. Standard output, standard error and status of both
# have to be what is expected here, to the byte, and so the same.
#
#     installers.sh C-PROGRAM RUST-PROGRAM EXAMPLES
#
# EXAMPLES is the directory of the example plans.
. "$(dirname "$0")/both.sh"
examples=$(realpath -- "$3")
start installers "$1" "$2"

fault='malformed plan: this line is the first that is missing, incomplete or wrong'
invalid='the credentials at the start are not valid'

# What a step's code, and of code 1 its cause, is called.
words() {
    case $1 in
    1-1) echo 'a needed capability is not effective' ;;
    1-2) echo 'the new inheritable set goes beyond the inheritable and permitted sets, and CAP_SETPCAP is not effective' ;;
    1-3) echo 'the new inheritable set goes beyond the inheritable and bounding sets' ;;
    1-4) echo 'the new permitted set goes beyond the permitted set' ;;
    1-5) echo 'the new effective set goes beyond the new permitted set' ;;
    1-6) echo 'the capability is not in both the permitted and the inheritable set' ;;
    1-7) echo 'SECBIT_NO_CAP_AMBIENT_RAISE forbids to raise an ambient capability' ;;
    1-8) echo 'a lock of the securebits would be undone' ;;
    1-9) echo 'a locked flag of the securebits would be set or cleared' ;;
    1-10) echo 'an ID is not among those allowed' ;;
    1-11) echo "the launch falls short of the file's permitted set" ;;
    3-0) echo 'the slot is not in use' ;;
    11-0) echo 'no slot is free' ;;
    22-0) echo "$no_call" ;;
    60-0) echo 'the attribute cannot be read' ;;
    *) echo "no words for $1" ;;
    esac
}

# What plans and slot plans differ in: the option, how many lines a step has, and what a step is that is out of range.
plans() {
    option=
    step_lines=5
    no_call='number, operands and attribute make no call'
}
slot_plans() {
    option=--slots
    step_lines=6
    no_call='slot, number, operands and attribute make no call'
}

# The name and the report of an accepted plan, and why the steps are refused that are: the first step begins at line 16 of a plan.
accepts() {
    prints "$1: accepted"
    prints_file "$2"
    step=0
    for result in $(sed -n 's/^code=//p;s/^cause=/-/p' "$2" | paste -d '' - -); do
        step=$((step + 1))
        test "$result" = 0-0 || says "$1:$((16 + (step - 1) * step_lines)): step $step is refused: $(words "$result")"
    done
}

# Every example by itself, and all of them at once. The report beside a refused plan is its code and its line.
expect_example() {
    report=${1%.plan}.report
    case $(head -n 1 "$report") in
    code=70) says "$1:$(sed -n 's/^line=//p' "$report"): $fault" ;;
    code=72) says "$1: $invalid" ;;
    *) accepts "$1" "$report" ;;
    esac
}
check_examples() {
    accepted=0
    for plan; do
        expect_example "$plan"
        if test -s "$work/expected/stdout"; then
            accepted=$((accepted + 1))
            check "$plan" 0 $option "$plan"
        else
            check "$plan" 1 $option "$plan"
        fi
    done
    test "$accepted" -ge 2
    for plan; do
        expect_example "$plan"
    done
    check 'all examples at once' 1 $option "$@"
}
slot_plans
check_examples "$examples"/slots/*.plan
plans
check_examples "$examples"/*.plan "$examples"/rules/*.plan

# Words and names, typed in.
cp "$examples/case-2.plan" good.plan
cp "$examples/case-2.report" good.report
cp "$examples/broken.plan" "$examples/invalid-sheet.plan" .
says 'broken.plan:24: malformed plan: this line is the first that is missing, incomplete or wrong'
check 'a malformed plan' 1 broken.plan
says 'invalid-sheet.plan: the credentials at the start are not valid'
check 'a start that is not valid' 1 invalid-sheet.plan
says 'usage: check_plans [--slots] PLAN..'
check 'no arguments' 2
says 'usage: check_plans [--slots] PLAN..'
check 'no slot plans' 2 --slots
cp "$examples/burner-refused.plan" "$examples/burner-refused.report" .
prints 'burner-refused.plan: accepted'
prints_file burner-refused.report
says "burner-refused.plan:26: step 3 is refused: the launch falls short of the file's permitted set"
says 'burner-refused.plan:36: step 5 is refused: the new inheritable set goes beyond the inheritable and bounding sets'
check 'refused steps' 0 burner-refused.plan
says 'missing.plan: cannot be read: No such file or directory'
check 'a missing file' 2 missing.plan
says ': cannot be read: No such file or directory'
check 'an empty name' 2 ''
says '.: cannot be read: Is a directory'
check 'a directory' 2 .
says 'good.plan/x: cannot be read: Not a directory'
check 'a file for a directory' 2 good.plan/x
ln -s loop.plan loop.plan
says 'loop.plan: cannot be read: Too many levels of symbolic links'
check 'a link to itself' 2 loop.plan
if test "$(id -u)" -ne 0; then
    cp good.plan locked.plan
    chmod 000 locked.plan
    says 'locked.plan: cannot be read: Permission denied'
    check 'a file that may not be read' 2 locked.plan
fi

# The greatest status counts, in either order, and every plan is looked at.
accepts good.plan good.report
says "broken.plan:24: $fault"
accepts good.plan good.report
check 'a refused plan between accepted ones' 1 good.plan broken.plan good.plan
says 'missing.plan: cannot be read: No such file or directory'
says "invalid-sheet.plan: $invalid"
accepts good.plan good.report
check 'a missing file first' 2 missing.plan invalid-sheet.plan good.plan
says "broken.plan:24: $fault"
says '.: cannot be read: Is a directory'
check 'a directory last' 2 broken.plan .

# Contents: none, NULs, no last newline.
: >empty.plan
says "empty.plan:1: $fault"
check 'an empty file' 1 empty.plan
head -c 100 /dev/zero >nul.plan
says "nul.plan:1: $fault"
check 'NULs' 1 nul.plan
{
    cat good.plan
    printf '\0'
} >nul-after.plan
says "nul-after.plan:21: $fault"
check 'a NUL after a plan' 1 nul-after.plan
head -n 17 good.plan >cut.plan
says "cut.plan:18: $fault"
check 'a plan cut after line 17' 1 cut.plan
head -c -1 good.plan >no-newline.plan
says "no-newline.plan:20: $fault"
check 'no last newline' 1 no-newline.plan

# Group IDs: none at all, and one that is no group's.
sed '/gid=/d' good.plan >no-groups.plan
says "no-groups.plan:5: $fault"
check 'no group IDs' 1 no-groups.plan
sed 's/^sgid=.*/sgid=4294967295/' good.plan >no-group.plan
says "no-group.plan: $invalid"
check 'a saved group ID that is not valid' 1 no-group.plan

# The longest plan, 30748 bytes, has the longest report, 10268 bytes. One byte more is a fault, and so is a megabyte more.
ones=ffffffffffffffff
full=000001ffffffffff
{
    for id in ruid euid suid fsuid rgid egid sgid fsgid; do
        echo $id=4294967294
    done
    for set in permitted inheritable effective bounding ambient; do
        echo $set=$full
    done
    echo securebits=ff
    echo nnp=1
} >sheet
for _ in $(seq 256); do
    printf 'call=99\na=%s\nb=%s\nc=%s\nattr=%s%s%s\n' $ones $ones $ones $ones $ones $ones
done >steps
for _ in $(seq 256); do
    printf 'code=22\nvalue=0000000000000000\ncause=0\n'
done >results
cat sheet steps >longest.plan
cat results sheet >longest.report
test "$(wc -c <longest.plan)" -eq 30748
test "$(wc -c <longest.report)" -eq 10268
accepts longest.plan longest.report
check 'the longest plan' 0 longest.plan
{
    cat longest.plan
    echo
} >longer.plan
says "longer.plan:1296: $fault"
check 'one byte more than the longest plan' 1 longer.plan
{
    cat longest.plan
    head -c 1100000 /dev/zero | tr '\0' '\n'
} >large.plan
says "large.plan:1296: $fault"
check 'over a megabyte, the longest plan first' 1 large.plan
head -c 1100000 /dev/zero | tr '\0' x >noise.plan
says "noise.plan:1: $fault"
check 'over a megabyte of noise' 1 noise.plan

# Names that are no words: blanks, a percent sign, bytes that are no UTF-8, one that looks like an option.
odd=$(printf 'a %%s \377.plan')
cp good.plan "./$odd"
accepts "$odd" good.report
check 'an odd name' 0 "$odd"
rm "./$odd"
says "$odd: cannot be read: No such file or directory"
check 'an odd name that is missing' 2 "$odd"
says '--help: cannot be read: No such file or directory'
check 'a name like an option' 2 --help

# Slot plans: words and lines, typed in. A form is not taken for the other, and the option comes first.
cp "$examples/slots/free-slot.plan" slots.plan
cp "$examples/slots/free-slot.report" slots.report
prints 'slots.plan: accepted'
prints_file slots.report
says 'slots.plan:16: step 1 is refused: the slot is not in use'
says 'slots.plan:22: step 2 is refused: the slot is not in use'
for step in 3 4; do
    says "slots.plan:$((6 * step + 10)): step $step is refused: slot, number, operands and attribute make no call"
done
for step in 5 6 7 8 9 10; do
    says "slots.plan:$((6 * step + 10)): step $step is refused: the slot is not in use"
done
for step in 11 12 13 14 15 16 17 18 19; do
    says "slots.plan:$((6 * step + 10)): step $step is refused: slot, number, operands and attribute make no call"
done
says 'slots.plan:142: step 22 is refused: the attribute cannot be read'
says 'slots.plan:148: step 23 is refused: an ID is not among those allowed'
says 'slots.plan:154: step 24 is refused: slot, number, operands and attribute make no call'
says 'slots.plan:178: step 28 is refused: the slot is not in use'
says 'slots.plan:184: step 29 is refused: the slot is not in use'
check 'refused steps of a slot plan' 0 --slots slots.plan
says "good.plan:16: $fault"
check 'a plan for a slot plan' 1 --slots good.plan
says "slots.plan:16: $fault"
check 'a slot plan for a plan' 1 slots.plan
accepts good.plan good.report
says '--slots: cannot be read: No such file or directory'
says "slots.plan:16: $fault"
check 'the option after a name' 2 good.plan --slots slots.plan
says '--slots: cannot be read: No such file or directory'
check 'the option twice' 2 --slots --slots

# The longest slot plan, 32796 bytes; and the longest report, 37911 bytes, of 95 forks and 161 steps that are refused with 22.
slot_plans
for _ in $(seq 256); do
    printf 'slot=99\ncall=99\na=%s\nb=%s\nc=%s\nattr=%s%s%s\n' $ones $ones $ones $ones $ones $ones
done >slot-steps
cat sheet slot-steps >longest-slots.plan
{
    cat results
    echo slot=0
    cat sheet
} >longest-slots.report
test "$(wc -c <longest-slots.plan)" -eq 32796
accepts longest-slots.plan longest-slots.report
check 'the longest slot plan' 0 --slots longest-slots.plan
{
    cat longest-slots.plan
    echo
} >longer-slots.plan
says "longer-slots.plan:1552: $fault"
check 'one byte more than the longest slot plan' 1 --slots longer-slots.plan
{
    cat sheet
    for slot in $(seq 0 94); do
        printf 'slot=%d\ncall=30\na=%016x\nb=%016x\nc=%016x\nattr=\n' "$slot" 0 0 0
    done
    head -n $((161 * 6)) slot-steps
} >full.plan
{
    for slot in $(seq 95); do
        printf 'code=0\nvalue=%016x\ncause=0\n' "$slot"
    done
    head -n $((161 * 3)) results
    for slot in $(seq 0 95); do
        echo "slot=$slot"
        cat sheet
    done
} >full.report
test "$(wc -c <full.report)" -eq 37911
accepts full.plan full.report
check 'the longest report' 0 --slots full.plan

check_unwritable check_plans good.plan
finish
