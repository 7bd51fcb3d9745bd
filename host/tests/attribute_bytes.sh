#!/bin/sh
# Runs the two examples that write and read an attribute, in C and in Rust, on the same arguments. Standard output, standard error and status of
# both have to be what is expected here, to the byte, and so the same. Attributes are typed in from the paper.
#
#     attribute_bytes.sh C-PROGRAM RUST-PROGRAM
. "$(dirname "$0")/both.sh"
start attribute_bytes "$1" "$2"

usage='usage: attribute_bytes PERMITTED INHERITABLE BIT
       attribute_bytes --read ATTRIBUTE'
no_set='attribute_bytes: a set is 1 to 16 hex digits, 0 to 9 and a to f'
no_bit='attribute_bytes: the effective bit is 0 or 1'
no_bytes='attribute_bytes: an attribute is pairs of hex digits, 0 to 9 and a to f'
out_of_range='attribute_bytes: a set has a bit above 40'
unreadable='attribute_bytes: the attribute is unreadable'

# both_ways ATTRIBUTE PERMITTED INHERITABLE BIT: written and read, each from the other. Sets have 16 digits.
both_ways() {
    prints "$1"
    check "$1, written" 0 "$2" "$3" "$4"
    prints "attached=1 permitted=$2 inheritable=$3 effective=$4"
    check "$1, read" 0 --read "$1"
}
none=0000000000000000
full=000001ffffffffff
both_ways 0100000200200000000000000000000000000000 0000000000002000 $none 1
both_ways 0000000200000000000000000000000000000000 $none $none 0
both_ways 0000000200000000000002000000000000000000 $none 0000000000020000 0
both_ways 0100000278563412f0debc9aab000000cd010000 000000ab12345678 000001cd9abcdef0 1
both_ways 01000002ffffffffffffffffff010000ff010000 $full $full 1

# Fewer digits are the same set.
prints 0100000200200000000000000000000000000000
check 'a short set' 0 2000 0 1
prints 0000000201000000080000000000000000000000
check 'single digits' 0 1 8 0

# Version 1 is read; no bytes are no attribute, which is not one of empty sets.
prints 'attached=1 permitted=0000000044332211 inheritable=0000000088776655 effective=1'
check 'version 1' 0 --read 010000011122334455667788
prints "attached=0 permitted=$none inheritable=$none effective=0"
check 'no attribute' 0 --read ''

# Refusals: capability 40 is the last.
prints 0000000200000000000000000001000000000000
check 'capability 40' 0 10000000000 0 0
says "$out_of_range"
check 'capability 41, permitted' 1 20000000000 0 0
says "$out_of_range"
check 'capability 41, inheritable' 1 0 20000000000 1
says "$out_of_range"
check 'sixteen ones' 1 ffffffffffffffff ffffffffffffffff 1
for attribute in 00 010000020020000000000000 01000002002000000000000000000000000000 010000020020000000000000000000000000000000 \
    010000030020000000000000000000000000000000000000 0300000200200000000000000000000000000000 0100000200000000000000000002000000000000 \
    "$(printf '%02000d' 0)"; do
    says "$unreadable"
    check "$attribute, read" 1 --read "$attribute"
done

# Arguments that are none of these.
says "$usage"
check 'no arguments' 2
says "$usage"
check 'one argument' 2 2000
says "$usage"
check 'two arguments' 2 2000 0
says "$usage"
check 'four arguments' 2 2000 0 1 1
says "$usage"
check 'no attribute to read' 2 --read
says "$no_set"
check 'too much to read' 2 --read 00 00
for set in '' 00000000000002000 2000h 0x2000 2A +2000 -1 ' 2000' '2000 ' "$(printf '\377')"; do
    says "$no_set"
    check "'$set' for the permitted set" 2 "$set" 0 1
    says "$no_set"
    check "'$set' for the inheritable set" 2 0 "$set" 1
done
for bit in '' 2 01 00 on -1 "$(printf '\377')"; do
    says "$no_bit"
    check "'$bit' for the bit" 2 2000 0 "$bit"
done
says "$no_bit"
check 'the arguments are looked at before the range' 2 20000000000 0 2
for attribute in 0 010 0x 0G 'a ' AB "$(printf '\377\377')"; do
    says "$no_bytes"
    check "'$attribute' for an attribute" 2 --read "$attribute"
done

check_unwritable attribute_bytes 2000 0 1
finish
