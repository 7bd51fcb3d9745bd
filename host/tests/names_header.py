#!/usr/bin/env python3
"""Holds the library's names of the capabilities against the system's linux/capability.h.

    names_header.py PROGRAM [HEADER]

PROGRAM is the example capability_names. HEADER is /usr/include/linux/capability.h unless it is named; where there is none, this is said and nothing
is compared. Of every `#define CAP_NAME NUMBER` up to 40 the name has to be read as just that number, as the header spells it and in lower case, and to
be written for it; the header has to have all 41. Names of later capabilities, which are out of this software's scope, are said and passed over.
"""
import os
import re
import subprocess
import sys

LAST = 40
NUMBERED = re.compile(r"#define\s+(CAP_[A-Z0-9_]+)\s+([0-9]+)\s*(/\*.*)?")
LAST_NAMED = re.compile(r"#define\s+CAP_LAST_CAP\s+(CAP_[A-Z0-9_]+)\s*(/\*.*)?")


def capabilities(text):
    """The header's capabilities, numbers by name, and the number of the last, or None if it does not name that."""
    numbers = {}
    last = None
    for line in text.splitlines():
        if found := NUMBERED.fullmatch(line.strip()):
            numbers[found[1]] = int(found[2])
        elif found := LAST_NAMED.fullmatch(line.strip()):
            last = found[1]
    return numbers, numbers.get(last)


def sets(effective):
    return f"permitted={0:016x}\ninheritable={0:016x}\neffective={effective:016x}\n"


def differences(program, name, number):
    """What is not as it has to be of one capability."""
    lower = name.lower()
    cases = [([f"{name}=e"], sets(1 << number)),
             ([f"{lower}=e"], sets(1 << number)),
             (["--write", "0", "0", f"{1 << number:x}"], f"{lower}=e\n")]
    for arguments, expected in cases:
        found = subprocess.run([program, *arguments], stdout=subprocess.PIPE, stderr=subprocess.STDOUT, text=True, timeout=60)
        if found.returncode != 0 or found.stdout != expected:
            yield f"{name} is {number}: {' '.join(arguments)} gives {found.stdout!r}, status {found.returncode}; expected {expected!r}"


def main():
    program = sys.argv[1]
    header = sys.argv[2] if len(sys.argv) > 2 else "/usr/include/linux/capability.h"
    if not os.path.exists(header):
        print(f"names_header: passed over: there is no {header}")
        return 0
    with open(header, encoding="utf-8") as file:
        numbers, last = capabilities(file.read())
    faults = []
    if last is None or last < LAST:
        faults.append(f"the last capability of {header} is {last}, and not {LAST}")
    for number in range(LAST + 1):
        named = [name for name in numbers if numbers[name] == number]
        if len(named) != 1:
            faults.append(f"{header} has {len(named)} names for capability {number}")
        for name in named:
            faults.extend(differences(program, name, number))
    for fault in faults:
        print(f"names_header: {fault}")
    for name in numbers:
        if numbers[name] > LAST:
            print(f"names_header: passed over: {name}, capability {numbers[name]}: {LAST} is the last in scope")
    if not faults:
        print(f"names_header: {LAST + 1} of {LAST + 1} names as in {header}")
    return 1 if faults else 0


if __name__ == "__main__":
    sys.exit(main())
