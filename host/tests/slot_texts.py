#!/usr/bin/env python3
"""Runs the program for slot plans on texts, most of them broken, and compares what it writes.

    slot_texts.py PROGRAM

Each case is a name, a text, what the program has to write, and why, as in texts.py: lines, codes, values and sheets were worked out by
hand from the paper and typed in beside their reason. What holds of every line of a sheet and of a plan's step is there.

Line numbers: the sheet is lines 1 to 15; step k is lines 6k+10 to 6k+15 (step 1 is 16 to 21, step 256 is 1546 to 1551). A line is
complete only with its newline, and a fault's line is one more than the complete correct lines before it.
"""
import sys

from plan_texts import LS, N72, NETRAW, S, SHEET, Z, add, n70, rep, run, step

ONE = "0000000000000001"
FULL = "000001ffffffffff"


def at(slot, call=10, a=Z, b=Z, c=Z, attr=""):
    return f"slot={slot}\n" + step(call, a, b, c, attr)


def fork(slot):
    return at(slot, 30)


def leave(slot):
    return at(slot, 31)


def end(*slots):
    return "".join(f"slot={slot}\n{sheet}" for slot, sheet in slots)


ALONE = end((0, SHEET))
PAIR = end((0, SHEET), (1, SHEET))
STEP = at(0, 4, a="0000000000000011")
SIX = STEP.splitlines(keepends=True)
LAST = at(0) * 255
# The first line of the first, the second and the last step, and what stands before it.
STEPS = [("first", 16, SHEET), ("second", 22, SHEET + at(0)), ("last", 1546, SHEET + LAST)]
NAMES = ["slot", "call", "a", "b", "c", "attr"]

# ---- How a text may end
add("empty", "", n70(1), "no byte at all: line 1")
add("only-newline", "\n", n70(1), "line 1 is blank, so it is no `ruid=` line")
add("zero-steps", SHEET, ALONE, "a sheet and 0 steps: slot 0 has the sheet's credentials")
add("sheet-no-last-newline", SHEET[:-1], n70(15), "`nnp=0` is not complete: 14 + 1")
add("sheet-extra-newline", SHEET + "\n", n70(16), "a blank line is no `slot=` line: 15 + 1")
add("one-step", SHEET + STEP, rep([(0, 1)], ALONE), "one step, call 4 on 17 answers 1")
add("one-step-extra-newline", SHEET + STEP + "\n", n70(22), "blank line after step 1: 21 + 1")
add("one-step-extra-space", SHEET + STEP + " ", n70(22), "one space after step 1 is text, and no step")
add("cut-inside-key", SHEET + "slo", n70(16), "an unfinished line is not complete: 15 + 1")
add("cut-after-key", SHEET + "slot=", n70(16), "the same before the value: 15 + 1")
for name, line, before in STEPS:
    for k in range(1, 6):
        add(f"{name}-step-cut-after-{NAMES[k - 1]}", before + "".join(SIX[:k]), n70(line + k),
            f"{line - 1} lines before the step and {k} of it are complete; then nothing where `{NAMES[k]}=` must stand")
    for k in range(6):
        add(f"{name}-step-cut-before-newline-of-{NAMES[k]}", before + "".join(SIX[:k]) + SIX[k][:-1], n70(line + k),
            f"the value of {NAMES[k]} is right but the line is not ended: {line - 1} + {k} + 1")
add("last-step-whole", SHEET + LAST + STEP, rep([(0, 0)] * 255 + [(0, 1)], ALONE), "cut after the sixth line of step 256 is a whole slot plan")

# ---- A fault in each line of the first, the second and the last step
BROKEN = dict(slot=["100", "00", "07", "-1", "+1", " 1", "1 ", "", "x", "1\r", "0a", "256", "257", "4294967296", "4294967306",
                    "18446744073709551616", "18446744073709551626", "9" * 30, "0" * 30],
              call=["100", "04", "", "fork"], a=["0" * 15, "0" * 17, "11"], b=["", "F" * 16], c=["0" * 15 + "g", "0x" + "0" * 14],
              attr=["0", "0" * 49, "0" * 50, "AA"])
for name, line, before in STEPS:
    for k, key in enumerate(NAMES):
        for value in BROKEN[key]:
            text = before + "".join(SIX[:k]) + f"{key}={value}\n" + "".join(SIX[k + 1:])
            add(f"{name}-step-{key}-{value[:24]!r}-{len(value)}", text, n70(line + k), f"no value of {key}, and none that wraps to one: {line} + {k}")
        text = before + "".join(SIX[:k]) + SIX[k].upper() + "".join(SIX[k + 1:])
        add(f"{name}-step-{key}-upper", text, n70(line + k), f"keys are as written: {line} + {k}")
        add(f"{name}-step-{key}-left-out", before + "".join(SIX[:k] + SIX[k + 1:]), n70(line + k), f"another line where {key} must stand")
        add(f"{name}-step-{key}-doubled", before + "".join(SIX[:k + 1] + SIX[k:]), n70(line + k + 1), f"a second {key} where another line must stand")
        add(f"{name}-step-{key}-after-blank-line", before + "".join(SIX[:k]) + "\n" + "".join(SIX[k:]), n70(line + k), "a blank line is no line of a step")
for k in range(5):
    text = SHEET + "".join(SIX[:k] + [SIX[k + 1], SIX[k]] + SIX[k + 2:])
    add(f"step-{NAMES[k]}-{NAMES[k + 1]}-swapped", text, n70(16 + k), f"{NAMES[k + 1]} where {NAMES[k]} must stand: 16 + {k}")
add("slot-after-attr", SHEET + "".join(SIX[1:]) + SIX[0], n70(16), "call where slot must stand: line 16")
add("slot-misspelt", SHEET + STEP.replace("slot=", "slots="), n70(16), "`slots` is not `slot`: line 16")
add("slot-thread", SHEET + STEP.replace("slot=", "thread="), n70(16), "`thread` is not `slot`: line 16")
add("slot-colon", SHEET + STEP.replace("slot=", "slot:"), n70(16), "`:` is not `=`: line 16")
add("slot-double-equals", SHEET + STEP.replace("slot=", "slot=="), n70(16), "the second `=` is in the value: line 16")
add("slot-space-before-equals", SHEET + STEP.replace("slot=", "slot ="), n70(16), "a blank before `=`: line 16")
add("slot-list", SHEET + STEP.replace("slot=0", "slot=0,1"), n70(16), "one slot to a step: line 16")

# ---- Slots and their numbers
for slot in [1, 9, 10, 94, 95]:
    add(f"slot-{slot}-free", SHEET + at(slot), rep([(3, 0)], ALONE), "not in use: 3")
for slot in [96, 97, 98, 99]:
    add(f"slot-{slot}-none", SHEET + at(slot), rep([(22, 0)], ALONE), "readable; above 95: 22")
add("slot-0-and-1", SHEET + at(0) + at(1) + fork(0) + at(1) + at(2), rep([(0, 0), (3, 0), (0, 1), (0, 0), (3, 0)], PAIR),
    "1 is free until slot 0 has forked, and then in use; 2 stays free")
add("slot-256-is-not-0", SHEET + fork(0) + at(256), n70(22), "above 99, and no slot 0: 21 + 1")

# ---- Fork and exit
add("fork", SHEET + fork(0), rep([(0, 1)], PAIR), "the lowest free slot is 1")
add("exit", SHEET + leave(0), rep([(0, 0)], ""), "nobody is left: the report ends after the result")
add("exit-then-all-3", SHEET + leave(0) + at(0) + fork(0) + leave(0) + at(95, 99) + at(96, 99), rep([(0, 0)] + [(3, 0)] * 4 + [(22, 0)], ""),
    "each later step naming 0 to 95 gets 3; above 95 it is still 22")
add("fork-and-parent-exits", SHEET + fork(0) + leave(0) + at(0) + at(1), rep([(0, 1), (0, 0), (3, 0), (0, 0)], end((1, SHEET))),
    "slot 0 may exit; its child stays")
THREE = end((0, SHEET), (1, SHEET), (2, SHEET))
add("slot-0-again", SHEET + fork(0) + leave(0) + fork(1) + fork(1), rep([(0, 1), (0, 0), (0, 0), (0, 2)], THREE),
    "the lowest free slot is 0: its value is 0; then 2")
add("slot-again-by-another", SHEET + fork(0) + fork(0) + leave(1) + fork(2), rep([(0, 1), (0, 2), (0, 0), (0, 1)], THREE), "1 was left, and is lower than 3")
ALL = dict(ruid="1", euid="2", suid="3", fsuid="4", rgid="5", egid="6", sgid="7", fsgid="8", permitted="00000000000f0f0f",
           inheritable="0000000000ff00ff", effective="00000000000c000c", bounding="0000010000000001", ambient="000000000003000c",
           securebits="a5", nnp="1")
add("fork-copies-all", S(**ALL) + fork(0), rep([(0, 1)], end((0, S(**ALL)), (1, S(**ALL)))), "all fifteen values")
add("child-changes-alone", S(**ALL) + fork(0) + at(1, 8), rep([(0, 1), (0, 0)], end((0, S(**ALL)), (1, S(**dict(ALL, ambient=Z))))),
    "call 8 clears A in slot 1 and in no other")
add("parent-changes-alone", S(**ALL) + fork(0) + at(0, 8), rep([(0, 1), (0, 0)], end((0, S(**dict(ALL, ambient=Z))), (1, S(**ALL)))),
    "and in slot 0 and not in its child")
add("fork-after-a-change", S(**ALL) + at(0, 8) + fork(0), rep([(0, 0), (0, 1)], end(*[(slot, S(**dict(ALL, ambient=Z))) for slot in (0, 1)])),
    "the child has its parent's credentials of that moment")
for name, number in [("fork", 30), ("exit", 31)]:
    for operand in "abc":
        for value in [ONE, "8" + "0" * 15, "0000000100000000"]:
            add(f"{name}-{operand}-{value}", SHEET + at(0, number, **{operand: value}), rep([(22, 0)], ALONE), "no operand is used: 22")
    for attr in ["00", NETRAW, "f" * 48]:
        add(f"{name}-attr-{len(attr)}", SHEET + at(0, number, attr=attr), rep([(22, 0)], ALONE), "no attribute is used, readable or not: 22")
    add(f"{name}-all-given", SHEET + at(0, number, "f" * 16, "f" * 16, "f" * 16, "f" * 48), rep([(22, 0)], ALONE), "22")
    add(f"{name}-operand-free-slot", SHEET + at(1, number, a=ONE), rep([(3, 0)], ALONE), "3 comes before the operand's 22")
    add(f"{name}-attr-slot-96", SHEET + at(96, number, attr="00"), rep([(22, 0)], ALONE), "22 for the slot")
for call in [0, 23, 29, 32, 99]:
    add(f"call-{call}", SHEET + at(0, call), rep([(22, 0)], ALONE), "unknown call: 22")
    add(f"call-{call}-free-slot", SHEET + at(1, call), rep([(3, 0)], ALONE), "3 comes before an unknown call's 22")
add("refused-fork-takes-nothing", SHEET + at(0, 30, b=ONE) + fork(0), rep([(22, 0), (0, 1)], PAIR), "the next fork takes 1")
add("refused-exit-frees-nothing", SHEET + at(0, 31, b=ONE) + at(0), rep([(22, 0), (0, 0)], ALONE), "slot 0 is still in use")
add("refusals-in-a-child", SHEET + fork(0) + at(1, 3, a="0000000000000011") + at(1, 15) + at(1, 1, attr="00") + at(1, 10, a=ONE),
    rep([(0, 1), (1, 0, 1), (1, 0, 10), (60, 0), (22, 0)], PAIR), "as in a plan: for want of SETPCAP, an ID, an attribute, an unused operand")
add("unreadable-attribute-free-slot", SHEET + at(1, 1, attr="00"), rep([(3, 0)], ALONE), "3 comes before 60")
add("not-allowed-free-slot", SHEET + at(1, 15), rep([(3, 0)], ALONE), "3 comes before 1")
ROOTKW = dict(ruid="0", euid="0", suid="0", fsuid="0", permitted=FULL, effective=FULL)
ROOT = S(**ROOTKW)
add("two-users", ROOT + fork(0) + at(1, 15, a="00000000000003e8") + at(0, 15, a="00000000000003e9") + at(1, 15),
    rep([(0, 1), (0, 0), (0, 0), (1, 0, 10)], end((0, S(ruid="1001", euid="1001", suid="1001", fsuid="1001")), (1, SHEET))),
    "each becomes a user of its own, and rule 1 clears its P and E; then 0 is no ID of slot 1")
add("slot-again-with-other-credentials", ROOT + fork(0) + at(1, 15, a="00000000000003e8") + leave(1) + fork(0),
    rep([(0, 1), (0, 0), (0, 0), (0, 1)], end((0, ROOT), (1, ROOT))), "what user 1000 left in slot 1 shows nowhere")
add("slot-0-again-with-other-credentials", ROOT + fork(0) + at(1, 15, a="00000000000003e8") + leave(0) + fork(1),
    rep([(0, 1), (0, 0), (0, 0), (0, 0)], end((0, SHEET), (1, SHEET))), "nor what the sheet gave slot 0")

# ---- All 96
CHAIN = "".join(fork(slot) for slot in range(95))
TAKEN = [(0, slot) for slot in range(1, 96)]
EVERY = end(*[(slot, SHEET) for slot in range(96)])
add("slots-96", SHEET + CHAIN, rep(TAKEN, EVERY), "95 forks, each by the newest: all 96 in use")
add("slots-97", SHEET + CHAIN + fork(0) + fork(95), rep(TAKEN + [(11, 0)] * 2, EVERY), "none is free: 11, whoever forks")
add("slots-97-operand", SHEET + CHAIN + at(0, 30, c=ONE) + fork(96) + at(95, 32), rep(TAKEN + [(22, 0)] * 3, EVERY), "22 comes before 11")
add("slots-96-one-again", SHEET + CHAIN + leave(57) + fork(57) + fork(12) + fork(57), rep(TAKEN + [(0, 0), (3, 0), (0, 57), (11, 0)], EVERY),
    "57 is left and free; the next fork takes it; then none is free")
add("slots-95-at-the-end", SHEET + CHAIN + leave(95), rep(TAKEN + [(0, 0)], end(*[(slot, SHEET) for slot in range(95)])), "0 to 94 in use")

# ---- Many steps
M256 = ROOT + at(0) * 254 + fork(0) + leave(0)
RES256 = [(0, 0)] * 254 + [(0, 1), (0, 0)]
add("steps-256", M256, rep(RES256, end((1, ROOT))), "256 steps are allowed; the last two are a fork and its parent's exit")
add("steps-255", ROOT + at(0) * 255, rep([(0, 0)] * 255, end((0, ROOT))), "one fewer")
add("steps-257", M256 + at(1), n70(1552), "a 257th step gives 15 + 256 * 6 + 1")
add("steps-257-cut", M256 + "slot=1\n", n70(1552), "the 257th step is refused at its first line, whole or not")
add("steps-257-broken", M256 + "slot=100\n", n70(1552), "any text after the 256th step: 1551 + 1")
add("steps-257-plan-step", M256 + step(), n70(1552), "any text after the 256th step: 1551 + 1")
add("steps-256-newline", M256 + "\n", n70(1552), "a blank line after the 256th step: 1551 + 1")
add("steps-256-nul", M256 + "\0", n70(1552), "a NUL after the 256th step: 1551 + 1")
add("steps-256-no-last-newline", M256[:-1], n70(1551), "the last attr line is not complete: 1550 + 1")
add("steps-300", M256 + at(1) * 44, n70(1552), "the first text too much is at line 1552")
add("steps-1000", ROOT + at(0) * 1000, n70(1552), "the same, 78 kB")
add("steps-257-early-fault", ROOT + at(0) * 2 + at(0).replace("b=", "B=") + at(0) * 254, n70(31),
    "the first fault counts: step 3 is lines 28 to 33, its b line is 31")
add("steps-257-sheet-fault", S(nnp="2") + at(0) * 257, n70(15), "the first fault counts: line 15")
IDS10 = dict.fromkeys(["ruid", "euid", "suid", "fsuid", "rgid", "egid", "sgid", "fsgid"], "4294967294")
LKW = dict(IDS10, permitted=FULL, inheritable=FULL, effective=FULL, bounding=FULL, ambient=FULL, securebits="ff", nnp="1")
LONG = S(**LKW)
LONGSTEPS = "".join(at(96 + i % 4, 10 + i % 90, "f" * 16, "f" * 16, "f" * 16, "f" * 48) for i in range(256))
LONGEST = LONG + LONGSTEPS
assert len(LONGEST) == 32796
add("longest", LONGEST, rep([(22, 0)] * 256, end((0, LONG))), "32,796 bytes: every step names 96 to 99, 22; nothing changes")
add("longest-plus-newline", LONGEST + "\n", n70(1552), "32,797 bytes: 1551 + 1")
add("longest-plus-s", LONGEST + "s", n70(1552), "the start of a 257th step: 1551 + 1")
add("longest-no-last-newline", LONGEST[:-1], n70(1551), "32,795 bytes, last line not complete: 1550 + 1")
add("longest-id-11-digits", LONGEST.replace("ruid=4294967294", "ruid=14294967294"), n70(1), "32,797 bytes, one digit more in line 1")
add("longest-slot-3-digits", LONG + LONGSTEPS[:255 * 127] + at(100, 99, "f" * 16, "f" * 16, "f" * 16, "f" * 48), n70(1546),
    "32,797 bytes, one digit more in the last slot: 1545 + 1")
add("longest-call-3-digits", LONG + LONGSTEPS[:255 * 127] + at(99, 100, "f" * 16, "f" * 16, "f" * 16, "f" * 48), n70(1547),
    "32,797 bytes, one digit more in the last call: 1546 + 1")
add("longest-attr-49", LONGEST[:-1] + "f\n", n70(1551), "32,797 bytes, one digit more in the last attr: 1550 + 1")
LONGREPORT = rep(TAKEN + [(22, 0)] * 161, end(*[(slot, LONG) for slot in range(96)]))
assert len(LONGREPORT) == 37911
add("longest-report", LONG + CHAIN + at(99) * 161, LONGREPORT, "37,911 bytes: 95 forks, 161 times 22, 96 of the longest sheet")
add("longest-report-11", LONG + CHAIN + fork(0) * 161, rep(TAKEN + [(11, 0)] * 161, end(*[(slot, LONG) for slot in range(96)])),
    "again 37,911 bytes: `code=11` is as long as `code=22`")

# ---- Other text
add("a-plan", SHEET + step(), n70(16), "a plan's step has no slot: line 16")
add("a-report", rep([(0, 0)], ALONE), n70(1), "a report with a step begins with `code=`: line 1")
add("a-report-of-no-step", ALONE, n70(1), "and one without begins with `slot=`: line 1")
add("sheet-after-sheet", SHEET + SHEET, n70(16), "a sheet is no step: line 16")
add("end-after-sheet", SHEET + ALONE, n70(17), "`slot=0` could begin a step; then ruid where call must stand: 16 + 1")
add("crlf-everywhere", (SHEET + STEP).replace("\n", "\r\n"), n70(1), "the CR stands in the value of ruid: line 1")
add("cr-alone", (SHEET + STEP).replace("\n", "\r"), n70(1), "no newline at all, so line 1 never ends")
add("comment-after-sheet", SHEET + "# init\n" + STEP, n70(16), "the format has no comments: 15 + 1")
add("comment-behind-slot", SHEET + STEP.replace("slot=0", "slot=0 # init"), n70(16), "line 16")
add("nul-at-end", SHEET + "\0", n70(16), "a NUL after the sheet is text: 15 + 1")
add("nul-in-slot", SHEET + STEP.replace("slot=0", "slot=\0000"), n70(16), "NUL is no digit: line 16")
add("nul-after-slot", SHEET + STEP.replace("slot=0", "slot=0\000"), n70(16), "the line does not end at a NUL: line 16")
add("nul-after-step", SHEET + STEP + "\0", n70(22), "a NUL after the step is text: 21 + 1")
add("bytes-above-127-in-slot", (SHEET + STEP).encode().replace(b"slot=0", b"slot=\xb0"), n70(16), "0xb0 is `0` with the top bit set, and no digit")
add("high-newline-in-slot", (SHEET + STEP).encode().replace(b"slot=0\n", b"slot=0\x8a"), n70(16), "0x8a is newline with the top bit set, and no newline")
add("bom-first", b"\xef\xbb\xbf" + SHEET.encode(), n70(1), "three bytes before ruid: line 1")
add("all-256-bytes", bytes(range(256)), n70(1), "line 1")
add("all-256-bytes-after-sheet", SHEET.encode() + bytes(range(256)), n70(16), "15 + 1")
add("noise-100k", "x" * 100000, n70(1), "line 1, however long")
add("noise-100k-after-slot", SHEET + "slot=0\n" + "x" * 100000 + "\n", n70(17), "16 + 1")
add("long-slot", SHEET + "slot=" + "1" * 100000 + "\n", n70(16), "line 16, however long")
add("newlines-100k-after-256-steps", M256 + "\n" * 100000, n70(1552), "1551 + 1")

# ---- 70 before 72
BADKW = dict(permitted="0000000000000400", effective="0000000000020400")
BAD = S(**BADKW)
add("invalid-zero-steps", BAD, N72, "E not within P: 72, line 0")
add("invalid-three-steps", BAD + fork(0) + at(1) + leave(0), N72, "three correct steps: 72, and no step's result is written")
add("invalid-steps-elsewhere", BAD + at(99) + at(5), N72, "72 though no step names slot 0")
add("invalid-and-fault-in-step", BAD + fork(0) + "slot=00\n", n70(22), "70 comes first: 21 + 1")
add("invalid-and-fault-in-sheet", S(**dict(BADKW, nnp="2")), n70(15), "70 comes first: line 15")
add("invalid-and-extra-newline", BAD + "\n", n70(16), "70 comes first: line 16")
add("invalid-and-257-steps", BAD + at(0) * 257, n70(1552), "70 comes first: line 1552")
add("invalid-and-256-steps", BAD + at(0) * 256, N72, "256 correct steps: 72")
for k in range(8):
    key, _ = LS[k].split("=")
    add(f"{key}-4294967295", S(**{key: "4294967295"}) + fork(0), N72, "readable but not valid (at most 4294967294): 72")
    add(f"{key}-4294967296", S(**{key: "4294967296"}) + fork(0), n70(k + 1), f"above the greatest readable number: line {k + 1}")
add("longest-invalid", LONGEST.replace("fsgid=4294967294", "fsgid=4294967295"), N72, "32,796 bytes with fsgid 4294967295: 72, line 0")

if __name__ == "__main__":
    sys.exit(run("slot_texts", "slot plan texts"))
