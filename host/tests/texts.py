#!/usr/bin/env python3
"""Runs the program on plan texts, most of them broken, and compares what it writes.

    texts.py PROGRAM

Each case is a name, a text, what the program has to write, and why. Nothing is computed from a rule: lines, codes, values and
sheets were worked out by hand from the paper and typed in beside their reason; the functions used only join and repeat text.

Causes are those of "Why it was refused": a refusal 1 has its cause typed in, every other answer has cause 0.

Line numbers: the sheet is lines 1 to 15; step k is lines 5k+11 to 5k+15 (step 1 is 16 to 20, step 256 is 1291 to 1295). A line is
complete only with its newline, and a fault's line is one more than the complete correct lines before it.
"""
import sys

from plan_texts import KEYS, LS, N72, NETRAW, S, SHEET, Z, add, n70, rep, run, step

# ---- How a text may end
add("empty", "", n70(1), "no byte at all; the paper says so: empty text gives 1")
add("only-newline", "\n", n70(1), "line 1 is blank, so it is no `ruid=` line")
add("zero-steps", SHEET, SHEET, "a sheet and 0 steps is a plan; the report is the sheet")
add("sheet-no-last-newline", SHEET[:-1], n70(15),
    "each line is ended by a newline, so `nnp=0` is not complete: 14 + 1")
add("sheet-extra-newline", SHEET + "\n", n70(16), "a blank line is no `call=` line: 15 + 1")
add("one-step", SHEET + step(), rep([(0, 0)], SHEET), "one step, call 10 answers securebits 0")
add("attr-no-last-newline", (SHEET + step())[:-1], n70(20),
    "`attr=` without a newline is not complete: 19 + 1")
add("attr-digits-no-last-newline", (SHEET + step(1, attr=NETRAW))[:-1], n70(20),
    "the same with a good attribute in the line")
add("one-step-extra-newline", SHEET + step() + "\n", n70(21), "blank line after step 1: 20 + 1")
add("one-step-extra-space", SHEET + step() + " ", n70(21), "one space after step 1 is text, and no step")
for k in range(1, 15):
    add(f"sheet-cut-after-line-{k:02d}", "".join(LS[:k]), n70(k + 1),
        f"complete correct lines: {k}; then nothing where `{KEYS[k]}=` must stand: {k} + 1")
ST = step(4, a="0000000000000011").splitlines(keepends=True)
add("step-cut-after-call", SHEET + "".join(ST[:1]), n70(17), "16 complete lines, `a=` missing: 16 + 1")
add("step-cut-after-a", SHEET + "".join(ST[:2]), n70(18), "17 complete lines, `b=` missing: 17 + 1")
add("step-cut-after-b", SHEET + "".join(ST[:3]), n70(19), "18 complete lines, `c=` missing: 18 + 1")
add("step-cut-after-c", SHEET + "".join(ST[:4]), n70(20), "19 complete lines, `attr=` missing: 19 + 1")
add("step-cut-after-attr", SHEET + "".join(ST[:5]), rep([(0, 1)], SHEET),
    "cut after the fifth line is a whole step: call 4 on 17 answers 1")
add("second-step-cut-after-call", SHEET + step() + "".join(ST[:1]), n70(22), "21 complete lines: 21 + 1")
add("second-step-cut-after-a", SHEET + step() + "".join(ST[:2]), n70(23), "22 + 1")
add("second-step-cut-after-b", SHEET + step() + "".join(ST[:3]), n70(24), "23 + 1")
add("second-step-cut-after-c", SHEET + step() + "".join(ST[:4]), n70(25), "24 + 1")
add("cut-inside-key", SHEET + "ca", n70(16), "an unfinished line is not complete: 15 + 1")
add("cut-inside-mask", SHEET + "call=4\na=00000000", n70(17), "`a=` cut after 8 digits: 16 + 1")
add("call-no-newline", SHEET + "call=4", n70(16), "the value is right but the line is not ended: 15 + 1")

# ---- Line ends
add("crlf-everywhere", (SHEET + step()).replace("\n", "\r\n"), n70(1),
    "the CR stands in the value of ruid: line 1")
add("crlf-last-sheet-line", "".join(LS[:14]) + "nnp=0\r\n", n70(15), "`0\\r` is neither 0 nor 1: line 15")
add("crlf-in-mask-line", "".join(LS[:8]) + "permitted=" + Z + "\r\n" + "".join(LS[9:]), n70(9),
    "17 characters after `permitted=`: line 9")
add("crlf-call-line", SHEET + step().replace("call=10\n", "call=10\r\n"), n70(16), "CR in call: line 16")
add("crlf-attr-line", SHEET + step()[:-1] + "\r\n", n70(20), "CR is no hex digit: line 20")
add("cr-alone", (SHEET + step()).replace("\n", "\r"), n70(1), "no newline at all, so line 1 never ends")

# ---- Decimal values
add("id-leading-zero", S(ruid="01000"), n70(1), "no leading zeros: line 1")
add("id-double-zero", S(euid="00"), n70(2), "0 is written `0`: line 2")
add("id-zero", S(ruid="0", euid="0", suid="0", fsuid="0"),
    S(ruid="0", euid="0", suid="0", fsuid="0"), "`0` itself has no leading zero; valid")
add("id-plus", S(suid="+5"), n70(3), "a sign is no digit: line 3")
add("id-minus", S(ruid="-1"), n70(1), "a sign is no digit: line 1")
add("id-space-before", S(fsuid=" 5"), n70(4), "a blank is no digit: line 4")
add("id-space-after", S(fsuid="5 "), n70(4), "a blank is no digit: line 4")
add("id-tab-after", S(euid="5\t"), n70(2), "a tab is no digit: line 2")
add("id-empty", S(ruid=""), n70(1), "no digit is no decimal: line 1")
add("id-empty-fsuid", S(fsuid=""), n70(4), "the same at line 4")
add("id-hex", S(ruid="0x3e8"), n70(1), "`x` is no digit: line 1")
add("id-hex-letters", S(ruid="3e8"), n70(1), "decimal only: line 1")
add("id-point", S(ruid="1000.0"), n70(1), "a point is no digit: line 1")
add("id-4294967294", S(ruid="4294967294", euid="4294967294", suid="4294967294", fsuid="4294967294"),
    S(ruid="4294967294", euid="4294967294", suid="4294967294", fsuid="4294967294"),
    "the greatest valid ID, in all four places")
add("ruid-4294967295", S(ruid="4294967295"), N72,
    "readable (decimal up to 4294967295) but not valid (at most 4294967294): 72")
add("euid-4294967295", S(euid="4294967295"), N72, "the same for euid")
add("suid-4294967295", S(suid="4294967295"), N72, "the same for suid")
add("fsuid-4294967295", S(fsuid="4294967295"), N72, "the same for fsuid")
add("ruid-4294967296", S(ruid="4294967296"), n70(1), "one above the greatest readable number: line 1")
add("fsuid-4294967296", S(fsuid="4294967296"), n70(4), "the same at line 4")
add("id-wraps-32", S(euid="4294968296"), n70(2), "2^32 + 1000: must not wrap to 1000; line 2")
add("id-wraps-64", S(suid="18446744073709552616"), n70(3), "2^64 + 1000: must not wrap to 1000; line 3")
add("id-9999999999", S(ruid="9999999999"), n70(1), "ten digits, too great: line 1")
add("id-11-digits", S(ruid="42949672940"), n70(1), "eleven digits, too great: line 1")
add("id-30-digits", S(ruid="1" * 30), n70(1), "thirty digits: line 1")
add("id-30-zeros", S(ruid="0" * 30), n70(1), "thirty zeros are leading zeros: line 1")
add("id-zero-padded-to-10", S(fsuid="0000001000"), n70(4), "leading zeros: line 4")

# ---- Sets, securebits, no-new-privs
add("set-15-digits", S(permitted="0" * 15), n70(9), "16 digits wanted: line 9")
add("set-17-digits", S(permitted="0" * 17), n70(9), "16 digits wanted: line 9")
add("set-empty", S(ambient=""), n70(13), "16 digits wanted: line 13")
add("set-upper-case", S(bounding="000001FFFFFFFFFF"), n70(12), "hex letters are lower case: line 12")
add("set-one-upper", S(inheritable="000000000000000A"), n70(10), "the same for one letter: line 10")
add("set-g", S(effective="000000000000000g"), n70(11), "`g` is no hex digit: line 11")
add("set-0x", S(effective="0x00000000000000"), n70(11), "16 characters, but `x` is no hex digit: line 11")
add("set-space-inside", S(ambient="00000000 0000000"), n70(13), "16 characters, but a blank is no digit: line 13")
add("set-colon", S(permitted="000000000000000:"), n70(9), "`:` is the byte after `9`: line 9")
add("set-backquote", S(permitted="000000000000000`"), n70(9), "the backquote is the byte before `a`: line 9")
add("set-slash", S(permitted="000000000000000/"), n70(9), "`/` is the byte before `0`: line 9")
add("set-all-hex-letters",
    S(permitted="000000abcdef0000", inheritable="000000abcdef0000", effective="000000abcdef0000",
      ambient="000000abcdef0000"),
    S(permitted="000000abcdef0000", inheritable="000000abcdef0000", effective="000000abcdef0000",
      ambient="000000abcdef0000"),
    "all six letters, lower case: highest bit is 39; E=P, A=P=I, so valid")
add("set-bit-40", S(permitted="0000010000000000"), S(permitted="0000010000000000"), "bit 40 is the last capability: valid")
add("set-bit-41", S(permitted="0000020000000000"), N72, "readable; a bit above 40 is not valid: 72")
add("bounding-bit-41", S(bounding="0000020000000000"), N72, "the same in the bounding set: 72")
add("inheritable-bit-63", S(inheritable="8000000000000000"), N72, "the same in the inheritable set: 72")
add("bounding-all-ones", S(bounding="f" * 16), N72, "the same: 72")
add("effective-not-permitted", S(permitted="0000000000000400", effective="0000000000020400"), N72,
    "E not within P: 72")
add("ambient-not-inheritable", S(permitted="0000000000000400", ambient="0000000000000400"), N72,
    "A within P but not within I: 72")
add("ambient-not-permitted", S(inheritable="0000000000000400", ambient="0000000000000400"), N72,
    "A within I but not within P: 72")
add("permitted-outside-bounding", S(permitted="0000000000020000", bounding=Z),
    S(permitted="0000000000020000", bounding=Z), "P need not be within B: valid")
add("securebits-1-digit", S(securebits="0"), n70(14), "2 digits wanted: line 14")
add("securebits-3-digits", S(securebits="000"), n70(14), "2 digits wanted: line 14")
add("securebits-empty", S(securebits=""), n70(14), "2 digits wanted: line 14")
add("securebits-ff", S(securebits="ff"), S(securebits="ff"), "255 is the greatest valid value")
add("securebits-upper-FF", S(securebits="FF"), n70(14), "lower case: line 14")
add("securebits-fF", S(securebits="fF"), n70(14), "lower case in both digits: line 14")
add("securebits-aa", S(securebits="aa"), S(securebits="aa"), "all four locks, no flag: valid")
add("nnp-1", S(nnp="1"), S(nnp="1"), "0 or 1")
add("nnp-2", S(nnp="2"), n70(15), "0 or 1: line 15")
add("nnp-00", S(nnp="00"), n70(15), "one character: line 15")
add("nnp-01", S(nnp="01"), n70(15), "one character: line 15")
add("nnp-empty", S(nnp=""), n70(15), "0 or 1: line 15")
add("nnp-space", S(nnp="0 "), n70(15), "0 or 1 and then the newline: line 15")

# ---- Keys
add("key-misspelt", SHEET.replace("ruid=", "uid="), n70(1), "`uid` is not `ruid`: line 1")
add("key-longer", SHEET.replace("nnp=", "nnps="), n70(15), "`nnps` is not `nnp`: line 15")
add("key-shorter", SHEET.replace("securebits=", "securebit="), n70(14), "`securebit`: line 14")
add("key-upper", SHEET.replace("permitted=", "Permitted="), n70(9), "keys are as written: line 9")
add("key-indented", SHEET.replace("\nsuid=", "\n suid="), n70(3), "a blank before the key: line 3")
add("key-space-before-equals", SHEET.replace("euid=", "euid ="), n70(2), "a blank before `=`: line 2")
add("key-missing-equals", SHEET.replace("euid=1000", "euid1000"), n70(2), "no `=`: line 2")
add("key-colon", SHEET.replace("euid=1000", "euid:1000"), n70(2), "`:` is not `=`: line 2")
add("key-double-equals", SHEET.replace("ruid=", "ruid=="), n70(1), "the second `=` is in the value: line 1")
add("key-only", SHEET.replace("fsuid=1000\n", "fsuid\n"), n70(4), "neither `=` nor value: line 4")
add("keys-swapped-first", LS[1] + LS[0] + "".join(LS[2:]), n70(1), "euid before ruid: fault at once, line 1")
add("keys-swapped-sets", "".join(LS[:9]) + LS[10] + LS[9] + "".join(LS[11:]), n70(10),
    "effective where inheritable must stand: line 10")
add("key-doubled-ruid", LS[0] + SHEET, n70(2), "a second ruid where euid must stand: line 2")
add("key-doubled-nnp", SHEET + LS[14], n70(16), "a second nnp where `call=` must stand: line 16")
add("key-left-out", "".join(LS[:2] + LS[3:]), n70(3), "fsuid where suid must stand: line 3")
add("step-key-upper", SHEET + step().replace("call=", "Call="), n70(16), "line 16")
add("step-key-misspelt", SHEET + step().replace("attr=", "attrs="), n70(20), "line 20")
add("step-attr-no-equals", SHEET + step().replace("attr=", "attr"), n70(20), "`attr` without `=`: line 20")
add("step-keys-swapped", SHEET + "call=10\nb=" + Z + "\na=" + Z + "\nc=" + Z + "\nattr=\n", n70(17),
    "b where a must stand: line 17")
add("step-call-doubled", SHEET + "call=10\n" + step(), n70(17), "a second call where a must stand: line 17")
add("step-c-left-out", SHEET + step().replace("c=" + Z + "\n", ""), n70(19), "attr where c must stand: line 19")
add("step-attr-left-out", SHEET + step().replace("attr=\n", "") + step(), n70(20),
    "the next step's call where attr must stand: line 20")
add("step-call-left-out", SHEET + step().replace("call=10\n", ""), n70(16), "a where call must stand: line 16")
add("step-operand-d", SHEET + step().replace("c=", "d="), n70(19), "`d` is no operand: line 19")
add("step-slot-before-call", SHEET + "slot=0\n" + step(), n70(16), "a slot plan's step is none of a plan: line 16")
add("second-step-slot-before-call", SHEET + step() + "slot=0\n" + step(), n70(21), "the same in the second step: 20 + 1")

# ---- Group IDs in the sheet
add("gid-zero", S(rgid="0", egid="0", sgid="0", fsgid="0"), S(rgid="0", egid="0", sgid="0", fsgid="0"),
    "`0` itself has no leading zero; valid")
add("gid-all-differ", S(rgid="1", egid="20", sgid="300", fsgid="4000"), S(rgid="1", egid="20", sgid="300", fsgid="4000"),
    "0 steps: each group comes back in its own line")
add("gid-4294967294", S(rgid="4294967294", egid="4294967294", sgid="4294967294", fsgid="4294967294"),
    S(rgid="4294967294", egid="4294967294", sgid="4294967294", fsgid="4294967294"), "the greatest valid ID, in all four places")
add("rgid-4294967295", S(rgid="4294967295"), N72, "readable (decimal up to 4294967295) but not valid (at most 4294967294): 72")
add("egid-4294967295", S(egid="4294967295"), N72, "the same for egid")
add("sgid-4294967295", S(sgid="4294967295"), N72, "the same for sgid")
add("fsgid-4294967295", S(fsgid="4294967295"), N72, "the same for fsgid")
add("rgid-4294967296", S(rgid="4294967296"), n70(5), "one above the greatest readable number: line 5")
add("egid-4294967296", S(egid="4294967296"), n70(6), "the same at line 6")
add("sgid-4294967296", S(sgid="4294967296"), n70(7), "the same at line 7")
add("fsgid-4294967296", S(fsgid="4294967296"), n70(8), "the same at line 8")
add("gid-wraps-32", S(egid="4294968296"), n70(6), "2^32 + 1000: must not wrap to 1000; line 6")
add("gid-wraps-64", S(sgid="18446744073709552616"), n70(7), "2^64 + 1000: must not wrap to 1000; line 7")
add("rgid-leading-zero", S(rgid="01000"), n70(5), "no leading zeros: line 5")
add("egid-leading-zero", S(egid="00"), n70(6), "0 is written `0`: line 6")
add("sgid-leading-zero", S(sgid="0000001000"), n70(7), "no leading zeros: line 7")
add("fsgid-leading-zero", S(fsgid="07"), n70(8), "no leading zeros: line 8")
add("rgid-empty", S(rgid=""), n70(5), "no digit is no decimal: line 5")
add("egid-empty", S(egid=""), n70(6), "the same at line 6")
add("sgid-empty", S(sgid=""), n70(7), "the same at line 7")
add("fsgid-empty", S(fsgid=""), n70(8), "the same at line 8")
add("rgid-minus", S(rgid="-1"), n70(5), "a sign is no digit: line 5")
add("egid-plus", S(egid="+5"), n70(6), "a sign is no digit: line 6")
add("sgid-plus", S(sgid="+1000"), n70(7), "a sign is no digit: line 7")
add("fsgid-minus", S(fsgid="-2"), n70(8), "a sign is no digit: line 8")
add("rgid-hex", S(rgid="0x3e8"), n70(5), "`x` is no digit: line 5")
add("egid-hex-letters", S(egid="3e8"), n70(6), "decimal only: line 6")
add("sgid-mask", S(sgid="00000000000003e8"), n70(7), "16 digits as in a set: leading zeros, line 7")
add("fsgid-hex-letters", S(fsgid="3e8"), n70(8), "decimal only: line 8")
add("rgid-space-before", S(rgid=" 5"), n70(5), "a blank is no digit: line 5")
add("fsgid-space-after", S(fsgid="5 "), n70(8), "a blank is no digit: line 8")
add("rgid-name", S(rgid="lp"), n70(5), "a number is wanted: line 5")
add("rgid-list", S(rgid="1000,1000,1000,1000"), n70(5), "one number to a line: line 5")
add("fsgid-cr", S(fsgid="1000\r"), n70(8), "CR is no digit: line 8")
add("fsgid-no-newline", "".join(LS[:7]) + "fsgid=1000", n70(8), "the value is right but the line is not ended: 7 + 1")
add("rgid-misspelt", SHEET.replace("\nrgid=", "\ngid="), n70(5), "`gid` is not `rgid`: line 5")
add("egid-misspelt", SHEET.replace("\negid=", "\negids="), n70(6), "`egids` is not `egid`: line 6")
add("sgid-misspelt", SHEET.replace("\nsgid=", "\nSgid="), n70(7), "keys are as written: line 7")
add("fsgid-misspelt", SHEET.replace("\nfsgid=", "\nfgid="), n70(8), "`fgid` is not `fsgid`: line 8")
add("rgid-missing-equals", SHEET.replace("\nrgid=1000", "\nrgid1000"), n70(5), "no `=`: line 5")
add("fsgid-as-fsuid", SHEET.replace("\nfsgid=", "\nfsuid="), n70(8), "a second fsuid where fsgid must stand: line 8")
add("rgid-left-out", "".join(LS[:4] + LS[5:]), n70(5), "egid where rgid must stand: line 5")
add("egid-left-out", "".join(LS[:5] + LS[6:]), n70(6), "sgid where egid must stand: line 6")
add("sgid-left-out", "".join(LS[:6] + LS[7:]), n70(7), "fsgid where sgid must stand: line 7")
add("fsgid-left-out", "".join(LS[:7] + LS[8:]), n70(8), "permitted where fsgid must stand: line 8")
add("rgid-doubled", "".join(LS[:5] + LS[4:]), n70(6), "a second rgid where egid must stand: line 6")
add("egid-doubled", "".join(LS[:6] + LS[5:]), n70(7), "a second egid where sgid must stand: line 7")
add("sgid-doubled", "".join(LS[:7] + LS[6:]), n70(8), "a second sgid where fsgid must stand: line 8")
add("fsgid-doubled", "".join(LS[:8] + LS[7:]), n70(9), "a second fsgid where permitted must stand: line 9")
add("rgid-egid-swapped", "".join(LS[:4] + [LS[5], LS[4]] + LS[6:]), n70(5), "egid where rgid must stand: line 5")
add("egid-sgid-swapped", "".join(LS[:5] + [LS[6], LS[5]] + LS[7:]), n70(6), "sgid where egid must stand: line 6")
add("sgid-fsgid-swapped", "".join(LS[:6] + [LS[7], LS[6]] + LS[8:]), n70(7), "fsgid where sgid must stand: line 7")
add("fsgid-permitted-swapped", "".join(LS[:7] + [LS[8], LS[7]] + LS[9:]), n70(8), "permitted where fsgid must stand: line 8")
add("rgid-before-fsuid", "".join(LS[:3] + [LS[4], LS[3]] + LS[5:]), n70(4), "rgid where fsuid must stand: line 4")
add("groups-before-users", "".join(LS[4:8] + LS[:4] + LS[8:]), n70(1), "rgid where ruid must stand: line 1")
add("groups-beside-users", "".join([LS[0], LS[4], LS[1], LS[5], LS[2], LS[6], LS[3], LS[7]] + LS[8:]), n70(2),
    "rgid where euid must stand: line 2")
add("groups-after-sets", "".join(LS[:4] + LS[8:13] + LS[4:8] + LS[13:]), n70(5), "permitted where rgid must stand: line 5")
add("groups-at-the-end", "".join(LS[:4] + LS[8:] + LS[4:8]), n70(5), "permitted where rgid must stand: line 5")
add("groups-doubled", "".join(LS[:8] + LS[4:]), n70(9), "a second rgid where permitted must stand: line 9")
OLD = "".join(LS[:4] + LS[8:])
add("sheet-without-groups", OLD, n70(5), "eleven lines without the groups: permitted where rgid must stand, line 5")
add("sheet-without-groups-one-step", OLD + step(), n70(5), "the same with a step below it: line 5")
add("sheet-without-groups-invalid", OLD.replace("ruid=1000", "ruid=4294967295"), n70(5), "70 comes before 72: line 5")

# ---- Other text
add("blank-line-between-steps", SHEET + step() + "\n" + step(), n70(21), "20 + 1")
add("blank-line-after-sheet", SHEET + "\n" + step(), n70(16), "15 + 1")
add("blank-line-in-step", SHEET + "call=10\na=" + Z + "\n\nb=" + Z + "\nc=" + Z + "\nattr=\n", n70(18), "17 + 1")
add("blank-line-first", "\n" + SHEET + step(), n70(1), "0 + 1")
add("comment-first", "# burner plan\n" + SHEET, n70(1), "the format has no comments: line 1")
add("comment-after-sheet", SHEET + "# launch\n" + step(), n70(16), "15 + 1")
add("comment-at-end", SHEET + step() + "# done\n", n70(21), "20 + 1")
add("comment-behind-value", SHEET.replace("euid=1000", "euid=1000 # roaster"), n70(2), "line 2")
add("text-after-sheet", SHEET + "launch the burner\n", n70(16), "no step: 15 + 1")
add("second-sheet-after-sheet", SHEET + SHEET, n70(16), "a sheet is no step: 15 + 1")
add("sheet-after-step", SHEET + step() + SHEET, n70(21), "a sheet is no step: 20 + 1")
add("report-as-plan", rep([(0, 0)], SHEET), n70(1), "a report with a step begins with `code=`: line 1")
add("nul-in-id", SHEET.replace("ruid=1000", "ruid=10\x0000"), n70(1), "NUL is no digit: line 1")
add("nul-at-end", SHEET + "\0", n70(16), "a NUL after the sheet is text: 15 + 1")
add("nul-after-step", SHEET + step() + "\0", n70(21), "a NUL after the step is text: 20 + 1")
add("nul-before-newline", SHEET.replace("nnp=0\n", "nnp=0\0\n"), n70(15), "the text does not end at a NUL: line 15")
add("nul-in-mask", SHEET + step(a="00000000\x000000000"), n70(17), "NUL is no hex digit: line 17")
add("nul-only", "\0", n70(1), "line 1")
add("bom-first", b"\xef\xbb\xbf" + SHEET.encode(), n70(1), "three bytes before ruid: line 1")
add("bytes-above-127-in-id", SHEET.encode().replace(b"suid=1000", b"suid=100\xb0", 1), n70(3),
    "0xb0 is `0` with the top bit set, and no digit: line 3")
add("bytes-above-127-in-key", SHEET.encode().replace(b"\neuid", b"\n\xe9uid"), n70(2), "Latin-1 e acute: line 2")
add("bytes-above-127-in-attr", (SHEET + "call=1\na=" + Z + "\nb=" + Z + "\nc=" + Z + "\nattr=").encode()
    + b"\xff\xff\n", n70(20), "bytes are written in hex: line 20")
add("bytes-above-127-after-sheet", SHEET.encode() + "caf\u00e9\n".encode("utf-8"), n70(16), "no step: 15 + 1")
add("high-newline", SHEET.encode().replace(b"nnp=0\n", b"nnp=0\x8a"), n70(15),
    "0x8a is newline with the top bit set, and no newline: line 15")
add("nel-line-end", SHEET.encode().replace(b"ruid=1000\n", b"ruid=1000\xc2\x85"), n70(1), "U+0085 ends no line: line 1")
add("formfeed-between-steps", SHEET + step() + "\f" + step(), n70(21), "20 + 1")
add("all-256-bytes", bytes(range(256)), n70(1), "line 1")

# ---- Attributes in a step


def launch(at):
    return SHEET + step(1, attr=at)


add("attr-empty-launch", launch(""), rep([(0, 0)], SHEET), "none attached, all sets empty: done, nothing changes")
add("attr-1-digit", launch("0"), n70(20), "odd: line 20")
add("attr-3-digits", launch("000"), n70(20), "odd: line 20")
add("attr-39-digits", launch(NETRAW[:-1]), n70(20), "odd: line 20")
add("attr-41-digits", launch(NETRAW + "0"), n70(20), "odd: line 20")
add("attr-47-digits", launch("0" * 47), n70(20), "odd: line 20")
add("attr-49-digits", launch("0" * 49), n70(20), "odd, and above 48: line 20")
add("attr-50-digits", launch("0" * 50), n70(20), "above 48: line 20")
add("attr-50-digits-good-start", launch(NETRAW + "0" * 10), n70(20), "above 48: line 20")
add("attr-1000-digits", launch("0" * 1000), n70(20), "above 48: line 20")
add("attr-2-digits-launch", launch("00"), rep([(60, 0)], SHEET), "well-formed text; 1 byte is no attribute: 60")
add("attr-46-digits-launch", launch("01000002" + "0" * 38), rep([(60, 0)], SHEET), "23 bytes: 60")
add("attr-48-digits-launch", launch("01000002" + "0" * 40), rep([(60, 0)], SHEET),
    "24 bytes (the kernel's version 3 length): 60")
add("attr-48-digits-rev3-launch", launch("01000003" + "0" * 40), rep([(60, 0)], SHEET), "revision 3 is not read: 60")
add("attr-2-digits-other-call", SHEET + step(10, attr="00"), rep([(22, 0)], SHEET), "attribute must be empty except in call 1: 22")
add("attr-46-digits-other-call", SHEET + step(14, attr="0" * 46), rep([(22, 0)], SHEET), "the same: 22")
add("attr-48-digits-other-call", SHEET + step(12, attr="0" * 48), rep([(22, 0)], SHEET), "the same: 22")
add("attr-good-other-call", SHEET + step(10, attr=NETRAW), rep([(22, 0)], SHEET), "the same, readable or not: 22")
add("attr-50-digits-other-call", SHEET + step(10, attr="0" * 50), n70(20), "the text is malformed whatever the call: line 20")
add("attr-upper-case", launch("0100000200200000000000000000000000000000".replace("2000", "2A00", 1)), n70(20),
    "hex letters are lower case: line 20")
add("attr-space", launch("01000002 0020000000000000000000000000000"), n70(20), "a blank is no hex digit: line 20")
add("attr-space-only", launch("  "), n70(20), "two blanks are not two digits: line 20")
NR = S(permitted="0000000000002000", effective="0000000000002000")
add("attr-netraw", launch(NETRAW), rep([(0, 0)], NR), "the paper's example: I and B unchanged, P'={13} and B, bit on, so P=E={13}")
add("attr-netraw-v1", launch("010000010020000000000000"), rep([(0, 0)], NR), "version 1, 12 bytes: the same sets")
add("attr-v1-length-v2-revision", launch("010000020020000000000000"), rep([(60, 0)], SHEET), "a length not its revision's: 60")
add("attr-v2-length-v1-revision", launch("0100000100200000000000000000000000000000"), rep([(60, 0)], SHEET),
    "a length not its revision's: 60")
add("attr-rev0", launch("0" * 40), rep([(60, 0)], SHEET), "revision 0: 60")
add("attr-other-bits", launch("0300000200200000000000000000000000000000"), rep([(60, 0)], SHEET),
    "bit 1 of the first word: 60")
add("attr-other-bits-middle", launch("0100010200200000000000000000000000000000"), rep([(60, 0)], SHEET),
    "bit 16 of the first word: 60")
add("attr-big-endian", launch("0200000100002000000000000000000000000000"), rep([(60, 0)], SHEET),
    "first word the wrong way round reads as revision 1, low bits 2, 20 bytes: 60")
add("attr-bit-40", launch("0100000200000000000000000001000000000000"), rep([(0, 0)],
    S(permitted="0000010000000000", effective="0000010000000000")), "bit 8 of the high word is 40: P=E={40}")
add("attr-bit-41", launch("0100000200000000000000000002000000000000"), rep([(60, 0)], SHEET), "bit 9 of the high word is 41: 60")
add("attr-inheritable-bit-41", launch("0000000200000000000000000000000000020000"), rep([(60, 0)], SHEET),
    "the same in the inheritable word: 60")
add("attr-unreadable-nosuid", SHEET + step(1, b="0000000000000004", attr="ff"), rep([(0, 0)], SHEET),
    "ignored under nosuid and so not read: done")
add("attr-unreadable-nnp", S(nnp="1") + step(1, attr="ff"), rep([(0, 0)], S(nnp="1")),
    "ignored under no-new-privs and so not read: done")
add("attr-unreadable-bad-flags", SHEET + step(1, b="0000000000000024", attr="ff"), rep([(22, 0)], SHEET),
    "flags above 31: 22 comes before everything about the attribute")
add("attr-unreadable-operand-c", SHEET + step(1, c="00000000ffffffff", attr="ff"), rep([(22, 0)], SHEET),
    "a file's group above 4294967294: 22 before 60")
add("attr-unreadable-file-group", SHEET + step(1, c="0000000000000001", attr="ff"), rep([(60, 0)], SHEET),
    "group 1 is a file's group, so only the attribute is wrong: 60")

# ---- Call numbers
add("call-0", SHEET + step(0), rep([(22, 0)], SHEET), "readable; unknown call: 22")
add("call-19", SHEET + step(19), rep([(1, 0, 10)], SHEET), "setgid 0 without SETGID; 0 is neither real nor saved group: 1, cause 10")
add("call-20", SHEET + step(20), rep([(1, 0, 10)], SHEET), "setregid 0, 0 without SETGID; 0 is none of the groups: 1, cause 10")
add("call-21", SHEET + step(21), rep([(1, 0, 10)], SHEET), "setresgid 0, 0, 0 without SETGID; 0 is none of the groups: 1, cause 10")
add("call-22", SHEET + step(22), rep([(0, 1000)], SHEET), "setfsgid 0 answers 0 and the old group 1000, and changes nothing")
add("call-23", SHEET + step(23), rep([(22, 0)], SHEET), "the first number past the last call; unknown call: 22")
add("call-30", SHEET + step(30), rep([(22, 0)], SHEET), "fork is one of a slot plan; here an unknown call: 22")
add("call-31", SHEET + step(31), rep([(22, 0)], SHEET), "exit is one of a slot plan; here an unknown call: 22")
add("call-99", SHEET + step(99), rep([(22, 0)], SHEET), "the greatest readable; unknown call: 22")
add("call-99-all-given", SHEET + step(99, "f" * 16, "f" * 16, "f" * 16, "f" * 48), rep([(22, 0)], SHEET),
    "readable; unknown call: 22")
add("call-100", SHEET + step(100), n70(16), "above 99: line 16")
add("call-07", SHEET + step("07"), n70(16), "leading zero: line 16")
add("call-00", SHEET + step("00"), n70(16), "leading zero: line 16")
add("call-010", SHEET + step("010"), n70(16), "leading zero: line 16")
add("call-minus-1", SHEET + step("-1"), n70(16), "a sign is no digit: line 16")
add("call-plus-1", SHEET + step("+1"), n70(16), "a sign is no digit: line 16")
add("call-space-1", SHEET + step(" 1"), n70(16), "a blank is no digit: line 16")
add("call-1-space", SHEET + step("1 "), n70(16), "a blank is no digit: line 16")
add("call-empty", SHEET + step(""), n70(16), "no digit: line 16")
add("call-name", SHEET + step("execve"), n70(16), "a number is wanted: line 16")
add("call-hex", SHEET + step("0a"), n70(16), "decimal: line 16")
add("call-257", SHEET + step(257), n70(16), "above 99; must not wrap to 1: line 16")
add("call-wraps-32", SHEET + step(4294967306), n70(16), "2^32 + 10: must not wrap to 10; line 16")
add("call-wraps-64", SHEET + step(18446744073709551626), n70(16), "2^64 + 10: must not wrap to 10; line 16")
add("call-30-digits", SHEET + step("9" * 30), n70(16), "line 16")

# ---- Operands
add("a-15-digits", SHEET + step(4, a="0" * 15), n70(17), "16 digits wanted: line 17")
add("a-17-digits", SHEET + step(4, a="0" * 17), n70(17), "16 digits wanted: line 17")
add("a-decimal", SHEET + step(4, a="17"), n70(17), "16 digits wanted: line 17")
add("second-step-a-1-digit", SHEET + step() + "call=1\na=0\n", n70(22), "16 digits wanted: 21 + 1")
add("b-empty", SHEET + step(4, b=""), n70(18), "16 digits wanted: line 18")
add("c-upper-case", SHEET + step(2, c="000000000000040A"), n70(19), "lower case: line 19")
add("operands-all-ones", SHEET + step(10, "f" * 16, "f" * 16, "f" * 16), rep([(22, 0)], SHEET),
    "readable; nonzero unused operands: 22")
add("unused-c", SHEET + step(4, a="0000000000000011", c="0000000000000001"), rep([(22, 0)], SHEET),
    "readable; nonzero unused operand: 22")
add("read-40-and-41", SHEET + step(4, a="0000000000000028") + step(4, a="0000000000000029"),
    rep([(0, 1), (22, 0)], SHEET), "case 13: capability 40 accepted by call 4, 41 gives 22")
add("read-2-to-32-plus-17", SHEET + step(4, a="0000000100000011"), rep([(22, 0)], SHEET),
    "the number is 64 bits wide and is not cut to 17: 22")
add("setfsuid-asks", S(fsuid="4294967294") + step(18, a="00000000ffffffff"),
    rep([(0, 4294967294)], S(fsuid="4294967294")), "setfsuid only asks: value 00000000fffffffe")
add("refused-goes-on", SHEET + step(3, a="0000000000000011") + step(99) + step(1, attr="00") + step(4, a="0000000000000011"),
    rep([(1, 0, 1), (22, 0), (60, 0), (0, 1)], SHEET),
    "a refused step does not stop the plan: 1 for want of SETPCAP (cause 1), 22, 60, then done")
RAW = "0000000000002000"
add("second-call-from-the-first",
    S(permitted=RAW, inheritable=RAW, effective=RAW, ambient=RAW) + step(8) + step(7, a="000000000000000d"),
    rep([(0, 0), (0, 0)], S(permitted=RAW, inheritable=RAW, effective=RAW)),
    "call 8 clears A; call 7 starts from there, so 13 is not in A: value 0")

# ---- Group IDs in a plan: capability 6 is SETGID (mask 40); 10, 20 .. 70 are a, 14, 1e, 28, 32, 3c, 46 in hex
LEAVE = "00000000ffffffff"
GROUPS = S(rgid="10", egid="20", sgid="30", fsgid="40")
add("groups-without-setgid",
    GROUPS + step(22, a="0000000000000014") + step(20, a="0000000000000014", b="000000000000000a")
    + step(21, a=LEAVE, b="0000000000000014", c=LEAVE) + step(19, a="000000000000000a") + step(19, a="000000000000001e")
    + step(22, a="000000000000001e") + step(22, a=LEAVE),
    rep([(0, 40), (0, 0), (0, 0), (0, 0), (1, 0, 10), (0, 10), (0, 10)], S(rgid="20", egid="10", sgid="10", fsgid="10")),
    "20 is the effective: 10/20/30/20, value 40; swapped, real given, so saved follows: 20/10/10/10; effective to the real: "
    "20/20/10/20; setgid to the saved: 20/10/10/10; 30 is neither real nor saved: 1, cause 10; setfsgid 30 changes nothing, value 10; asks, value 10")
SETGID = dict(permitted="0000000000000040", effective="0000000000000040")
add("groups-with-setgid",
    S(**SETGID) + step(19) + step(20, a="0000000000000032", b=LEAVE)
    + step(21, a=LEAVE, b="000000000000003c", c="0000000000000046") + step(22, a="00000000fffffffe"),
    rep([(0, 0), (0, 0), (0, 0), (0, 60)], S(**dict(SETGID, rgid="50", egid="60", sgid="70", fsgid="4294967294"))),
    "setgid 0: all four 0; setregid real 50: saved and filesystem become the effective 0; setresgid: 50/60/70/60; "
    "setfsgid 4294967294, value 60; P and E stay")
add("groups-with-setuid-only", S(permitted="0000000000000080", effective="0000000000000080") + step(19) + step(22),
    rep([(1, 0, 10), (0, 1000)], S(permitted="0000000000000080", effective="0000000000000080")),
    "SETUID is not SETGID: 1, cause 10, and a setfsgid that changes nothing")
add("groups-from-0-by-root",
    S(ruid="0", euid="0", suid="0", fsuid="0", rgid="0", egid="0", sgid="0", fsgid="0",
      permitted="000001ffffffffff", effective="000001ffffffffff") + step(19, a="00000000000003e8"),
    rep([(0, 0)], S(ruid="0", euid="0", suid="0", fsuid="0", permitted="000001ffffffffff", effective="000001ffffffffff")),
    "all four groups 1000; a group call touches no set and no user ID")
add("users-from-0-groups-stay",
    S(ruid="0", euid="0", suid="0", fsuid="0", rgid="0", egid="1", sgid="2", fsgid="3",
      permitted="000001ffffffffff", effective="000001ffffffffff") + step(15, a="00000000000003e8"),
    rep([(0, 0)], S(rgid="0", egid="1", sgid="2", fsgid="3")), "setuid 1000: rule 1 clears P and E; the groups stay as they are")
add("setfsgid-asks", S(fsgid="4294967294") + step(22, a=LEAVE),
    rep([(0, 4294967294)], S(fsgid="4294967294")), "setfsgid only asks: value 00000000fffffffe")
add("setgid-4294967295", S(**SETGID) + step(19, a=LEAVE), rep([(22, 0)], S(**SETGID)), "4294967295 stands in 20 to 22 only: 22")
add("setgid-unused-b", SHEET + step(19, a="00000000000003e8", b="0000000000000001"), rep([(22, 0)], SHEET),
    "readable; nonzero unused operand: 22")
add("setregid-unused-c", SHEET + step(20, a=LEAVE, b=LEAVE, c=LEAVE), rep([(22, 0)], SHEET), "c is unused in call 20: 22")
add("setresgid-nothing-given", GROUPS + step(21, a=LEAVE, b=LEAVE, c=LEAVE),
    rep([(0, 0)], S(rgid="10", egid="20", sgid="30", fsgid="20")), "nothing given: the filesystem group becomes the effective")
add("setresgid-saved-wide", S(**SETGID) + step(21, a=LEAVE, b=LEAVE, c="0000000100000000"), rep([(22, 0)], S(**SETGID)),
    "4294967296 is above 4294967294 and leaves nothing: 22")
add("setfsgid-attr", SHEET + step(22, a="00000000000003e8", attr=NETRAW), rep([(22, 0)], SHEET),
    "attribute must be empty except in call 1: 22")
add("launch-file-group", GROUPS + step(1, b="0000000000000002", c="0000000000000007"),
    rep([(0, 0)], S(rgid="10", egid="7", sgid="7", fsgid="7")),
    "set-group-ID in force: effective group 7, then saved and filesystem; the real stays")
add("launch-file-group-no-bit", GROUPS + step(1, c="0000000000000007"),
    rep([(0, 0)], S(rgid="10", egid="20", sgid="20", fsgid="20")),
    "without the bit group 7 is not taken; saved and filesystem become the effective 20")
add("launch-file-group-nosuid", GROUPS + step(1, b="0000000000000006", c="0000000000000007"),
    rep([(0, 0)], S(rgid="10", egid="20", sgid="20", fsgid="20")), "the bit is ignored on a nosuid mount: as without it")
add("launch-file-group-nnp", S(nnp="1", rgid="10", egid="20", sgid="30", fsgid="40") + step(1, b="0000000000000002", c="0000000000000007"),
    rep([(0, 0)], S(nnp="1", rgid="10", egid="20", sgid="20", fsgid="20")), "the bit is ignored under no-new-privs: as without it")
add("launch-file-group-no-file-caps", GROUPS + step(1, b="0000000000000012", c="0000000000000007", attr="ff"),
    rep([(0, 0)], S(rgid="10", egid="7", sgid="7", fsgid="7")), "no_file_caps ignores the attribute alone: group 7")
add("launch-owner-and-group", SHEET + step(1, a="00000000000003e9", b="0000000000000003", c="0000000000000007"),
    rep([(0, 0)], S(euid="1001", suid="1001", fsuid="1001", egid="7", sgid="7", fsgid="7")),
    "both bits in force: the owner's three user IDs and the file's three groups")
add("launch-file-group-0", SHEET + step(1, b="0000000000000002"), rep([(0, 0)], S(egid="0", sgid="0", fsgid="0")),
    "c 0 is group 0; a group 0 gives no capability")
KEPT = dict(permitted=RAW, inheritable=RAW, effective=RAW, ambient=RAW)
add("launch-file-group-own", S(**KEPT) + step(1, b="0000000000000002", c="00000000000003e8"), rep([(0, 0)], S(**KEPT)),
    "the group is 1000 already: the bit changes no ID, A stays, and so P and E")
add("launch-file-group-other", S(**KEPT) + step(1, b="0000000000000002", c="0000000000000007"),
    rep([(0, 0)], S(inheritable=RAW, egid="7", sgid="7", fsgid="7")), "the bit changes the effective group: A empty, and so P and E")
add("launch-owner-own", S(**KEPT) + step(1, a="00000000000003e8", b="0000000000000001"), rep([(0, 0)], S(**KEPT)),
    "as case 2, set-user-ID, owner 1000: the bit changes no ID, all as in case 2")
add("launch-owner-other", S(**KEPT) + step(1, a="00000000000003e9", b="0000000000000001"),
    rep([(0, 0)], S(inheritable=RAW, euid="1001", suid="1001", fsuid="1001")),
    "as case 2, set-user-ID, owner 1001: A empty, so P and E empty; effective, saved and filesystem ID 1001")
add("launch-owner-real", S(euid="1001", **KEPT) + step(1, a="00000000000003e8", b="0000000000000001"), rep([(0, 0)], S(inheritable=RAW)),
    "the owner is the real ID; the effective one was 1001: A empty, and the effective ID is 1000")
add("launch-file-group-4294967294", SHEET + step(1, b="0000000000000002", c="00000000fffffffe"),
    rep([(0, 0)], S(egid="4294967294", sgid="4294967294", fsgid="4294967294")), "the greatest group")
add("launch-file-group-4294967295", GROUPS + step(1, b="0000000000000002", c=LEAVE) + step(1, c=LEAVE), rep([(22, 0), (22, 0)], GROUPS),
    "above 4294967294: 22, with the bit and without it; the groups stay")
add("launch-file-group-wide", GROUPS + step(1, c="0000000100000007"), rep([(22, 0)], GROUPS),
    "the number is 64 bits wide and is not cut to 7: 22")
add("launch-refused-groups-stay", GROUPS + step(1, b="0000000000000002", c="0000000000000007", attr="00"), rep([(60, 0)], GROUPS),
    "1 byte is no attribute: 60, and the groups stay")

# ---- Causes: 13 is d and {13} 2000, 17 is 11 and {17} 20000 in hex; 1000 is the only ID
RAWIO = "0000000000020000"
NO17 = "000001fffffdffff"
SHORT = "0100000200000200000000000000000000000000"
add("causes-nothing-held",
    SHEET + step(3, a="0000000000000011") + step(9) + step(2, b=RAW) + step(2, a=RAW) + step(2, c=RAW) + step(2, RAW, RAW, RAW)
    + step(5, a="000000000000000d") + step(15) + step(16) + step(17) + step(18),
    rep([(1, 0, 1), (1, 0, 1), (1, 0, 2), (1, 0, 4), (1, 0, 5), (1, 0, 2), (1, 0, 6), (1, 0, 10), (1, 0, 10), (1, 0, 10), (0, 1000)], SHEET),
    "no SETPCAP in calls 3 and 9: 1; capset: 13 new in I, in B alone: 2; new in P: 4; new in E alone: 5; in all three, tests 1 and 3 fail: 2; "
    "13 neither in P nor in I: 6; 0 is no ID of the thread: 10 in 15, 16 and 17, while 18 is done, value 1000")
add("causes-bounding-lacks-17",
    S(permitted=RAWIO, bounding=NO17) + step(2, RAWIO, RAWIO) + step(2, Z, RAWIO, RAWIO) + step(1, attr=SHORT),
    rep([(1, 0, 3), (1, 0, 3), (1, 0, 11)], S(permitted=RAWIO, bounding=NO17)),
    "17 is in P, so test 1 passes, but not in I or B: 3; E not within the empty new P as well: still 3; rule f: 11")
SEALED = dict(permitted="0000000000000100", effective="0000000000000100", securebits="03")
add("causes-securebits",
    S(**SEALED) + step(9, a="0000000000000001") + step(9, a="0000000000000002") + step(9) + step(9, a="0000000000000023")
    + step(11) + step(11, a="0000000000000001"),
    rep([(1, 0, 8), (1, 0, 9), (1, 0, 8), (0, 0), (1, 0, 9), (1, 0, 9)], S(**dict(SEALED, securebits="23"))),
    "has SETPCAP; lock 2 undone: 8; NOROOT, locked, cleared: 9; both: 8; lock 20 added: done; then KEEP_CAPS is locked: 9, to clear and to set it")
add("causes-securebits-no-setpcap",
    S(securebits="03") + step(9, a="0000000000000001") + step(9, a="0000000000000002") + step(9) + step(9, a="0000000000000003"),
    rep([(1, 0, 1), (1, 0, 1), (1, 0, 1), (1, 0, 1)], S(securebits="03")),
    "the same without SETPCAP, and the value that stands already: 1 before 8 and 9")
add("causes-ambient", S(permitted=RAW, inheritable=RAW, securebits="40") + step(5, a="000000000000000d") + step(5, a="000000000000000a"),
    rep([(1, 0, 7), (1, 0, 6)], S(permitted=RAW, inheritable=RAW, securebits="40")),
    "13 is in P and I, the flag forbids it: 7; 10 is in neither, and the flag forbids it too: 6")
add("cause-0-of-22-and-60",
    S(securebits="20", bounding=NO17) + step(11, a="0000000000000002") + step(3, a="0000000000000029")
    + step(1, attr="0100000300000200000000000000000000000000"),
    rep([(22, 0), (22, 0), (60, 0)], S(securebits="20", bounding=NO17)),
    "the lock, the missing SETPCAP and rule f would refuse these as well, but 22 and 60 come first: cause 0")
add("cause-line-after-sheet", SHEET + "cause=0\n", n70(16), "a report's line is no step: 15 + 1")
add("cause-line-after-step", SHEET + step() + "cause=0\n", n70(21), "a report's line is no step: 20 + 1")

# ---- Many steps
ROOTKW = dict(ruid="0", euid="0", suid="0", fsuid="0", permitted="000001ffffffffff", effective="000001ffffffffff")
ROOT = S(**ROOTKW)
# 41 times: read n (1), drop n (0), read n (0): 123 steps; then 133 times call 10
many, res = [], []
for n in range(41):
    many += [step(4, a=f"{n:016x}"), step(3, a=f"{n:016x}"), step(4, a=f"{n:016x}")]
    res += [(0, 1), (0, 0), (0, 0)]
many += [step(10)] * 133
res += [(0, 0)] * 133
assert len(many) == 256 and len(res) == 256
M256 = ROOT + "".join(many)
add("steps-256", M256, rep(res, S(**dict(ROOTKW, bounding=Z))),
    "256 steps are allowed: each of the 41 capabilities read 1, dropped, read 0, then call 10 133 times; B ends empty")
add("steps-255", ROOT + "".join(many[:255]), rep(res[:255], S(**dict(ROOTKW, bounding=Z))), "one fewer")
add("steps-257", M256 + step(), n70(1296), "the paper says so: a 257th step gives 1296")
add("steps-257-cut", M256 + "call=10\n", n70(1296), "the 257th step is refused at its first line, whole or not")
add("steps-257-broken", M256 + "call=xx\n", n70(1296), "any text after the 256th step: 1295 + 1")
add("steps-256-newline", M256 + "\n", n70(1296), "a blank line after the 256th step: 1295 + 1")
add("steps-256-nul", M256 + "\0", n70(1296), "a NUL after the 256th step: 1295 + 1")
add("steps-256-no-last-newline", M256[:-1], n70(1295), "the last attr line is not complete: 1294 + 1")
add("steps-256-last-cut", ROOT + "".join(many[:255]) + "call=10\n", n70(1292), "1291 complete lines: 1291 + 1")
add("steps-256-last-broken", ROOT + "".join(many[:255]) + step("010"), n70(1291), "a sheet and 255 steps are 1290 lines: 1290 + 1")
add("steps-300", M256 + step() * 44, n70(1296), "the first text too much is at line 1296")
add("steps-1000", ROOT + step() * 1000, n70(1296), "the same, 70 kB")
add("steps-257-early-fault", ROOT + step() * 2 + step().replace("b=", "B=") + step() * 254, n70(28),
    "the first fault counts: step 3 is lines 26 to 30, its b line is 28")
add("steps-257-sheet-fault", S(nnp="2") + step() * 257, n70(15), "the first fault counts: line 15")

IDS10 = dict(ruid="4294967294", euid="4294967294", suid="4294967294", fsuid="4294967294",
             rgid="4294967294", egid="4294967294", sgid="4294967294", fsgid="4294967294")
FULL = "000001ffffffffff"
LKW = dict(IDS10, permitted=FULL, inheritable=FULL, effective=FULL, bounding=FULL, ambient=FULL,
           securebits="ff", nnp="1")
LONGSTEPS = "".join(step(10 + i % 90, "f" * 16, "f" * 16, "f" * 16, "f" * 48) for i in range(256))
LONGEST = S(**LKW) + LONGSTEPS
assert len(LONGEST) == 30748
assert len(rep([(22, 0)] * 256, S(**LKW))) == 10268
add("longest", LONGEST, rep([(22, 0)] * 256, S(**LKW)),
    "30,748 bytes: calls 10 to 99 with an attribute and all-ones operands, every one 22; nothing changes; the report has 10,268 bytes")
POOR = dict(LKW, effective=Z)
assert len(rep([(1, 0, 10)] * 256, S(**POOR))) == 10268
add("longest-report-cause-10", S(**POOR) + step(15) * 256, rep([(1, 0, 10)] * 256, S(**POOR)),
    "setuid 0 without SETUID, 0 is neither real nor saved: 1, cause 10, 256 times; `code=1` is a byte shorter than `code=22`, `cause=10` a byte "
    "longer than `cause=0`: again 10,268 bytes")
add("longest-plus-newline", LONGEST + "\n", n70(1296), "30,749 bytes: 1295 + 1")
add("longest-plus-c", LONGEST + "c", n70(1296), "the start of a 257th step: 1295 + 1")
add("longest-no-last-newline", LONGEST[:-1], n70(1295), "30,747 bytes, last line not complete: 1294 + 1")
add("longest-id-11-digits", LONGEST.replace("ruid=4294967294", "ruid=14294967294"), n70(1),
    "30,749 bytes, one digit more in line 1")
add("longest-call-3-digits", S(**LKW) + LONGSTEPS[:255 * 119] + step(100, "f" * 16, "f" * 16, "f" * 16, "f" * 48),
    n70(1291), "30,749 bytes, one digit more in the last call: 1290 + 1")
add("longest-attr-49", LONGEST[:-1] + "f\n", n70(1295), "30,749 bytes, one digit more in the last attr: 1294 + 1")
add("longest-last-launch", S(**LKW) + LONGSTEPS[:255 * 119] + step(1, attr="f" * 48),
    rep([(22, 0)] * 255 + [(0, 0)],
        S(**dict(LKW, securebits="ef"))),
    "30,747 bytes; the last step is call 1 under no-new-privs: its 24-byte attribute is ignored; "
    "A'=A=full, P'=E'=full; IDs and groups stay; KEEP_CAPS (16) is cleared though locked: ff becomes ef")
add("long-line-100k", "ruid=" + "1" * 100000 + "\n" + "".join(LS[1:]), n70(1), "line 1, however long")
add("long-line-no-newline", "x" * 100000, n70(1), "line 1, however long")
add("garbage-100k-after-3-lines", "".join(LS[:3]) + "x" * 100000 + "\n", n70(4), "3 + 1")
add("newlines-100k", "\n" * 100000, n70(1), "line 1")
add("newlines-100k-after-256-steps", M256 + "\n" * 100000, n70(1296), "1295 + 1")

# ---- 70 before 72
BADKW = dict(permitted="0000000000000400", effective="0000000000020400")
add("invalid-zero-steps", S(**BADKW), N72, "E not within P: 72, line 0")
add("invalid-three-steps", S(**BADKW) + step(10) + step(1) + step(4, a="0000000000000011"), N72,
    "three correct steps: 72, and no step's result is written")
add("invalid-and-fault-in-step", S(**BADKW) + step(10) + "call=10\na=1\n", n70(22), "70 comes first: 21 + 1")
add("invalid-and-fault-in-sheet", S(**dict(BADKW, nnp="2")), n70(15), "70 comes first: line 15, although line 11 makes it invalid")
add("invalid-and-no-last-newline", S(**BADKW)[:-1], n70(15), "70 comes first: line 15")
add("invalid-and-extra-newline", S(**BADKW) + "\n", n70(16), "70 comes first: line 16")
add("invalid-id-and-cut-step", S(ruid="4294967295") + "call=1\n", n70(17), "70 comes first: line 17")
add("invalid-id-and-257-steps", S(ruid="4294967295") + step() * 257, n70(1296), "70 comes first: line 1296")
add("invalid-id-and-256-steps", S(ruid="4294967295") + step() * 256, N72, "256 correct steps: 72")
add("invalid-group-and-cut-step", S(rgid="4294967295") + "call=1\n", n70(17), "70 comes first: line 17")
add("invalid-group-and-fault-in-sheet", S(egid="4294967295", sgid="4294967296"), n70(7),
    "70 comes first: line 7, although line 6 makes it invalid")
add("invalid-group-and-256-steps", S(sgid="4294967295") + step() * 256, N72, "256 correct steps: 72")
add("invalid-group-and-257-steps", S(sgid="4294967295") + step() * 257, n70(1296), "70 comes first: line 1296")
add("invalid-twice", S(ruid="4294967295", bounding="f" * 16), N72, "two reasons, one answer: 72, line 0")
add("longest-invalid", LONGEST.replace("fsuid=4294967294", "fsuid=4294967295"), N72,
    "30,748 bytes with fsuid 4294967295: 72, line 0")
add("longest-invalid-group", LONGEST.replace("fsgid=4294967294", "fsgid=4294967295"), N72,
    "30,748 bytes with fsgid 4294967295: 72, line 0")

if __name__ == "__main__":
    sys.exit(run("texts", "plan texts"))
