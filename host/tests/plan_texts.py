"""What texts.py and slot_texts.py share: the table of cases, the pieces that their texts are joined of, and what runs a program on them.

Nothing here knows a rule.
"""
import subprocess
import sys

KEYS = ["ruid", "euid", "suid", "fsuid", "rgid", "egid", "sgid", "fsgid", "permitted", "inheritable",
        "effective", "bounding", "ambient", "securebits", "nnp"]
BASE = dict(ruid="1000", euid="1000", suid="1000", fsuid="1000",
            rgid="1000", egid="1000", sgid="1000", fsgid="1000",
            permitted="0" * 16, inheritable="0" * 16, effective="0" * 16,
            bounding="000001ffffffffff", ambient="0" * 16,
            securebits="00", nnp="0")
Z = "0" * 16
NETRAW = "0100000200200000000000000000000000000000"
cases = []


def add(name, text, report, why):
    if isinstance(text, str):
        text = text.encode("latin-1")
    if isinstance(report, str):
        report = report.encode("ascii")
    assert name not in [c[0] for c in cases], name
    cases.append((name, text, report, why))


def lines(**kw):
    d = dict(BASE, **kw)
    return [f"{k}={d[k]}\n" for k in KEYS]


def S(**kw):
    return "".join(lines(**kw))


def step(call=10, a=Z, b=Z, c=Z, attr=""):
    return f"call={call}\na={a}\nb={b}\nc={c}\nattr={attr}\n"


def n70(line):
    return f"code=70\nline={line}\n"


N72 = "code=72\nline=0\n"


def result(code, value, cause=0):
    assert (code == 1) == (cause != 0), (code, value, cause)
    return f"code={code}\nvalue={value:016x}\ncause={cause}\n"


def rep(results, end):
    return "".join(result(*r) for r in results) + end


SHEET = S()
LS = lines()


def run(test, what):
    """Runs the program that is named on every case: the status, 0 if it writes what it has to."""
    program = sys.argv[1]
    differ = []
    for name, text, expected, why in cases:
        found = subprocess.run([program], input=text, stdout=subprocess.PIPE, timeout=60)
        if found.returncode != 0 or found.stdout != expected:
            differ.append(name)
            print(f"{test}: {name} ({why})\n  expected {expected[:200]!r}\n  found    {found.stdout[:200]!r}, status {found.returncode}")
    print(f"{test}: {len(cases) - len(differ)} of {len(cases)} {what} as expected")
    return 1 if differ else 0
