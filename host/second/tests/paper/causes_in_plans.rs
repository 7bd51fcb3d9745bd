//! Why it was refused: the causes in the report of a plan.

use crate::helpers::*;

/// P={8,12,13}, I={13}, B={10}; NO_CAP_AMBIENT_RAISE is set, KEEP_CAPS and NOROOT are locked and clear.
fn start() -> String {
    SHEET
        .replace("permitted=0000000000002000", "permitted=0000000000003100")
        .replace("effective=0000000000002000", "effective=0000000000000000")
        .replace("bounding=000001ffffffffff", "bounding=0000000000000400")
        .replace("ambient=0000000000002000", "ambient=0000000000000000")
        .replace("securebits=00", "securebits=62")
}

#[test]
fn every_cause_in_a_plan() {
    let first = steps(&[
        (3, [10, 0, 0]),             // SETPCAP is permitted, but not effective.
        (2, [0x3100, 0x0400, 0]),    // 10 into I: in neither I nor P.
        (2, [0x3100, 0x1000, 0]),    // 12 into I: in P, but in neither I nor B.
        (2, [0x3500, 0x2000, 0]),    // 10 into P.
        (2, [0x3100, 0x2000, 1024]), // 10 into E alone.
        (5, [12, 0, 0]),             // In P and not in I, and the flag forbids it too.
        (5, [13, 0, 0]),             // In both.
        (2, [0x3100, 0x2000, 256]),  // SETPCAP into E: done.
        (9, [0x60, 0, 0]),           // NOROOT's lock is undone.
        (9, [0x63, 0, 0]),           // NOROOT is changed.
        (11, [0, 0, 0]),             // KEEP_CAPS would stay clear.
        (15, [0, 0, 0]),             // No user ID of the thread.
        (21, [1000, 1000, 0]),       // No group ID of the thread.
    ]);
    let launch = LAUNCH.replace("attr=", &format!("attr={QUOTED}"));
    let last = steps(&[
        (18, [0, 0, 0]), // Changes nothing and is done.
        (22, [0, 0, 0]), // So is this.
        (99, [0, 0, 0]), // No call.
    ]);
    let unreadable = LAUNCH.replace("attr=", "attr=ff");
    let answers = "\
code=1
value=0000000000000000
cause=1
code=1
value=0000000000000000
cause=2
code=1
value=0000000000000000
cause=3
code=1
value=0000000000000000
cause=4
code=1
value=0000000000000000
cause=5
code=1
value=0000000000000000
cause=6
code=1
value=0000000000000000
cause=7
code=0
value=0000000000000000
cause=0
code=1
value=0000000000000000
cause=8
code=1
value=0000000000000000
cause=9
code=1
value=0000000000000000
cause=9
code=1
value=0000000000000000
cause=10
code=1
value=0000000000000000
cause=10
code=1
value=0000000000000000
cause=11
code=0
value=00000000000003e8
cause=0
code=0
value=00000000000003e8
cause=0
code=22
value=0000000000000000
cause=0
code=60
value=0000000000000000
cause=0
";
    let start = start();
    let sheet = start.replace("effective=0000000000000000", "effective=0000000000000100");
    let report = run(format!("{start}{first}{launch}{last}{unreadable}").as_bytes()).1;
    assert_eq!(report, format!("{answers}{sheet}"));
}
