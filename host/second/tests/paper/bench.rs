//! On the bench: the thirteen cases, the two that came with the new rule d, the quoted report and the quoted attribute.

use crate::helpers::*;
use second::{Credentials, Outcome};

#[test]
fn case_1() {
    let before = Credentials { permitted: NET_RAW, inheritable: NET_RAW, effective: NET_RAW, ..user() };
    let expected = Credentials { permitted: 0, effective: 0, ..before.clone() };
    assert_eq!(after(&before, &execve(0, 0, vec![])), expected);
}

#[test]
fn case_2() {
    assert_eq!(after(&ambient_user(), &execve(0, 0, vec![])), ambient_user());
}

#[test]
fn case_2_but_set_user_id_of_owner_1000() {
    assert_eq!(after(&ambient_user(), &execve(1000, SET_USER_ID, vec![])), ambient_user());
}

#[test]
fn case_2_but_set_user_id_of_owner_1001() {
    let expected =
        Credentials { permitted: 0, effective: 0, ambient: 0, ..with_ids(ambient_user(), 1000, 1001, 1001, 1001) };
    assert_eq!(after(&ambient_user(), &execve(1001, SET_USER_ID, vec![])), expected);
}

#[test]
fn case_3() {
    let file = attribute(NET_BIND_SERVICE, 0, true);
    let expected =
        Credentials { permitted: NET_BIND_SERVICE, effective: NET_BIND_SERVICE, ambient: 0, ..ambient_user() };
    assert_eq!(after(&ambient_user(), &execve(0, 0, file)), expected);
}

#[test]
fn case_4() {
    let before = Credentials { bounding: FULL & !SYS_RAWIO, inheritable: SYS_RAWIO, ..user() };
    let expected = Credentials { permitted: SYS_RAWIO, ..before.clone() };
    assert_eq!(after(&before, &execve(0, 0, attribute(0, SYS_RAWIO, false))), expected);
}

#[test]
fn case_5() {
    let before = Credentials { bounding: FULL & !SYS_RAWIO, ..user() };
    assert_not_permitted(&before, &execve(0, 0, attribute(SYS_RAWIO, 0, true)), 11);
    assert_eq!(after(&before, &execve(0, 0, attribute(SYS_RAWIO, 0, false))), before);
}

#[test]
fn case_6() {
    let before = Credentials { bounding: FULL & !SYS_RAWIO, ..root() };
    let expected = Credentials { permitted: 0x0000_01ff_fffd_ffff, effective: 0x0000_01ff_fffd_ffff, ..before.clone() };
    assert_eq!(after(&before, &execve(0, 0, vec![])), expected);
}

#[test]
fn case_7() {
    let expected = with_ids(user(), 1000, 0, 0, 0);
    assert_eq!(after(&user(), &execve(0, SET_USER_ID, attribute(0, 0, false))), expected);
}

#[test]
fn case_8() {
    let expected = Credentials { permitted: FULL, effective: FULL, ..with_ids(user(), 1000, 0, 0, 0) };
    assert_eq!(after(&user(), &execve(0, SET_USER_ID, vec![])), expected);
}

#[test]
fn case_9() {
    let before = Credentials { inheritable: NET_RAW, ambient: NET_RAW, ..full_root() };
    let expected = Credentials { inheritable: NET_RAW, ..user() };
    assert_eq!(after(&before, &step(15, 1000, 0, 0)), expected);

    let keeping = Credentials { securebits: KEEP_CAPS, ..before };
    let expected = Credentials { permitted: FULL, securebits: KEEP_CAPS, ..expected };
    assert_eq!(after(&keeping, &step(15, 1000, 0, 0)), expected);
}

#[test]
fn case_10() {
    let before = Credentials {
        permitted: SETUID | NET_ADMIN,
        effective: NET_ADMIN,
        securebits: KEEP_CAPS,
        ..with_ids(user(), 0, 1000, 0, 0)
    };
    let expected = with_ids(before.clone(), 1000, 1000, 1000, 1000);
    assert_eq!(after(&before, &step(17, 1000, 1000, 1000)), expected);
}

#[test]
fn case_11() {
    let expected = Credentials { fsuid: 1000, effective: 0x0000_01fe_f7ff_fde0, ..full_root() };
    assert_eq!(done(&full_root(), &step(18, 1000, 0, 0)), (0, expected));
}

#[test]
fn case_12() {
    let before = Credentials { securebits: 0x30, ..user() };
    assert_eq!(after(&before, &execve(0, 0, vec![])), Credentials { securebits: 0x20, ..user() });
}

#[test]
fn case_13() {
    assert_eq!(done(&user(), &step(4, 40, 0, 0)), (1, user()));
    assert_refused(&user(), &step(4, 41, 0, 0), 22);
}

#[test]
fn the_whole_report_of_case_2() {
    let (outcome, report) = run(format!("{SHEET}{LAUNCH}").as_bytes());
    assert_eq!(report, REPORT);
    assert_eq!(outcome, Outcome::Report { length: REPORT.len() });
}

#[test]
fn the_whole_reports_of_case_2_but_set_user_id() {
    let launch = LAUNCH.replace("b=0000000000000000", "b=0000000000000001");
    let of_owner_1000 = launch.replace("a=0000000000000000", "a=00000000000003e8");
    assert_eq!(run(format!("{SHEET}{of_owner_1000}").as_bytes()).1, REPORT);

    let of_owner_1001 = launch.replace("a=0000000000000000", "a=00000000000003e9");
    let expected = "\
code=0
value=0000000000000000
cause=0
ruid=1000
euid=1001
suid=1001
fsuid=1001
rgid=1000
egid=1000
sgid=1000
fsgid=1000
permitted=0000000000000000
inheritable=0000000000002000
effective=0000000000000000
bounding=000001ffffffffff
ambient=0000000000000000
securebits=00
nnp=0
";
    assert_eq!(run(format!("{SHEET}{of_owner_1001}").as_bytes()).1, expected);
}

#[test]
fn a_plan_without_steps_reports_its_sheet() {
    assert_eq!(run(SHEET.as_bytes()).1, SHEET);
}

#[test]
fn the_quoted_attribute_in_a_plan() {
    let launch = LAUNCH.replace("attr=", &format!("attr={QUOTED}"));
    let sheet = SHEET.replace("0000000000002000", "0000000000000000");
    let expected = REPORT
        .replace("inheritable=0000000000002000", "inheritable=0000000000000000")
        .replace("ambient=0000000000002000", "ambient=0000000000000000");
    assert_eq!(run(format!("{sheet}{launch}").as_bytes()).1, expected);
}

#[test]
fn a_refused_step_does_not_stop_the_plan() {
    let steps = "\
call=0
a=0000000000000000
b=0000000000000000
c=0000000000000000
attr=
call=3
a=000000000000000d
b=0000000000000000
c=0000000000000000
attr=
call=1
a=0000000000000000
b=0000000000000000
c=0000000000000000
attr=ff
call=7
a=000000000000000d
b=0000000000000000
c=0000000000000000
attr=
call=8
a=0000000000000000
b=0000000000000000
c=0000000000000000
attr=
call=7
a=000000000000000d
b=0000000000000000
c=0000000000000000
attr=
call=18
a=00000000ffffffff
b=0000000000000000
c=0000000000000000
attr=
call=13
a=0000000000000001
b=0000000000000000
c=0000000000000000
attr=
";
    let expected = "\
code=22
value=0000000000000000
cause=0
code=1
value=0000000000000000
cause=1
code=60
value=0000000000000000
cause=0
code=0
value=0000000000000001
cause=0
code=0
value=0000000000000000
cause=0
code=0
value=0000000000000000
cause=0
code=0
value=00000000000003e8
cause=0
code=0
value=0000000000000000
cause=0
ruid=1000
euid=1000
suid=1000
fsuid=1000
rgid=1000
egid=1000
sgid=1000
fsgid=1000
permitted=0000000000002000
inheritable=0000000000002000
effective=0000000000002000
bounding=000001ffffffffff
ambient=0000000000000000
securebits=00
nnp=1
";
    assert_eq!(run(format!("{SHEET}{steps}").as_bytes()).1, expected);
}
