//! The list of what differs: its keys, their order, their values and its last line.

use crate::helpers::*;

/// A sheet and a status that differ in all ten keys, and the ten lines of that. The values of the status differ from
/// each other too, so that none can stand for another.
const PREDICTED: &str = "\
ruid=1
euid=20
suid=300
fsuid=4000
rgid=50000
egid=50001
sgid=50002
fsgid=50003
permitted=0000010000003420
inheritable=0000000000022000
effective=0000000000001400
bounding=000001fffffdffff
ambient=0000000000002000
securebits=ef
nnp=1
";
const FOUND: &str = "\
Uid:\t5\t60\t700\t8000
CapInh:\t0000000000000022
CapPrm:\t0000000000000011
CapEff:\t0000000000000033
CapBnd:\t0000000000000044
CapAmb:\t0000000000000055
NoNewPrivs:\t0
";
const TEN_LINES: [&str; 10] = [
    "ruid 1 5\n",
    "euid 20 60\n",
    "suid 300 700\n",
    "fsuid 4000 8000\n",
    "permitted 0000010000003420 0000000000000011\n",
    "inheritable 0000000000022000 0000000000000022\n",
    "effective 0000000000001400 0000000000000033\n",
    "bounding 000001fffffdffff 0000000000000044\n",
    "ambient 0000000000002000 0000000000000055\n",
    "nnp 1 0\n",
];

/// A status that agrees with the sheet above but for some of the keys, which are as in the status above.
fn with_some_found(differing: [bool; 10]) -> String {
    let predicted = [
        "1",
        "20",
        "300",
        "4000",
        "0000010000003420",
        "0000000000022000",
        "0000000000001400",
        "000001fffffdffff",
        "0000000000002000",
        "1",
    ];
    let found = [
        "5",
        "60",
        "700",
        "8000",
        "0000000000000011",
        "0000000000000022",
        "0000000000000033",
        "0000000000000044",
        "0000000000000055",
        "0",
    ];
    let mut values = predicted;
    for key in 0..10 {
        if differing[key] {
            values[key] = found[key];
        }
    }
    let [ruid, euid, suid, fsuid, permitted, inheritable, effective, bounding, ambient, nnp] = values;
    format!(
        "Uid:\t{ruid}\t{euid}\t{suid}\t{fsuid}\nCapInh:\t{inheritable}\nCapPrm:\t{permitted}\nCapEff:\t{effective}\n\
         CapBnd:\t{bounding}\nCapAmb:\t{ambient}\nNoNewPrivs:\t{nnp}\n"
    )
}

#[test]
fn nothing_differs() {
    assert_eq!(LAST_LINE.len(), 36);
    assert_lists(STATUS, SHEET, "not compared: securebits, group IDs\n");
    assert_lists(with_some_found([false; 10]), PREDICTED, "not compared: securebits, group IDs\n");
}

#[test]
fn each_key_differs_alone() {
    for (key, line) in TEN_LINES.into_iter().enumerate() {
        let mut differing = [false; 10];
        differing[key] = true;
        assert_lists(with_some_found(differing), PREDICTED, &format!("{line}{LAST_LINE}"));
    }
}

#[test]
fn all_ten_differ() {
    assert_eq!(with_some_found([true; 10]), FOUND);
    let expected = "\
ruid 1 5
euid 20 60
suid 300 700
fsuid 4000 8000
permitted 0000010000003420 0000000000000011
inheritable 0000000000022000 0000000000000022
effective 0000000000001400 0000000000000033
bounding 000001fffffdffff 0000000000000044
ambient 0000000000002000 0000000000000055
nnp 1 0
not compared: securebits, group IDs
";
    assert_lists(FOUND, PREDICTED, expected);
}

#[test]
fn any_of_the_ten_differ() {
    for choice in 0..1024 {
        let differing: [bool; 10] = std::array::from_fn(|key| choice >> key & 1 == 1);
        let lines: String = (0..10).filter(|&key| differing[key]).map(|key| TEN_LINES[key]).collect();
        assert_lists(with_some_found(differing), PREDICTED, &format!("{lines}{LAST_LINE}"));
    }
}

#[test]
fn the_longest_list_has_372_bytes() {
    let sheet = "\
ruid=4294967294
euid=4294967293
suid=4294967292
fsuid=4294967291
rgid=0
egid=0
sgid=0
fsgid=0
permitted=000001ffffffffff
inheritable=000001ffffffffff
effective=000001ffffffffff
bounding=000001ffffffffff
ambient=000001ffffffffff
securebits=00
nnp=0
";
    let status = "\
Uid:\t4294967295\t4294967294\t4294967293\t4294967292
CapInh:\tfffffffffffffffe
CapPrm:\tffffffffffffffff
CapEff:\tfffffffffffffffd
CapBnd:\tfffffffffffffffc
CapAmb:\tfffffffffffffffb
NoNewPrivs:\t1
";
    let expected = "\
ruid 4294967294 4294967295
euid 4294967293 4294967294
suid 4294967292 4294967293
fsuid 4294967291 4294967292
permitted 000001ffffffffff ffffffffffffffff
inheritable 000001ffffffffff fffffffffffffffe
effective 000001ffffffffff fffffffffffffffd
bounding 000001ffffffffff fffffffffffffffc
ambient 000001ffffffffff fffffffffffffffb
nnp 0 1
not compared: securebits, group IDs
";
    // 27 + 27 + 27 + 28 bytes of IDs, 44 + 46 + 44 + 43 + 42 of sets, then 8 + 36.
    assert_eq!(expected.len(), 372);
    assert_lists(status, sheet, expected);
}

#[test]
fn the_shortest_line_and_the_longest() {
    let sheet = SHEET.replace("ruid=1000", "ruid=0");
    let status = STATUS.replace("Uid:\t1000", "Uid:\t1");
    assert_lists(&status, &sheet, &format!("ruid 0 1\n{LAST_LINE}"));
    let status = STATUS.replace("Uid:\t1000", "Uid:\t4294967295");
    assert_lists(&status, &sheet, &format!("ruid 0 4294967295\n{LAST_LINE}"));
    let sheet = SHEET.replace("ruid=1000", "ruid=4294967294");
    let status = STATUS.replace("Uid:\t1000", "Uid:\t0");
    assert_lists(&status, &sheet, &format!("ruid 4294967294 0\n{LAST_LINE}"));
}

#[test]
fn predicted_comes_first_and_found_second() {
    let other = SHEET.replace("fsuid=1000", "fsuid=7").replace("nnp=0", "nnp=1");
    assert_lists(STATUS, &other, &format!("fsuid 7 1000\nnnp 1 0\n{LAST_LINE}"));
    let other = STATUS.replace("\t1000\n", "\t7\n").replace("NoNewPrivs:\t0", "NoNewPrivs:\t1");
    assert_lists(other, SHEET, &format!("fsuid 1000 7\nnnp 0 1\n{LAST_LINE}"));
}

#[test]
fn sets_come_in_the_files_order_and_go_out_in_the_sheets() {
    let sheet = SHEET.replace("0000000000002000", "0000000000000000");
    let status = STATUS
        .replace("CapInh:\t0000000000002000", "CapInh:\t0000000000000001")
        .replace("CapPrm:\t0000000000002000", "CapPrm:\t0000000000000002")
        .replace("CapEff:\t0000000000002000", "CapEff:\t0000000000000003")
        .replace("CapAmb:\t0000000000002000", "CapAmb:\t0000000000000004");
    let expected = "\
permitted 0000000000000000 0000000000000002
inheritable 0000000000000000 0000000000000001
effective 0000000000000000 0000000000000003
ambient 0000000000000000 0000000000000004
not compared: securebits, group IDs
";
    assert_lists(status, &sheet, expected);
}

#[test]
fn user_ids_are_real_effective_saved_filesystem() {
    let status = status_with_line(1, "Uid:\t1\t2\t3\t4\n");
    assert_lists(status, SHEET, &format!("ruid 1000 1\neuid 1000 2\nsuid 1000 3\nfsuid 1000 4\n{LAST_LINE}"));
}

#[test]
fn every_bit_of_every_set_counts() {
    let lines = [(2, "inheritable"), (3, "permitted"), (4, "effective"), (5, "bounding"), (6, "ambient")];
    for (number, key) in lines {
        let predicted: u64 = if key == "bounding" { FULL } else { NET_RAW };
        for bit in 0..64 {
            let found = predicted ^ 1 << bit;
            let text = status_with_line(number, &format!("{}:\t{found:016x}\n", WANTED[number - 1]));
            assert_lists(text, SHEET, &format!("{key} {predicted:016x} {found:016x}\n{LAST_LINE}"));
        }
    }
}

#[test]
fn found_values_need_not_be_valid() {
    // An ID that no thread has.
    let status = status_with_line(1, "Uid:\t4294967295\t4294967295\t4294967295\t4294967295\n");
    let expected = "\
ruid 1000 4294967295
euid 1000 4294967295
suid 1000 4294967295
fsuid 1000 4294967295
not compared: securebits, group IDs
";
    assert_lists(status, SHEET, expected);
    // Effective outside permitted, ambient outside both, and nothing else wrong.
    let status = status_with_line(3, "CapPrm:\t0000000000000000\n");
    assert_lists(status, SHEET, &format!("permitted 0000000000002000 0000000000000000\n{LAST_LINE}"));
    let status = status_with_line(2, "CapInh:\t0000000000000000\n");
    assert_lists(status, SHEET, &format!("inheritable 0000000000002000 0000000000000000\n{LAST_LINE}"));
    // The page's bounding set, with bits above 40.
    let status = status_with_line(5, "CapBnd:\tffffffffffffffff\n");
    assert_lists(status, SHEET, &format!("bounding 000001ffffffffff ffffffffffffffff\n{LAST_LINE}"));
}

#[test]
fn securebits_and_group_ids_are_not_compared() {
    for securebits in ["00", "01", "30", "ff"] {
        for id in ["0", "7", "4294967294"] {
            let sheet = SHEET
                .replace("securebits=00", &format!("securebits={securebits}"))
                .replace("gid=1000", &format!("gid={id}"));
            assert_lists(STATUS, &sheet, LAST_LINE);
            let status = status_with_line(2, "Gid:\t1\t2\t3\t4\nCapInh:\t0000000000002000\n");
            assert_lists(status, &sheet, LAST_LINE);
        }
    }
    // A Gid line is passed over, even where it could not be one.
    assert_agrees(format!("{STATUS}Gid:\tx\n"));
}

#[test]
fn unwanted_lines_change_nothing_in_the_list() {
    let among: String = FOUND.split_inclusive('\n').map(|line| format!("Name:\tx\n{line}\n")).collect();
    let expected = TEN_LINES.concat() + LAST_LINE;
    assert_lists(FOUND, PREDICTED, &expected);
    assert_lists(among, PREDICTED, &expected);
    assert_lists(FOUND.trim_end(), PREDICTED, &expected);
}
