//! The wanted lines of a captured status: their values, their order, and the line of each kind of fault.

use crate::helpers::*;

/// The places of the five lines of one set each, from 1 on.
const SET_LINES: [usize; 5] = [2, 3, 4, 5, 6];

/// This line in place of line `number` is a fault there: alone, behind two unwanted lines, and with the text ending in
/// it, with its newline and without.
fn assert_line_malformed(number: usize, line: &str) {
    let text = status_with_line(number, &format!("{line}\n"));
    assert_status_malformed(&text, number as u32);
    assert_status_malformed(format!("Name:\tx\n\n{text}"), number as u32 + 2);
    let before: String = STATUS.split_inclusive('\n').take(number - 1).collect();
    assert_status_malformed(format!("{before}{line}\n"), number as u32);
    assert_status_malformed(format!("{before}{line}"), number as u32);
}

/// The Uid line with one of its IDs put in other words.
fn uid_line(place: usize, id: &str) -> String {
    let mut ids = ["1000"; 4];
    ids[place] = id;
    format!("Uid:\t{}", ids.join("\t"))
}

#[test]
fn the_seven_lines_alone_are_enough() {
    assert_agrees(STATUS);
}

#[test]
fn every_line_wrong_in_every_plain_way() {
    for (index, line) in STATUS.lines().enumerate() {
        let number = index + 1;
        let (name, values) = line.split_once(":\t").unwrap();
        let (most, last) = line.split_at(line.len() - 1);
        for wrong in [
            // No value, and an empty one.
            format!("{name}:"),
            format!("{name}:\t"),
            format!("{name}:\t\t"),
            // No tab, a space for it, two tabs, a tab and a space.
            format!("{name}:{values}"),
            format!("{name}: {values}"),
            format!("{name}:\t\t{values}"),
            format!("{name}:\t {values}"),
            format!("{name}: \t{values}"),
            format!("{name}::\t{values}"),
            // A tab, a space, a carriage return or something else at the end.
            format!("{line}\t"),
            format!("{line} "),
            format!("{line}\r"),
            format!("{line}\0"),
            format!("{line}\u{b}"),
            format!("{line}g"),
            format!("{line},"),
            // A further value.
            format!("{line}\t0"),
            format!("{line}\t1000"),
            format!("{line}\t0000000000000000"),
            format!("{line} 0"),
            format!("{line}{line}"),
            // NUL bytes.
            format!("{name}:\0"),
            format!("{name}:\t\0"),
            format!("{name}:\0{values}"),
            format!("{name}:\t\0{values}"),
            format!("{most}\0"),
            format!("{most}\0{last}"),
            // Other ways to write a number.
            format!("{name}:\t+{values}"),
            format!("{name}:\t-{values}"),
            format!("{name}:\t0{values}"),
            format!("{name}:\t0x{values}"),
            format!("{most}\u{663}"),
            format!("{name}:\t{values}\u{663}"),
            format!("{name}:\t\u{feff}{values}"),
            // Far too long.
            format!("{name}:\t{}", "0".repeat(100_000)),
            format!("{name}:{}", "\t".repeat(100_000)),
            format!("{name}:{}", "\t0".repeat(100_000)),
            format!("{line}{}", " ".repeat(100_000)),
        ] {
            assert_line_malformed(number, &wrong);
        }
    }
}

#[test]
fn a_line_that_ends_inside_a_value() {
    for number in SET_LINES {
        let line = STATUS.lines().nth(number - 1).unwrap();
        for end in line.len() - 16..line.len() {
            assert_line_malformed(number, &line[..end]);
        }
    }
    assert_line_malformed(1, "Uid:\t1000\t1000\t1000\t");
    assert_line_malformed(1, "Uid:\t1000\t1000\t1000");
    // A newline inside a value ends it early, and the rest is a line that is passed over.
    assert_line_malformed(2, "CapInh:\t00000000\n00002000");
    assert_lists(status_with_line(1, "Uid:\t1000\t1000\t1000\t1\n000\n"), SHEET, &format!("fsuid 1000 1\n{LAST_LINE}"));
}

#[test]
fn bytes_that_are_not_utf_8_in_a_wanted_line() {
    for (index, line) in STATUS.lines().enumerate() {
        let before: String = STATUS.split_inclusive('\n').take(index).collect();
        for bytes in [&b"\xff"[..], b"\x80", b"\xc3", b"\xed\xa0\x80"] {
            let text = [before.as_bytes(), line.as_bytes(), bytes, b"\n"].concat();
            assert_status_malformed(text, index as u32 + 1);
        }
    }
}

#[test]
fn ids_in_the_sheets_digits() {
    for (place, key) in ["ruid", "euid", "suid", "fsuid"].into_iter().enumerate() {
        for right in ["0", "9", "10", "999", "1001", "4294967294", "4294967295"] {
            let text = status_with_line(1, &format!("{}\n", uid_line(place, right)));
            assert_lists(text, SHEET, &format!("{key} 1000 {right}\n{LAST_LINE}"));
        }
        for wrong in [
            "",
            "00",
            "01",
            "01000",
            "4294967296",
            "4294968296",
            "5000000000",
            "10000000000",
            "18446744073709551616",
            "18446744073709552616",
            "a",
            "3e8",
            "0x3e8",
            "1e3",
            "1 000",
            " 1000",
            "1000 ",
            "1000\r",
            "1000\0",
            "\x001000",
            "-1",
            "+1000",
            "1000.",
            "1000\t",
            "\t1000",
            "1000\t1000",
        ] {
            assert_line_malformed(1, &uid_line(place, wrong));
        }
    }
}

#[test]
fn four_ids_and_no_other_number_of_them() {
    for count in (0..10).filter(|&count| count != 4) {
        assert_line_malformed(1, &format!("Uid:{}", "\t1000".repeat(count)));
    }
    assert_agrees(status_with_line(1, &format!("Uid:{}\n", "\t1000".repeat(4))));
    for separator in [" ", "  ", "\t\t", "\t ", " \t", ",", "\r", "\0", "\u{b}", ""] {
        assert_line_malformed(1, &format!("Uid:\t{}", ["1000"; 4].join(separator)));
    }
}

#[test]
fn sets_of_sixteen_lower_case_digits() {
    let keys = ["inheritable", "permitted", "effective", "bounding", "ambient"];
    for (number, key) in SET_LINES.into_iter().zip(keys) {
        let name = WANTED[number - 1];
        let predicted = if key == "bounding" { "000001ffffffffff" } else { "0000000000002000" };
        for right in ["0000000000000000", "0123456789abcdef", "fedcba9876543210", "ffffffffffffffff"] {
            let text = status_with_line(number, &format!("{name}:\t{right}\n"));
            assert_lists(text, SHEET, &format!("{key} {predicted} {right}\n{LAST_LINE}"));
        }
        for wrong in [
            "",
            "0",
            "2000",
            "000000000002000",
            "00000000000002000",
            "000000000000000A",
            "000000000000000F",
            "000001FFFFFFFFFF",
            "A000000000000000",
            "000000000000000g",
            "000000000000000`",
            "000000000000000/",
            "000000000000000:",
            "0000000000002000\r",
            "000000000000200\r",
            " 000000000002000",
            "000000000002000 ",
            "00000000\t00002000",
            "00000000,00002000",
            "00000000_00002000",
            "0x00000000002000",
            "+000000000002000",
            "-000000000002000",
            "\0\0\0\0\0\0\0\0\0\0\0\0\0\0\0\0",
            "000000000002000\0",
        ] {
            assert_line_malformed(number, &format!("{name}:\t{wrong}"));
        }
    }
}

#[test]
fn no_new_privs_is_0_or_1() {
    assert_lists(status_with_line(7, "NoNewPrivs:\t1\n"), SHEET, &format!("nnp 0 1\n{LAST_LINE}"));
    for wrong in ["", "2", "9", "00", "01", "10", "11", "-", "-0", "+1", "a", "true", "0\r", "0 ", " 0", "\0", "\x01"] {
        assert_line_malformed(7, &format!("NoNewPrivs:\t{wrong}"));
    }
}

#[test]
fn a_missing_line_is_a_fault_where_the_next_wanted_one_stands() {
    // Without the last one the text has six lines, and the fault is at the line after them.
    for number in 1..=7 {
        assert_status_malformed(status_with_line(number, ""), number as u32);
    }
    // Unwanted lines stand in its place: the fault is further down by as many.
    for number in 1..=7 {
        assert_status_malformed(status_with_line(number, "x\n"), number as u32 + 1);
        assert_status_malformed(status_with_line(number, "\n\n\n"), number as u32 + 3);
    }
}

#[test]
fn a_line_whose_name_is_not_wanted_is_missing() {
    for (index, line) in STATUS.lines().enumerate() {
        let number = index + 1;
        let (name, values) = line.split_once(':').unwrap();
        for unwanted in [
            name.to_string(),
            format!("{name}{values}"),
            format!("{name} :{values}"),
            format!("{name}\t:{values}"),
            format!("{name}\0:{values}"),
            format!("{name};{values}"),
            format!("{name}={}", values.trim()),
            format!("{name}X:{values}"),
            format!("X{name}:{values}"),
            format!(" {line}"),
            format!("\t{line}"),
            format!("\0{line}"),
            format!("\r{line}"),
            format!("\u{feff}{line}"),
            format!("{}:{values}", name.to_lowercase()),
            format!("{}:{values}", name.to_uppercase()),
            format!("{}:{values}", &name[1..]),
            format!("{}:{values}", &name[..name.len() - 1]),
        ] {
            // The fault is at the next line, which is wanted and not due, or comes after the last.
            assert_status_malformed(status_with_line(number, &format!("{unwanted}\n")), number as u32 + 1);
            // Beside the right line it is passed over.
            assert_agrees(status_with_line(number, &format!("{unwanted}\n{line}\n")));
            assert_agrees(status_with_line(number, &format!("{line}\n{unwanted}\n")));
        }
    }
}

#[test]
fn a_repeated_line_is_a_fault_at_the_second() {
    for (index, line) in STATUS.lines().enumerate() {
        let number = index as u32 + 1;
        assert_status_malformed(status_with_line(index + 1, &format!("{line}\n{line}\n")), number + 1);
        assert_status_malformed(status_with_line(index + 1, &format!("{line}\nx\n\n{line}\n")), number + 3);
    }
}

#[test]
fn a_wanted_name_after_all_seven_is_a_fault() {
    for line in STATUS.lines() {
        let (name, _) = line.split_once(':').unwrap();
        // Right or malformed, with a newline and without.
        for again in [line.to_string(), format!("{name}:"), format!("{name}:\t"), format!("{name}: x")] {
            assert_status_malformed(format!("{STATUS}{again}\n"), 8);
            assert_status_malformed(format!("{STATUS}{again}"), 8);
            assert_status_malformed(format!("{STATUS}Seccomp:\t0\n\n{again}\nx\n"), 10);
        }
        assert_agrees(format!("{STATUS}{name}"));
        assert_agrees(format!("{STATUS}{name}\n"));
        assert_agrees(format!("{STATUS} {line}\n"));
    }
    assert_status_malformed(STATUS.repeat(2), 8);
}

#[test]
fn lines_out_of_order_are_a_fault_at_the_first_that_is_not_due() {
    for first in 0..7 {
        for second in first + 1..7 {
            let mut lines: Vec<&str> = STATUS.split_inclusive('\n').collect();
            lines.swap(first, second);
            assert_status_malformed(lines.concat(), first as u32 + 1);
        }
    }
    // One line further up, and so not due where it stands.
    for from in 1..7 {
        for to in 0..from {
            let mut lines: Vec<&str> = STATUS.split_inclusive('\n').collect();
            let line = lines.remove(from);
            lines.insert(to, line);
            assert_status_malformed(lines.concat(), to as u32 + 1);
        }
    }
}

#[test]
fn sets_in_the_sheets_order_are_a_fault() {
    // Permitted comes before inheritable in a sheet, and after it in a status.
    let lines: Vec<&str> = STATUS.split_inclusive('\n').collect();
    let text = [lines[0], lines[2], lines[1], lines[3], lines[4], lines[5], lines[6]].concat();
    assert_status_malformed(text, 2);
}

#[test]
fn the_first_fault_in_the_text_decides() {
    for first in 1..=7 {
        for second in first + 1..=7 {
            let mut lines: Vec<String> = STATUS.split_inclusive('\n').map(str::to_string).collect();
            lines[first - 1] = format!("{}:\n", WANTED[first - 1]);
            lines[second - 1] = format!("{}:\n", WANTED[second - 1]);
            assert_status_malformed(lines.concat(), first as u32);
        }
        // One malformed before one that is missing, repeated or comes after all seven.
        let malformed = status_with_line(first, &format!("{}:\n", WANTED[first - 1]));
        assert_status_malformed(format!("{malformed}{STATUS}"), first as u32);
        assert_status_malformed(malformed.replace("NoNewPrivs:\t0\n", ""), first as u32);
    }
    // One missing before one malformed: the malformed one is not due either.
    assert_status_malformed("x\nCapInh:\t0\n", 2);
    assert_status_malformed("CapInh:\t0\nUid:\n", 1);
}
