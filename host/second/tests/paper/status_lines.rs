//! The lines of a captured status: where they end, which are passed over, the line after the last, and real files.

use crate::helpers::*;
use second::Written;

/// A whole status as a kernel of these years writes it, with the wanted lines of case 2. Uid is line 9, CapInh line 43
/// and NoNewPrivs line 48 of 61.
const REAL: &str = "\
Name:\troaster
Umask:\t0022
State:\tS (sleeping)
Tgid:\t17248
Ngid:\t0
Pid:\t17248
PPid:\t17200
TracerPid:\t0
Uid:\t1000\t1000\t1000\t1000
Gid:\t1000\t1000\t1000\t1000
FDSize:\t256
Groups:\t16 33 100 1000 \n\
NStgid:\t17248
NSpid:\t17248
NSpgid:\t17248
NSsid:\t17200
Kthread:\t0
VmPeak:\t  131168 kB
VmSize:\t  131168 kB
VmLck:\t       0 kB
VmPin:\t       0 kB
VmHWM:\t   13484 kB
VmRSS:\t   13484 kB
RssAnon:\t   10264 kB
RssFile:\t    3220 kB
RssShmem:\t       0 kB
VmData:\t   10332 kB
VmStk:\t     136 kB
VmExe:\t     992 kB
VmLib:\t    2104 kB
VmPTE:\t      76 kB
VmSwap:\t       0 kB
HugetlbPages:\t       0 kB
CoreDumping:\t0
THP_enabled:\t1
Threads:\t1
SigQ:\t0/3067
SigPnd:\t0000000000000000
ShdPnd:\t0000000000000000
SigBlk:\t0000000000010000
SigIgn:\t0000000000384004
SigCgt:\t000000004b813efb
CapInh:\t0000000000002000
CapPrm:\t0000000000002000
CapEff:\t0000000000002000
CapBnd:\t000001ffffffffff
CapAmb:\t0000000000002000
NoNewPrivs:\t0
Seccomp:\t0
Seccomp_filters:\t0
Speculation_Store_Bypass:\tvulnerable
SpeculationIndirectBranch:\tconditional enabled
Cpus_allowed:\tff
Cpus_allowed_list:\t0-7
Mems_allowed:\t00000000,00000001
Mems_allowed_list:\t0
x86_Thread_features:\t\n\
x86_Thread_features_locked:\t\n\
Untag_mask:\t0xffffffffffffffff
voluntary_ctxt_switches:\t150
nonvoluntary_ctxt_switches:\t545
";

/// Lines that are passed over, whatever bytes they hold.
const PASSED_OVER: [&[u8]; 34] = [
    b"",
    b" ",
    b"\t",
    b"\r",
    b"\0",
    b"\xff\xfe\x80",
    b"\xc3\x28",
    b":",
    b"::\t0",
    b"x",
    b"Uid",
    b"Uid\t1000\t1000\t1000\t1000",
    b"Uid :\t1000\t1000\t1000\t1000",
    b" Uid:\t1000\t1000\t1000\t1000",
    b"\tUid:\t1000\t1000\t1000\t1000",
    b"\0Uid:",
    b"uid:\t0\t0\t0\t0",
    b"UID:\t0\t0\t0\t0",
    b"Ui:\t0",
    b"U",
    b"id:\t0",
    b"Gid:\t0\t0\t0\t0",
    b"CapInhX:\t0000000000000000",
    b"CapInh",
    b"CapInh\0:\t0000000000000000",
    b"Capinh:\t0000000000000000",
    b"Cap:\t0000000000000000",
    b"CapSet:\t0000000000000000",
    b"\xffCapInh:\t0000000000000000",
    b"NoNewPriv:\t1",
    b"NoNewPrivss:\t1",
    b"nonewprivs:\t1",
    b"Name:\tUid:\t0",
    b"Name:\tx\rUid:\t0\t0\t0\t0",
];

/// The status with these bytes before it, after each line and so also at the end.
fn among(bytes: &[u8]) -> Vec<u8> {
    let mut text = bytes.to_vec();
    for line in STATUS.split_inclusive('\n') {
        text.extend_from_slice(line.as_bytes());
        text.extend_from_slice(bytes);
    }
    text
}

/// As `assert_status_malformed`, but once only, for texts that take long.
fn assert_long_malformed(status: impl AsRef<[u8]>, line: u32) {
    let written = Written { code: 70, number: line };
    assert_eq!(compare(status.as_ref(), SHEET.as_bytes()), (written, String::new()));
}

#[test]
fn passed_over_lines_before_between_and_after() {
    for line in PASSED_OVER {
        let line = [line, b"\n"].concat();
        assert_agrees([&line[..], STATUS.as_bytes()].concat());
        assert_agrees([STATUS.as_bytes(), &line[..]].concat());
        assert_agrees(among(&line));
        assert_agrees(among(&line.repeat(3)));
    }
    let all: Vec<u8> = PASSED_OVER.iter().flat_map(|line| [line, &b"\n"[..]].concat()).collect();
    assert_agrees(among(&all));
}

#[test]
fn every_byte_alone_in_a_line() {
    for byte in 0..=255 {
        assert_agrees(among(&[byte, b'\n']));
        assert_agrees([STATUS.as_bytes(), &[byte]].concat());
    }
}

#[test]
fn passed_over_lines_count() {
    // Seven lines and one before each: the fault in wanted line n is at line 2n.
    for line in PASSED_OVER {
        for number in 1..=7 {
            let broken = status_with_line(number, &format!("{}:\n", WANTED[number - 1]));
            let mut text = Vec::new();
            for wanted in broken.split_inclusive('\n') {
                text.extend_from_slice(line);
                text.push(b'\n');
                text.extend_from_slice(wanted.as_bytes());
            }
            assert_status_malformed(text, 2 * number as u32);
        }
    }
}

#[test]
fn the_line_after_the_last() {
    for (text, line) in [
        ("", 1),
        ("x", 2),
        ("x\n", 2),
        ("\n", 2),
        ("\n\n", 3),
        ("\nx", 3),
        ("x\ny", 3),
        ("x\ny\n", 3),
        ("x\n\n", 3),
        ("\n\n\n", 4),
        ("\r", 2),
        ("\0", 2),
        ("x\ry", 2),
        ("Uid", 2),
        ("uid:\n", 2),
    ] {
        assert_status_malformed(text, line);
    }
    let lines: Vec<&str> = STATUS.lines().collect();
    for count in 1..7 {
        let text = lines[..count].join("\n");
        let after = count as u32 + 1;
        assert_status_malformed(&text, after);
        assert_status_malformed(format!("{text}\n"), after);
        assert_status_malformed(format!("{text}\n\n"), after + 1);
        assert_status_malformed(format!("{text}\nx"), after + 1);
        assert_status_malformed(format!("{text}\nx\n"), after + 1);
    }
}

#[test]
fn the_last_newline_may_be_missing() {
    // On a wanted line.
    assert_agrees(STATUS.trim_end());
    let other = status_with_line(7, "NoNewPrivs:\t1");
    assert_lists(other, SHEET, &format!("nnp 0 1\n{LAST_LINE}"));
    assert_status_malformed(status_with_line(7, "NoNewPrivs:"), 7);
    assert_status_malformed(status_with_line(7, "NoNewPrivs:\t"), 7);
    assert_status_malformed(status_with_line(7, "NoNewPrivs:\t2"), 7);
    assert_status_malformed(status_with_line(7, "NoNewPrivs"), 8);
    // On one that is not.
    for line in PASSED_OVER {
        assert_agrees([STATUS.as_bytes(), line].concat());
    }
    assert_agrees(REAL.trim_end());
}

#[test]
fn cut_off_anywhere() {
    for end in 0..STATUS.len() {
        let cut = &STATUS[..end];
        let complete = cut.matches('\n').count();
        let rest = &cut[cut.rfind('\n').map_or(0, |newline| newline + 1)..];
        let whole = STATUS.lines().nth(complete) == Some(rest);
        // A shorter ID is an ID too, but every other value is right only as a whole.
        let right = whole || rest.starts_with("Uid:\t1000\t1000\t1000\t1");
        let line = match rest {
            "" => complete + 1,
            _ if complete == 6 && right => {
                assert_agrees(cut);
                continue;
            }
            // What is left is passed over, or is right, and the next one is due after it.
            _ if right || !rest.contains(':') => complete + 2,
            _ => complete + 1,
        };
        assert_status_malformed(cut, line as u32);
    }
}

#[test]
fn a_real_file() {
    assert_eq!(REAL.lines().count(), 61);
    assert_agrees(REAL);
    let found = REAL
        .replace("Uid:\t1000\t1000", "Uid:\t1000\t0")
        .replace("CapPrm:\t0000000000002000", "CapPrm:\t000001ffffffffff")
        .replace("CapAmb:\t0000000000002000", "CapAmb:\t0000000000000000")
        .replace("NoNewPrivs:\t0", "NoNewPrivs:\t1");
    let expected = "\
euid 1000 0
permitted 0000000000002000 000001ffffffffff
ambient 0000000000002000 0000000000000000
nnp 0 1
not compared: securebits, group IDs
";
    assert_lists(found, SHEET, expected);
}

#[test]
fn a_real_file_gone_wrong() {
    for (from, to, line) in [
        ("Uid:\t1000\t", "Uid:\t1000 ", 9),
        ("Uid:\t1000", "Uid:\t01000", 9),
        ("CapInh:\t0", "CapInh:\t", 43),
        ("CapPrm:\t", "CapPrm: ", 44),
        ("CapEff:\t", "CapEff:", 45),
        ("000001ffffffffff", "000001FFFFFFFFFF", 46),
        ("CapAmb:\t0", "CapAmb:\t\t0", 47),
        ("NoNewPrivs:\t0", "NoNewPrivs:\t", 48),
        ("Seccomp:\t0", "Uid:\t1000\t1000\t1000\t1000", 49),
        // Without its Uid line the next wanted line is CapInh, then at line 42.
        ("Uid:\t1000\t1000\t1000\t1000\n", "", 42),
        // Without one of the others the next one stands in its place.
        ("CapInh:\t0000000000002000\n", "", 43),
        ("CapAmb:\t0000000000002000\n", "", 47),
        // Without the last one the text has 60 lines.
        ("NoNewPrivs:\t0\n", "", 61),
        ("NoNewPrivs:", "NoNewPrivs", 62),
    ] {
        assert_status_malformed(REAL.replace(from, to), line);
    }
    assert_status_malformed(REAL.replace('\n', "\r\n"), 9);
    assert_status_malformed(REAL.replace('\t', " "), 9);
    assert_status_malformed(REAL.replace('\n', "\r"), 2);
    assert_status_malformed(REAL.replace(":\t", "="), 62);
}

#[test]
fn the_pages_example_has_spaces_for_tabs() {
    // The page sets its columns with spaces; a file has tabs.
    assert_status_malformed("Name:   bash\nUid:    1000    1000    1000    1000\n", 2);
}

#[test]
fn a_status_of_a_megabyte() {
    for line in ["\n", "x\n", "Uid\n", "CapInhX:\t0\n", "NoNewPriv:\t0\n", "nonvoluntary_ctxt_switches:\t545\n"] {
        let count = (1 << 20) / line.len();
        let many = line.repeat(count);
        assert_agrees(format!("{many}{STATUS}{many}"));
        assert_agrees(status_with_line(5, &format!("{many}CapBnd:\t000001ffffffffff\n")));
        assert_long_malformed(&many, count as u32 + 1);
        assert_long_malformed(format!("{STATUS}{many}Uid:"), count as u32 + 8);
        assert_long_malformed(format!("{many}Uid:\n{many}"), count as u32 + 1);
    }
}

#[test]
fn a_line_of_a_megabyte() {
    for byte in [0, b' ', b'\t', b':', b'0', b'U', b'C', b'N', 0xff] {
        let long = vec![byte; 1 << 20];
        assert_long_malformed(&long, 2);
        assert_agrees([STATUS.as_bytes(), &long].concat());
        assert_agrees([&long, &b"\n"[..], STATUS.as_bytes()].concat());
        assert_long_malformed([&long, STATUS.as_bytes()].concat(), 2);
        assert_long_malformed([b"Uid:", &long[..]].concat(), 1);
        assert_long_malformed([STATUS.trim_end().as_bytes(), &long].concat(), 7);
    }
}
