//! Capability sets in names: what the reader and the writer answer and every place of what they are lent, typed in from the paper.

mod lent;

use lent::{in_front, pattern, value_pattern};
use urrezkalu::{
    interface, read_names, write_names, NamedSets, NamesReading, NamesWriting, LONGEST_NAMES, NAMED_VALUES,
};

const FULL: u64 = 0x1ff_ffff_ffff;

const OUT_OF_RANGE: u64 = 22 << 32;
const NO_ROOM: u64 = 28 << 32;
const MALFORMED: u64 = 70 << 32;

/// By number, in lower case.
const NAMES: [&str; 41] = [
    "cap_chown",
    "cap_dac_override",
    "cap_dac_read_search",
    "cap_fowner",
    "cap_fsetid",
    "cap_kill",
    "cap_setgid",
    "cap_setuid",
    "cap_setpcap",
    "cap_linux_immutable",
    "cap_net_bind_service",
    "cap_net_broadcast",
    "cap_net_admin",
    "cap_net_raw",
    "cap_ipc_lock",
    "cap_ipc_owner",
    "cap_sys_module",
    "cap_sys_rawio",
    "cap_sys_chroot",
    "cap_sys_ptrace",
    "cap_sys_pacct",
    "cap_sys_admin",
    "cap_sys_boot",
    "cap_sys_nice",
    "cap_sys_resource",
    "cap_sys_time",
    "cap_sys_tty_config",
    "cap_mknod",
    "cap_lease",
    "cap_audit_write",
    "cap_audit_control",
    "cap_setfcap",
    "cap_mac_override",
    "cap_mac_admin",
    "cap_syslog",
    "cap_wake_alarm",
    "cap_block_suspend",
    "cap_audit_read",
    "cap_perfmon",
    "cap_bpf",
    "cap_checkpoint_restore",
];

const fn sets(permitted: u64, inheritable: u64, effective: u64) -> NamedSets {
    NamedSets { permitted, inheritable, effective }
}

const NONE: NamedSets = sets(0, 0, 0);

/// Texts in the one form that is written, with their sets.
const WRITTEN: [(&str, NamedSets); 7] = [
    ("", NONE),
    ("cap_chown=p", sets(1, 0, 0)),
    ("cap_kill=i", sets(0, 1 << 5, 0)),
    ("cap_checkpoint_restore=e", sets(0, 0, 1 << 40)),
    ("cap_net_raw=ep", sets(1 << 13, 0, 1 << 13)),
    ("cap_chown=ip cap_setuid=e cap_mac_admin=eip", sets(0x2_0000_0001, 0x2_0000_0001, 0x2_0000_0080)),
    (
        "cap_dac_override=e cap_fowner=i cap_kill=p cap_setuid=ei cap_linux_immutable=ep cap_net_broadcast=ip cap_net_raw=eip",
        sets(0x2a20, 0x2888, 0x2282),
    ),
];

/// Texts in other forms.
const OTHERS: [(&str, NamedSets); 14] = [
    ("\t\n ", NONE),
    ("=", NONE),
    ("cap_net_raw+ep", sets(1 << 13, 0, 1 << 13)),
    ("Cap_Net_RAW=pe", sets(1 << 13, 0, 1 << 13)),
    (" cap_kill=e\tcap_chown=p\n\ncap_fsetid=i\n", sets(1, 0x10, 0x20)),
    ("cap_kill,CAP_CHOWN,cap_kill+ppi", sets(0x21, 0x21, 0)),
    ("all=p", sets(FULL, 0, 0)),
    ("aLL+i-i+e", sets(0, 0, FULL)),
    ("=i+e", sets(0, FULL, FULL)),
    ("=eip cap_kill=p", sets(FULL, FULL - 0x20, FULL - 0x20)),
    ("all=ep cap_kill-ip", sets(FULL - 0x20, 0, FULL)),
    ("cap_chown+e=", NONE),
    ("cap_chown=e=i cap_kill-e", sets(0, 1, 0)),
    ("=e =p cap_bpf-p", sets(FULL - (1 << 39), 0, 0)),
];

/// Malformed texts, with their places.
const BROKEN: [(&str, u32); 32] = [
    ("+e", 0),
    ("e", 0),
    ("13=e", 0),
    ("\0", 0),
    ("cap_kill=e -e", 11),
    ("c", 1),
    ("al", 2),
    ("all", 3),
    ("chown=e", 1),
    ("cap_13=e", 4),
    ("cap_net_r", 9),
    ("cap_net_raw", 11),
    ("cap_net_raw ", 11),
    ("cap_net_rawer=e", 11),
    ("cap_net_bind_server=e", 17),
    ("cap_kill,", 9),
    ("cap_kill,=e", 9),
    ("cap_kill, cap_chown=e", 9),
    ("cap_kill=e,cap_chown=e", 10),
    ("all,cap_chown=e", 3),
    ("cap_chown,all=e", 10),
    ("cap_kill+", 9),
    ("cap_kill+ ", 9),
    ("cap_kill-=e", 9),
    ("cap_kill=e+-e", 11),
    ("cap_kill=E", 9),
    ("cap_kill=eP", 10),
    ("cap_kill =e", 8),
    ("cap_kill= e", 10),
    ("cap_kill=e\r\n", 10),
    ("cap_kill=e\0", 10),
    // A Kelvin sign for a K.
    ("cap_\u{212a}ill=e", 4),
];

/// Checks that the text comes to this number, and that the first of `count` values are then these and the others as they were.
fn reads(text: &[u8], count: usize, number: u64, expected: &[u64]) {
    let mut values = value_pattern(count);
    let shown = text.escape_ascii();
    assert_eq!(interface::read_names(text, &mut values), number, "{shown} with {count} values");
    assert_eq!(values, in_front(expected, &value_pattern(count)), "{shown} with {count} values");
}

/// Checks that the sets come to this number, and that the first of `room` bytes are then these and the others as they were.
fn writes(sets: NamedSets, room: usize, number: u64, expected: &[u8]) {
    let mut text = pattern(room);
    let found = interface::write_names(sets.permitted, sets.inheritable, sets.effective, &mut text);
    assert_eq!(found, number, "{sets:x?} with room for {room} bytes");
    assert_eq!(text, in_front(expected, &pattern(room)), "{sets:x?} with room for {room} bytes");
}

/// Checks that the text is malformed at this place, however many values are lent.
fn malformed(text: &[u8], place: u32) {
    assert_eq!(read_names(text), NamesReading::Malformed { place }, "{}", text.escape_ascii());
    for count in 0..=5 {
        reads(text, count, MALFORMED + u64::from(place), &[]);
    }
}

fn values(sets: NamedSets) -> [u64; NAMED_VALUES] {
    [sets.permitted, sets.inheritable, sets.effective]
}

/// The longest text, with its sets.
fn longest() -> (String, NamedSets) {
    (NAMES.map(|name| format!("{name}=eip")).join(" "), sets(FULL, FULL, FULL))
}

#[test]
fn texts_are_read() {
    for (text, sets) in WRITTEN.into_iter().chain(OTHERS) {
        assert_eq!(read_names(text.as_bytes()), NamesReading::Means(sets), "{text:?}");
    }
    for (text, place) in BROKEN {
        malformed(text.as_bytes(), place);
    }
}

#[test]
fn sets_are_written_and_read_back() {
    for (text, sets) in WRITTEN {
        let mut written = pattern(LONGEST_NAMES);
        assert_eq!(write_names(sets, &mut written), NamesWriting::Written { length: text.len() });
        assert_eq!(written, in_front(text.as_bytes(), &pattern(LONGEST_NAMES)));
    }
    for (text, sets) in OTHERS {
        let mut written = [0; LONGEST_NAMES];
        let NamesWriting::Written { length } = write_names(sets, &mut written) else { panic!("{text:?} is refused") };
        assert_eq!(read_names(&written[..length]), NamesReading::Means(sets), "{text:?}");
    }
}

#[test]
fn every_count_of_values_to_read_into() {
    for (text, sets) in WRITTEN.into_iter().chain(OTHERS) {
        for count in 0..NAMED_VALUES {
            reads(text.as_bytes(), count, NO_ROOM, &[]);
        }
        for count in NAMED_VALUES..=5 {
            reads(text.as_bytes(), count, 3, &values(sets));
        }
    }
}

#[test]
fn every_room_to_write_into() {
    for (text, sets) in WRITTEN {
        for room in 0..text.len() {
            writes(sets, room, NO_ROOM, &[]);
            let mut written = pattern(room);
            assert_eq!(write_names(sets, &mut written), NamesWriting::NoRoom);
            assert_eq!(written, pattern(room));
        }
        for room in text.len()..text.len() + 64 {
            writes(sets, room, text.len() as u64, text.as_bytes());
        }
    }
}

#[test]
fn three_empty_sets_need_no_room() {
    assert_eq!(write_names(NONE, &mut []), NamesWriting::Written { length: 0 });
    writes(NONE, 0, 0, &[]);
    assert_eq!(read_names(&[]), NamesReading::Means(NONE));
}

#[test]
fn the_longest_text() {
    let (text, sets) = longest();
    assert_eq!(text.len(), LONGEST_NAMES);
    assert_eq!(read_names(text.as_bytes()), NamesReading::Means(sets));
    for room in [0, 1, LONGEST_NAMES - 1] {
        writes(sets, room, NO_ROOM, &[]);
    }
    for room in [LONGEST_NAMES, LONGEST_NAMES + 1] {
        writes(sets, room, 748, text.as_bytes());
    }
}

#[test]
fn every_name_in_either_case() {
    for (number, name) in NAMES.into_iter().enumerate() {
        let bit = 1 << number;
        let all_ways = [("=p", sets(bit, 0, 0)), ("=i", sets(0, bit, 0)), ("=e", sets(0, 0, bit))];
        for (flag, sets) in all_ways {
            let text = [name, flag].concat();
            assert_eq!(read_names(text.as_bytes()), NamesReading::Means(sets), "{text}");
            let upper = [&name.to_uppercase(), flag].concat();
            assert_eq!(read_names(upper.as_bytes()), NamesReading::Means(sets), "{upper}");
            writes(sets, 64, text.len() as u64, text.as_bytes());
        }
    }
}

// Each part of a name, from its front, is a beginning, and so is the whole name; no operator can stand after a part.
#[test]
fn a_name_cut_anywhere() {
    for name in NAMES {
        for cut in 1..=name.len() {
            malformed(&name.as_bytes()[..cut], cut as u32);
            let followed = [&name[..cut], "=e"].concat();
            if cut < name.len() {
                malformed(followed.as_bytes(), cut as u32);
            }
        }
        let longer = [name, "x=e"].concat();
        malformed(longer.as_bytes(), name.len() as u32);
    }
}

// A cut is whole between clauses, and within a clause after `=` or a flag.
#[test]
fn a_text_cut_anywhere_only_ends_too_early() {
    for (text, _) in WRITTEN.into_iter().chain(OTHERS) {
        for cut in 0..text.len() {
            let last_clause = text[..cut].rsplit([' ', '\t', '\n']).next().unwrap_or("");
            let is_operated = last_clause.contains(['=', '+', '-']) && !last_clause.ends_with(['+', '-']);
            match read_names(&text.as_bytes()[..cut]) {
                NamesReading::Means(_) => assert!(last_clause.is_empty() || is_operated, "{:?}", &text[..cut]),
                NamesReading::Malformed { place } => {
                    assert!(!last_clause.is_empty() && !is_operated, "{:?}", &text[..cut]);
                    assert_eq!(place as usize, cut);
                }
            }
        }
    }
}

#[test]
fn a_text_has_no_greatest_length() {
    let mut text = "cap_kill+e\n".repeat(100_000);
    assert_eq!(read_names(text.as_bytes()), NamesReading::Means(sets(0, 0, 0x20)));
    text.push_str("+e");
    assert_eq!(read_names(text.as_bytes()), NamesReading::Malformed { place: 1_100_000 });
}

#[test]
fn capabilities_above_40_are_refused() {
    for bit in 41..64 {
        let set = 1 << bit;
        for above in [sets(set, 0, 0), sets(0, set, 0), sets(0, 0, set), sets(FULL | set, FULL | set, FULL | set)] {
            for room in [0, 1, LONGEST_NAMES, LONGEST_NAMES + 1] {
                writes(above, room, OUT_OF_RANGE, &[]);
            }
            assert_eq!(write_names(above, &mut [0; LONGEST_NAMES]), NamesWriting::OutOfRange);
        }
    }
}

#[test]
fn the_first_reason_counts() {
    writes(sets(1 << 41, 1, 1), 0, OUT_OF_RANGE, &[]);
    writes(sets(1, 1, 1), 0, NO_ROOM, &[]);
    reads(b"+e", 0, MALFORMED, &[]);
    reads(b"cap_net_raw", 2, MALFORMED + 11, &[]);
    reads(b"", 0, NO_ROOM, &[]);
}

#[test]
fn threads_do_not_disturb_each_other() {
    std::thread::scope(|threads| {
        for (text, sets) in WRITTEN {
            threads.spawn(move || {
                for _ in 0..200 {
                    reads(text.as_bytes(), 4, 3, &values(sets));
                    writes(sets, text.len() + 1, text.len() as u64, text.as_bytes());
                }
            });
        }
    });
}
