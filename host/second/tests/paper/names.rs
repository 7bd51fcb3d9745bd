//! Capability sets in names: the reader with the place of each fault, the writer, and the way there and back.

use crate::helpers::*;
use second::{read_names, write_names, Written};

/// What a place of a lent list holds before the call.
const UNTOUCHED: u64 = 0xa5a5_a5a5_a5a5_a5a5;

const CHOWN: u64 = 1 << 0;
const FOWNER: u64 = 1 << 3;
const KILL: u64 = 1 << 5;
const BPF: u64 = 1 << 39;

/// The flags that stand for some of permitted, inheritable, effective, in the written order.
const FLAGS: [(&str, [bool; 3]); 7] = [
    ("e", [false, false, true]),
    ("i", [false, true, false]),
    ("p", [true, false, false]),
    ("ei", [false, true, true]),
    ("ep", [true, false, true]),
    ("ip", [true, true, false]),
    ("eip", [true, true, true]),
];

/// The text stands for these sets: permitted, inheritable, effective. The fourth place must stay.
fn assert_reads(text: impl AsRef<[u8]>, expected: [u64; 3]) {
    let text = text.as_ref();
    let mut values = [UNTOUCHED; 4];
    let written = read_names(text, &mut values);
    assert_eq!(written, Written { code: 0, number: 3 }, "{:?}", String::from_utf8_lossy(text));
    assert_eq!(values[..3], expected, "{:?}", String::from_utf8_lossy(text));
    assert_eq!(values[3], UNTOUCHED);
}

/// The text is malformed at this place, which leaves every place of the list alone, and the answer is the same whether
/// there is room or not.
fn assert_malformed_at(text: impl AsRef<[u8]>, place: usize) {
    let text = text.as_ref();
    for places in [0, 1, 2, 3, 4] {
        let mut values = vec![UNTOUCHED; places];
        let written = read_names(text, &mut values);
        let expected = Written { code: 70, number: place as u32 };
        assert_eq!(written, expected, "{places} places, {:?}", String::from_utf8_lossy(text));
        assert!(values.iter().all(|&value| value == UNTOUCHED));
    }
}

/// The text of three sets; bytes past it must stay.
fn write([permitted, inheritable, effective]: [u64; 3]) -> String {
    let mut buffer = [0xa5; 800];
    let written = write_names(permitted, inheritable, effective, &mut buffer);
    assert_eq!(written.code, 0, "{permitted:x} {inheritable:x} {effective:x}");
    let length = written.number as usize;
    assert!(buffer[length..].iter().all(|&byte| byte == 0xa5));
    String::from_utf8(buffer[..length].to_vec()).unwrap()
}

/// Sets with a bit above 40 leave every byte alone, and the code is 22 whether there is room or not.
fn assert_not_written([permitted, inheritable, effective]: [u64; 3]) {
    for length in [0, 1, 11, 747, 748, 800] {
        let mut buffer = vec![0xa5; length];
        let written = write_names(permitted, inheritable, effective, &mut buffer);
        assert_eq!(written, Written { code: 22, number: 0 }, "{permitted:x} {inheritable:x} {effective:x}");
        assert!(buffer.iter().all(|&byte| byte == 0xa5));
    }
}

/// Three sets that hold one capability, or all of some, where the flags say so.
fn where_flagged(capabilities: u64, flags: [bool; 3]) -> [u64; 3] {
    flags.map(|flag| if flag { capabilities } else { 0 })
}

/// The name with upper case at every other letter, the first one or the second.
fn mixed_case(name: &str, first: usize) -> String {
    let mixed = name.char_indices().map(|(at, c)| if at % 2 == first { c.to_ascii_uppercase() } else { c });
    mixed.collect()
}

// What a text stands for.

#[test]
fn the_quoted_clause() {
    assert_reads("cap_net_raw+ep", [NET_RAW, 0, NET_RAW]);
}

#[test]
fn text_without_a_clause_is_three_empty_sets() {
    for text in ["", " ", "\t", "\n", "   ", " \t\n", "\n\n\t\t  \n"] {
        assert_reads(text, [0, 0, 0]);
    }
}

#[test]
fn each_name_by_itself() {
    for (number, name) in NAMES.iter().enumerate() {
        for (flags, sets) in FLAGS {
            for operator in ["=", "+"] {
                assert_reads(format!("{name}{operator}{flags}"), where_flagged(1 << number, sets));
            }
            assert_reads(format!("{name}-{flags}"), [0, 0, 0]);
        }
        assert_reads(format!("{name}="), [0, 0, 0]);
    }
}

#[test]
fn each_name_in_either_case() {
    for (number, name) in NAMES.iter().enumerate() {
        for text in [name.to_uppercase(), mixed_case(name, 0), mixed_case(name, 1)] {
            assert_reads(format!("{text}=ip"), [1 << number, 1 << number, 0]);
        }
    }
    assert_reads("Cap_Net_RAW=e", [0, 0, NET_RAW]);
}

#[test]
fn all_in_either_case() {
    for text in ["all", "alL", "aLl", "aLL", "All", "AlL", "ALl", "ALL"] {
        assert_reads(format!("{text}=ep"), [FULL, 0, FULL]);
    }
}

#[test]
fn all_is_the_41_and_no_more() {
    assert_reads("all=eip", [0x0000_01ff_ffff_ffff; 3]);
    assert_reads("all+i", [0, FULL, 0]);
    assert_reads("all-eip", [0, 0, 0]);
}

#[test]
fn a_clause_without_names_means_all_41() {
    for (text, sets) in [
        ("=", [0, 0, 0]),
        ("=e", [0, 0, FULL]),
        ("=i", [0, FULL, 0]),
        ("=p", [FULL, 0, 0]),
        ("=pie", [FULL, FULL, FULL]),
        ("=ep cap_kill=", [FULL & !KILL, 0, FULL & !KILL]),
    ] {
        assert_reads(text, sets);
    }
}

#[test]
fn a_clause_without_names_may_go_on_with_any_operators() {
    for (text, sets) in [
        ("=+e", [0, 0, FULL]),
        ("=-e", [0, 0, 0]),
        ("==", [0, 0, 0]),
        ("===p", [FULL, 0, 0]),
        ("=p+i", [FULL, FULL, 0]),
        ("=eip-i", [FULL, 0, FULL]),
        ("=eip-i+i-ep", [0, FULL, 0]),
        ("=e=p", [FULL, 0, 0]),
        ("cap_kill=i =p+e", [FULL, 0, FULL]),
    ] {
        assert_reads(text, sets);
    }
}

#[test]
fn flags_in_any_order() {
    for text in ["eip", "epi", "iep", "ipe", "pei", "pie"] {
        assert_reads(format!("cap_kill={text}"), [KILL, KILL, KILL]);
        assert_reads(format!("cap_kill+{text}"), [KILL, KILL, KILL]);
        assert_reads(format!("=eip cap_kill-{text}"), [FULL & !KILL; 3]);
    }
    assert_reads("cap_kill=pe", [KILL, 0, KILL]);
    assert_reads("cap_kill=ie", [0, KILL, KILL]);
    assert_reads("cap_kill=pi", [KILL, KILL, 0]);
}

#[test]
fn flags_repeated() {
    assert_reads("cap_kill=ee", [0, 0, KILL]);
    assert_reads("cap_kill+pppp", [KILL, 0, 0]);
    assert_reads("cap_kill+epepe", [KILL, 0, KILL]);
    assert_reads("=eip cap_kill-ii", [FULL, FULL & !KILL, FULL]);
    assert_reads(format!("=p{}", "i".repeat(100_000)), [FULL, FULL, 0]);
}

#[test]
fn names_joined_by_commas() {
    for (text, sets) in [
        ("cap_chown,cap_kill=e", [0, 0, CHOWN | KILL]),
        ("cap_kill,cap_chown+p", [CHOWN | KILL, 0, 0]),
        ("cap_net_raw,cap_bpf,cap_chown=ip", [NET_RAW | BPF | CHOWN, NET_RAW | BPF | CHOWN, 0]),
        ("CAP_KILL,cap_bpf,Cap_Chown=i", [0, KILL | BPF | CHOWN, 0]),
        ("=p cap_kill,cap_bpf-p", [FULL & !(KILL | BPF), 0, 0]),
    ] {
        assert_reads(text, sets);
    }
    assert_reads(format!("{}=eip", NAMES.join(",")), [FULL; 3]);
}

#[test]
fn names_given_twice_count_once() {
    assert_reads("cap_kill,cap_kill=e", [0, 0, KILL]);
    assert_reads("cap_kill,CAP_KILL,cap_chown,cap_kill+p", [KILL | CHOWN, 0, 0]);
    assert_reads("=p cap_kill,cap_kill-p", [FULL & !KILL, 0, 0]);
}

#[test]
fn equals_takes_all_three_flags_first() {
    assert_reads("cap_kill=eip cap_kill=i", [0, KILL, 0]);
    assert_reads("cap_kill=eip cap_kill=", [0, 0, 0]);
    assert_reads("=eip cap_kill,cap_bpf=p", [FULL, FULL & !(KILL | BPF), FULL & !(KILL | BPF)]);
    assert_reads("cap_kill,cap_bpf=eip =", [0, 0, 0]);
    assert_reads("cap_kill,cap_bpf=eip all=", [0, 0, 0]);
}

#[test]
fn plus_gives_and_leaves_the_rest() {
    assert_reads("cap_kill=e cap_kill+p", [KILL, 0, KILL]);
    assert_reads("cap_kill=e cap_bpf+e", [0, 0, KILL | BPF]);
    assert_reads("cap_kill+e cap_kill+e", [0, 0, KILL]);
    assert_reads("cap_kill=ip all+e", [KILL, KILL, FULL]);
}

#[test]
fn minus_takes_and_leaves_the_rest() {
    assert_reads("cap_kill=eip cap_kill-i", [KILL, 0, KILL]);
    assert_reads("cap_kill,cap_bpf=ep cap_kill-e", [KILL | BPF, 0, BPF]);
    assert_reads("cap_kill-e", [0, 0, 0]);
    assert_reads("cap_kill=ep all-p", [0, 0, KILL]);
}

#[test]
fn operators_repeat_within_a_clause_from_left_to_right() {
    for (text, sets) in [
        ("cap_kill+e+p", [KILL, 0, KILL]),
        ("cap_kill+e-e", [0, 0, 0]),
        ("cap_kill-e+e", [0, 0, KILL]),
        ("cap_kill+eip-i-p", [0, 0, KILL]),
        ("cap_kill=e+i-e+p", [KILL, KILL, 0]),
        ("cap_kill=+e", [0, 0, KILL]),
        ("cap_kill=-e", [0, 0, 0]),
        ("cap_kill=+e=+p", [KILL, 0, 0]),
        ("cap_kill==", [0, 0, 0]),
        ("cap_kill==e", [0, 0, KILL]),
        ("cap_kill=e=p", [KILL, 0, 0]),
        ("cap_kill=p=e", [0, 0, KILL]),
        ("all=p-p+i", [0, FULL, 0]),
    ] {
        assert_reads(text, sets);
    }
}

#[test]
fn a_later_equals_without_flags() {
    assert_reads("cap_chown+e=", [0, 0, 0]);
    assert_reads("cap_chown+e= cap_kill+e", [0, 0, KILL]);
    assert_reads("cap_chown+e=+p", [CHOWN, 0, 0]);
    assert_reads("cap_chown=eip=-e", [0, 0, 0]);
    assert_reads("=p cap_chown-e=", [FULL & !CHOWN, 0, 0]);
}

#[test]
fn clauses_from_left_to_right() {
    for (text, sets) in [
        ("cap_kill=e cap_bpf=p", [BPF, 0, KILL]),
        ("cap_kill+e cap_kill-e", [0, 0, 0]),
        ("cap_kill-e cap_kill+e", [0, 0, KILL]),
        ("=p cap_kill-p cap_kill+i all+e", [FULL & !KILL, KILL, FULL]),
        ("all+e cap_kill-e cap_kill=p", [KILL, 0, FULL & !KILL]),
        ("cap_kill=p =e", [0, 0, FULL]),
        ("cap_kill=p all+e", [KILL, 0, FULL]),
    ] {
        assert_reads(text, sets);
    }
}

#[test]
fn nothing_asks_whether_the_sets_are_valid_credentials() {
    assert_reads("cap_kill=e", [0, 0, KILL]);
    assert_reads("=e", [0, 0, FULL]);
}

#[test]
fn each_blank_parts_clauses() {
    for blank in [" ", "\t", "\n", "  ", "\t\t", "\n\n", " \t", "\t \n", "\n\t  \n\t"] {
        assert_reads(format!("cap_kill=e{blank}cap_bpf=p"), [BPF, 0, KILL]);
        assert_reads(format!("=e{blank}="), [0, 0, 0]);
        assert_reads(format!("cap_kill={blank}cap_bpf=p"), [BPF, 0, 0]);
    }
}

#[test]
fn each_blank_at_the_ends() {
    for blank in [" ", "\t", "\n", "  ", "\t\t", "\n\n", " \t", "\t \n", "\n\t  \n\t"] {
        assert_reads(format!("{blank}cap_kill=e"), [0, 0, KILL]);
        assert_reads(format!("cap_kill=e{blank}"), [0, 0, KILL]);
        assert_reads(format!("{blank}cap_kill+e{blank}"), [0, 0, KILL]);
        assert_reads(format!("{blank}={blank}"), [0, 0, 0]);
    }
}

// The reader's list.

#[test]
fn read_into_exactly_three_places() {
    let mut values = [UNTOUCHED; 3];
    assert_eq!(read_names(b"cap_kill=ip cap_bpf=ep", &mut values), Written { code: 0, number: 3 });
    assert_eq!(values, [KILL | BPF, KILL, BPF]);
}

#[test]
fn read_into_more_places_leaves_them() {
    for more in [1, 2, 100, 10_000] {
        let mut values = vec![UNTOUCHED; 3 + more];
        assert_eq!(read_names(b"cap_kill=ip cap_bpf=ep", &mut values), Written { code: 0, number: 3 });
        assert_eq!(values[..3], [KILL | BPF, KILL, BPF]);
        assert!(values[3..].iter().all(|&value| value == UNTOUCHED));
    }
}

#[test]
fn read_into_fewer_places_gives_28() {
    for text in ["", " ", "cap_kill=ip", "=eip"] {
        for places in 0..3 {
            let mut values = vec![UNTOUCHED; places];
            assert_eq!(read_names(text.as_bytes(), &mut values), Written { code: 28, number: 0 });
            assert!(values.iter().all(|&value| value == UNTOUCHED));
        }
    }
}

#[test]
fn malformed_comes_before_no_room() {
    assert_eq!(read_names(b"cap_kill", &mut []), Written { code: 70, number: 8 });
    assert_eq!(read_names(b"+e", &mut [UNTOUCHED; 2]), Written { code: 70, number: 0 });
    assert_eq!(read_names(b"", &mut [UNTOUCHED; 2]), Written { code: 28, number: 0 });
}

#[test]
fn clauses_before_the_fault_change_nothing() {
    assert_malformed_at("all=eip cap_kill-e x", 19);
    assert_malformed_at("=eip\n+", 5);
}

// The place of a fault.

#[test]
fn the_quoted_places() {
    assert_malformed_at("all,cap_chown=e", 3);
    assert_malformed_at("cap_chown,all=e", 10);
    assert_malformed_at("cap_net_raw", 11);
    assert_malformed_at("+e", 0);
}

#[test]
fn each_name_cut_at_each_length() {
    // The text only stops too early, so the place is its whole length.
    for name in NAMES {
        for end in 1..=name.len() {
            assert_malformed_at(&name[..end], end);
            assert_malformed_at(&name.to_uppercase()[..end], end);
            assert_malformed_at(&mixed_case(name, end % 2)[..end], end);
        }
    }
}

#[test]
fn a_later_name_cut_at_each_length() {
    // The first name and the comma are 9 bytes, the clause and the blank 14.
    for name in NAMES {
        for end in 0..=name.len() {
            assert_malformed_at(format!("cap_kill,{}", &name[..end]), 9 + end);
        }
        for end in 1..=name.len() {
            assert_malformed_at(format!("cap_chown=eip {}", &name[..end]), 14 + end);
        }
    }
}

#[test]
fn each_name_cut_before_a_byte_that_no_name_has() {
    for name in NAMES {
        for end in 0..name.len() {
            for wrong in ["*", "9", "~", "\0", "\r", "."] {
                assert_malformed_at(format!("{}{wrong}", &name[..end]), end);
                assert_malformed_at(format!("{}{wrong}=e", &name[..end]), end);
            }
        }
        // Whole names end, where parts of them do not: no name is the beginning of another.
        for end in 1..name.len() {
            for follower in [" ", "\t", "\n", ",", "=", "+", "-", "=e", "+e", ",cap_kill=e"] {
                assert_malformed_at(format!("{}{follower}", &name[..end]), end);
            }
        }
    }
}

#[test]
fn each_name_followed_by_a_byte_that_cannot_follow() {
    for name in NAMES {
        for wrong in ["s", "S", "_", "e", "0", " ", "\t", "\n", "\r", "\0", ";", ".", ":", "/", "\u{e9}"] {
            assert_malformed_at(format!("{name}{wrong}"), name.len());
            assert_malformed_at(format!("{name}{wrong}=e"), name.len());
            assert_malformed_at(format!("{}{wrong}+p cap_kill=e", name.to_uppercase()), name.len());
        }
    }
}

#[test]
fn unknown_names_agree_as_far_as_any_name_does() {
    for (text, place) in [
        ("x=e", 0),
        ("chown=e", 1),              // c, then h is no a
        ("net_raw+ep", 0),           // no name begins with n
        ("cat_chown=e", 2),          // ca
        ("cap-chown=e", 3),          // cap
        ("cap=e", 3),                // cap
        ("capchown=e", 3),           // cap
        ("cap_=e", 4),               // cap_
        ("cap__chown=e", 4),         // cap_
        ("cap_x=e", 4),              // no name goes on with x
        ("cap_clown=e", 5),          // cap_c: chown, checkpoint_restore
        ("cap_chewn=e", 7),          // cap_che: checkpoint_restore
        ("cap_chmod=e", 6),          // cap_ch
        ("cap_chow=e", 8),           // cap_chow
        ("cap_chowns=e", 9),         // cap_chown
        ("cap_sys=e", 7),            // cap_sys: the sys_ names and syslog
        ("cap_sysl=e", 8),           // cap_sysl: syslog
        ("cap_sys_log=e", 8),        // cap_sys_
        ("cap_syslog_=e", 10),       // cap_syslog
        ("cap_sys_rawip=e", 12),     // cap_sys_rawi
        ("cap_sys_reboot=e", 10),    // cap_sys_re: resource
        ("cap_sys_pacctx=e", 13),    // cap_sys_pacct
        ("cap_net_bind=e", 12),      // cap_net_bind
        ("cap_net_broad=e", 13),     // cap_net_broad
        ("cap_net_row=e", 9),        // cap_net_r
        ("cap_set=e", 7),            // cap_set: gid, uid, pcap, fcap
        ("cap_setcap=e", 7),         // cap_set
        ("cap_setfcaps=e", 11),      // cap_setfcap
        ("cap_setpgid=e", 8),        // cap_setp: setpcap
        ("cap_dac_write=e", 8),      // cap_dac_
        ("cap_dac_read=e", 12),      // cap_dac_read
        ("cap_audit=e", 9),          // cap_audit
        ("cap_audit_rite=e", 11),    // cap_audit_r: read
        ("cap_mac_overrides=e", 16), // cap_mac_override
        ("cap_ipc_lack=e", 9),       // cap_ipc_l
        ("cap_bpfilter=e", 7),       // cap_bpf
        ("cap_perm=e", 7),           // cap_per: perfmon
        ("cap_checkpoint=e", 14),    // cap_checkpoint
        ("cap_all=e", 5),            // cap_a: the audit names
        ("capall=e", 3),             // cap
        ("none=e", 0),
        ("CAPS=e", 3),
        ("CAP_SYS_RAWIP=E", 12),
    ] {
        assert_malformed_at(text, place);
        // The same after a clause and blanks (9 bytes), and after another name and a comma (8).
        assert_malformed_at(format!(" all=e \t\n{text}"), 9 + place);
        assert_malformed_at(format!("CAP_BPF,{text}"), 8 + place);
    }
}

#[test]
fn numbers_are_no_names() {
    for text in ["0=e", "13+ep", "40=p", "41=e", "0x0d=e", "-1=e"] {
        assert_malformed_at(text, 0);
    }
    assert_malformed_at("cap_kill,13=e", 9);
    assert_malformed_at("cap_13=e", 4);
    assert_malformed_at("cap_kill5=e", 8);
    assert_malformed_at("cap_kill=e 13=e", 11);
}

#[test]
fn all_cut_or_gone_on_with() {
    for (text, place) in [
        ("a", 1),
        ("al", 2),
        ("all", 3),
        ("ALL", 3),
        ("A", 1),
        ("aL", 2),
        ("a=e", 1),
        ("al+e", 2),
        ("an=e", 1),
        ("alp=e", 2),
        ("alls=e", 3),
        ("all_=e", 3),
        ("allall=e", 3),
        ("all =e", 3),
        ("all\n", 3),
        ("all1=e", 3),
        ("all-", 4),
        ("all+", 4),
        ("audit_read=e", 1),
        ("acap_kill=e", 1),
    ] {
        assert_malformed_at(text, place);
        assert_malformed_at(format!("cap_kill=e {text}"), 11 + place);
    }
}

#[test]
fn all_stands_alone() {
    for (text, place) in [
        ("all,", 3),
        ("ALL,cap_kill=e", 3),
        ("all,all=e", 3),
        ("all,=e", 3),
        ("cap_kill,all", 9),
        ("cap_kill,ALL=e", 9),
        ("cap_kill,a", 9),
        ("cap_kill,cap_bpf,all=e", 17),
        ("cap_kill=e all,cap_bpf=e", 14),
    ] {
        assert_malformed_at(text, place);
    }
}

#[test]
fn plus_and_minus_need_a_flag() {
    for operator in ["+", "-"] {
        // At the end, before blanks, before each operator and before a byte that is no flag.
        for more in ["", " ", "\t", "\n", " e", " cap_bpf=e", "=", "=e", "+", "+e", "-", "-e", ",", "x", "E", "\0"] {
            assert_malformed_at(format!("cap_kill{operator}{more}"), 9);
            assert_malformed_at(format!("all{operator}{more}"), 4);
            assert_malformed_at(format!("cap_kill=e{operator}{more}"), 11);
            assert_malformed_at(format!("cap_kill={operator}{more}"), 10);
            assert_malformed_at(format!("={operator}{more}"), 2);
            assert_malformed_at(format!("=ei{operator}{more}"), 4);
            assert_malformed_at(format!("cap_kill+e-p{operator}{more}"), 13);
        }
    }
}

#[test]
fn a_clause_without_names_begins_with_equals() {
    for text in ["+", "-", "+e", "-e", "+e=", "-p+p", ",", ",=e", ",cap_kill=e", "e", "p=e", "eip"] {
        assert_malformed_at(text, 0);
        assert_malformed_at(format!(" {text}"), 1);
        assert_malformed_at(format!("cap_kill=e {text}"), 11);
        assert_malformed_at(format!("=\n\n{text}"), 3);
    }
}

#[test]
fn what_cannot_follow_names() {
    for (text, place) in [
        ("cap_kill", 8),
        ("cap_kill ", 8),
        ("cap_kill e", 8),
        ("cap_kill =e", 8),
        ("cap_kill\t+e", 8),
        ("cap_kill\n", 8),
        ("cap_kill cap_bpf=e", 8),
        ("cap_kill e=", 8),
        ("cap_kill:ep", 8),
        ("cap_kill;cap_bpf=e", 8),
        ("cap_kill,cap_bpf", 16),
        ("cap_kill,cap_bpf ", 16),
        ("cap_kill,cap_bpf =e", 16),
        ("cap_killcap_bpf=e", 8),
    ] {
        assert_malformed_at(text, place);
    }
}

#[test]
fn what_cannot_follow_a_comma() {
    for more in ["", ",", ",cap_bpf=e", "=", "=e", "+e", "-e", " ", " cap_bpf=e", "\t", "\n", "e", "all=e", "\0", "0"] {
        assert_malformed_at(format!("cap_kill,{more}"), 9);
        assert_malformed_at(format!("cap_kill,cap_bpf,{more}"), 17);
        assert_malformed_at(format!("=e CAP_KILL,{more}"), 12);
    }
}

#[test]
fn what_cannot_follow_an_equals() {
    for more in [",", "E", "I", "P", "x", "a", "c", "all", "cap_kill=e", "0", "_", "*", "\r", "\0", "\u{e9}"] {
        assert_malformed_at(format!("cap_kill={more}"), 9);
        assert_malformed_at(format!("={more}"), 1);
        assert_malformed_at(format!("cap_kill+e={more}"), 11);
    }
}

#[test]
fn what_cannot_follow_flags() {
    for more in [",", "E", "I", "P", "x", "a", "c", "all", "cap_bpf=e", "0", "_", "*", "\r", "\0", "\u{e9}"] {
        assert_malformed_at(format!("cap_kill=e{more}"), 10);
        assert_malformed_at(format!("cap_kill+pie{more}"), 12);
        assert_malformed_at(format!("=e-pp{more}"), 5);
        assert_malformed_at(format!("=e{more} cap_kill=e"), 2);
    }
}

#[test]
fn flags_are_lower_case() {
    for flag in ["E", "I", "P", "EP", "Ep"] {
        assert_malformed_at(format!("cap_kill={flag}"), 9);
        assert_malformed_at(format!("CAP_KILL+{flag}"), 9);
        assert_malformed_at(format!("cap_kill-{flag}"), 9);
        assert_malformed_at(format!("cap_kill=e{flag}"), 10);
    }
    assert_malformed_at("cap_kill+eP", 10);
}

#[test]
fn no_blank_stands_within_a_clause() {
    for blank in [" ", "\t", "\n"] {
        for (text, place) in [
            (format!("cap_{blank}kill=e"), 4),
            (format!("cap_kill{blank}=e"), 8),
            (format!("cap_kill{blank},cap_bpf=e"), 8),
            (format!("cap_kill,{blank}cap_bpf=e"), 9),
            (format!("cap_kill+{blank}e"), 9),
            (format!("all{blank}=e"), 3),
            (format!("a{blank}ll=e"), 1),
            // Past a whole clause the blank is well, and the fault is what comes after it.
            (format!("cap_kill={blank}e"), 10),
            (format!("cap_kill=e{blank}p"), 11),
            (format!("cap_kill=e{blank}+p"), 11),
            (format!("={blank}-p"), 2),
        ] {
            assert_malformed_at(text, place);
        }
    }
    // What comes after it can also be a clause without names.
    assert_reads("cap_kill=e =p", [FULL, 0, 0]);
}

#[test]
fn other_white_space_is_no_blank() {
    for byte in ["\r", "\x0b", "\x0c", "\0", "\x08", "\x1c", "\x7f", "\u{85}", "\u{a0}", "\u{2003}", "\u{feff}"] {
        assert_malformed_at(byte, 0);
        assert_malformed_at(format!(" {byte} "), 1);
        assert_malformed_at(format!("{byte}cap_kill=e"), 0);
        assert_malformed_at(format!("cap_kill=e{byte}"), 10);
        assert_malformed_at(format!("cap_kill=e {byte}"), 11);
        assert_malformed_at(format!("cap_kill=e{byte}cap_bpf=e"), 10);
        assert_malformed_at(format!("cap_kill=e{byte}\n"), 10);
    }
}

#[test]
fn a_fault_at_each_byte_above_127() {
    for byte in 128..=255 {
        assert_malformed_at([byte], 0);
        assert_malformed_at([b'=', byte], 1);
        assert_malformed_at([b'=', b'e', byte], 2);
        assert_malformed_at([b' ', b'A', byte], 2);
        assert_malformed_at([b'C', b'a', b'P', b'_', byte], 4);
    }
}

#[test]
fn either_case_is_ascii_only() {
    // The Kelvin sign and the long s, which fold to k and s elsewhere; and bytes that differ from letters, or from the
    // underscore, by the bit that parts upper from lower case, or by the top bit.
    assert_malformed_at("cap_\u{212a}ill=e", 4);
    assert_malformed_at("cap_\u{17f}yslog=e", 4);
    assert_malformed_at("cap\x7fkill=e", 3);
    assert_malformed_at(b"ca\xf0_kill=e", 2);
    assert_malformed_at(b"\xc3ap_kill=e", 0);
    assert_malformed_at(b"\xe1ll=e", 0);
    assert_malformed_at("\u{ff41}ll=e", 0);
    assert_malformed_at("cap_kill\x1de", 8);
    assert_malformed_at("cap_kill\x0bp", 8);
}

#[test]
fn every_byte_alone() {
    for byte in 0..=255 {
        match byte {
            b' ' | b'\t' | b'\n' | b'=' => assert_reads([byte], [0, 0, 0]),
            b'a' | b'A' | b'c' | b'C' => assert_malformed_at([byte], 1),
            _ => assert_malformed_at([byte], 0),
        }
    }
}

#[test]
fn every_byte_at_each_kind_of_place() {
    for byte in 0..=255 {
        let blank = matches!(byte, b' ' | b'\t' | b'\n');
        let flag = matches!(byte, b'e' | b'i' | b'p');
        let plus_or_minus = matches!(byte, b'+' | b'-');
        // (text before the byte, whether it is well-formed with the byte, whether it can become so)
        for (before, whole, beginning) in [
            ("cap_kill=e ", blank || byte == b'=', matches!(byte, b'a' | b'A' | b'c' | b'C')),
            ("cap_kill", byte == b'=', byte == b',' || plus_or_minus),
            ("cap_kill,", false, matches!(byte, b'c' | b'C')),
            ("all", byte == b'=', plus_or_minus),
            ("cap_kill=", blank || flag || byte == b'=', plus_or_minus),
            ("cap_kill+", flag, false),
            ("cap_kill-", flag, false),
            ("cap_kill-p", blank || flag || byte == b'=', plus_or_minus),
            ("=", blank || flag || byte == b'=', plus_or_minus),
            ("cap_sys_", false, b"mMrRcCpPaAbBnNtT".contains(&byte)),
        ] {
            let mut text = before.as_bytes().to_vec();
            text.push(byte);
            let mut values = [UNTOUCHED; 3];
            let written = read_names(&text, &mut values);
            let place = if beginning { text.len() } else { before.len() };
            let expected =
                if whole { Written { code: 0, number: 3 } } else { Written { code: 70, number: place as u32 } };
            assert_eq!(written, expected, "{:?}", String::from_utf8_lossy(&text));
        }
    }
}

#[test]
fn malformed_texts_that_one_might_write() {
    for (text, place) in [
        ("cap_net_raw+ep;", 14),
        ("cap_net_raw+ep,cap_kill+ep", 14),
        ("cap_net_raw=ep # raw", 15),
        ("\"cap_net_raw+ep\"", 0),
        ("= cap_net_raw+ep.", 16),
        ("/bin/ping cap_net_raw=ep", 0),
        ("cap_net_raw=eip\r\n", 15),
        ("cap_net_raw:cap_kill=e", 11),
        ("!cap_kill=e", 0),
        ("cap_kill^e", 8),
        ("cap_kill=all", 9),
        ("cap_kill=ep-", 12),
        ("all=ep cap_kill", 15),
        ("all=ep cap_kill,", 16),
        ("0000000000002000", 0),
    ] {
        assert_malformed_at(text, place);
    }
}

#[test]
fn a_text_cut_anywhere() {
    // Well-formed only where a clause could end; elsewhere the place is the whole length.
    let text = " cap_net_raw,CAP_KILL=e+pi-e\n\t=i= all-p";
    let ends = [0, 1, 22, 23, 25, 26, 28, 29, 30, 31, 32, 33, 34, 39];
    for end in 0..=text.len() {
        if ends.contains(&end) {
            let mut values = [UNTOUCHED; 3];
            assert_eq!(read_names(&text.as_bytes()[..end], &mut values), Written { code: 0, number: 3 }, "{end}");
        } else {
            assert_malformed_at(&text[..end], end);
        }
    }
    assert_eq!(text.len(), 39);
    assert_reads(text, [0, 0, 0]);
    assert_reads(&text[..28], [NET_RAW | KILL, NET_RAW | KILL, 0]);
}

// Long texts.

#[test]
fn a_text_has_no_greatest_length() {
    assert_reads(" ".repeat(1 << 20), [0, 0, 0]);
    assert_reads("=".repeat(1 << 20), [0, 0, 0]);
    assert_reads("=e\n".repeat(1 << 19), [0, 0, FULL]);
    assert_reads(format!("cap_kill{}", "+e-e".repeat(1 << 18)), [0, 0, 0]);
    assert_reads(format!("{}cap_bpf=ip", "cap_kill,".repeat(1 << 17)), [KILL | BPF, KILL | BPF, 0]);
    assert_reads("cap_checkpoint_restore=eip ".repeat(1 << 16), [1 << 40, 1 << 40, 1 << 40]);
}

#[test]
fn faults_far_into_a_text() {
    for (many, more, place) in [
        (" ".repeat(1 << 20), "+e", 1_048_576),
        ("=e\n".repeat(1 << 19), "cap_killer=e", 1_572_872),
        ("cap_kill,".repeat(1 << 17), "", 1_179_648),
        ("cap_kill,".repeat(1 << 17), "all=e", 1_179_648),
        (format!("=p{}", "+e".repeat(1 << 19)), "+", 1_048_579),
        (format!("=p{}", "e".repeat(1 << 20)), "E", 1_048_578),
    ] {
        assert_malformed_at(many + more, place);
    }
}

#[test]
fn a_megabyte_of_noise() {
    for (byte, place) in [(0, 0), (b'_', 0), (b'A', 1), (b'c', 1), (b',', 0), (b'+', 0), (b'e', 0), (0xff, 0)] {
        assert_malformed_at(vec![byte; 1 << 20], place);
        let mut text = b"cap_checkpoint_restore".to_vec();
        text.resize(1 << 20, byte);
        // A comma goes on to a name and a plus to a flag, which the next one is not.
        let place = if byte == b',' || byte == b'+' { 23 } else { 22 };
        assert_malformed_at(&text, place);
    }
}

// The writer.

#[test]
fn three_empty_sets_are_the_empty_text() {
    assert_eq!(write([0, 0, 0]), "");
}

#[test]
fn each_capability_written_by_itself() {
    for (number, name) in NAMES.iter().enumerate() {
        for (flags, sets) in FLAGS {
            assert_eq!(write(where_flagged(1 << number, sets)), format!("{name}={flags}"));
        }
    }
}

#[test]
fn flags_are_written_in_the_order_e_i_p() {
    for (sets, text) in [
        ([0, 0, KILL], "cap_kill=e"),
        ([0, KILL, 0], "cap_kill=i"),
        ([KILL, 0, 0], "cap_kill=p"),
        ([0, KILL, KILL], "cap_kill=ei"),
        ([KILL, 0, KILL], "cap_kill=ep"),
        ([KILL, KILL, 0], "cap_kill=ip"),
        ([KILL, KILL, KILL], "cap_kill=eip"),
    ] {
        assert_eq!(write(sets), text);
    }
}

#[test]
fn capabilities_are_written_by_number_with_one_space_between() {
    for (sets, text) in [
        ([CHOWN | KILL, 0, 0], "cap_chown=p cap_kill=p"),
        ([CHOWN, 0, KILL], "cap_chown=p cap_kill=e"),
        ([KILL, 0, CHOWN], "cap_chown=e cap_kill=p"),
        ([NET_RAW, BPF | NET_RAW, CHOWN | FOWNER], "cap_chown=e cap_fowner=e cap_net_raw=ip cap_bpf=i"),
        ([1 << 31 | 1 << 32, 0, 1 << 31 | 1 << 40], "cap_setfcap=ep cap_mac_override=p cap_checkpoint_restore=e"),
        ([SETGID, SETUID, SETPCAP], "cap_setgid=p cap_setuid=i cap_setpcap=e"),
        (
            [NET_BIND_SERVICE, NET_ADMIN | NET_BIND_SERVICE, SYS_RAWIO | NET_BIND_SERVICE],
            "cap_net_bind_service=eip cap_net_admin=i cap_sys_rawio=e",
        ),
    ] {
        assert_eq!(write(sets), text);
    }
}

#[test]
fn every_capability_is_a_clause_even_where_all_would_do() {
    for (flags, sets) in FLAGS {
        let clauses: Vec<String> = NAMES.iter().map(|name| format!("{name}={flags}")).collect();
        assert_eq!(write(where_flagged(FULL, sets)), clauses.join(" "));
    }
}

#[test]
fn no_blank_at_the_ends_and_no_newline() {
    for sets in [[FULL, 0, 0], [FULL; 3], [1 << 40, 1, 0], [0, 0, KILL]] {
        let text = write(sets);
        assert_eq!(text, text.trim());
        assert!(!text.contains(['\n', '\t']) && !text.contains("  "));
        assert_eq!(text, text.to_lowercase());
    }
}

#[test]
fn the_longest_text_has_748_bytes() {
    // 544 bytes of names, 41 times `=eip`, 40 spaces.
    assert_eq!(NAMES.concat().len(), 544);
    assert_eq!(write([FULL; 3]).len(), 748);
    let mut buffer = [0xa5; 748];
    assert_eq!(write_names(FULL, FULL, FULL, &mut buffer), Written { code: 0, number: 748 });
    assert!(buffer.ends_with(b" cap_bpf=eip cap_checkpoint_restore=eip"));
    let mut buffer = [0xa5; 747];
    assert_eq!(write_names(FULL, FULL, FULL, &mut buffer), Written { code: 28, number: 0 });
    assert_eq!(buffer, [0xa5; 747]);
}

#[test]
fn written_into_exactly_enough_bytes() {
    let mut buffer = [0xa5; 14];
    assert_eq!(write_names(NET_RAW, 0, NET_RAW, &mut buffer), Written { code: 0, number: 14 });
    assert_eq!(&buffer, b"cap_net_raw=ep");
}

#[test]
fn written_into_fewer_bytes_gives_28() {
    for length in 0..14 {
        let mut buffer = vec![0xa5; length];
        assert_eq!(write_names(NET_RAW, 0, NET_RAW, &mut buffer), Written { code: 28, number: 0 });
        assert!(buffer.iter().all(|&byte| byte == 0xa5));
    }
    // Room for the first clause does not do, nor room for all but the last flag.
    assert_eq!(write([NET_RAW | BPF, BPF, NET_RAW]), "cap_net_raw=ep cap_bpf=ip");
    for length in 0..25 {
        let mut buffer = vec![0xa5; length];
        assert_eq!(write_names(NET_RAW | BPF, BPF, NET_RAW, &mut buffer), Written { code: 28, number: 0 });
        assert!(buffer.iter().all(|&byte| byte == 0xa5));
    }
}

#[test]
fn written_into_more_bytes_leaves_them() {
    for more in [1, 2, 100, 10_000] {
        let mut buffer = vec![0xa5; 14 + more];
        assert_eq!(write_names(NET_RAW, 0, NET_RAW, &mut buffer), Written { code: 0, number: 14 });
        assert_eq!(&buffer[..14], b"cap_net_raw=ep");
        assert!(buffer[14..].iter().all(|&byte| byte == 0xa5));
    }
}

#[test]
fn three_empty_sets_fit_a_buffer_of_no_bytes() {
    assert_eq!(write_names(0, 0, 0, &mut []), Written { code: 0, number: 0 });
    let mut buffer = [0xa5; 8];
    assert_eq!(write_names(0, 0, 0, &mut buffer), Written { code: 0, number: 0 });
    assert_eq!(buffer, [0xa5; 8]);
    assert_eq!(write_names(CHOWN, 0, 0, &mut []), Written { code: 28, number: 0 });
}

#[test]
fn bits_above_40_are_not_written() {
    for bit in 41..64 {
        for set in 0..3 {
            let mut alone = [0; 3];
            alone[set] = 1 << bit;
            assert_not_written(alone);
            let mut among_others = [FULL; 3];
            among_others[set] |= 1 << bit;
            assert_not_written(among_others);
        }
    }
    assert_not_written([u64::MAX; 3]);
    assert_eq!(write([1 << 40; 3]), "cap_checkpoint_restore=eip");
}

#[test]
fn bits_above_40_come_before_no_room() {
    for (permitted, inheritable, effective) in [(1 << 41, 0, 0), (0, 1 << 41, 0), (0, 0, 1 << 41), (KILL, 1 << 63, BPF)]
    {
        assert_eq!(write_names(permitted, inheritable, effective, &mut []), Written { code: 22, number: 0 });
        let mut buffer = [0xa5; 7];
        assert_eq!(write_names(permitted, inheritable, effective, &mut buffer), Written { code: 22, number: 0 });
        assert_eq!(buffer, [0xa5; 7]);
    }
    assert_eq!(write_names(1 << 40, 1 << 40, 1 << 40, &mut []), Written { code: 28, number: 0 });
}

// There and back.

#[test]
fn written_then_read_gives_back() {
    for sets in [[0, 0, 0], [FULL, FULL, FULL], [FULL, 0, 0], [0, FULL, 0], [0, 0, FULL], [1 << 40, 1, KILL]] {
        assert_reads(write(sets), sets);
    }
    for capability in 0..=40 {
        for (_, flags) in FLAGS {
            let sets = where_flagged(1 << capability, flags);
            assert_reads(write(sets), sets);
            let others = sets.map(|set| FULL & !set);
            assert_reads(write(others), others);
        }
    }
}
