//! The words of a text in names: the names, `all`, and what well-formed text can begin with.

/// The capabilities' names by number, those of linux/capability.h in lower case.
pub const CAPABILITY_NAMES: [&str; 41] = [
    "cap_chown",
    "cap_dac_override",
    "cap_dac_read_search",
    "cap_fowner",
    "cap_fsetid",
    "cap_kill",
    "cap_setgid",
    "cap_setuid",
    "cap_setpcap",
    "cap_linux_immutable",
    "cap_net_bind_service",
    "cap_net_broadcast",
    "cap_net_admin",
    "cap_net_raw",
    "cap_ipc_lock",
    "cap_ipc_owner",
    "cap_sys_module",
    "cap_sys_rawio",
    "cap_sys_chroot",
    "cap_sys_ptrace",
    "cap_sys_pacct",
    "cap_sys_admin",
    "cap_sys_boot",
    "cap_sys_nice",
    "cap_sys_resource",
    "cap_sys_time",
    "cap_sys_tty_config",
    "cap_mknod",
    "cap_lease",
    "cap_audit_write",
    "cap_audit_control",
    "cap_setfcap",
    "cap_mac_override",
    "cap_mac_admin",
    "cap_syslog",
    "cap_wake_alarm",
    "cap_block_suspend",
    "cap_audit_read",
    "cap_perfmon",
    "cap_bpf",
    "cap_checkpoint_restore",
];

/// Every capability by itself, which no list of names may have in it.
pub(super) const ALL: &str = "all";

/// The blanks.
pub(super) const BLANKS: &[u8; 3] = b" \t\n";

/// The flags, in the order in which they are written.
pub(super) const FLAGS: &[u8; 3] = b"eip";

/// How many letters of the word some name begins with; at the front of a clause, `all` too. No name begins with another.
pub(super) fn beginning(word: &[u8], is_at_front: bool) -> usize {
    let common =
        |known: &str| known.bytes().zip(word).take_while(|(letter, byte)| *letter == byte.to_ascii_lowercase()).count();
    let of_names = CAPABILITY_NAMES.iter().map(|name| common(name)).max().expect("there are names");
    if is_at_front {
        of_names.max(common(ALL))
    } else {
        of_names
    }
}

/// Whether the word is a name.
pub(super) fn is_name(word: &[u8]) -> bool {
    CAPABILITY_NAMES.iter().any(|name| name.as_bytes().eq_ignore_ascii_case(word))
}

#[cfg(test)]
mod tests {
    use super::*;

    #[test]
    fn no_name_begins_with_another() {
        for name in CAPABILITY_NAMES {
            assert_eq!(CAPABILITY_NAMES.iter().filter(|other| other.starts_with(name)).count(), 1, "{name}");
            assert!(name.starts_with("cap_") && name.bytes().all(|byte| byte.is_ascii_lowercase() || byte == b'_'));
        }
    }

    #[test]
    fn the_longest_text_is_made_of_all_names() {
        let names: usize = CAPABILITY_NAMES.iter().map(|name| name.len()).sum();
        assert_eq!(names + "=eip".len() * 41 + " ".len() * 40, 748);
    }

    #[test]
    fn beginnings_are_those_of_any_name_in_either_case() {
        assert_eq!(beginning(b"cap_net_raw", false), 11);
        assert_eq!(beginning(b"Cap_Net_rx", false), 9);
        assert_eq!(beginning(b"cap_netraw", true), 7);
        assert_eq!(beginning(b"allow", true), 3);
        assert_eq!(beginning(b"allow", false), 0);
        assert_eq!(beginning(b"13", true), 0);
    }
}
