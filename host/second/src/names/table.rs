//! The words of a text in names.

use crate::capability::CAP_LAST_CAP;

const HOW_MANY: usize = CAP_LAST_CAP as usize + 1;

/// "All 41 names come from the header": those of linux/capability.h in lower case, each at its number.
pub(super) const NAMES: [&str; HOW_MANY] = [
    "cap_chown",
    "cap_dac_override",
    "cap_dac_read_search",
    "cap_fowner",
    "cap_fsetid",
    "cap_kill",
    "cap_setgid",
    "cap_setuid",
    "cap_setpcap",
    "cap_linux_immutable",
    "cap_net_bind_service",
    "cap_net_broadcast",
    "cap_net_admin",
    "cap_net_raw",
    "cap_ipc_lock",
    "cap_ipc_owner",
    "cap_sys_module",
    "cap_sys_rawio",
    "cap_sys_chroot",
    "cap_sys_ptrace",
    "cap_sys_pacct",
    "cap_sys_admin",
    "cap_sys_boot",
    "cap_sys_nice",
    "cap_sys_resource",
    "cap_sys_time",
    "cap_sys_tty_config",
    "cap_mknod",
    "cap_lease",
    "cap_audit_write",
    "cap_audit_control",
    "cap_setfcap",
    "cap_mac_override",
    "cap_mac_admin",
    "cap_syslog",
    "cap_wake_alarm",
    "cap_block_suspend",
    "cap_audit_read",
    "cap_perfmon",
    "cap_bpf",
    "cap_checkpoint_restore",
];

/// The word that stands for every capability.
pub(super) const ALL: &str = "all";

/// Whether the byte can stand in a name or in `all`, in either case. Nothing that can follow one of them can.
pub(super) fn is_word_byte(byte: u8) -> bool {
    byte.is_ascii_alphabetic() || byte == b'_'
}

#[cfg(test)]
mod tests {
    use super::*;
    use crate::capability::*;

    #[test]
    fn the_names_stand_at_their_numbers() {
        for (capability, name) in [
            (CAP_CHOWN, "cap_chown"),
            (CAP_DAC_OVERRIDE, "cap_dac_override"),
            (CAP_DAC_READ_SEARCH, "cap_dac_read_search"),
            (CAP_FOWNER, "cap_fowner"),
            (CAP_FSETID, "cap_fsetid"),
            (CAP_SETGID, "cap_setgid"),
            (CAP_SETUID, "cap_setuid"),
            (CAP_SETPCAP, "cap_setpcap"),
            (CAP_LINUX_IMMUTABLE, "cap_linux_immutable"),
            (CAP_MKNOD, "cap_mknod"),
            (CAP_MAC_OVERRIDE, "cap_mac_override"),
            (CAP_LAST_CAP, "cap_checkpoint_restore"),
        ] {
            assert_eq!(NAMES[capability as usize], name);
        }
    }

    #[test]
    fn the_words_are_of_lower_case_word_bytes_and_differ() {
        for (number, name) in NAMES.iter().enumerate() {
            assert!(name.starts_with("cap_"), "{name}");
            assert!(name.bytes().all(|byte| is_word_byte(byte) && !byte.is_ascii_uppercase()), "{name}");
            assert!(!NAMES[..number].contains(name), "{name}");
        }
        assert!(ALL.bytes().all(is_word_byte));
    }

    #[test]
    fn what_can_follow_a_word_is_no_word_byte() {
        for byte in *b",=+- \t\n" {
            assert!(!is_word_byte(byte));
        }
    }
}
