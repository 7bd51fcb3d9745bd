//! Writes a text in names.

use super::table::NAMES;
use super::three_sets::{Flags, ThreeSets};

/// The one form of three sets: "lower case, one clause per capability that has any flag, by number, [..] one space
/// between; three empty sets are the empty text". Capabilities above the last one have no name and are not written.
pub(super) fn write(sets: &ThreeSets) -> String {
    let mut clauses = Vec::new();
    for (capability, name) in (0..).zip(NAMES) {
        let flags = sets.flags_of(capability);
        if flags != Flags::NONE {
            clauses.push(clause(name, flags));
        }
    }
    clauses.join(" ")
}

/// "Flags in the order e, i, p after `=`."
fn clause(name: &str, flags: Flags) -> String {
    let mut clause = format!("{name}=");
    if flags.effective {
        clause.push('e');
    }
    if flags.inheritable {
        clause.push('i');
    }
    if flags.permitted {
        clause.push('p');
    }
    clause
}

#[cfg(test)]
mod tests {
    use super::*;
    use crate::capability::FULL_SET;

    #[test]
    fn flags_in_their_order() {
        assert_eq!(clause("cap_bpf", Flags::ALL), "cap_bpf=eip");
        assert_eq!(clause("cap_bpf", Flags { effective: false, ..Flags::ALL }), "cap_bpf=ip");
        assert_eq!(clause("cap_bpf", Flags { inheritable: false, ..Flags::ALL }), "cap_bpf=ep");
        assert_eq!(clause("cap_bpf", Flags { permitted: false, ..Flags::ALL }), "cap_bpf=ei");
    }

    #[test]
    fn clauses_by_number_with_one_space_between() {
        let sets = ThreeSets { permitted: 1 << 39 | 1, inheritable: 1 << 27, effective: 1 };
        assert_eq!(write(&sets), "cap_chown=ep cap_mknod=i cap_bpf=p");
        assert_eq!(write(&ThreeSets::default()), "");
    }

    #[test]
    fn the_longest_text_has_748_bytes() {
        let full = ThreeSets { permitted: FULL_SET, inheritable: FULL_SET, effective: FULL_SET };
        assert_eq!(write(&full).len(), 748);
    }
}
