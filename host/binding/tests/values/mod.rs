//! The ten values of a thread that are compared: read from a status file, predicted, and what of them a list has.

use std::fs;

use urrezkalu::{write_sheet, Credentials, SheetWriting, LONGEST_SHEET};

/// All 41 capabilities.
pub const ALL: u64 = 0x1ff_ffff_ffff;

/// The line that every list ends with.
pub const LAST: &str = "not compared: securebits, group IDs\n";

/// The ten values that are compared.
#[derive(Clone, Copy, Debug, PartialEq, Eq)]
pub struct Values {
    pub ids: [u64; 4],
    pub permitted: u64,
    pub inheritable: u64,
    pub effective: u64,
    pub bounding: u64,
    pub ambient: u64,
    pub nnp: u64,
}

/// Reads a status file without care for its form.
pub fn values(status: &str) -> Values {
    let line = |name: &str| {
        let found = status.lines().find_map(|line| line.strip_prefix(name)?.strip_prefix(':'));
        found.unwrap_or_else(|| panic!("no {name} in\n{status}"))
    };
    let set = |name| u64::from_str_radix(line(name).trim(), 16).expect("a set is in hex");
    let ids: Vec<u64> = line("Uid").split_whitespace().map(|id| id.parse().expect("an ID is a number")).collect();
    Values {
        ids: ids.try_into().expect("there are four IDs"),
        permitted: set("CapPrm"),
        inheritable: set("CapInh"),
        effective: set("CapEff"),
        bounding: set("CapBnd"),
        ambient: set("CapAmb"),
        nnp: set("NoNewPrivs"),
    }
}

impl Values {
    /// The sheet of these values. Group IDs and securebits, which are not compared, are anything valid. Capabilities above 40, which a later kernel
    /// may have, have no place on a sheet.
    pub fn sheet(&self) -> Vec<u8> {
        let [ruid, euid, suid, fsuid] = self.ids;
        let credentials = Credentials {
            ruid,
            euid,
            suid,
            fsuid,
            rgid: 5,
            egid: 60,
            sgid: 700,
            fsgid: 8000,
            permitted: self.permitted & ALL,
            inheritable: self.inheritable & ALL,
            effective: self.effective & ALL,
            bounding: self.bounding & ALL,
            ambient: self.ambient & ALL,
            securebits: 0x2f,
            nnp: self.nnp == 1,
        };
        let mut sheet = [0; LONGEST_SHEET];
        let SheetWriting::Written { length } = write_sheet(&credentials, &mut sheet) else { panic!("{self:x?}") };
        sheet[..length].to_vec()
    }

    /// The list that a status file of these values gives beside the sheet of others.
    pub fn list_beside(&self, predicted: &Values) -> String {
        let mut list = String::new();
        for (key, at) in ["ruid", "euid", "suid", "fsuid"].into_iter().zip(0..) {
            if predicted.ids[at] != self.ids[at] {
                list += &format!("{key} {} {}\n", predicted.ids[at], self.ids[at]);
            }
        }
        for (key, predicted, found) in [
            ("permitted", predicted.permitted, self.permitted),
            ("inheritable", predicted.inheritable, self.inheritable),
            ("effective", predicted.effective, self.effective),
            ("bounding", predicted.bounding, self.bounding),
            ("ambient", predicted.ambient, self.ambient),
        ] {
            if predicted & ALL != found {
                list += &format!("{key} {:016x} {found:016x}\n", predicted & ALL);
            }
        }
        if predicted.nnp != self.nnp {
            list += &format!("nnp {} {}\n", predicted.nnp, self.nnp);
        }
        list + LAST
    }
}

/// The text of this process's own status file.
pub fn own_status() -> String {
    fs::read_to_string("/proc/self/status").expect("/proc/self/status can be read")
}
