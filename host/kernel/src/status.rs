//! The threads' status files, as the proved library reads them and lays them beside predicted credentials.

use crate::credentials::{Credentials, SECBITS_OF_THE_PAPER};
use urrezkalu::{compare_status, StatusComparison, LONGEST_LIST};

/// The line that every list ends with, and all of it where nothing differs.
pub const LAST_LINE: &str = "not compared: securebits, group IDs\n";

/// The lines of a sheet that are not compared.
const NOT_COMPARED: [&str; 5] = ["rgid", "egid", "sgid", "fsgid", "securebits"];

// Securebits above ff have no sheet, and none are compared.
fn sheet(credentials: &Credentials) -> String {
    Credentials { securebits: credentials.securebits & SECBITS_OF_THE_PAPER, ..*credentials }.sheet()
}

/// The library's list of what differs between the status file and the credentials, or in words why there is none.
pub fn list(predicted: &Credentials, status: &[u8]) -> String {
    let mut list = [0; LONGEST_LIST];
    match compare_status(status, sheet(predicted).as_bytes(), &mut list) {
        StatusComparison::Listed { length } => String::from_utf8_lossy(&list[..length]).into_owned(),
        refusal => refusal.to_string(),
    }
}

/// The list that the status file of a thread with the credentials `found` has to give beside `predicted`.
pub fn expected(predicted: &Credentials, found: &Credentials) -> String {
    let mut list = String::new();
    for (predicted, found) in sheet(predicted).lines().zip(sheet(found).lines()) {
        let (Some((key, predicted)), Some((_, found))) = (predicted.split_once('='), found.split_once('=')) else {
            unreachable!("a line of a sheet has a key")
        };
        if predicted != found && !NOT_COMPARED.contains(&key) {
            list += &format!("{key} {predicted} {found}\n");
        }
    }
    list + LAST_LINE
}

#[cfg(test)]
mod tests {
    use super::*;
    use crate::credentials::{Ids, FULL};

    const PREDICTED: Credentials = Credentials {
        uids: Ids { real: 1000, effective: 0, saved: 4294967294, filesystem: 7 },
        gids: Ids { real: 1, effective: 2, saved: 3, filesystem: 4 },
        permitted: FULL,
        inheritable: 0x2000,
        effective: 0x80,
        bounding: 0x1ff_feff_ffff,
        ambient: 0x2000,
        securebits: 0x2f,
        nnp: true,
    };

    #[test]
    fn nothing_differs_from_itself() {
        assert_eq!(expected(&PREDICTED, &PREDICTED), "not compared: securebits, group IDs\n");
        let not_compared = Credentials { gids: Ids::all(9), securebits: 0xfff, ..PREDICTED };
        assert_eq!(expected(&PREDICTED, &not_compared), "not compared: securebits, group IDs\n");
    }

    #[test]
    fn all_that_can_differ() {
        let found = Credentials { gids: Ids::all(9), ..Credentials::default() };
        let lines = "ruid 1000 0\nsuid 4294967294 0\nfsuid 7 0\npermitted 000001ffffffffff 0000000000000000\n\
            inheritable 0000000000002000 0000000000000000\neffective 0000000000000080 0000000000000000\n\
            bounding 000001fffeffffff 0000000000000000\nambient 0000000000002000 0000000000000000\nnnp 1 0\n\
            not compared: securebits, group IDs\n";
        assert_eq!(expected(&PREDICTED, &found), lines);
        let status = b"Name:\tlaunched\nUid:\t0\t0\t0\t0\nGid:\t9\t9\t9\t9\nCapInh:\t0000000000000000\n\
            CapPrm:\t0000000000000000\nCapEff:\t0000000000000000\nCapBnd:\t0000000000000000\n\
            CapAmb:\t0000000000000000\nNoNewPrivs:\t0\nSeccomp:\t0\n";
        assert_eq!(list(&PREDICTED, status), lines);
        assert_eq!(list(&found, status), "not compared: securebits, group IDs\n");
        assert_eq!(list(&found, &status[..60]), "malformed at line 4");
    }
}
