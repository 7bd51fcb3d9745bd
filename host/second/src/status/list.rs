//! Writes the list of what differs.

use std::fmt::{self, Write};

use super::found::Found;
use crate::credentials::Credentials;

/// The length of the longest list: every key differs, and every ID has ten digits.
const LONGEST: usize = 372;

/// "The last line is always" this one.
const LAST_LINE: &str = "not compared: securebits, group IDs\n";

/// The whole list: "each differing key, in sheet order, one line each", then the last line.
pub(super) fn write(predicted: &Credentials, found: &Found) -> Result<String, fmt::Error> {
    let mut list = String::with_capacity(LONGEST);
    write_id(&mut list, "ruid", predicted.ruid, found.ruid)?;
    write_id(&mut list, "euid", predicted.euid, found.euid)?;
    write_id(&mut list, "suid", predicted.suid, found.suid)?;
    write_id(&mut list, "fsuid", predicted.fsuid, found.fsuid)?;
    write_set(&mut list, "permitted", predicted.permitted, found.permitted)?;
    write_set(&mut list, "inheritable", predicted.inheritable, found.inheritable)?;
    write_set(&mut list, "effective", predicted.effective, found.effective)?;
    write_set(&mut list, "bounding", predicted.bounding, found.bounding)?;
    write_set(&mut list, "ambient", predicted.ambient, found.ambient)?;
    write_flag(&mut list, "nnp", predicted.nnp, found.nnp)?;
    list.push_str(LAST_LINE);
    Ok(list)
}

/// Adds the line of an ID that differs: "key, predicted value, found value, one space between".
fn write_id(list: &mut String, key: &str, predicted: u32, found: u32) -> fmt::Result {
    if predicted == found {
        return Ok(());
    }
    writeln!(list, "{key} {predicted} {found}")
}

/// Adds the line of a set that differs.
fn write_set(list: &mut String, key: &str, predicted: u64, found: u64) -> fmt::Result {
    if predicted == found {
        return Ok(());
    }
    writeln!(list, "{key} {predicted:016x} {found:016x}")
}

/// Adds the line of a flag that differs.
fn write_flag(list: &mut String, key: &str, predicted: bool, found: bool) -> fmt::Result {
    if predicted == found {
        return Ok(());
    }
    writeln!(list, "{key} {} {}", u8::from(predicted), u8::from(found))
}

#[cfg(test)]
mod tests {
    use super::*;

    const PREDICTED: Credentials = Credentials {
        ruid: 4_294_967_294,
        euid: 4_294_967_294,
        suid: 4_294_967_294,
        fsuid: 4_294_967_294,
        rgid: 0,
        egid: 0,
        sgid: 0,
        fsgid: 0,
        permitted: 0,
        inheritable: 0,
        effective: 0,
        bounding: 0,
        ambient: 0,
        securebits: 0,
        nnp: false,
    };
    const AGREEING: Found = Found {
        ruid: 4_294_967_294,
        euid: 4_294_967_294,
        suid: 4_294_967_294,
        fsuid: 4_294_967_294,
        permitted: 0,
        inheritable: 0,
        effective: 0,
        bounding: 0,
        ambient: 0,
        nnp: false,
    };

    #[test]
    fn where_nothing_differs_the_last_line_stands_alone() {
        assert_eq!(write(&PREDICTED, &AGREEING).unwrap(), LAST_LINE);
    }

    #[test]
    fn one_line_of_each_kind() {
        let found = Found { fsuid: 0, bounding: 0x1ff_ffff_ffff, nnp: true, ..AGREEING };
        let expected = "fsuid 4294967294 0\n\
                        bounding 0000000000000000 000001ffffffffff\n\
                        nnp 0 1\n\
                        not compared: securebits, group IDs\n";
        assert_eq!(write(&PREDICTED, &found).unwrap(), expected);
    }

    #[test]
    fn the_longest_list_has_372_bytes() {
        let found = Found {
            ruid: u32::MAX,
            euid: u32::MAX,
            suid: u32::MAX,
            fsuid: u32::MAX,
            permitted: u64::MAX,
            inheritable: u64::MAX,
            effective: u64::MAX,
            bounding: u64::MAX,
            ambient: u64::MAX,
            nnp: true,
        };
        assert_eq!(write(&PREDICTED, &found).unwrap().len(), LONGEST);
    }
}
