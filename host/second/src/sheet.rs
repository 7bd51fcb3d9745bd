//! The credential sheet by itself: text to fifteen numbers, and back.

use crate::buffer::put_in_front;
use crate::credentials::Credentials;
use crate::decode::switch;
use crate::reader::{self, Malformed};
use crate::refusal::Refusal;
use crate::report;
use crate::written::Written;

/// Reads a sheet into the first fifteen places of `values`, in the order of its lines. Answers 15, or refuses with 70
/// and the line of the fault (text past the sheet is one), 72 (the credentials are not valid) or 28 (fewer than fifteen
/// places), in that order. A refusal leaves every place as it was, and places past the fifteenth stay.
pub fn read_sheet(text: &[u8], values: &mut [u64]) -> Written {
    Written::from_result(read_into(text, values))
}

/// Writes the sheet of fifteen numbers, in the order of its lines, at the front of `sheet`. Answers the sheet's length,
/// or refuses with 72 (not fifteen numbers, or not those of valid credentials) or 28 (the sheet is longer than the
/// buffer), in that order. A refusal leaves every byte as it was, and bytes past the sheet stay.
pub fn write_sheet(values: &[u64], sheet: &mut [u8]) -> Written {
    Written::from_result(write_into(values, sheet))
}

fn read_into(text: &[u8], values: &mut [u64]) -> Result<usize, Refusal> {
    let credentials = reader::read_sheet(text).map_err(|Malformed { line }| Refusal::Malformed { line })?;
    if !credentials.is_valid() {
        return Err(Refusal::InvalidCredentials);
    }
    put_in_front(&to_values(&credentials), values).ok_or(Refusal::NoRoom)
}

fn write_into(values: &[u64], sheet: &mut [u8]) -> Result<usize, Refusal> {
    let credentials = from_values(values).filter(Credentials::is_valid).ok_or(Refusal::InvalidCredentials)?;
    let mut text = String::new();
    report::write_sheet(&mut text, &credentials).expect("a String takes whatever is written into it");
    put_in_front(text.as_bytes(), sheet).ok_or(Refusal::NoRoom)
}

/// The fifteen numbers of a sheet.
fn to_values(credentials: &Credentials) -> [u64; 15] {
    [
        u64::from(credentials.ruid),
        u64::from(credentials.euid),
        u64::from(credentials.suid),
        u64::from(credentials.fsuid),
        u64::from(credentials.rgid),
        u64::from(credentials.egid),
        u64::from(credentials.sgid),
        u64::from(credentials.fsgid),
        credentials.permitted,
        credentials.inheritable,
        credentials.effective,
        credentials.bounding,
        credentials.ambient,
        u64::from(credentials.securebits),
        u64::from(credentials.nnp),
    ]
}

/// The credentials of fifteen numbers; they need not be valid. None where there are more numbers or fewer, or where one
/// has no place in any credentials.
fn from_values(values: &[u64]) -> Option<Credentials> {
    let &[ruid, euid, suid, fsuid, rgid, egid, sgid, fsgid, ref rest @ ..] = values else { return None };
    let &[permitted, inheritable, effective, bounding, ambient, securebits, nnp] = rest else { return None };
    Some(Credentials {
        ruid: u32::try_from(ruid).ok()?,
        euid: u32::try_from(euid).ok()?,
        suid: u32::try_from(suid).ok()?,
        fsuid: u32::try_from(fsuid).ok()?,
        rgid: u32::try_from(rgid).ok()?,
        egid: u32::try_from(egid).ok()?,
        sgid: u32::try_from(sgid).ok()?,
        fsgid: u32::try_from(fsgid).ok()?,
        permitted,
        inheritable,
        effective,
        bounding,
        ambient,
        securebits: u8::try_from(securebits).ok()?,
        nnp: switch(nnp).ok()?,
    })
}
