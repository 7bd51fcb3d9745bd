//! The file attribute as the paper reads it and as the kernel does.

use crate::credentials::FULL;
use crate::departures::{Departure::*, Switches};
use crate::step::Step;

/// A file's own sets and effective bit; empty and off where no attribute is attached.
#[derive(Clone, Copy, Debug, Default, PartialEq, Eq)]
pub struct FileCapabilities {
    pub permitted: u64,
    pub inheritable: u64,
    pub effective: bool,
    pub attached: bool,
}

const EFFECTIVE: u32 = 1;
const REVISION: u32 = 0xff00_0000;

/// An attribute's bytes from its words.
pub fn from_words(words: &[u32]) -> Vec<u8> {
    words.iter().flat_map(|word| word.to_le_bytes()).collect()
}

/// Version 2 of these sets.
pub fn version_2(permitted: u64, inheritable: u64, effective: bool) -> Vec<u8> {
    let first = 0x0200_0000 | u32::from(effective);
    from_words(&[first, permitted as u32, inheritable as u32, (permitted >> 32) as u32, (inheritable >> 32) as u32])
}

/// Version 3 of these sets, for the namespace whose root has this ID.
pub fn version_3(permitted: u64, inheritable: u64, effective: bool, root: u32) -> Vec<u8> {
    let first = 0x0300_0000 | u32::from(effective);
    from_words(&[
        first,
        permitted as u32,
        inheritable as u32,
        (permitted >> 32) as u32,
        (inheritable >> 32) as u32,
        root,
    ])
}

/// Whether setxattr(2) attaches these bytes as they are: version 2, or version 3 of a root ID that there is, and no other bits in the first word.
pub fn is_settable(bytes: &[u8]) -> bool {
    let revision = match bytes.len() {
        20 => 0x0200_0000,
        24 if word(bytes, 5) != u32::MAX => 0x0300_0000,
        _ => return false,
    };
    word(bytes, 0) & !EFFECTIVE == revision
}

fn word(bytes: &[u8], number: usize) -> u32 {
    let four = bytes.get(4 * number..4 * number + 4).and_then(|four| four.try_into().ok());
    four.map_or(0, u32::from_le_bytes)
}

/// Reads the attribute of a launch that does not ignore it, or says nothing where it is unreadable: 60 in the paper, EINVAL from the kernel.
pub fn read(on: Switches, step: &Step) -> Option<FileCapabilities> {
    let bytes = &step.attribute[..];
    if bytes.is_empty() {
        let is_unreadable = step.setting.attached_without_bytes && on.on(AttributeWithoutBytes);
        return (!is_unreadable).then(FileCapabilities::default);
    }
    let (first, root) = (word(bytes, 0), word(bytes, 5));
    match (first & REVISION, bytes.len()) {
        (0x0100_0000, 12) | (0x0200_0000, 20) => {}
        (0x0300_0000, 24) if root == 0 && on.on(AttributeVersion3Honoured) => {}
        (0x0300_0000, 24) if root != 0 && on.on(AttributeVersion3OtherRoot) => return Some(FileCapabilities::default()),
        _ => return None,
    }
    if first & !(REVISION | EFFECTIVE) != 0 && !on.on(AttributeOtherBitsIgnored) {
        return None;
    }
    // Version 1 has no high words: past the end a word counts as 0.
    let permitted = u64::from(word(bytes, 3)) << 32 | u64::from(word(bytes, 1));
    let inheritable = u64::from(word(bytes, 4)) << 32 | u64::from(word(bytes, 2));
    if (permitted | inheritable) & !FULL != 0 && !on.on(AttributeHighBitsMasked) {
        return None;
    }
    let effective = first & EFFECTIVE != 0;
    Some(FileCapabilities { permitted: permitted & FULL, inheritable: inheritable & FULL, effective, attached: true })
}
