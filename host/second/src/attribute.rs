//! The security.capability attribute of a file, as bytes.

use crate::buffer::put_in_front;
use crate::capability::{is_within, FULL_SET};
use crate::decode::{capability_set, switch};
use crate::refusal::Refusal;
use crate::written::Written;

const VFS_CAP_REVISION_1: u32 = 0x0100_0000;
const VFS_CAP_REVISION_2: u32 = 0x0200_0000;
const VFS_CAP_FLAGS_EFFECTIVE: u32 = 1;

/// A file's capability sets and its effective bit. The default stands for a file without any.
#[derive(Clone, Copy, Debug, Default, PartialEq, Eq)]
pub(crate) struct FileCapabilities {
    pub(crate) permitted: u64,
    pub(crate) inheritable: u64,
    pub(crate) effective: bool,
}

/// Reads an attribute into the first four places of `values`: 1 if one is attached and else 0, its permitted set, its
/// inheritable set, its effective bit. Answers 4, or refuses with 60 (unreadable) or 28 (fewer than four places), in
/// that order. A refusal leaves every place as it was, and places past the fourth stay.
pub fn read_attribute(attribute: &[u8], values: &mut [u64]) -> Written {
    Written::from_result(read_into(attribute, values))
}

/// Writes an attribute, always as version 2, into the first 20 bytes of `attribute`. Answers 20, or refuses with 22 (a
/// capability above the last one, or an effective bit that is neither 0 nor 1) or 28 (fewer than 20 bytes), in that
/// order. A refusal leaves every byte as it was, and bytes past those written stay.
pub fn write_attribute(permitted: u64, inheritable: u64, effective: u64, attribute: &mut [u8]) -> Written {
    Written::from_result(write_into(permitted, inheritable, effective, attribute))
}

fn read_into(attribute: &[u8], values: &mut [u64]) -> Result<usize, Refusal> {
    let read = match read(attribute)? {
        Some(file) => [1, file.permitted, file.inheritable, u64::from(file.effective)],
        None => [0, 0, 0, 0],
    };
    put_in_front(&read, values).ok_or(Refusal::NoRoom)
}

fn write_into(permitted: u64, inheritable: u64, effective: u64, attribute: &mut [u8]) -> Result<usize, Refusal> {
    let file = FileCapabilities {
        permitted: capability_set(permitted)?,
        inheritable: capability_set(inheritable)?,
        effective: switch(effective)?,
    };
    put_in_front(&write(file), attribute).ok_or(Refusal::NoRoom)
}

/// Reads the attribute; no bytes mean that none is attached, which is not the same as one of empty sets.
pub(crate) fn read(bytes: &[u8]) -> Result<Option<FileCapabilities>, Refusal> {
    let file = match bytes.len() {
        0 => return Ok(None),
        12 => read_version_1(bytes),
        20 => read_version_2(bytes),
        _ => None,
    };
    match file {
        Some(file) if is_within(file.permitted | file.inheritable, FULL_SET) => Ok(Some(file)),
        _ => Err(Refusal::UnreadableAttribute),
    }
}

fn read_version_1(bytes: &[u8]) -> Option<FileCapabilities> {
    let effective = read_effective_bit(word(bytes, 0), VFS_CAP_REVISION_1)?;
    let permitted = u64::from(word(bytes, 1));
    let inheritable = u64::from(word(bytes, 2));
    Some(FileCapabilities { permitted, inheritable, effective })
}

fn read_version_2(bytes: &[u8]) -> Option<FileCapabilities> {
    let effective = read_effective_bit(word(bytes, 0), VFS_CAP_REVISION_2)?;
    let permitted = u64::from(word(bytes, 1)) | u64::from(word(bytes, 3)) << 32;
    let inheritable = u64::from(word(bytes, 2)) | u64::from(word(bytes, 4)) << 32;
    Some(FileCapabilities { permitted, inheritable, effective })
}

/// The effective bit out of the first word, which holds nothing but that bit and the revision.
fn read_effective_bit(first_word: u32, revision: u32) -> Option<bool> {
    match first_word ^ revision {
        0 => Some(false),
        VFS_CAP_FLAGS_EFFECTIVE => Some(true),
        _ => None,
    }
}

/// The bytes of a version 2 attribute.
fn write(file: FileCapabilities) -> Vec<u8> {
    let effective_bit = if file.effective { VFS_CAP_FLAGS_EFFECTIVE } else { 0 };
    let words = [
        VFS_CAP_REVISION_2 | effective_bit,
        low_half(file.permitted),
        low_half(file.inheritable),
        high_half(file.permitted),
        high_half(file.inheritable),
    ];
    let mut bytes = Vec::new();
    for word in words {
        bytes.extend_from_slice(&word.to_le_bytes());
    }
    bytes
}

fn low_half(set: u64) -> u32 {
    set as u32
}

fn high_half(set: u64) -> u32 {
    (set >> 32) as u32
}

/// The little-endian word at `index`; the caller has checked the length.
fn word(bytes: &[u8], index: usize) -> u32 {
    let at = 4 * index;
    u32::from_le_bytes([bytes[at], bytes[at + 1], bytes[at + 2], bytes[at + 3]])
}

#[cfg(test)]
mod tests {
    use super::*;

    const UNREADABLE: Result<Option<FileCapabilities>, Refusal> = Err(Refusal::UnreadableAttribute);

    fn version_2(first: u32, words: [u32; 4]) -> Vec<u8> {
        let mut bytes = first.to_le_bytes().to_vec();
        for word in words {
            bytes.extend_from_slice(&word.to_le_bytes());
        }
        bytes
    }

    #[test]
    fn the_quoted_bytes_are_net_raw_permitted_with_the_bit_on() {
        let bytes = [1, 0, 0, 2, 0, 0x20, 0, 0, 0, 0, 0, 0, 0, 0, 0, 0, 0, 0, 0, 0];
        let file = FileCapabilities { permitted: 1 << 13, inheritable: 0, effective: true };
        assert_eq!(read(&bytes), Ok(Some(file)));
    }

    #[test]
    fn no_bytes_are_none_attached_and_empty_sets_are_not() {
        assert_eq!(read(&[]), Ok(None));
        assert_eq!(read(&version_2(0x0200_0000, [0; 4])), Ok(Some(FileCapabilities::default())));
    }

    #[test]
    fn version_1_has_one_word_for_each_set() {
        let bytes = [1, 0, 0, 1, 0x04, 0x03, 0x02, 0x01, 0xff, 0xff, 0xff, 0xff];
        let file = FileCapabilities { permitted: 0x0102_0304, inheritable: 0xffff_ffff, effective: true };
        assert_eq!(read(&bytes), Ok(Some(file)));
    }

    #[test]
    fn version_2_has_the_low_words_first() {
        let bytes = version_2(0x0200_0000, [0x11, 0x22, 0x133, 0x44]);
        let file = FileCapabilities { permitted: 0x133_0000_0011, inheritable: 0x44_0000_0022, effective: false };
        assert_eq!(read(&bytes), Ok(Some(file)));
    }

    #[test]
    fn capability_40_is_read_and_41_is_not() {
        for place in [2, 3] {
            let mut words = [0; 4];
            words[place] = 1 << 8;
            assert!(read(&version_2(0x0200_0000, words)).is_ok());
            for high in 9..32 {
                words[place] = 1 << high;
                assert_eq!(read(&version_2(0x0200_0000, words)), UNREADABLE);
            }
        }
    }

    #[test]
    fn only_lengths_12_and_20_can_be_read() {
        for length in 1..64 {
            let mut bytes = vec![0; length];
            for revision in [1, 2] {
                if let Some(top) = bytes.get_mut(3) {
                    *top = revision;
                }
                let fits = (length, revision) == (12, 1) || (length, revision) == (20, 2);
                assert_eq!(read(&bytes).is_ok(), fits, "length {length}, revision {revision}");
            }
        }
    }

    #[test]
    fn other_revisions_cannot_be_read() {
        for revision in 0..=255u32 {
            assert_eq!(read(&version_2(revision << 24, [0; 4])).is_ok(), revision == 2);
        }
    }

    #[test]
    fn the_first_word_holds_no_other_bit() {
        for bit in 1..24 {
            assert_eq!(read(&version_2(0x0200_0000 | 1 << bit, [0; 4])), UNREADABLE);
            assert_eq!(read(&version_2(0x0200_0001 | 1 << bit, [0; 4])), UNREADABLE);
        }
    }
}
