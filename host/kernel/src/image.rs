//! The files of the ext4 image: attributes that setxattr(2) refuses, each with an owner and a group. chown would take the attribute away, so these
//! are fixed.

use crate::attribute::{from_words, is_settable};
use crate::step::{hex, Step, EXECVE};
use std::fmt::Write;

/// A file of the image. An attribute of no bytes is attached all the same.
#[derive(Clone, Debug, PartialEq, Eq)]
pub struct File {
    pub owner: u32,
    pub group: u32,
    pub attribute: Vec<u8>,
}

/// The files by their numbers.
pub struct Image {
    pub files: Vec<File>,
}

const OWNERS: [u32; 3] = [0, 1000, 1001];

/// Taken in turn, so that an attribute is seen with several: one more than there are owners.
const GROUPS: [u32; 4] = [0, 2000, 2001, 5000];

/// NET_RAW; SETGID, SETUID, SETPCAP and SYS_PTRACE; all of the low word but capability 24, which a machine may lack.
const NET_RAW: u32 = 1 << 13;
const DECIDING: u32 = 1 << 6 | 1 << 7 | 1 << 8 | 1 << 19;
const LOW: u32 = 0xfeff_ffff;

fn attributes() -> Vec<Vec<u8>> {
    let version_1 = |first: u32, permitted, inheritable| from_words(&[0x0100_0000 | first, permitted, inheritable]);
    let version_2 =
        |first: u32, permitted, inheritable| from_words(&[0x0200_0000 | first, permitted, inheritable, 0, 0]);
    let mut found = vec![Vec::new()];
    // Version 1: empty, some and all, with the bit off and on.
    for bit in [0, 1] {
        for (permitted, inheritable) in
            [(0, 0), (NET_RAW, 0), (0, NET_RAW), (DECIDING, DECIDING), (LOW, LOW), (u32::MAX, u32::MAX)]
        {
            found.push(version_1(bit, permitted, inheritable));
        }
    }
    // Other bits in the first word, of every version; version 3 of a root ID that is none.
    found.push(version_1(2, NET_RAW, NET_RAW));
    found.push(version_1(0x00ff_ffff, DECIDING, DECIDING));
    found.push(version_2(2, NET_RAW, NET_RAW));
    found.push(version_2(0x0080_0001, DECIDING, DECIDING));
    found.push(version_2(0x00ff_fffe, LOW, LOW));
    found.push(from_words(&[0x0200_0003, NET_RAW, 0, u32::MAX, u32::MAX]));
    found.push(from_words(&[0x0300_0003, NET_RAW, NET_RAW, 0, 0, 0]));
    found.push(from_words(&[0x0300_0002, NET_RAW, NET_RAW, 0, 0, 1000]));
    found.push(from_words(&[0x0300_0001, NET_RAW, NET_RAW, 0, 0, u32::MAX]));
    // Lengths that are not the revision's.
    for (revision, lengths) in [(1, [1, 4, 11, 13, 20, 24]), (2, [3, 8, 12, 19, 21, 24]), (3, [2, 4, 12, 20, 22, 23])] {
        for length in lengths {
            found.push(from_words(&[revision << 24 | 1, 0, 0, 0, 0, 0])[..length].to_vec());
        }
    }
    // Revisions that there are none of.
    for revision in [0, 4, 255] {
        for length in [12, 20, 24] {
            found.push(from_words(&[revision << 24, NET_RAW, 0, 0, 0, 0])[..length].to_vec());
        }
    }
    found
}

impl Image {
    /// The fixed list, each attribute with each owner, and whatever the given steps need beside it.
    pub fn new<'a>(steps: impl Iterator<Item = &'a Step>) -> Image {
        let mut image = Image { files: Vec::new() };
        let mut groups = GROUPS.into_iter().cycle();
        for attribute in attributes() {
            for (owner, group) in OWNERS.into_iter().zip(&mut groups) {
                image.files.push(File { owner, group, attribute: attribute.clone() });
            }
        }
        for step in steps {
            if needs_image(step) && image.number(step).is_none() {
                let attribute = step.attribute.clone();
                image.files.push(File { owner: step.a as u32, group: step.c as u32, attribute });
            }
        }
        image
    }

    // The number of the file that a launch is of.
    fn number(&self, step: &Step) -> Option<u32> {
        let is_it = |file: &File| {
            (u64::from(file.owner), u64::from(file.group), &file.attribute) == (step.a, step.c, &step.attribute)
        };
        self.files.iter().position(is_it).map(|number| number as u32)
    }

    /// A launch of a file of the image.
    pub fn launch(&self, number: u32, flags: u64) -> Step {
        let file = &self.files[number as usize];
        let mut step = Step::launch(file.owner, flags, &file.attribute).of_group(file.group);
        step.setting.image = Some(number);
        step.setting.attached_without_bytes = file.attribute.is_empty();
        step
    }

    /// Gives a launch that needs one its file of the image.
    pub fn furnish(&self, step: &mut Step) {
        if needs_image(step) {
            step.setting.image = self.number(step);
        }
    }

    /// The harness's lines for the image.
    pub fn lines(&self) -> String {
        let mut text = format!("image {:x}\n", self.files.len());
        for File { owner, group, attribute } in &self.files {
            let _ = writeln!(text, "{owner:x} {group:x} {}", attribute_field(attribute));
        }
        text
    }
}

fn needs_image(step: &Step) -> bool {
    let is_odd = !step.attribute.is_empty() && !is_settable(&step.attribute);
    step.call == EXECVE && step.not_run().is_none() && (is_odd || step.setting.attached_without_bytes)
}

/// An attribute's length and bytes, as the harness reads them.
pub fn attribute_field(attribute: &[u8]) -> String {
    let digits = if attribute.is_empty() { "-".to_owned() } else { hex(attribute) };
    format!("{:x} {digits}", attribute.len())
}

#[cfg(test)]
mod tests {
    use super::*;

    #[test]
    fn every_attribute_of_the_list_is_another_and_needs_the_image() {
        let list = attributes();
        assert_eq!(list.len(), 49);
        assert!(list.iter().all(|attribute| !is_settable(attribute) && attribute.len() <= 24));
        assert_eq!(Image::new([].iter()).files.len(), OWNERS.len() * list.len());
    }
}
