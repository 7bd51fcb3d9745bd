//! A change of a text, and the place of the fault that it makes.

use super::super::spelling::Spelling;
use crate::random::Random;
use std::ops::Range;

/// Bytes that are put in the place of others.
pub(super) struct Edit {
    at: Range<usize>,
    with: Vec<u8>,
    /// The place of the fault.
    pub(super) place: usize,
}

impl Edit {
    pub(super) fn replacing(at: Range<usize>, with: &[u8], place: usize) -> Edit {
        Edit { at, with: with.to_vec(), place }
    }

    pub(super) fn inserting(position: usize, bytes: &[u8], place: usize) -> Edit {
        Edit::replacing(position..position, bytes, place)
    }

    /// The text with the change made.
    pub(super) fn of(&self, text: &[u8]) -> Vec<u8> {
        [&text[..self.at.start], &self.with, &text[self.at.end..]].concat()
    }
}

/// How many of the last pieces are chosen from half of the time, so that a long text is at fault near its end.
const LAST: usize = 10;

/// One of the pieces of which this is true, by its index.
pub(super) fn piece(random: &mut Random, spelling: &Spelling, is_so: impl Fn(usize) -> bool) -> Option<usize> {
    let found: Vec<usize> = (0..spelling.pieces.len()).filter(|index| is_so(*index)).collect();
    if found.is_empty() {
        return None;
    }
    let from = if random.one_in(2) { found.len().saturating_sub(LAST) } else { 0 };
    Some(random.pick(&found[from..]))
}

/// A position within a word, one letter before its end a third of the time.
pub(super) fn within(random: &mut Random, at: &Range<usize>) -> usize {
    if random.one_in(3) {
        at.end - 1
    } else {
        at.start + 1 + random.below(at.len() - 1)
    }
}
