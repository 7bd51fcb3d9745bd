//! Equal buffers for both programs.

use std::fmt::Debug;

/// What a buffer holds.
pub trait Element: Copy + PartialEq + Debug {
    /// What one is called.
    const NAME: &'static str;

    /// Some of them, to be read by people.
    fn shown(elements: &[Self]) -> String;
}

impl Element for u8 {
    const NAME: &'static str = "byte";

    fn shown(elements: &[u8]) -> String {
        elements.escape_ascii().to_string()
    }
}

impl Element for u64 {
    const NAME: &'static str = "place";

    fn shown(elements: &[u64]) -> String {
        let numbers: Vec<String> = elements.iter().map(|number| format!("{number:x}")).collect();
        numbers.join(" ")
    }
}

/// A buffer for each program, and what both hold before a run: a pattern that a run may change no further than it writes.
pub struct Buffers<T> {
    pattern: Vec<T>,
    runs: u64,
    /// The proved library's.
    pub proved: Vec<T>,
    /// The second program's.
    pub second: Vec<T>,
}

impl Buffers<u8> {
    /// Buffers of so many bytes. In the pattern no byte is that of its neighbour, nor one of a text.
    pub fn of_bytes(length: usize) -> Buffers<u8> {
        Buffers::new((0..length).map(|at| (at * 7 + at / 256) as u8 | 0x80).collect())
    }
}

impl Buffers<u64> {
    /// Buffers of so many places. In the pattern no two are the same, and none is a value of a sheet or an attribute.
    pub fn of_places(count: usize) -> Buffers<u64> {
        Buffers::new((1..=count as u64).map(|place| place.wrapping_mul(0x9e37_79b9_7f4a_7c15) | 3 << 62).collect())
    }
}

impl<T: Element> Buffers<T> {
    fn new(pattern: Vec<T>) -> Buffers<T> {
        Buffers { proved: pattern.clone(), second: pattern.clone(), pattern, runs: 0 }
    }

    /// How often both programs were run in them.
    pub fn runs(&self) -> u64 {
        self.runs
    }

    /// How many elements they have.
    pub fn length(&self) -> usize {
        self.pattern.len()
    }

    /// Runs each program in its buffer, of which it is lent the first `room` elements.
    pub fn run<P, S>(
        &mut self,
        room: usize,
        proved: impl FnOnce(&mut [T]) -> P,
        second: impl FnOnce(&mut [T]) -> S,
    ) -> (P, S) {
        self.runs += 1;
        self.proved.copy_from_slice(&self.pattern);
        self.second.copy_from_slice(&self.pattern);
        (proved(&mut self.proved[..room]), second(&mut self.second[..room]))
    }

    /// What is wrong with the buffers where both programs have answered that they wrote so many elements: there has to be room for them, all
    /// have to be the same, those that were not lent too, and what is past the written ones has to be the pattern.
    pub fn fault(&self, room: usize, written: usize) -> Option<&'static str> {
        if written > room {
            return Some("more is said to be written than there is room for");
        }
        if self.proved != self.second {
            return Some("the buffers differ");
        }
        let has_changed = self.proved[written..] != self.pattern[written..];
        has_changed.then_some("what is past the end of what was written has changed")
    }
}

#[cfg(test)]
mod tests {
    use super::*;

    #[test]
    fn what_the_programs_write_is_told() {
        let mut buffers = Buffers::of_places(8);
        let put = |values: &mut [u64]| values[..2].copy_from_slice(&[1, 2]);
        buffers.run(4, put, put);
        assert_eq!(buffers.fault(4, 2), None);
        assert_eq!(buffers.fault(4, 1), Some("what is past the end of what was written has changed"));
        assert_eq!(buffers.fault(4, 5), Some("more is said to be written than there is room for"));
        buffers.run(4, put, |values| values[..2].copy_from_slice(&[1, 3]));
        assert_eq!(buffers.fault(4, 2), Some("the buffers differ"));
        buffers.run(4, |_| (), |_| ());
        assert_eq!(buffers.fault(4, 0), None);
        assert_eq!(buffers.runs(), 3);
    }

    #[test]
    fn only_the_room_is_lent() {
        let mut buffers = Buffers::of_bytes(100);
        assert_eq!(buffers.run(7, |bytes| bytes.len(), |bytes| bytes.len()), (7, 7));
    }

    #[test]
    fn patterns_are_no_values() {
        let places = Buffers::of_places(64).proved;
        assert!(places.iter().all(|place| *place > 1 << 63));
        let bytes = Buffers::of_bytes(9000).proved;
        assert!(bytes.iter().all(|byte| !byte.is_ascii()));
        assert!(bytes.windows(2).all(|pair| pair[0] != pair[1]));
    }
}
