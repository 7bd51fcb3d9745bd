//! What a reader or a writer answers.

use crate::buffers::Element;

/// A code, and the number beside it: the line or the place of a fault, or how many places or bytes were written.
#[derive(Clone, Copy, Debug, PartialEq, Eq)]
pub struct Answer {
    pub code: u32,
    pub number: u32,
}

/// Refusal 28.
pub const NO_ROOM: Answer = Answer { code: 28, number: 0 };

impl Answer {
    /// The answer that the C interface gives as one number: code times 4294967296 plus the other.
    pub fn of_number(number: u64) -> Answer {
        Answer { code: (number >> 32) as u32, number: number as u32 }
    }

    /// How many elements were written.
    pub fn written(self) -> usize {
        if self.code == 0 {
            self.number as usize
        } else {
            0
        }
    }
}

/// The answers in buffers of five lengths.
pub struct Seen<T> {
    /// With no room.
    pub no_room: Answer,
    /// One element short of `exact`.
    pub one_short: Answer,
    /// With just the room for what is written, or for the most that could be if nothing is.
    pub exact: Answer,
    /// With some random room.
    pub some: (usize, Answer),
    /// With more than enough room.
    pub roomy: Answer,
    /// What was written there.
    pub written: Vec<T>,
}

impl<T: Element> Seen<T> {
    /// Whether every buffer got that refusal. That nothing was written is looked at with each run.
    pub fn is_refused(&self, code: u32, number: u32) -> bool {
        let refusal = Answer { code, number };
        [self.no_room, self.one_short, self.exact, self.some.1, self.roomy] == [refusal; 5]
    }

    /// Whether that was written where there is room for it, and refusal 28 came where there is not. Where it is nothing, any room is enough.
    pub fn is_done(&self, content: &[T]) -> bool {
        let done = Answer { code: 0, number: content.len() as u32 };
        let short = if content.is_empty() { done } else { NO_ROOM };
        let (room, some) = self.some;
        self.written == content
            && [self.roomy, self.exact] == [done; 2]
            && [self.one_short, self.no_room] == [short; 2]
            && some == if room < content.len() { short } else { done }
    }

    /// All of it, in lines.
    pub fn told(&self) -> String {
        let Seen { no_room, one_short, exact, some: (room, some), roomy, written } = self;
        format!(
            "no room: {no_room:?}\none short: {one_short:?}\njust enough: {exact:?}\nroom for {room}: {some:?}\n\
             more than enough: {roomy:?}\nwritten: {}\n",
            T::shown(written)
        )
    }
}

#[cfg(test)]
mod tests {
    use super::*;

    fn seen() -> Seen<u8> {
        let done = Answer { code: 0, number: 2 };
        Seen { no_room: NO_ROOM, one_short: NO_ROOM, exact: done, some: (1, NO_ROOM), roomy: done, written: vec![7, 8] }
    }

    #[test]
    fn what_is_done_is_written_and_needs_its_room() {
        assert!(seen().is_done(&[7, 8]));
        assert!(!seen().is_done(&[7, 9]) && !seen().is_done(&[7]));
        assert!(!Seen { some: (2, NO_ROOM), ..seen() }.is_done(&[7, 8]));
        assert!(!Seen { one_short: seen().exact, ..seen() }.is_done(&[7, 8]));
        assert!(!Seen { no_room: Answer { code: 28, number: 1 }, ..seen() }.is_done(&[7, 8]));
    }

    #[test]
    fn nothing_is_written_in_any_room() {
        let done = Answer { code: 0, number: 0 };
        let nothing = || Seen::<u8> {
            no_room: done,
            one_short: done,
            exact: done,
            some: (0, done),
            roomy: done,
            written: Vec::new(),
        };
        assert!(nothing().is_done(&[]));
        assert!(!Seen { no_room: NO_ROOM, ..nothing() }.is_done(&[]));
        assert!(!Seen { one_short: NO_ROOM, ..nothing() }.is_done(&[]));
    }

    #[test]
    fn a_refusal_is_that_of_every_buffer() {
        let answer = Answer::of_number(300_647_710_723);
        assert_eq!(answer, Answer { code: 70, number: 3 });
        assert_eq!(answer.written(), 0);
        let refused = || Seen::<u8> {
            no_room: answer,
            one_short: answer,
            exact: answer,
            some: (5, answer),
            roomy: answer,
            written: Vec::new(),
        };
        assert!(refused().is_refused(70, 3));
        assert!(!refused().is_refused(70, 4) && !refused().is_refused(72, 3));
        assert!(!Seen { no_room: NO_ROOM, ..refused() }.is_refused(70, 3));
    }
}
