//! A clause of a text in names, and what clauses do to the three sets.

use super::FULL;
use plans::CAPABILITY_NAMES;
use std::ops::Range;

/// The words that a clause can begin with: the names by number, then `all`.
pub const WORDS: [&str; ALL + 1] = {
    let mut words = ["all"; ALL + 1];
    let mut number = 0;
    while number < ALL {
        words[number] = CAPABILITY_NAMES[number];
        number += 1;
    }
    words
};

/// The place of `all` among the words.
pub const ALL: usize = CAPABILITY_NAMES.len();

/// The longest word's length.
const LONGEST_WORD: usize = 22;

/// For each place of a word and each byte, the words that have it there.
static WITH: [[u64; 128]; LONGEST_WORD] = {
    let mut with = [[0; 128]; LONGEST_WORD];
    let mut number = 0;
    while number < WORDS.len() {
        let word = WORDS[number].as_bytes();
        let mut place = 0;
        while place < word.len() {
            with[place][word[place] as usize] |= 1 << number;
            place += 1;
        }
        number += 1;
    }
    with
};

/// The words that have that letter at that place, by their numbers.
pub fn words_with(place: usize, letter: u8) -> u64 {
    WITH.get(place).and_then(|letters| letters.get(usize::from(letter))).copied().unwrap_or(0)
}

/// A word as it stands in a text.
#[derive(Clone, Copy, Debug, PartialEq, Eq)]
pub struct Spelled {
    /// Its place among the words.
    pub number: usize,
    /// Which of its letters are upper case.
    pub upper: u32,
}

/// What stands before the first operator.
#[derive(Debug)]
pub enum Subject {
    Nothing,
    All(Spelled),
    Names(Vec<Spelled>),
}

/// An operator and its flags.
#[derive(Debug)]
pub struct Action {
    pub operator: u8,
    /// Where its flags stand in the text.
    pub flags: Range<usize>,
    /// The sets whose flags are among them, by their places.
    pub bits: usize,
}

/// A clause.
#[derive(Debug)]
pub struct Clause {
    pub subject: Subject,
    pub actions: Vec<Action>,
}

impl Spelled {
    /// Which places of it are letters: all but the underscores.
    pub fn letters(self) -> u32 {
        let letters = WORDS[self.number].bytes().enumerate().filter(|(_, byte)| *byte != b'_');
        letters.fold(0, |places, (place, _)| places | 1 << place)
    }

    /// Whether its letters are all lower case, all upper case, or both: 0, 1 or 2.
    pub fn case(self) -> usize {
        match self.upper {
            0 => 0,
            upper if upper == self.letters() => 1,
            _ => 2,
        }
    }
}

impl Clause {
    /// The capabilities that it is about.
    pub fn capabilities(&self) -> u64 {
        match &self.subject {
            Subject::Nothing | Subject::All(_) => FULL,
            Subject::Names(names) => names.iter().fold(0, |set, name| set | 1 << name.number),
        }
    }

    /// The names that it has.
    pub fn names(&self) -> &[Spelled] {
        match &self.subject {
            Subject::Names(names) => names,
            _ => &[],
        }
    }

    /// The words that it has.
    pub fn words(&self) -> &[Spelled] {
        match &self.subject {
            Subject::All(word) => std::slice::from_ref(word),
            _ => self.names(),
        }
    }

    /// Its actions from left to right, each with the capabilities that it is about.
    pub fn acts(&self) -> impl DoubleEndedIterator<Item = (u64, &Action)> {
        let capabilities = self.capabilities();
        self.actions.iter().map(move |action| (capabilities, action))
    }
}

impl Action {
    /// Whether the flag of that set, by its place, is among the flags.
    pub fn names(&self, set: usize) -> bool {
        self.bits >> set & 1 == 1
    }

    // What is done to the sets.
    fn act(&self, capabilities: u64, sets: &mut [u64; 3]) {
        for (place, set) in sets.iter_mut().enumerate() {
            match (self.operator, self.names(place)) {
                (b'=' | b'+', true) => *set |= capabilities,
                (b'=', false) | (b'-', true) => *set &= !capabilities,
                _ => {}
            }
        }
    }
}

/// The sets that actions come to, one after the other.
pub fn sets<'c>(acts: impl Iterator<Item = (u64, &'c Action)>) -> [u64; 3] {
    let mut sets = [0; 3];
    for (capabilities, action) in acts {
        action.act(capabilities, &mut sets);
    }
    sets
}

/// What an action does to a capability of a set, or to another that it is not about.
#[derive(Clone, Copy, Debug, PartialEq, Eq)]
pub enum Effect {
    EqualsGives,
    EqualsKeeps,
    EqualsTakes,
    EqualsIsOfOthers,
    PlusGives,
    PlusKeeps,
    PlusIsOfOtherSets,
    PlusIsOfOthers,
    MinusTakes,
    MinusFindsNone,
    MinusIsOfOtherSets,
    MinusIsOfOthers,
}

impl Effect {
    /// All of them.
    pub const ALL: [Effect; 12] = [
        Effect::EqualsGives,
        Effect::EqualsKeeps,
        Effect::EqualsTakes,
        Effect::EqualsIsOfOthers,
        Effect::PlusGives,
        Effect::PlusKeeps,
        Effect::PlusIsOfOtherSets,
        Effect::PlusIsOfOthers,
        Effect::MinusTakes,
        Effect::MinusFindsNone,
        Effect::MinusIsOfOtherSets,
        Effect::MinusIsOfOthers,
    ];

    /// Whether the capability is in the set afterwards.
    pub fn is_in(self) -> bool {
        !matches!(self, Effect::EqualsTakes | Effect::MinusTakes | Effect::MinusFindsNone)
    }

    /// In a few words, of a set.
    pub fn described(self, set: &str) -> String {
        match self {
            Effect::EqualsGives => format!("`=` gives what was not {set}"),
            Effect::EqualsKeeps => format!("`=` leaves what was {set} and is named so"),
            Effect::EqualsTakes => format!("`=` takes what was {set} and is not named so"),
            Effect::EqualsIsOfOthers => format!("`=` leaves {set} what it does not name"),
            Effect::PlusGives => format!("`+` gives what was not {set}"),
            Effect::PlusKeeps => format!("`+` leaves what was {set}"),
            Effect::PlusIsOfOtherSets => format!("`+` without its flag leaves what was {set}"),
            Effect::PlusIsOfOthers => format!("`+` leaves {set} what it does not name"),
            Effect::MinusTakes => format!("`-` takes what was {set}"),
            Effect::MinusFindsNone => format!("`-` leaves what was not {set}"),
            Effect::MinusIsOfOtherSets => format!("`-` without its flag leaves what was {set}"),
            Effect::MinusIsOfOthers => format!("`-` leaves {set} what it does not name"),
        }
    }
}

/// For each effect and each set, the capabilities that it was the last to happen to, so that it shows in what the text comes to.
pub struct Effects([[u64; 3]; Effect::ALL.len()]);

impl Effects {
    /// The effects of clauses, one after the other.
    pub fn of(clauses: &[Clause]) -> Effects {
        let mut effects = Effects([[0; 3]; Effect::ALL.len()]);
        let acts: Vec<(u64, &Action)> = clauses.iter().flat_map(Clause::acts).collect();
        // For each action the capabilities that later ones are about, the last first.
        let mut later = Vec::with_capacity(acts.len());
        let mut about = 0;
        for (capabilities, _) in acts.iter().rev() {
            later.push(about);
            about |= capabilities;
        }
        let mut sets = [0; 3];
        for ((capabilities, action), later) in acts.into_iter().zip(later.into_iter().rev()) {
            for (place, set) in sets.into_iter().enumerate() {
                effects.add(action, place, set, capabilities, !later);
            }
            action.act(capabilities, &mut sets);
        }
        effects
    }

    // Adds what an action does to a set, as far as it is seen at last.
    fn add(&mut self, action: &Action, place: usize, set: u64, capabilities: u64, seen: u64) {
        use Effect::*;
        let (there, not_there, others) = (capabilities & set, capabilities & !set, set & !capabilities);
        let happened = match (action.operator, action.names(place)) {
            (b'=', true) => [(EqualsGives, not_there), (EqualsKeeps, there), (EqualsIsOfOthers, others)],
            (b'=', false) => [(EqualsTakes, there), (EqualsTakes, 0), (EqualsIsOfOthers, others)],
            (b'+', true) => [(PlusGives, not_there), (PlusKeeps, there), (PlusIsOfOthers, others)],
            (b'+', false) => [(PlusIsOfOtherSets, there), (PlusIsOfOtherSets, 0), (PlusIsOfOthers, others)],
            (_, true) => [(MinusTakes, there), (MinusFindsNone, not_there), (MinusIsOfOthers, others)],
            (_, false) => [(MinusIsOfOtherSets, there), (MinusIsOfOtherSets, 0), (MinusIsOfOthers, others)],
        };
        for (effect, capabilities) in happened {
            self.0[effect as usize][place] |= capabilities & seen;
        }
    }

    /// The capabilities that it happened to.
    pub fn on(&self, effect: Effect, set: usize) -> u64 {
        self.0[effect as usize][set]
    }
}

#[cfg(test)]
mod tests {
    use super::super::{read, EFFECTIVE, PERMITTED};
    use super::*;

    #[test]
    fn effects_are_those_that_show() {
        let effects = Effects::of(&read(b"cap_chown+ep cap_chown=i cap_kill-e").clauses);
        assert_eq!(effects.on(Effect::PlusGives, EFFECTIVE), 0);
        assert_eq!(effects.on(Effect::EqualsTakes, EFFECTIVE), 1);
        assert_eq!(effects.on(Effect::EqualsTakes, PERMITTED), 1);
        assert_eq!(effects.on(Effect::MinusFindsNone, EFFECTIVE), 1 << 5);
        let effects = Effects::of(&read(b"all=p cap_kill-p").clauses);
        assert_eq!(effects.on(Effect::MinusTakes, PERMITTED), 1 << 5);
        assert_eq!(effects.on(Effect::EqualsGives, PERMITTED), FULL & !(1 << 5));
        assert_eq!(effects.on(Effect::MinusIsOfOthers, PERMITTED), FULL & !(1 << 5));
    }

    #[test]
    fn the_case_of_a_word_is_that_of_its_letters() {
        let of = |text: &[u8]| read(text).clauses[0].words()[0].case();
        assert_eq!([of(b"cap_kill="), of(b"CAP_KILL="), of(b"CAP_KILl="), of(b"All=")], [0, 1, 2, 2]);
    }
}
