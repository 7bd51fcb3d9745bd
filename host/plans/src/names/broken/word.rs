//! Faults in names: words that are none, and `all` where it cannot stand.

use super::super::spelling::{Case, Kind, Spelling};
use super::super::words::{beginning, is_name, ALL, CAPABILITY_NAMES};
use super::edit::{piece, Edit};
use crate::names::NameFault;
use crate::random::Random;

/// Words that are no names. Some are all but one, and some have one within them.
const UNKNOWN: [&str; 26] = [
    "a",
    "al",
    "allcaps",
    "any",
    "cap",
    "cap_",
    "cap__chown",
    "cap_all",
    "cap_audit",
    "cap_foo",
    "cap_last_cap",
    "cap_net",
    "cap_net_",
    "cap_none",
    "cap_raw_net",
    "cap_set",
    "cap_sys",
    "cap_sys_log",
    "capchown",
    "chown",
    "e",
    "ip",
    "net_raw",
    "none",
    "root",
    "xcap_chown",
];

/// Numbers of capabilities, and such.
const NUMBERS: [&str; 12] =
    ["0", "1", "13", "40", "41", "63", "00", "0x2000", "2000", "000001ffffffffff", "cap_0", "cap_13"];

const LETTERS: &[u8] = b"abcdefghijklmnopqrstuvwxyz_0123456789";

/// What puts the fault into the text, if the text has a word that can have it.
pub(super) fn edit(random: &mut Random, fault: NameFault, spelling: &Spelling) -> Option<Edit> {
    match fault {
        NameFault::AllBeforeNames | NameFault::AllAmongNames => all_in_a_list(random, fault, spelling),
        NameFault::NamesRunTogether => run_together(random, spelling),
        _ => {
            let is_chosen = |kind: Kind| match fault {
                NameFault::UnknownName | NameFault::Number => kind.is_word(),
                _ => kind == Kind::Name,
            };
            let found = piece(random, spelling, |index| is_chosen(spelling.pieces[index].kind))?;
            let at = spelling.pieces[found].at.clone();
            let word = other_word(random, fault, &spelling.text[at.clone()]);
            if is_name(&word) {
                return None;
            }
            let place = at.start + beginning(&word, spelling.is_at_front(found));
            Some(Edit::replacing(at, &word, place))
        }
    }
}

// A word for that name which hardly ever is one.
fn other_word(random: &mut Random, fault: NameFault, name: &[u8]) -> Vec<u8> {
    let mut word = name.to_vec();
    match fault {
        NameFault::LetterChanged => {
            let at = random.below(word.len());
            // One bit of the letter is another, or all may be.
            word[at] = if random.one_in(3) { word[at] ^ 1 << random.below(8) } else { random.pick(LETTERS) };
        }
        NameFault::LetterLost => {
            let at = if random.one_in(3) { word.len() - 1 } else { random.below(word.len()) };
            word.remove(at);
        }
        NameFault::LetterAdded => {
            let at = if random.one_in(3) { word.len() } else { random.below(word.len() + 1) };
            word.insert(at, random.pick(LETTERS));
        }
        NameFault::Number => word = random.pick(&NUMBERS).into(),
        _ => {
            let unknown = random.pick(&UNKNOWN);
            word = spelled(random, unknown);
        }
    }
    word
}

fn spelled(random: &mut Random, word: &str) -> Vec<u8> {
    let case = Case::any(random);
    case.of(random, word)
}

// `all` before the first name, after a name, or in the place of one that is not the first.
fn all_in_a_list(random: &mut Random, fault: NameFault, spelling: &Spelling) -> Option<Edit> {
    let is_before = fault == NameFault::AllBeforeNames;
    let found = piece(random, spelling, |index| {
        spelling.pieces[index].kind == Kind::Name && (!is_before || spelling.is_at_front(index))
    })?;
    let at = spelling.pieces[found].at.clone();
    let all = spelled(random, ALL);
    Some(if is_before {
        Edit::inserting(at.start, &[&all, &b","[..]].concat(), at.start + ALL.len())
    } else if !spelling.is_at_front(found) && random.one_in(2) {
        let place = at.start;
        Edit::replacing(at, &all, place)
    } else {
        Edit::inserting(at.end, &[b",", &all[..]].concat(), at.end + 1)
    })
}

// Two names without their comma, or a name or `all` put right after another.
fn run_together(random: &mut Random, spelling: &Spelling) -> Option<Edit> {
    if random.one_in(2) {
        let found = piece(random, spelling, |index| spelling.pieces[index].kind == Kind::Comma)?;
        let at = spelling.pieces[found].at.clone();
        let place = at.start;
        return Some(Edit::replacing(at, b"", place));
    }
    let found = piece(random, spelling, |index| spelling.pieces[index].kind.is_word())?;
    let end = spelling.pieces[found].at.end;
    let word = if random.one_in(4) { ALL } else { random.pick(&CAPABILITY_NAMES) };
    let word = spelled(random, word);
    Some(Edit::inserting(end, &word, end))
}
