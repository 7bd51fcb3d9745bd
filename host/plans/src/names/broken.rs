//! Texts in names with one fault put into them.
//!
//! For most kinds of fault the place is known when the fault is made: what stands before it is the beginning of the well-formed text that is broken,
//! and what then comes can follow in none.

mod blind;
mod edit;
mod stray;
mod word;

use super::clauses;
use super::spelling::{self, Kind, Spelling};
use super::{NameFault, NamedKind, NamedText};
use crate::random::Random;
use edit::{piece, Edit};

/// A text with some fault. More often than the rest: stray bytes, for each is to stand at each spot, and names that are nearly right, for each is to
/// be wrong.
pub(super) fn broken(random: &mut Random) -> NamedText {
    use NameFault::{CutInName, LetterAdded, LetterLost, NamesRunTogether, StrayByte};
    let fault = match random.below(12) {
        0 | 1 => StrayByte,
        2 => random.pick(&[CutInName, LetterAdded, LetterLost, NamesRunTogether]),
        _ => random.pick(&NameFault::ALL),
    };
    broken_by(random, fault)
}

// A text with that fault: the next well-formed one that can have it.
fn broken_by(random: &mut Random, fault: NameFault) -> NamedText {
    loop {
        let clauses = clauses::any(random);
        let spelling = spelling::any(random, &clauses);
        if fault.is_blind() {
            let text = blind::broken(random, fault, &spelling);
            return NamedText { text, kind: NamedKind::Broken { fault, place: None } };
        }
        if let Some(edit) = edit(random, fault, &spelling) {
            let text = edit.of(&spelling.text);
            return NamedText { text, kind: NamedKind::Broken { fault, place: Some(edit.place) } };
        }
    }
}

// What puts the fault into the text, if the text can have it.
fn edit(random: &mut Random, fault: NameFault, spelling: &Spelling) -> Option<Edit> {
    use NameFault::*;
    match fault {
        CutInName | CutInAll | CutAfterName | CutAfterComma | CutAfterSign => cut(random, fault, spelling),
        CommaDoubled | CommaAtFront | CommaTrailing | CommaBehindFlags => comma(random, fault, spelling),
        BlankInName | BlankBeforeComma | BlankAfterComma | BlankBeforeOperator | BlankBeforeSign | BlankAfterSign
        | BlankBeforeFlag => blank(random, fault, spelling),
        UpperFlag | OtherFlag => flag(random, fault, spelling),
        SignWithoutNames | NoFlagsBeforeBlank | NoFlagsBeforeOperator => sign(random, fault, spelling),
        CarriageReturn | VerticalTab | FormFeed | Nul | HighByte | OtherScript | StrayByte => {
            stray::edit(random, fault, spelling)
        }
        _ => word::edit(random, fault, spelling),
    }
}

fn cut(random: &mut Random, fault: NameFault, spelling: &Spelling) -> Option<Edit> {
    let found = piece(random, spelling, |index| match fault {
        NameFault::CutInName => spelling.pieces[index].kind == Kind::Name,
        NameFault::CutInAll => spelling.pieces[index].kind == Kind::All,
        NameFault::CutAfterName => spelling.pieces[index].kind.is_word(),
        NameFault::CutAfterComma => spelling.pieces[index].kind == Kind::Comma,
        _ => spelling.pieces[index].kind.is_sign(),
    })?;
    let at = &spelling.pieces[found].at;
    let end = match fault {
        NameFault::CutInName | NameFault::CutInAll => edit::within(random, at),
        _ => at.end,
    };
    Some(Edit::replacing(end..spelling.text.len(), b"", end))
}

fn comma(random: &mut Random, fault: NameFault, spelling: &Spelling) -> Option<Edit> {
    let found = piece(random, spelling, |index| {
        let kind = spelling.pieces[index].kind;
        match fault {
            NameFault::CommaDoubled => kind == Kind::Comma,
            NameFault::CommaAtFront => spelling.is_at_front(index),
            NameFault::CommaTrailing => kind.is_word() && spelling.after(index).is_some_and(Kind::is_operator),
            _ => matches!(kind, Kind::Flag | Kind::Equals),
        }
    })?;
    let at = &spelling.pieces[found].at;
    let is_before_blanks = spelling.after(found) == Some(Kind::Blanks);
    Some(match fault {
        NameFault::CommaDoubled => Edit::inserting(at.end, b",", at.end),
        NameFault::CommaAtFront => Edit::inserting(at.start, b",", at.start),
        // After a name another could follow.
        NameFault::CommaTrailing if spelling.pieces[found].kind == Kind::Name => {
            Edit::inserting(at.end, b",", at.end + 1)
        }
        NameFault::CommaBehindFlags if is_before_blanks && random.one_in(2) => {
            Edit::replacing(spelling.pieces[found + 1].at.clone(), b",", at.end)
        }
        _ => Edit::inserting(at.end, b",", at.end),
    })
}

// A blank ends a clause only where the clause could end. Then what follows cannot begin one.
fn blank(random: &mut Random, fault: NameFault, spelling: &Spelling) -> Option<Edit> {
    use NameFault::*;
    let found = piece(random, spelling, |index| {
        let kind = spelling.pieces[index].kind;
        let is_after = |is_so: fn(Kind) -> bool| spelling.before(index).is_some_and(is_so);
        match fault {
            BlankInName => kind == Kind::Name,
            BlankBeforeComma | BlankAfterComma => kind == Kind::Comma,
            BlankBeforeOperator => kind.is_operator() && is_after(Kind::is_word),
            BlankBeforeSign => kind.is_sign() && is_after(|before| matches!(before, Kind::Flag | Kind::Equals)),
            BlankAfterSign => kind == Kind::Flag && is_after(Kind::is_sign),
            _ => kind == Kind::Flag && is_after(|before| matches!(before, Kind::Flag | Kind::Equals)),
        }
    })?;
    let at = &spelling.pieces[found].at;
    let blanks = spelling::blanks(random);
    let (position, place) = match fault {
        BlankInName => {
            let position = edit::within(random, at);
            (position, position)
        }
        BlankAfterComma => (at.end, at.end),
        BlankBeforeSign | BlankBeforeFlag => (at.start, at.start + blanks.len()),
        _ => (at.start, at.start),
    };
    Some(Edit::inserting(position, &blanks, place))
}

fn flag(random: &mut Random, fault: NameFault, spelling: &Spelling) -> Option<Edit> {
    let found = piece(random, spelling, |index| spelling.pieces[index].kind == Kind::Flag)?;
    let at = spelling.pieces[found].at.clone();
    let other = if fault == NameFault::UpperFlag {
        spelling.text[at.start].to_ascii_uppercase()
    } else {
        random.pick(b"abcdfghjklmnoqrstuvwxyzABCDFGHJKLMNOQRSTUVWXYZ_0123456789")
    };
    let place = at.start;
    Some(Edit::replacing(at, &[other], place))
}

fn sign(random: &mut Random, fault: NameFault, spelling: &Spelling) -> Option<Edit> {
    let pieces = &spelling.pieces;
    // The first piece after that one which is no flag.
    let past_flags = |index: usize| pieces[index + 1..].iter().find(|piece| piece.kind != Kind::Flag);
    let found = piece(random, spelling, |index| match fault {
        NameFault::SignWithoutNames => spelling.is_at_front(index),
        NameFault::NoFlagsBeforeBlank => {
            pieces[index].kind.is_sign() && past_flags(index).is_some_and(|next| next.kind == Kind::Blanks)
        }
        _ => pieces[index].kind.is_sign(),
    })?;
    let at = &pieces[found].at;
    Some(match fault {
        NameFault::SignWithoutNames => {
            let operator = pieces[found..].iter().find(|piece| piece.kind.is_operator()).expect("a clause has one");
            Edit::replacing(at.start..operator.at.end, &[random.pick(b"+-")], at.start)
        }
        NameFault::NoFlagsBeforeBlank => Edit::replacing(at.end..past_flags(found)?.at.start, b"", at.end),
        _ => Edit::inserting(at.end, &[random.pick(b"=+-")], at.end),
    })
}

#[cfg(test)]
mod tests {
    use super::*;
    use second::{read_names, Written};

    #[test]
    fn every_fault_breaks_the_text_where_it_says() {
        for fault in NameFault::ALL {
            let mut places = Vec::new();
            for seed in 0..400 {
                let NamedText { text, kind } = broken_by(&mut Random::new(seed), fault);
                let NamedKind::Broken { fault: told, place } = kind else { panic!("{fault:?}: it is not broken") };
                assert_eq!((told, place.is_none()), (fault, fault.is_blind()));
                let Some(place) = place else { continue };
                let answer = read_names(&text, &mut [0; 3]);
                assert_eq!(
                    answer,
                    Written { code: 70, number: place as u32 },
                    "{fault:?}, seed {seed}: {}",
                    text.escape_ascii()
                );
                places.push(place);
            }
            places.sort_unstable();
            places.dedup();
            assert!(fault.is_blind() || places.len() > 20, "{fault:?} is always at {places:?}");
        }
    }

    #[test]
    fn blind_faults_leave_some_texts_well_formed_and_break_others() {
        for fault in NameFault::ALL.into_iter().filter(|fault| fault.is_blind()) {
            let mut codes: Vec<u32> = Vec::new();
            for seed in 0..4000 {
                let NamedText { text, .. } = broken_by(&mut Random::new(seed), fault);
                codes.push(read_names(&text, &mut [0; 3]).code);
            }
            codes.sort_unstable();
            codes.dedup();
            assert_eq!(codes, [0, 70], "{fault:?}");
        }
    }
}
