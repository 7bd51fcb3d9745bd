//! A reading of texts in names that is the library's with every switch off and libcap's with all on: the sets, or nothing where the text is refused.
//!
//! libcap gives no place for a fault, so this has none either, and goes another way than a reader that has to: it cuts the text at blanks, a clause
//! at its first operator, names at commas, operators before each sign.

use libcap::Sets;
use plans::CAPABILITY_NAMES;

departures::departures! {
    /// The text ends before its first zero byte.
    NulEndsText "nul-ends-text",
    /// Carriage return, vertical tab and form feed part clauses.
    OtherBlanks "other-blanks",
    /// `all` can stand in a list; it means the 41 capabilities, and what stands before it in the list counts no more.
    AllInList "all-in-list",
    /// A number, as C writes it, is a name.
    NumberForName "number-for-name",
    /// `=` is an operator only right behind the names.
    LaterEqualsRefused "later-equals-refused",
    /// A clause without names has one operator.
    UnnamedHasOneOperator "unnamed-has-one-operator",
}

use Departure::*;

/// All 41 capabilities.
const FULL: u64 = (1 << CAPABILITY_NAMES.len()) - 1;

/// The first number that is none of a capability: a set of libcap has 64 bits.
const NUMBERS: u64 = 64;

/// The sets that the text stands for, with these switches on.
pub fn read(switches: Switches, text: &[u8]) -> Option<Sets> {
    let end = text.iter().position(|&byte| byte == 0 && switches.on(NulEndsText)).unwrap_or(text.len());
    let is_blank = |byte: &u8| b" \t\n".contains(byte) || b"\r\x0b\x0c".contains(byte) && switches.on(OtherBlanks);
    let mut sets = [0; 3];
    for clause in text[..end].split(is_blank).filter(|clause| !clause.is_empty()) {
        read_clause(switches, clause, &mut sets)?;
    }
    Some(sets)
}

fn read_clause(switches: Switches, clause: &[u8], sets: &mut Sets) -> Option<()> {
    let (names, operators) = clause.split_at(clause.iter().position(is_operator)?);
    let is_unnamed = names.is_empty();
    let about = if is_unnamed { FULL } else { capabilities(switches, names)? };
    if is_unnamed && operators[0] != b'=' {
        return None;
    }
    for (place, operator) in operators.chunk_by(|_, next| !is_operator(next)).enumerate() {
        if place > 0 && operator[0] == b'=' && switches.on(LaterEqualsRefused) {
            return None;
        }
        if place > 0 && is_unnamed && switches.on(UnnamedHasOneOperator) {
            return None;
        }
        operate(operator[0], &operator[1..], about, sets)?;
    }
    Some(())
}

fn is_operator(byte: &u8) -> bool {
    b"=+-".contains(byte)
}

fn operate(operator: u8, flags: &[u8], about: u64, sets: &mut Sets) -> Option<()> {
    if operator == b'=' {
        sets.iter_mut().for_each(|set| *set &= !about);
    } else if flags.is_empty() {
        return None;
    }
    for flag in flags {
        let set = &mut sets[b"pie".iter().position(|of_set| of_set == flag)?];
        *set = if operator == b'-' { *set & !about } else { *set | about };
    }
    Some(())
}

fn is_all(name: &[u8]) -> bool {
    name.eq_ignore_ascii_case(b"all")
}

fn capabilities(switches: Switches, names: &[u8]) -> Option<u64> {
    if is_all(names) {
        return Some(FULL);
    }
    names.split(|&byte| byte == b',').try_fold(0, |about, name| {
        if is_all(name) && switches.on(AllInList) {
            // What was named before it counts no more, which only numbers above 40 can tell.
            return Some(FULL);
        }
        Some(about | 1 << capability(switches, name)?)
    })
}

fn capability(switches: Switches, name: &[u8]) -> Option<u64> {
    let named = CAPABILITY_NAMES.iter().position(|known| known.as_bytes().eq_ignore_ascii_case(name));
    named.map(|number| number as u64).or_else(|| number(name).filter(|_| switches.on(NumberForName)))
}

/// A capability's number as C writes one: decimal, or octal behind `0`, or hexadecimal behind `0x`.
fn number(name: &[u8]) -> Option<u64> {
    let (digits, base) = match name {
        [b'0', b'x' | b'X', digits @ ..] => (digits, 16),
        [b'0', _, ..] => (&name[1..], 8),
        _ => (name, 10),
    };
    let digit = |byte: &u8| char::from(*byte).to_digit(base).map(u64::from);
    let first = digit(digits.first()?)?;
    let value = digits[1..]
        .iter()
        .try_fold(first, |value, byte| Some(value.saturating_mul(u64::from(base)).saturating_add(digit(byte)?)))?;
    (value < NUMBERS).then_some(value)
}

#[cfg(test)]
mod tests {
    use super::*;
    use urrezkalu::{read_names, NamesReading};

    // What the library says.
    fn proved(text: &[u8]) -> Option<Sets> {
        match read_names(text) {
            NamesReading::Means(sets) => Some([sets.permitted, sets.inheritable, sets.effective]),
            NamesReading::Malformed { .. } => None,
        }
    }

    #[test]
    fn with_every_switch_off_it_is_the_library() {
        for seed in 0..20_000 {
            for text in [plans::named_text(seed).text, plans::libcap_text(seed)] {
                assert_eq!(read(Switches::NONE, &text), proved(&text), "{}", text.escape_ascii());
            }
        }
    }

    #[test]
    fn generated_texts_meet_every_departure() {
        for departure in ALL {
            let decides = |text: &[u8]| read(Switches::EVERY, text) != read(Switches::EVERY.without(departure), text);
            let met = (0..2000).filter(|&seed| decides(&plans::libcap_text(seed))).count();
            assert!(met > 10, "{} decides {met} texts", departure.name());
        }
    }

    // Each departure by a text that it alone decides, as docs/LIBCAP.md has them.
    #[test]
    fn each_switch_decides_a_text() {
        let full = Some([0, 0, FULL]);
        for (departure, text, without, with) in [
            (NulEndsText, &b"cap_chown=e\0cap_kill=e"[..], None, Some([0, 0, 1])),
            (OtherBlanks, b"cap_chown=e\rcap_kill=e", None, Some([0, 0, 0x21])),
            (AllInList, b"all,cap_chown=e", None, full),
            (AllInList, b"50,all=e", None, full),
            (AllInList, b"all,50=e", None, Some([0, 0, FULL | 1 << 50])),
            (NumberForName, b"13=p", None, Some([0x2000, 0, 0])),
            (LaterEqualsRefused, b"cap_chown+e=p", Some([1, 0, 0]), None),
            (UnnamedHasOneOperator, b"=e+p", Some([FULL, 0, FULL]), None),
        ] {
            assert_eq!(read(Switches::NONE, text), without, "{}", departure.name());
            assert_eq!(read(Switches::EVERY, text), with, "{}", departure.name());
            assert_eq!(read(Switches::EVERY.without(departure), text), without, "{}", departure.name());
        }
    }

    #[test]
    fn numbers_are_those_of_c() {
        for (text, value) in [
            ("0", Some(0)),
            ("13", Some(13)),
            ("013", Some(11)),
            ("0x0d", Some(13)),
            ("0XD", Some(13)),
            ("00", Some(0)),
            ("63", Some(63)),
            ("64", None),
            ("08", None),
            ("0x", None),
            ("00x1", None),
            ("1e", None),
            ("", None),
            ("+1", None),
            ("18446744073709551629", None),
            ("0000000000000000000000000000013", Some(11)),
        ] {
            assert_eq!(number(text.as_bytes()), value, "{text}");
        }
    }
}
