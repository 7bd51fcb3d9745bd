//! Faults within one line of a text.

use super::Fault;
use crate::random::Random;
use crate::MOST_STEPS;

pub(crate) const SHEET_LINES: usize = 15;

/// Which steps a text has: those of a plan, or those of a slot plan, with the slot's line before each.
#[derive(Clone, Copy, Debug, PartialEq, Eq)]
pub(crate) enum Steps {
    OfPlans,
    OfSlotPlans,
}

impl Steps {
    /// How many lines a step has.
    pub(crate) fn lines(self) -> usize {
        match self {
            Steps::OfPlans => 5,
            Steps::OfSlotPlans => 6,
        }
    }

    /// The line of refusal 70 for a 257th step.
    pub(super) fn line_of_step_257(self) -> usize {
        SHEET_LINES + self.lines() * MOST_STEPS + 1
    }

    /// A step without operands or attribute.
    pub(super) fn launch(self) -> &'static [u8] {
        match self {
            Steps::OfPlans => b"call=1\na=0000000000000000\nb=0000000000000000\nc=0000000000000000\nattr=\n",
            Steps::OfSlotPlans => {
                b"slot=0\ncall=1\na=0000000000000000\nb=0000000000000000\nc=0000000000000000\nattr=\n"
            }
        }
    }
}

/// The form of a line's value.
#[derive(Clone, Copy, PartialEq, Eq)]
pub(super) enum Form {
    /// Decimal, up to 4294967295.
    Id,
    /// 16 hex digits.
    Mask,
    /// 2 hex digits.
    Securebits,
    /// 0 or 1.
    Flag,
    /// Decimal, up to 99: a call or a slot.
    Call,
    /// 0 to 48 hex digits, an even number.
    Attribute,
}

impl Form {
    /// The form in the line at that place of a plan or a slot plan, counted from 0.
    pub(super) fn of_line(at: usize, steps: Steps) -> Form {
        match at {
            0..=7 => Form::Id,
            8..=12 => Form::Mask,
            13 => Form::Securebits,
            14 => Form::Flag,
            // From the last line of the step.
            _ => match steps.lines() - 1 - (at - SHEET_LINES) % steps.lines() {
                0 => Form::Attribute,
                1..=3 => Form::Mask,
                _ => Form::Call,
            },
        }
    }

    fn is_decimal(self) -> bool {
        matches!(self, Form::Id | Form::Call)
    }

    fn is_hex(self) -> bool {
        matches!(self, Form::Mask | Form::Securebits | Form::Attribute)
    }
}

/// Whether a line of that form can have the fault.
pub(super) fn can_have(form: Form, fault: Fault) -> bool {
    match fault {
        Fault::UpperCase | Fault::DigitLost => form.is_hex(),
        Fault::DigitAdded => form.is_hex() || form == Form::Flag,
        Fault::LeadingZero => form.is_decimal(),
        Fault::Sign => form.is_decimal() || form == Form::Flag,
        Fault::TooLarge => form.is_decimal() || form == Form::Flag,
        Fault::NoDigits => form != Form::Attribute,
        Fault::LongAttribute => form == Form::Attribute,
        Fault::OtherFamily => form == Form::Id,
        _ => true,
    }
}

/// The line with the fault in it.
pub(super) fn changed(random: &mut Random, fault: Fault, form: Form, line: &[u8]) -> Vec<u8> {
    match fault {
        Fault::WrongKey => with_wrong_key(random, line),
        Fault::OtherFamily => with_key_of_the_other_family(line),
        Fault::CarriageReturn => [&line[..line.len() - 1], b"\r\n"].concat(),
        Fault::Nul => with_byte(random, line, 0),
        Fault::NotAscii => {
            let byte = 128 + random.below(128) as u8;
            with_byte(random, line, byte)
        }
        _ => {
            let after_key = line.iter().position(|byte| *byte == b'=').expect("a line has a key") + 1;
            let (key, value) = line[..line.len() - 1].split_at(after_key);
            [key, &wrong_value(random, fault, form, value), b"\n"].concat()
        }
    }
}

// The line with a byte more, anywhere before its newline.
fn with_byte(random: &mut Random, line: &[u8], byte: u8) -> Vec<u8> {
    let mut line = line.to_vec();
    line.insert(random.below(line.len()), byte);
    line
}

fn with_wrong_key(random: &mut Random, line: &[u8]) -> Vec<u8> {
    let mut line = line.to_vec();
    let equals = line.iter().position(|byte| *byte == b'=').expect("a line has a key");
    match random.below(9) {
        0 | 1 => line[0] = line[0].to_ascii_uppercase(),
        2 => line[equals] = random.pick(b": \t-;>\n"),
        3 => line.insert(equals, random.pick(b" =sx")),
        4 => line.insert(0, random.pick(b" \t#;+x")),
        5 => {
            line.remove(random.below(equals + 1));
        }
        6 => line[equals - 1] ^= 1 << random.below(8),
        7 => {
            line.drain(..=equals);
        }
        _ => line.splice(..equals, random.pick(&[*b"uid", *b"gid"])).for_each(drop),
    }
    line
}

// The line of a user ID with the key of the group ID, or the other way round: the letter before "id" tells them apart.
fn with_key_of_the_other_family(line: &[u8]) -> Vec<u8> {
    let mut line = line.to_vec();
    let equals = line.iter().position(|byte| *byte == b'=').expect("a line has a key");
    let letter = &mut line[equals - 3];
    *letter = if *letter == b'u' { b'g' } else { b'u' };
    line
}

fn wrong_value(random: &mut Random, fault: Fault, form: Form, value: &[u8]) -> Vec<u8> {
    let mut value = value.to_vec();
    match fault {
        Fault::NotADigit => {
            let byte = if form.is_hex() { random.pick(b"//::``gg@GXx. ") } else { random.pick(b"//::aAxe. ") };
            put_at_a_digit(random, &mut value, byte);
        }
        Fault::UpperCase => {
            let digit = random.pick(b"ABCDEF");
            put_at_a_digit(random, &mut value, digit);
        }
        Fault::LeadingZero => value.splice(0..0, vec![b'0'; random.pick(&[1, 1, 2, 9, 20])]).for_each(drop),
        Fault::Sign => value.insert(0, random.pick(b"+-")),
        Fault::TooLarge => value = too_large(random, form).as_bytes().to_vec(),
        Fault::NoDigits => value.clear(),
        Fault::DigitLost if value.is_empty() => value.push(b'0'),
        Fault::DigitLost => {
            value.remove(random.below(value.len()));
        }
        Fault::DigitAdded => value.insert(random.below(value.len() + 1), random.pick(b"01f")),
        Fault::LongAttribute => value.resize(random.pick(&[49, 50, 50, 51, 52, 64, 96, 256, 512]), b'0'),
        _ => {
            let at = random.pick(&[0, value.len()]);
            value.insert(at, random.pick(b" \t"));
        }
    }
    if form == Form::Flag && (value == b"0" || value == b"1") {
        value.push(b'0');
    }
    value
}

// Puts the byte in the place of a digit; into an attribute of no digits, beside one.
fn put_at_a_digit(random: &mut Random, value: &mut Vec<u8>, byte: u8) {
    if value.is_empty() {
        value.extend_from_slice(b"00");
    }
    let at = random.below(value.len());
    value[at] = byte;
}

// One too large, right in the low 8, 32 or 64 bits, one digit too many.
fn too_large(random: &mut Random, form: Form) -> &'static str {
    match form {
        Form::Id => random.pick(&[
            "4294967296",
            "4294967297",
            "4294968296",
            "9999999999",
            "10000000000",
            "42949672950",
            "18446744073709551616",
            "18446744073709552616",
            "340282366920938463463374607431768211456",
        ]),
        Form::Call => random.pick(&[
            "100",
            "100",
            "100",
            "101",
            "118",
            "122",
            "256",
            "257",
            "65537",
            "4294967297",
            "18446744073709551617",
            "340282366920938463463374607431768211457",
        ]),
        _ => random.pick(&["2", "2", "2", "3", "9", "10", "11", "256", "257"]),
    }
}
