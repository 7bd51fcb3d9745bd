//! Reads the text of a plan: a sheet of credentials and up to 256 steps, each line a key, `=` and a value. In a slot
//! plan each step begins with its slot. A sheet can also stand alone.

use crate::credentials::Credentials;
use crate::decode::Step;

const MAX_STEPS: usize = 256;
const MAX_CALL: u32 = 99;
const MAX_ATTRIBUTE_DIGITS: usize = 48;

/// The longest value of any line; a longer line is wrong wherever it ends.
const MAX_VALUE: usize = MAX_ATTRIBUTE_DIGITS;

/// A plan as its text gives it, in steps of either form; the credentials need not be valid.
#[derive(Debug, PartialEq, Eq)]
pub(crate) struct Plan<S> {
    pub(crate) start: Credentials,
    pub(crate) steps: Vec<S>,
}

/// One step of a slot plan; there need not be such a slot.
#[derive(Debug, PartialEq, Eq)]
pub(crate) struct SlotStep {
    pub(crate) slot: u8,
    pub(crate) step: Step,
}

/// The text is no plan, or no sheet; the line is one more than the complete correct lines before the fault.
#[derive(Debug, PartialEq, Eq)]
pub(crate) struct Malformed {
    pub(crate) line: u32,
}

/// Reads a whole plan; nothing may follow its last step.
pub(crate) fn read_plan(text: &[u8]) -> Result<Plan<Step>, Malformed> {
    read_steps(text, Reader::step)
}

/// Reads a whole slot plan; nothing may follow its last step.
pub(crate) fn read_slot_plan(text: &[u8]) -> Result<Plan<SlotStep>, Malformed> {
    read_steps(text, Reader::slot_step)
}

/// Reads a sheet, and steps to the end of the text, each by `read_step`.
fn read_steps<'t, S>(
    text: &'t [u8],
    read_step: impl Fn(&mut Reader<'t>) -> Result<S, Malformed>,
) -> Result<Plan<S>, Malformed> {
    let mut reader = Reader { rest: text, line: 1 };
    let start = reader.sheet()?;
    let mut steps = Vec::new();
    while !reader.rest.is_empty() {
        if steps.len() == MAX_STEPS {
            return Err(reader.fault());
        }
        steps.push(read_step(&mut reader)?);
    }
    Ok(Plan { start, steps })
}

/// Reads a sheet that stands alone; nothing may follow its last line.
pub(crate) fn read_sheet(text: &[u8]) -> Result<Credentials, Malformed> {
    let mut reader = Reader { rest: text, line: 1 };
    let credentials = reader.sheet()?;
    if !reader.rest.is_empty() {
        return Err(reader.fault());
    }
    Ok(credentials)
}

/// The text still to be read, and the number of its first line.
struct Reader<'t> {
    rest: &'t [u8],
    line: u32,
}

impl Reader<'_> {
    fn sheet(&mut self) -> Result<Credentials, Malformed> {
        Ok(Credentials {
            ruid: self.line("ruid=", id)?,
            euid: self.line("euid=", id)?,
            suid: self.line("suid=", id)?,
            fsuid: self.line("fsuid=", id)?,
            rgid: self.line("rgid=", id)?,
            egid: self.line("egid=", id)?,
            sgid: self.line("sgid=", id)?,
            fsgid: self.line("fsgid=", id)?,
            permitted: self.line("permitted=", word)?,
            inheritable: self.line("inheritable=", word)?,
            effective: self.line("effective=", word)?,
            bounding: self.line("bounding=", word)?,
            ambient: self.line("ambient=", word)?,
            securebits: self.line("securebits=", byte)?,
            nnp: self.line("nnp=", flag)?,
        })
    }

    fn step(&mut self) -> Result<Step, Malformed> {
        Ok(Step {
            call: self.line("call=", call)?,
            a: self.line("a=", word)?,
            b: self.line("b=", word)?,
            c: self.line("c=", word)?,
            attr: self.line("attr=", bytes)?,
        })
    }

    fn slot_step(&mut self) -> Result<SlotStep, Malformed> {
        Ok(SlotStep { slot: self.line("slot=", call)?, step: self.step()? })
    }

    /// Reads one line: its key with the `=`, a value that `read` takes, and a newline.
    fn line<T>(&mut self, key: &str, read: impl Fn(&[u8]) -> Option<T>) -> Result<T, Malformed> {
        let line = self.rest.strip_prefix(key.as_bytes()).and_then(split_at_newline);
        let (value, rest) = line.ok_or_else(|| self.fault())?;
        let value = read(value).ok_or_else(|| self.fault())?;
        self.rest = rest;
        self.line += 1;
        Ok(value)
    }

    fn fault(&self) -> Malformed {
        Malformed { line: self.line }
    }
}

/// What stands before the newline and what after it, if a newline comes while the value can still be right.
fn split_at_newline(text: &[u8]) -> Option<(&[u8], &[u8])> {
    let end = text.iter().take(MAX_VALUE + 1).position(|&byte| byte == b'\n')?;
    Some((&text[..end], &text[end + 1..]))
}

/// A decimal number without leading zeros, at most `u32::MAX`.
fn decimal(value: &[u8]) -> Option<u32> {
    if value.is_empty() || (value.len() > 1 && value[0] == b'0') {
        return None;
    }
    let mut number: u32 = 0;
    for &byte in value {
        if !byte.is_ascii_digit() {
            return None;
        }
        number = number.checked_mul(10)?.checked_add(u32::from(byte - b'0'))?;
    }
    Some(number)
}

/// A number of exactly so many lower-case hexadecimal digits, 16 at most.
fn hexadecimal(value: &[u8], digits: usize) -> Option<u64> {
    if value.len() != digits {
        return None;
    }
    let mut number = 0;
    for &byte in value {
        number = number << 4 | u64::from(hex_digit(byte)?);
    }
    Some(number)
}

fn hex_digit(byte: u8) -> Option<u8> {
    match byte {
        b'0'..=b'9' => Some(byte - b'0'),
        b'a'..=b'f' => Some(byte - b'a' + 10),
        _ => None,
    }
}

/// A user or group ID; 4294967295 can be written, but is not valid.
pub(crate) fn id(value: &[u8]) -> Option<u32> {
    decimal(value)
}

/// A call's number, or a slot's, which is written like it.
fn call(value: &[u8]) -> Option<u8> {
    let number = decimal(value).filter(|&number| number <= MAX_CALL)?;
    u8::try_from(number).ok()
}

/// A capability set or an operand.
pub(crate) fn word(value: &[u8]) -> Option<u64> {
    hexadecimal(value, 16)
}

/// The securebits.
fn byte(value: &[u8]) -> Option<u8> {
    u8::try_from(hexadecimal(value, 2)?).ok()
}

/// A flag such as no-new-privs, 0 or 1.
pub(crate) fn flag(value: &[u8]) -> Option<bool> {
    match value {
        b"0" => Some(false),
        b"1" => Some(true),
        _ => None,
    }
}

/// The attribute, two digits to a byte.
fn bytes(value: &[u8]) -> Option<Vec<u8>> {
    let pairs = value.chunks_exact(2);
    if value.len() > MAX_ATTRIBUTE_DIGITS || !pairs.remainder().is_empty() {
        return None;
    }
    let mut bytes = Vec::with_capacity(value.len() / 2);
    for pair in pairs {
        bytes.push(hex_digit(pair[0])? << 4 | hex_digit(pair[1])?);
    }
    Some(bytes)
}

#[cfg(test)]
mod tests {
    use super::*;

    #[test]
    fn decimals() {
        assert_eq!(decimal(b"0"), Some(0));
        assert_eq!(decimal(b"7"), Some(7));
        assert_eq!(decimal(b"4294967295"), Some(u32::MAX));
        for wrong in ["", "00", "07", "+7", "-7", "7 ", " 7", "7a", "0x7", "4294967296", "42949672950", "7\r", "\0"] {
            assert_eq!(decimal(wrong.as_bytes()), None, "{wrong:?}");
        }
    }

    #[test]
    fn calls_go_to_99() {
        assert_eq!(call(b"0"), Some(0));
        assert_eq!(call(b"99"), Some(99));
        for wrong in ["", "01", "100", "256", "4294967296", "a"] {
            assert_eq!(call(wrong.as_bytes()), None, "{wrong:?}");
        }
    }

    #[test]
    fn words_have_sixteen_lower_case_digits() {
        assert_eq!(word(b"0123456789abcdef"), Some(0x0123_4567_89ab_cdef));
        assert_eq!(word(b"ffffffffffffffff"), Some(u64::MAX));
        for wrong in ["", "0", "012345678abcdef", "0123456789abcdef0", "0123456789ABCDEF", "+123456789abcdef"] {
            assert_eq!(word(wrong.as_bytes()), None, "{wrong:?}");
        }
        assert_eq!(word(b"0123456789abcde\xff"), None);
        assert_eq!(word(b"0123456789abcdeg"), None);
    }

    #[test]
    fn securebits_have_two_digits() {
        assert_eq!(byte(b"00"), Some(0));
        assert_eq!(byte(b"ff"), Some(255));
        for wrong in ["", "0", "000", "FF", "+f", "0 "] {
            assert_eq!(byte(wrong.as_bytes()), None, "{wrong:?}");
        }
    }

    #[test]
    fn flags_are_one_digit() {
        assert_eq!(flag(b"0"), Some(false));
        assert_eq!(flag(b"1"), Some(true));
        for wrong in ["", "2", "00", "01", "true"] {
            assert_eq!(flag(wrong.as_bytes()), None, "{wrong:?}");
        }
    }

    #[test]
    fn attributes_have_up_to_24_bytes() {
        assert_eq!(bytes(b""), Some(vec![]));
        assert_eq!(bytes(b"00ff1a"), Some(vec![0x00, 0xff, 0x1a]));
        assert_eq!(bytes(&[b'5'; 48]), Some(vec![0x55; 24]));
        for wrong in ["0", "000", "0G", "A0", "0 ", "+1"] {
            assert_eq!(bytes(wrong.as_bytes()), None, "{wrong:?}");
        }
        assert_eq!(bytes(&[b'0'; 49]), None);
        assert_eq!(bytes(&[b'0'; 50]), None);
    }
}
