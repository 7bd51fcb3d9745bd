//! The written form of sheets, steps and plans ("Sheet, plan and report").

use crate::{Plan, SlotPlan, SlotStep};
use second::{Credentials, Step};
use std::io::Write;

const WRITES: &str = "writing to a vector does not fail";

/// Adds the fifteen lines of the sheet of `credentials`.
pub fn write_sheet(text: &mut Vec<u8>, credentials: &Credentials) {
    let Credentials { ruid, euid, suid, fsuid, rgid, egid, sgid, fsgid, .. } = credentials;
    let Credentials { permitted, inheritable, effective, bounding, ambient, securebits, .. } = credentials;
    let nnp = u8::from(credentials.nnp);
    write!(text, "ruid={ruid}\neuid={euid}\nsuid={suid}\nfsuid={fsuid}\n").expect(WRITES);
    write!(text, "rgid={rgid}\negid={egid}\nsgid={sgid}\nfsgid={fsgid}\n").expect(WRITES);
    write!(text, "permitted={permitted:016x}\ninheritable={inheritable:016x}\neffective={effective:016x}\n")
        .expect(WRITES);
    write!(text, "bounding={bounding:016x}\nambient={ambient:016x}\nsecurebits={securebits:02x}\nnnp={nnp}\n")
        .expect(WRITES);
}

/// Adds the five lines of `step`.
pub fn write_step(text: &mut Vec<u8>, step: &Step) {
    let Step { call, a, b, c, attr } = step;
    write!(text, "call={call}\na={a:016x}\nb={b:016x}\nc={c:016x}\nattr=").expect(WRITES);
    for byte in attr {
        write!(text, "{byte:02x}").expect(WRITES);
    }
    text.push(b'\n');
}

/// Adds the six lines of a step that names its slot.
pub fn write_slot_step(text: &mut Vec<u8>, SlotStep { slot, step }: &SlotStep) {
    write_slot(text, *slot);
    write_step(text, step);
}

/// Adds the line of a slot.
pub fn write_slot(text: &mut Vec<u8>, slot: u8) {
    writeln!(text, "slot={slot}").expect(WRITES);
}

/// Adds the three lines of a report that a step has.
pub fn write_result(text: &mut Vec<u8>, code: u32, value: u64, cause: u32) {
    write!(text, "code={code}\nvalue={value:016x}\ncause={cause}\n").expect(WRITES);
}

impl Plan {
    /// The plan as a text: the sheet, then each step.
    pub fn text(&self) -> Vec<u8> {
        let mut text = Vec::new();
        write_sheet(&mut text, &self.start);
        for step in &self.steps {
            write_step(&mut text, step);
        }
        text
    }
}

impl SlotPlan {
    /// The slot plan as a text: the sheet, then each step with its slot.
    pub fn text(&self) -> Vec<u8> {
        let mut text = Vec::new();
        write_sheet(&mut text, &self.start);
        for step in &self.steps {
            write_slot_step(&mut text, step);
        }
        text
    }
}

#[cfg(test)]
mod tests {
    use super::*;

    // Case 2 of "On the bench": P = I = E = A = {13}, one plain launch.
    #[test]
    fn case_2_byte_for_byte() {
        let raw = 1 << 13;
        let start = Credentials {
            ruid: 1000,
            euid: 1000,
            suid: 1000,
            fsuid: 1000,
            rgid: 1000,
            egid: 1000,
            sgid: 1000,
            fsgid: 1000,
            permitted: raw,
            inheritable: raw,
            effective: raw,
            bounding: 0x1ff_ffff_ffff,
            ambient: raw,
            securebits: 0,
            nnp: false,
        };
        let launch = Step { call: 1, a: 0, b: 0, c: 0, attr: Vec::new() };
        let text = Plan { start, steps: vec![launch] }.text();
        let expected = "ruid=1000\neuid=1000\nsuid=1000\nfsuid=1000\nrgid=1000\negid=1000\nsgid=1000\nfsgid=1000\n\
            permitted=0000000000002000\ninheritable=0000000000002000\neffective=0000000000002000\n\
            bounding=000001ffffffffff\nambient=0000000000002000\nsecurebits=00\nnnp=0\n\
            call=1\na=0000000000000000\nb=0000000000000000\nc=0000000000000000\nattr=\n";
        assert_eq!(text, expected.as_bytes());
    }

    // The first lines of case 2's report, with the cause that "Why it was refused" puts after the value; and a refusal with the longest cause.
    #[test]
    fn results_are_three_lines() {
        let mut text = Vec::new();
        write_result(&mut text, 0, 0, 0);
        write_result(&mut text, 1, 0, 10);
        let expected = "code=0\nvalue=0000000000000000\ncause=0\ncode=1\nvalue=0000000000000000\ncause=10\n";
        assert_eq!(text, expected.as_bytes());
    }

    #[test]
    fn attributes_are_written_in_pairs_of_lower_case_digits() {
        let mut text = Vec::new();
        write_step(&mut text, &Step { call: 99, a: 0xabc, b: u64::MAX, c: 1, attr: vec![0x0a, 0xf0] });
        let expected = "call=99\na=0000000000000abc\nb=ffffffffffffffff\nc=0000000000000001\nattr=0af0\n";
        assert_eq!(text, expected.as_bytes());
    }
    #[test]
    fn the_slot_comes_before_the_call() {
        let mut text = Vec::new();
        let step = Step { call: 30, a: 0, b: 0, c: 0, attr: Vec::new() };
        write_slot_step(&mut text, &SlotStep { slot: 95, step });
        let expected = "slot=95\ncall=30\na=0000000000000000\nb=0000000000000000\nc=0000000000000000\nattr=\n";
        assert_eq!(text, expected.as_bytes());
    }
}
