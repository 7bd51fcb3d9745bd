//! The pieces of work that are timed.

use crate::library::Library;
use measured::batch::{Batch, Kind, STEPS};

/// How many lines of 16 digits are read or written in one call.
const LINES: u64 = 4096;

/// The bytes of such a line: `a=`, the digits and the newline.
const LINE: usize = 19;

/// How many numbers a sheet has.
const SHEET_VALUES: usize = 15;

/// What a piece of work leaves: the numbers that came back and what the caller lent.
#[derive(Clone, PartialEq)]
pub struct Output {
    numbers: Vec<u64>,
    values: Vec<[u64; SHEET_VALUES]>,
    buffers: Vec<Vec<u8>>,
}

impl Output {
    /// In how many of the numbers that came back, or in what was lent for them, the two differ.
    pub fn differing(&self, other: &Output) -> usize {
        let differs = |k: usize| {
            self.numbers[k] != other.numbers[k]
                || self.values.get(k) != other.values.get(k)
                || self.buffers.get(k) != other.buffers.get(k)
        };
        (0..self.numbers.len()).filter(|&k| differs(k)).count()
    }
}

type Run = Box<dyn Fn(&Library, &mut Output)>;

/// One row of the table: what is done, how often it is done in a round, whether it makes calls, and what there is before it.
pub struct Work {
    pub name: String,
    pub units: usize,
    pub makes_calls: bool,
    pub run: Run,
    pub output: Output,
}

/// Numbers whose digits look like any others, by the generator splitmix64.
fn any_number(index: u64) -> u64 {
    let mut z = (index + 1).wrapping_mul(0x9e37_79b9_7f4a_7c15);
    z = (z ^ (z >> 30)).wrapping_mul(0xbf58_476d_1ce4_e5b9);
    z = (z ^ (z >> 27)).wrapping_mul(0x94d0_49bb_1331_11eb);
    z ^ (z >> 31)
}

/// Numbers below 100, of decimal digits alone.
fn small_number(index: u64) -> u64 {
    u64::from_str_radix(&(index % 100).to_string(), 16).expect("decimal digits are hex digits")
}

fn read_digits(name: &str, number: fn(u64) -> u64) -> Work {
    let text: Vec<u8> = (0..LINES).flat_map(|k| format!("a={:016x}\n", number(k)).into_bytes()).collect();
    Work {
        name: format!("16 digits read, {name}"),
        units: LINES as usize,
        makes_calls: false,
        output: Output { numbers: vec![u64::MAX], values: Vec::new(), buffers: Vec::new() },
        run: Box::new(move |library, output| output.numbers[0] = library.read_digits(&text, LINES)),
    }
}

fn write_digits(name: &str, number: fn(u64) -> u64) -> Work {
    let values: Vec<u64> = (0..LINES).map(number).collect();
    Work {
        name: format!("16 digits written, {name}"),
        units: values.len(),
        makes_calls: false,
        output: Output { numbers: vec![0], values: Vec::new(), buffers: vec![vec![0; values.len() * LINE]] },
        run: Box::new(move |library, output| {
            output.numbers[0] = library.write_digits(&values, &mut output.buffers[0]);
        }),
    }
}

/// The sheets of the plans without steps.
fn sheets() -> Batch {
    Batch::new(Kind::WellFormed, 0)
}

fn read_sheet() -> Work {
    let sheets = sheets().plans;
    Work {
        name: "a sheet read".into(),
        units: sheets.len(),
        makes_calls: false,
        output: Output {
            numbers: vec![0; sheets.len()],
            values: vec![[u64::MAX; SHEET_VALUES]; sheets.len()],
            buffers: Vec::new(),
        },
        run: Box::new(move |library, output| {
            for ((sheet, values), number) in sheets.iter().zip(&mut output.values).zip(&mut output.numbers) {
                *number = library.read_sheet(sheet, values);
            }
        }),
    }
}

fn write_sheet() -> Work {
    let sheets = sheets();
    let values: Vec<[u64; SHEET_VALUES]> = sheets.plans.iter().map(|sheet| values_of(sheet)).collect();
    Work {
        name: "a sheet written".into(),
        units: values.len(),
        makes_calls: false,
        output: Output {
            numbers: vec![0; values.len()],
            values: Vec::new(),
            buffers: sheets.rooms.iter().map(|&room| vec![0; room]).collect(),
        },
        run: Box::new(move |library, output| {
            for ((values, buffer), number) in values.iter().zip(&mut output.buffers).zip(&mut output.numbers) {
                *number = library.write_sheet(values, buffer);
            }
        }),
    }
}

/// The values of a sheet's lines.
fn values_of(sheet: &[u8]) -> [u64; SHEET_VALUES] {
    let mut values = [0; SHEET_VALUES];
    let number = urrezkalu::interface::read_sheet(sheet, &mut values);
    assert_eq!(number, SHEET_VALUES as u64, "a sheet that is to be measured is refused");
    values
}

fn plans(kind: Kind, steps: usize) -> Work {
    let Batch { plans, rooms, .. } = Batch::new(kind, steps);
    Work {
        name: format!("a {kind} plan of {steps} step{}", if steps == 1 { "" } else { "s" }),
        units: plans.len(),
        makes_calls: matches!(kind, Kind::WellFormed) && steps > 0,
        output: Output {
            numbers: vec![0; plans.len()],
            values: Vec::new(),
            buffers: rooms.iter().map(|&room| vec![0; room]).collect(),
        },
        run: Box::new(move |library, output| {
            for ((plan, buffer), number) in plans.iter().zip(&mut output.buffers).zip(&mut output.numbers) {
                *number = library.run_plan(plan, buffer);
            }
        }),
    }
}

/// All of them, in the order of the table.
pub fn all() -> Vec<Work> {
    let mut all = vec![
        read_digits("any", any_number),
        read_digits("of small numbers", small_number),
        write_digits("any", any_number),
        write_digits("of small numbers", small_number),
        read_sheet(),
        write_sheet(),
    ];
    for kind in [Kind::WellFormed, Kind::Broken] {
        all.extend(STEPS.map(|steps| plans(kind, steps)));
    }
    all
}

#[cfg(test)]
mod tests {
    use super::*;

    #[test]
    fn what_differs_is_counted_once() {
        let output = Output { numbers: vec![1, 2, 3], values: Vec::new(), buffers: vec![vec![0; 2]; 3] };
        assert_eq!(output.differing(&output), 0);
        let mut other = output.clone();
        other.buffers[1][1] = 1;
        other.numbers[1] = 9;
        other.buffers[2][0] = 1;
        assert_eq!(output.differing(&other), 2);
    }
}
