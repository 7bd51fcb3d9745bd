//! The harness, a C program: plans go in, what the kernel did comes out.

use crate::credentials::{Credentials, Ids, Outcome, Thread};
use crate::family::table::{Table, TableOutcome};
use crate::family::SlotPlan;
use crate::image::{attribute_field, Image};
use crate::step::{Plan, Step, Tracer, EXECVE, TRACED};
use std::collections::BTreeMap;
use std::fmt::Write as _;
use std::io::{self, BufRead, BufReader, Read, Write};
use std::process::{Child, ChildStdin, ChildStdout, Command, Stdio};

const EINVAL: u32 = 22;
const UNREADABLE: u32 = 60;

/// A harness at work.
pub struct Harness {
    child: Child,
    input: ChildStdin,
    output: BufReader<ChildStdout>,
    /// What a start can be made of.
    pub permitted: u64,
    pub bounding: u64,
}

/// What the kernel did with a plan.
pub struct Observation {
    pub start: Seen,
    pub outcomes: Vec<Seen>,
}

/// What a step came to, and the text of the thread's status file after it. The start is a step that does nothing.
pub struct Seen {
    pub outcome: Outcome,
    pub status: Vec<u8>,
}

/// What the kernel did with a slot plan. Nothing stands for a step that there was no thread to ask, or no slot to fork into.
pub struct FamilyObservation {
    pub start: FamilySeen,
    pub steps: Vec<Option<FamilySeen>>,
}

/// What a step of a slot plan came to, and the text of every thread's status file after it, by its slot.
pub struct FamilySeen {
    pub outcome: TableOutcome,
    pub statuses: BTreeMap<usize, Vec<u8>>,
}

impl Harness {
    /// Starts the program at `path`, with `tag` for the name of its mounts. The error says why it did not start or that it ended.
    pub fn new(path: &str, tag: &str) -> io::Result<Harness> {
        let mut child = Command::new(path).arg(tag).stdin(Stdio::piped()).stdout(Stdio::piped()).spawn()?;
        let (Some(input), Some(output)) = (child.stdin.take(), child.stdout.take()) else {
            unreachable!("both are pipes")
        };
        let mut harness = Harness { child, input, output: BufReader::new(output), permitted: 0, bounding: 0 };
        let line = harness.line()?;
        let mut numbers = numbers(line.strip_prefix("machine ").ok_or_else(|| malformed(&line))?);
        (harness.permitted, harness.bounding) = numbers.next().zip(numbers.next()).ok_or_else(|| malformed(&line))?;
        Ok(harness)
    }

    /// Has the image made and mounted.
    pub fn make_image(&mut self, image: &Image) -> io::Result<()> {
        self.input.write_all(image.lines().as_bytes())?;
        self.input.flush()
    }

    /// Runs a plan on the kernel.
    pub fn run(&mut self, plan: &Plan) -> io::Result<Observation> {
        let mut text = format!("plan {:x}\n{}", plan.steps.len(), start_line(&plan.start));
        plan.steps.iter().for_each(|step| text += &step_line(step));
        self.input.write_all(text.as_bytes())?;
        self.input.flush()?;
        let start = self.outcome(&Step::default())?;
        let outcomes = plan.steps.iter().map(|step| self.outcome(step)).collect::<io::Result<_>>()?;
        Ok(Observation { start, outcomes })
    }

    /// Runs a slot plan on the kernel.
    pub fn run_family(&mut self, plan: &SlotPlan) -> io::Result<FamilyObservation> {
        let mut text = format!("family {:x}\n{}", plan.steps.len(), start_line(&plan.start));
        for slot_step in &plan.steps {
            let _ = write!(text, "{:x} {}", slot_step.slot, step_line(&slot_step.step));
        }
        self.input.write_all(text.as_bytes())?;
        self.input.flush()?;
        let start = self.family(&Step::default())?.ok_or_else(|| malformed("none"))?;
        let steps = plan.steps.iter().map(|step| self.family(&step.step)).collect::<io::Result<_>>()?;
        Ok(FamilyObservation { start, steps })
    }

    /// Ends the harness and waits until it is gone.
    pub fn end(self) -> io::Result<()> {
        let Harness { mut child, input, output, .. } = self;
        drop((input, output));
        let status = child.wait()?;
        if status.success() {
            return Ok(());
        }
        Err(io::Error::other(format!("the harness ended with {status}")))
    }

    fn line(&mut self) -> io::Result<String> {
        let mut line = String::new();
        if self.output.read_line(&mut line)? == 0 {
            return Err(io::Error::other(format!("the harness ended with {}", self.child.wait()?)));
        }
        Ok(line)
    }

    fn outcome(&mut self, step: &Step) -> io::Result<Seen> {
        let line = self.line()?;
        let mut numbers = numbers(&line);
        let (Some(error), Some(value)) = (numbers.next(), numbers.next()) else { return Err(malformed(&line)) };
        let (after, status) = self.thread(&line, numbers)?;
        Ok(Seen { outcome: Outcome { code: code(error, step), value, after }, status })
    }

    fn family(&mut self, step: &Step) -> io::Result<Option<FamilySeen>> {
        let line = self.line()?;
        if line == "none\n" {
            return Ok(None);
        }
        let found: Vec<u64> = numbers(&line).collect();
        let [error, value, threads] = found[..] else { return Err(malformed(&line)) };
        let mut after = Table::default();
        let mut statuses = BTreeMap::new();
        for _ in 0..threads {
            let line = self.line()?;
            let mut numbers = numbers(&line);
            let slot = numbers.next().ok_or_else(|| malformed(&line))? as usize;
            let (thread, status) = self.thread(&line, numbers)?;
            after.0.insert(slot, thread);
            statuses.insert(slot, status);
        }
        Ok(Some(FamilySeen { outcome: TableOutcome { code: code(error, step), value, after }, statuses }))
    }

    // What a thread holds, from the rest of a line's numbers, and the text of its status file, which stands after the line.
    fn thread(&mut self, line: &str, mut numbers: impl Iterator<Item = u64>) -> io::Result<(Thread, Vec<u8>)> {
        let credentials = credentials(&mut numbers).ok_or_else(|| malformed(line))?;
        let mut status = vec![0; numbers.next().ok_or_else(|| malformed(line))? as usize];
        self.output.read_exact(&mut status)?;
        let member = member(&status).ok_or_else(|| malformed(&String::from_utf8_lossy(&status)))?;
        Ok((Thread { credentials, member }, status))
    }
}

// The one supplementary group of a status file, or none.
fn member(status: &[u8]) -> Option<Option<u32>> {
    let mut lines = std::str::from_utf8(status).ok()?.lines();
    let groups = lines.find_map(|line| line.strip_prefix("Groups:"))?;
    let mut groups = groups.split_ascii_whitespace().map(str::parse);
    match (groups.next(), groups.next()) {
        (None, _) => Some(None),
        (Some(group), None) => group.ok().map(Some),
        _ => None,
    }
}

// EINVAL from execve(2) is the paper's 60: the file is as it should be but for its attribute.
fn code(error: u64, step: &Step) -> u32 {
    match error as u32 {
        EINVAL if step.call == EXECVE => UNREADABLE,
        code => code,
    }
}

fn malformed(line: &str) -> io::Error {
    io::Error::other(format!("the harness wrote {line:?}"))
}

fn numbers(line: &str) -> impl Iterator<Item = u64> + '_ {
    line.split_ascii_whitespace().map_while(|word| u64::from_str_radix(word, 16).ok())
}

fn credentials(numbers: &mut impl Iterator<Item = u64>) -> Option<Credentials> {
    let mut ids = || {
        let mut id = || numbers.next().map(|number| number as u32);
        Some(Ids { real: id()?, effective: id()?, saved: id()?, filesystem: id()? })
    };
    let (uids, gids) = (ids()?, ids()?);
    let mut next = || numbers.next();
    Some(Credentials {
        uids,
        gids,
        permitted: next()?,
        inheritable: next()?,
        effective: next()?,
        bounding: next()?,
        ambient: next()?,
        securebits: next()? as u32,
        nnp: next()? != 0,
    })
}

fn start_line(start: &Thread) -> String {
    let Thread { credentials, member } = start;
    let Credentials { uids, gids, permitted, inheritable, effective, bounding, ambient, securebits, nnp } = credentials;
    let mut text = String::new();
    for Ids { real, effective, saved, filesystem } in [uids, gids] {
        let _ = write!(text, "{real:x} {effective:x} {saved:x} {filesystem:x} ");
    }
    let _ = write!(text, "{permitted:x} {inheritable:x} {effective:x} {bounding:x} {ambient:x} ");
    let _ = writeln!(text, "{securebits:x} {:x} {:x}", u8::from(*nnp), member.unwrap_or(u32::MAX));
    text
}

fn step_line(step: &Step) -> String {
    let tracer = match step.setting.tracer {
        _ if step.call != EXECVE || !step.flagged(TRACED) => 0,
        Tracer::Asked => 1,
        Tracer::Seized => 2,
    };
    let mut text = format!("{:x} {:x} {:x} {:x} ", step.call, step.a, step.b, step.c);
    let _ = write!(text, "{tracer:x} {:x} ", u8::from(step.setting.without_group_execution));
    // The attribute of a file of the image is there already.
    let attribute = if step.setting.image.is_some() { &[] } else { &step.attribute[..] };
    let _ = writeln!(text, "{:x} {}", step.setting.image.unwrap_or(u32::MAX), attribute_field(attribute));
    text
}

#[cfg(test)]
mod tests {
    use super::member;

    #[test]
    fn one_supplementary_group_or_none() {
        let status = |groups: &str| format!("Gid:\t1\t2\t3\t4\nFDSize:\t256\nGroups:\t{groups} \nNStgid:\t7\n");
        assert_eq!(member(status("").as_bytes()), Some(None));
        assert_eq!(member(status("3000").as_bytes()), Some(Some(3000)));
        assert_eq!(member(status("4294967294").as_bytes()), Some(Some(4294967294)));
        assert_eq!(member(status("3000 3001").as_bytes()), None);
        assert_eq!(member(status("x").as_bytes()), None);
        assert_eq!(member(b"Gid:\t1\t2\t3\t4\n"), None);
    }
}
