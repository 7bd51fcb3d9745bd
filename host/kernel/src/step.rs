//! A step of a plan: one call with its operands, and for a launch what the plan leaves open and the machine needs.

use crate::credentials::LEAVE;
use std::fmt::Write;

/// The calls by their numbers.
pub const EXECVE: u32 = 1;
pub const CAPSET: u32 = 2;
pub const BOUNDING_DROP: u32 = 3;
pub const BOUNDING_READ: u32 = 4;
pub const AMBIENT_RAISE: u32 = 5;
pub const AMBIENT_LOWER: u32 = 6;
pub const AMBIENT_IS_SET: u32 = 7;
pub const AMBIENT_CLEAR: u32 = 8;
pub const SET_SECUREBITS: u32 = 9;
pub const GET_SECUREBITS: u32 = 10;
pub const SET_KEEP_CAPS: u32 = 11;
pub const GET_KEEP_CAPS: u32 = 12;
pub const SET_NO_NEW_PRIVS: u32 = 13;
pub const GET_NO_NEW_PRIVS: u32 = 14;
pub const SETUID: u32 = 15;
pub const SETREUID: u32 = 16;
pub const SETRESUID: u32 = 17;
pub const SETFSUID: u32 = 18;
pub const SETGID: u32 = 19;
pub const SETREGID: u32 = 20;
pub const SETRESGID: u32 = 21;
pub const SETFSGID: u32 = 22;

/// The two operations that only a slot plan has. In a plan these numbers are no call.
pub const FORK: u32 = 30;
pub const EXIT: u32 = 31;

/// The calls of user IDs and those of group IDs, which have the same rules.
pub const USER_ID_CALLS: [u32; 4] = [SETUID, SETREUID, SETRESUID, SETFSUID];
pub const GROUP_ID_CALLS: [u32; 4] = [SETGID, SETREGID, SETRESGID, SETFSGID];

/// The calls' names, by their numbers.
const NAMES: [&str; 23] = [
    "",
    "execve",
    "capset",
    "bounding drop",
    "bounding read",
    "ambient raise",
    "ambient lower",
    "ambient is-set",
    "ambient clear",
    "set securebits",
    "get securebits",
    "set keep-caps",
    "get keep-caps",
    "set no-new-privs",
    "get no-new-privs",
    "setuid",
    "setreuid",
    "setresuid",
    "setfsuid",
    "setgid",
    "setregid",
    "setresgid",
    "setfsgid",
];

/// The name of a call or an operation.
pub fn call_name(call: u32) -> &'static str {
    match call {
        FORK => "fork",
        EXIT => "exit",
        _ => NAMES.get(call as usize).copied().unwrap_or(""),
    }
}

/// How many of the operands a call uses, by its number.
const OPERANDS: [usize; 23] = [0, 3, 3, 1, 1, 1, 1, 1, 0, 1, 0, 1, 0, 1, 0, 1, 2, 3, 1, 1, 2, 3, 1];

/// Why a step with an attribute is not run that is no launch.
pub const ATTRIBUTE_ELSEWHERE: &str = "an attribute in a call that is no launch";

/// The flags of a launch.
pub const SET_USER_ID: u64 = 1;
pub const SET_GROUP_ID: u64 = 2;
pub const NOSUID: u64 = 4;
pub const TRACED: u64 = 8;
pub const NO_FILE_CAPS: u64 = 16;
pub const FLAGS: u64 = 31;

/// Who traces a launch: the parent, because the thread asked for it, or the harness, which seized the thread. In the first case the kernel keeps the
/// thread's own credentials as the tracer's, in the second the harness's.
#[derive(Clone, Copy, Debug, Default, PartialEq, Eq)]
pub enum Tracer {
    #[default]
    Asked,
    Seized,
}

/// What a plan does not say about the file of a launch.
#[derive(Clone, Copy, Debug, Default, PartialEq, Eq)]
pub struct Setting {
    pub tracer: Tracer,
    /// The file's number in the image, for attributes that setxattr(2) refuses.
    pub image: Option<u32>,
    /// An attribute is attached and has no bytes, where the plan can only say that none is attached.
    pub attached_without_bytes: bool,
    /// The file's group may not execute it.
    pub without_group_execution: bool,
}

/// One call of a plan.
#[derive(Clone, Debug, Default, PartialEq, Eq)]
pub struct Step {
    pub call: u32,
    pub a: u64,
    pub b: u64,
    pub c: u64,
    pub attribute: Vec<u8>,
    pub setting: Setting,
}

impl Step {
    /// A call without operands.
    pub fn new(call: u32) -> Step {
        Step { call, ..Step::default() }
    }

    /// A call with its operands.
    pub fn with(call: u32, a: u64, b: u64, c: u64) -> Step {
        Step { call, a, b, c, ..Step::default() }
    }

    /// A launch of a file of group 0 with that owner, those flags and that attribute.
    pub fn launch(owner: u32, flags: u64, attribute: &[u8]) -> Step {
        Step { attribute: attribute.to_vec(), ..Step::with(EXECVE, u64::from(owner), flags, 0) }
    }

    /// The same launch of a file of that group.
    pub fn of_group(self, group: u32) -> Step {
        Step { c: u64::from(group), ..self }
    }

    /// Whether the launch has all of these flags.
    pub fn flagged(&self, flags: u64) -> bool {
        self.b & flags == flags
    }

    /// Whether an operand that the call does not use is not 0.
    pub fn has_unused_operand(&self) -> bool {
        let used = OPERANDS.get(self.call as usize).copied().unwrap_or(0);
        [self.a, self.b, self.c][used..].iter().any(|&operand| operand != 0)
    }

    /// The five lines of a plan.
    pub fn lines(&self) -> String {
        format!(
            "call={}\na={:016x}\nb={:016x}\nc={:016x}\nattr={}\n",
            self.call,
            self.a,
            self.b,
            self.c,
            hex(&self.attribute)
        )
    }

    /// Reads the five lines of a step, or says nothing where they are not a step's.
    pub fn from_lines<'a>(lines: &mut impl Iterator<Item = &'a str>) -> Option<Step> {
        let mut value = |key: &str| lines.next()?.strip_prefix(key)?.strip_prefix('=');
        let call = value("call")?.parse().ok()?;
        let mut number = |key: &str| u64::from_str_radix(value(key)?, 16).ok();
        let mut step = Step::with(call, number("a")?, number("b")?, number("c")?);
        step.attribute = bytes(value("attr")?)?;
        Some(step)
    }

    /// Why the machine cannot be asked this step, if it cannot.
    pub fn not_run(&self) -> Option<&'static str> {
        match self.call {
            0 | 23.. => Some("a number that is no call"),
            EXECVE if self.a >= u64::from(LEAVE) => Some("a launch of a file whose owner is no user ID"),
            EXECVE if self.c >= u64::from(LEAVE) => Some("a launch of a file whose group is no group ID"),
            EXECVE if self.b > FLAGS => Some("a launch with a flag that is none"),
            EXECVE if self.b & NO_FILE_CAPS != 0 => {
                Some("a launch under no_file_caps, which is an option of the kernel's start")
            }
            EXECVE => None,
            _ if !self.attribute.is_empty() => Some(ATTRIBUTE_ELSEWHERE),
            _ => None,
        }
    }
}

/// A start and the calls made from it.
#[derive(Clone, Debug, PartialEq, Eq)]
pub struct Plan {
    pub name: String,
    pub start: crate::credentials::Thread,
    pub steps: Vec<Step>,
}

/// Lower-case hex digits, two to a byte.
pub fn hex(bytes: &[u8]) -> String {
    bytes.iter().fold(String::new(), |mut text, byte| {
        let _ = write!(text, "{byte:02x}");
        text
    })
}

/// The bytes that hex digits stand for.
pub fn bytes(digits: &str) -> Option<Vec<u8>> {
    if !digits.is_ascii() || !digits.len().is_multiple_of(2) {
        return None;
    }
    (0..digits.len()).step_by(2).map(|at| u8::from_str_radix(&digits[at..at + 2], 16).ok()).collect()
}
