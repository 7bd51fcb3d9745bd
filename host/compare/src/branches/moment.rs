//! One call of a plan, as the rows of the table see it.

use super::launching::Launch;
use super::{operands, Row};
use second::{Answer, Credentials, Step};

pub const CAP_SETGID: u64 = 1 << 6;
pub const CAP_SETUID: u64 = 1 << 7;
pub const CAP_SETPCAP: u64 = 1 << 8;

pub const NOROOT: u8 = 1;
pub const NO_SETUID_FIXUP: u8 = 4;
pub const KEEP_CAPS: u8 = 16;
pub const NO_CAP_AMBIENT_RAISE: u8 = 64;

/// The credentials before a call, the call, and what came back.
pub struct Moment {
    /// The credentials before.
    pub before: Credentials,
    /// The call.
    pub step: Step,
    /// What came back.
    pub answer: Answer,
    /// Whether no reason for refusal 22 applies.
    pub given: bool,
    /// What call 1 goes by; none for another call, and none if refusal 22 applies.
    pub launch: Option<Launch>,
}

impl Moment {
    /// The moment of a call that was made.
    pub fn new(before: Credentials, step: Step, answer: Answer) -> Moment {
        let given = operands::is_given(&step);
        let launch = (given && step.call == 1).then(|| Launch::of(&before, &step));
        Moment { before, step, answer, given, launch }
    }

    /// Whether that call was made, with no reason for refusal 22.
    pub fn calls(&self, call: u8) -> bool {
        self.given && self.step.call == call
    }

    /// Whether the thread has all those capabilities in effect.
    pub fn has(&self, capabilities: u64) -> bool {
        is_within(capabilities, self.before.effective)
    }

    /// Whether the thread has one of those securebits set.
    pub fn secure(&self, bits: u8) -> bool {
        self.before.securebits & bits != 0
    }

    /// Whether the call was done, whatever it answered. What is done has no cause.
    pub fn is_accepted(&self) -> bool {
        self.answer.code == 0 && self.answer.cause == 0
    }

    /// Whether the call was done and answered 0.
    pub fn is_done(&self) -> bool {
        self.is_answered(0)
    }

    /// Whether the call was done with that value.
    pub fn is_answered(&self, value: u64) -> bool {
        self.is_accepted() && self.answer.value == value
    }

    /// Whether the call was refused with 22, 60 or 72, which have no cause, and nothing changed.
    pub fn is_refused(&self, code: u32) -> bool {
        code != 1 && self.answer.code == code && self.answer.cause == 0 && self.has_no_effect()
    }

    /// Whether the rules refused the call for that cause, and nothing changed.
    pub fn is_refused_for(&self, cause: u32) -> bool {
        self.answer.code == 1 && self.answer.cause == cause && self.has_no_effect()
    }

    /// Whether the value is 0 and nothing changed.
    pub fn has_no_effect(&self) -> bool {
        self.answer.value == 0 && self.is_unchanged()
    }

    /// Whether the credentials are those from before.
    pub fn is_unchanged(&self) -> bool {
        self.answer.after == self.before
    }
}

/// A row whose call is refused with 1, for that cause.
pub fn refused(
    name: impl Into<String>,
    cause: u32,
    when: impl Fn(&Moment) -> bool + Send + Sync + 'static,
) -> Row<Moment> {
    Row::new(name, when, move |m| m.is_refused_for(cause))
}

/// A row whose call is done with value 0, and then the rest is true.
pub fn done(
    name: &str,
    when: impl Fn(&Moment) -> bool + Send + Sync + 'static,
    then: impl Fn(&Moment) -> bool + Send + Sync + 'static,
) -> Row<Moment> {
    Row::new(name, when, move |m| m.is_done() && then(m))
}

/// A row whose call only asks: it answers that value and changes nothing.
pub fn asked(name: &str, value: u64, when: impl Fn(&Moment) -> bool + Send + Sync + 'static) -> Row<Moment> {
    Row::new(name, when, move |m| m.is_answered(value) && m.is_unchanged())
}

/// Whether SETPCAP is not in effect, which calls 3 and 9 need.
pub fn lacks_setpcap(m: &Moment) -> bool {
    !m.has(CAP_SETPCAP)
}

/// Whether the one set is within the other.
pub fn is_within(set: u64, of: u64) -> bool {
    set & !of == 0
}

/// The set of that capability; a number above 63 is in no set.
pub fn single(capability: u64) -> u64 {
    if capability < 64 {
        1 << capability
    } else {
        0
    }
}

#[cfg(test)]
mod tests {
    use super::*;

    // A drop of capability 0 by a thread without anything, and an answer to it that changes nothing.
    fn answered(code: u32, value: u64, cause: u32) -> Moment {
        let before = Credentials {
            ruid: 1000,
            euid: 1000,
            suid: 1000,
            fsuid: 1000,
            rgid: 1000,
            egid: 1000,
            sgid: 1000,
            fsgid: 1000,
            permitted: 0,
            inheritable: 0,
            effective: 0,
            bounding: 1,
            ambient: 0,
            securebits: 0,
            nnp: false,
        };
        let answer = Answer { code, value, cause, after: before.clone() };
        Moment::new(before, Step { call: 3, a: 0, b: 0, c: 0, attr: Vec::new() }, answer)
    }

    #[test]
    fn a_refusal_by_the_rules_has_its_cause() {
        assert!(answered(1, 0, 10).is_refused_for(10));
        assert!(!answered(1, 0, 10).is_refused_for(1) && !answered(1, 0, 0).is_refused_for(1));
        assert!(!answered(22, 0, 10).is_refused_for(10) && !answered(1, 7, 10).is_refused_for(10));
    }

    #[test]
    fn nothing_else_has_a_cause() {
        assert!(answered(22, 0, 0).is_refused(22) && !answered(22, 0, 1).is_refused(22));
        assert!(!answered(1, 0, 0).is_refused(1) && !answered(1, 0, 1).is_refused(1));
        assert!(answered(0, 0, 0).is_done() && !answered(0, 0, 1).is_done());
        assert!(answered(0, 7, 0).is_answered(7) && !answered(0, 7, 1).is_answered(7));
    }

    #[test]
    fn a_number_that_is_no_capability_is_in_no_set() {
        assert_eq!((single(0), single(40), single(63), single(64)), (1, 1 << 40, 1 << 63, 0));
        assert_eq!(single(1 << 32), 0);
    }
}
