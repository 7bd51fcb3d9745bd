//! The number of the C interface: the code times 2^32, plus the line or the place of a fault, or plus how much was written.

pub(crate) const DONE: u32 = 0;
pub(crate) const NOT_PERMITTED: u32 = 1;
pub(crate) const NO_THREAD: u32 = 3;
pub(crate) const NO_SLOT: u32 = 11;
pub(crate) const OUT_OF_RANGE: u32 = 22;
pub(crate) const NO_ROOM: u32 = 28;
pub(crate) const UNREADABLE: u32 = 60;
pub(crate) const MALFORMED: u32 = 70;
pub(crate) const INVALID: u32 = 72;

/// The code, and the line, place or length.
pub(crate) const fn apart(number: u64) -> (u32, u32) {
    ((number >> 32) as u32, number as u32)
}

/// A code that the function does not have, which is proved: something else has been linked.
pub(crate) fn no_such_code(code: u32) -> ! {
    unreachable!("the proved library has no code {code} here")
}

#[cfg(test)]
mod tests {
    use super::apart;

    // The paper's numbers, multiplied out.
    #[test]
    fn a_number_is_code_and_rest() {
        assert_eq!(apart(0), (0, 0));
        assert_eq!(apart(4_294_967_295), (0, 4_294_967_295));
        assert_eq!(apart(94_489_280_512), (22, 0));
        assert_eq!(apart(257_698_037_760), (60, 0));
        assert_eq!(apart(300_647_710_736), (70, 16));
        assert_eq!(apart(u64::MAX), (4_294_967_295, 4_294_967_295));
    }
}
