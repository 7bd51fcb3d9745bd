//! Capability numbers, by their names in linux/capability.h, and sets of them as 64-bit masks.

pub(crate) const CAP_CHOWN: u32 = 0;
pub(crate) const CAP_DAC_OVERRIDE: u32 = 1;
pub(crate) const CAP_DAC_READ_SEARCH: u32 = 2;
pub(crate) const CAP_FOWNER: u32 = 3;
pub(crate) const CAP_FSETID: u32 = 4;
pub(crate) const CAP_SETGID: u32 = 6;
pub(crate) const CAP_SETUID: u32 = 7;
pub(crate) const CAP_SETPCAP: u32 = 8;
pub(crate) const CAP_LINUX_IMMUTABLE: u32 = 9;
pub(crate) const CAP_MKNOD: u32 = 27;
pub(crate) const CAP_MAC_OVERRIDE: u32 = 32;
pub(crate) const CAP_LAST_CAP: u32 = 40;

/// Every capability there is.
pub(crate) const FULL_SET: u64 = bit(CAP_LAST_CAP + 1) - 1;

/// The capabilities that follow the filesystem user ID (ID changes, 4).
pub(crate) const FILESYSTEM_SET: u64 = bit(CAP_CHOWN)
    | bit(CAP_DAC_OVERRIDE)
    | bit(CAP_DAC_READ_SEARCH)
    | bit(CAP_FOWNER)
    | bit(CAP_FSETID)
    | bit(CAP_LINUX_IMMUTABLE)
    | bit(CAP_MKNOD)
    | bit(CAP_MAC_OVERRIDE);

/// The set of one capability.
pub(crate) const fn bit(capability: u32) -> u64 {
    1 << capability
}

/// Whether every capability of `part` is also in `whole`.
pub(crate) const fn is_within(part: u64, whole: u64) -> bool {
    part & !whole == 0
}

#[cfg(test)]
mod tests {
    use super::*;

    #[test]
    fn the_two_masks_are_the_papers() {
        assert_eq!(FULL_SET, 0x0000_01ff_ffff_ffff);
        assert_eq!(FILESYSTEM_SET, 0x0000_0001_0800_021f);
    }

    #[test]
    fn within_is_subset() {
        assert!(is_within(0, 0));
        assert!(is_within(0b010, 0b110));
        assert!(is_within(0b110, 0b110));
        assert!(!is_within(0b001, 0b110));
        assert!(!is_within(0b111, 0b110));
    }
}
