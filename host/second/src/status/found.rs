//! What a captured status tells of a thread's credentials.

/// The ten values that are compared, named by the sheet's keys; they need not be valid.
#[derive(Clone, Copy, Debug, PartialEq, Eq)]
pub(super) struct Found {
    pub(super) ruid: u32,
    pub(super) euid: u32,
    pub(super) suid: u32,
    pub(super) fsuid: u32,
    pub(super) permitted: u64,
    pub(super) inheritable: u64,
    pub(super) effective: u64,
    pub(super) bounding: u64,
    pub(super) ambient: u64,
    pub(super) nnp: bool,
}
