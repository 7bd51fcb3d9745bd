//! Plans for the tests: the repository's examples by name, and some that are made here.
#![allow(dead_code, reason = "each test uses some of them")]

use std::fs;
use std::path::{Path, PathBuf};

/// A sheet whose real user ID is no user's: well-formed, and not valid.
pub const INVALID_START: &str = "ruid=4294967295\neuid=0\nsuid=0\nfsuid=0\nrgid=0\negid=0\nsgid=0\nfsgid=0\n\
    permitted=0000000000000000\ninheritable=0000000000000000\neffective=0000000000000000\n\
    bounding=0000000000000000\nambient=0000000000000000\nsecurebits=00\nnnp=0\n";

/// The directory of the example plans.
pub fn examples() -> PathBuf {
    Path::new(env!("CARGO_MANIFEST_DIR")).join("../../examples")
}

/// The bytes of a file of the examples.
pub fn read(name: &str) -> Vec<u8> {
    let path = examples().join(name);
    fs::read(&path).unwrap_or_else(|error| panic!("{}: {error}", path.display()))
}

/// A sheet in which every line is as long as it can be.
pub fn longest_sheet() -> String {
    let id = u32::MAX - 1;
    let full = "000001ffffffffff";
    format!(
        "ruid={id}\neuid={id}\nsuid={id}\nfsuid={id}\nrgid={id}\negid={id}\nsgid={id}\nfsgid={id}\n\
         permitted={full}\ninheritable={full}\neffective={full}\nbounding={full}\nambient={full}\nsecurebits=ff\nnnp=1\n"
    )
}

/// The lines of a step from `call=` on, each as long as it can be. It is refused with 22: 99 is no call.
pub fn longest_step() -> String {
    let ones = "ffffffffffffffff";
    format!("call=99\na={ones}\nb={ones}\nc={ones}\nattr={}\n", "f".repeat(48))
}

/// A plan in which every line is as long as it can be, with 256 steps.
pub fn longest_plan() -> Vec<u8> {
    [longest_sheet(), longest_step().repeat(256)].concat().into_bytes()
}
