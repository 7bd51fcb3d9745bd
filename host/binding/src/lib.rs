//! The proved library, as safe Rust functions: plans, slot plans, credential sheets, file attributes, capability sets in names, and status files.
//!
//! - A plan is a credential sheet and 0 to 256 steps, each a call that a thread makes. [`run_plan`] says what the calls answer and what the thread
//!   holds after them, or why the plan is refused. [`results`] takes a report apart: what each step came to, and why it was refused.
//! - A slot plan is of a family of up to 96 threads, which fork and exit: each step names the slot whose thread makes the call. [`run_slot_plan`] says
//!   what the steps answer and what each thread holds after them; [`slots`] takes that end of its report apart.
//! - A sheet is the text of a thread's credentials: [`read_sheet`] and [`write_sheet`].
//! - An attribute is the bytes of a file's security.capability: [`read_attribute`] and [`write_attribute`].
//! - A text in names stands for three capability sets, in the form of cap_text_formats(7), as `cap_net_raw+ep` does: [`read_names`] and
//!   [`write_names`].
//! - A status file is what a kernel says of a thread in /proc/PID/status. [`compare_status`] lays one beside predicted credentials and lists what
//!   differs; [`differences`] takes a list apart.
//!
//! Every input gets an answer; nothing panics and nothing is allocated. Nothing is kept from one call to the next, so that any number of threads
//! may call at once. A slot plan's run needs some 41 KiB of stack, a plan's some 4.5 KiB, a comparison less than 2 KiB, the other functions less than
//! 1.5 KiB.
//!
//! ```
//! use urrezkalu::{run_plan, Outcome, LONGEST_REPORT};
//!
//! let plan = b"ruid=1000\neuid=1000\nsuid=1000\nfsuid=1000\n\
//!     rgid=1000\negid=1000\nsgid=1000\nfsgid=1000\n\
//!     permitted=0000000000002000\ninheritable=0000000000002000\neffective=0000000000002000\n\
//!     bounding=000001ffffffffff\nambient=0000000000000000\nsecurebits=00\nnnp=0\n\
//!     call=1\na=0000000000000000\nb=0000000000000000\nc=0000000000000000\nattr=\n";
//! let mut report = [0; LONGEST_REPORT];
//! let Outcome::Report { length } = run_plan(plan, &mut report) else { panic!("the plan is refused") };
//!
//! // The launch is done, and leaves the permitted set empty.
//! let report = std::str::from_utf8(&report[..length]).unwrap();
//! assert!(report.starts_with("code=0\nvalue=0000000000000000\ncause=0\nruid=1000\n"));
//! assert!(report.contains("\npermitted=0000000000000000\n"));
//! ```

#![no_std]
#![deny(missing_docs)]

mod attribute;
mod cause;
mod credentials;
mod differences;
pub mod interface;
mod names;
mod number;
mod plan;
mod report;
mod sheet;
mod slot_plan;
mod slots;
mod status;

pub use attribute::{
    read_attribute, write_attribute, AttributeReading, AttributeWriting, FileCapabilities, ATTRIBUTE_LENGTH,
    FILE_VALUES,
};
pub use cause::Cause;
pub use credentials::{Credentials, SHEET_VALUES};
pub use differences::{differences, Difference, Differences, Key};
pub use names::{read_names, write_names, NamedSets, NamesReading, NamesWriting, LONGEST_NAMES, NAMED_VALUES};
pub use plan::{run_plan, Outcome, LONGEST_PLAN, LONGEST_REPORT};
pub use report::{results, Results, StepResult};
pub use sheet::{read_sheet, write_sheet, SheetReading, SheetWriting, LONGEST_SHEET};
pub use slot_plan::{run_slot_plan, LONGEST_SLOT_PLAN, LONGEST_SLOT_REPORT, SLOTS};
pub use slots::{slots, Slots};
pub use status::{compare_status, StatusComparison, LONGEST_LIST};
