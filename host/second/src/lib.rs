//! A plain model of a Linux thread's credentials: its user IDs, its group IDs, its five capability sets, its securebits
//! and its no-new-privs flag, and what twenty-two system calls do to them; and of a family of at most 96 such threads,
//! which fork and exit.
//!
//! [`perform`] answers one call, with the cause where its rules do not allow it; [`run_plan`] reads a plan as text,
//! runs its steps in order and writes a report. [`Threads`] is the table of a family and takes a step in any of its
//! slots; [`run_slot_plan`] reads a slot plan as text, each step of which names its slot, runs it and writes a report
//! with the sheet of each slot in use. [`read_sheet`] and [`write_sheet`] turn credentials alone from text into numbers
//! and back, [`read_attribute`] and [`write_attribute`] the capability attribute of a file from bytes, [`read_names`]
//! and [`write_names`] three capability sets from a text in names. [`compare_status`] lays a captured /proc/PID/status
//! beside predicted credentials and lists what differs.

mod attribute;
mod buffer;
mod calls;
mod capability;
mod cause;
mod credentials;
mod decode;
mod group_ids;
mod ids;
mod launch;
mod names;
mod plan;
mod reader;
mod refusal;
mod report;
mod securebits;
mod sets;
mod sheet;
mod slot_plan;
mod status;
mod threads;
mod user_ids;
mod written;

pub use attribute::{read_attribute, write_attribute};
pub use calls::{perform, Answer};
pub use credentials::Credentials;
pub use decode::Step;
pub use names::{read_names, write_names};
pub use plan::{run_plan, Outcome};
pub use sheet::{read_sheet, write_sheet};
pub use slot_plan::run_slot_plan;
pub use status::compare_status;
pub use threads::{SlotAnswer, Threads};
pub use written::Written;
