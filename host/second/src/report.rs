//! Writes a report: three lines for each step, then the sheet, or one for each slot in use.

use std::fmt::{self, Write};

use crate::credentials::Credentials;
use crate::threads::SlotAnswer;

/// Adds a step's code, value and cause.
pub(crate) fn write_answer(report: &mut String, answer: &SlotAnswer) -> fmt::Result {
    writeln!(report, "code={}", answer.code)?;
    writeln!(report, "value={:016x}", answer.value)?;
    writeln!(report, "cause={}", answer.cause)
}

/// Adds the fifteen lines of a sheet.
pub(crate) fn write_sheet(report: &mut String, credentials: &Credentials) -> fmt::Result {
    writeln!(report, "ruid={}", credentials.ruid)?;
    writeln!(report, "euid={}", credentials.euid)?;
    writeln!(report, "suid={}", credentials.suid)?;
    writeln!(report, "fsuid={}", credentials.fsuid)?;
    writeln!(report, "rgid={}", credentials.rgid)?;
    writeln!(report, "egid={}", credentials.egid)?;
    writeln!(report, "sgid={}", credentials.sgid)?;
    writeln!(report, "fsgid={}", credentials.fsgid)?;
    writeln!(report, "permitted={:016x}", credentials.permitted)?;
    writeln!(report, "inheritable={:016x}", credentials.inheritable)?;
    writeln!(report, "effective={:016x}", credentials.effective)?;
    writeln!(report, "bounding={:016x}", credentials.bounding)?;
    writeln!(report, "ambient={:016x}", credentials.ambient)?;
    writeln!(report, "securebits={:02x}", credentials.securebits)?;
    writeln!(report, "nnp={}", u8::from(credentials.nnp))
}
