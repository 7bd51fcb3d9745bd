//! The C interface itself, as safe functions on slices: for tests and comparisons, which look at the very number and at every place of a buffer.
//!
//! A number is the code times 4294967296, plus the line or the place of a fault (70) or how many bytes or values were written (0). A function that
//! refuses writes nothing, and what a buffer holds past what was written stays.

mod c {
    // A slice of Rattle is a pointer and a length.
    extern "C" {
        pub fn urrezkalu_run_plan(plan: *const u8, plan_length: usize, report: *mut u8, report_length: usize) -> u64;
        pub fn urrezkalu_run_slot_plan(
            plan: *const u8,
            plan_length: usize,
            report: *mut u8,
            report_length: usize,
        ) -> u64;
        pub fn urrezkalu_read_sheet(text: *const u8, text_length: usize, values: *mut u64, values_count: usize) -> u64;
        pub fn urrezkalu_write_sheet(
            values: *const u64,
            values_count: usize,
            sheet: *mut u8,
            sheet_length: usize,
        ) -> u64;
        pub fn urrezkalu_read_attribute(
            attribute: *const u8,
            attribute_length: usize,
            values: *mut u64,
            values_count: usize,
        ) -> u64;
        pub fn urrezkalu_write_attribute(
            permitted: u64,
            inheritable: u64,
            effective: u64,
            attribute: *mut u8,
            attribute_length: usize,
        ) -> u64;
        pub fn urrezkalu_read_names(text: *const u8, text_length: usize, values: *mut u64, values_count: usize) -> u64;
        pub fn urrezkalu_write_names(
            permitted: u64,
            inheritable: u64,
            effective: u64,
            text: *mut u8,
            text_length: usize,
        ) -> u64;
        pub fn urrezkalu_compare_status(
            status: *const u8,
            status_length: usize,
            sheet: *const u8,
            sheet_length: usize,
            list: *mut u8,
            list_length: usize,
        ) -> u64;
    }
}

// SAFETY, of every call below: the slices are valid for the whole call, and being `&` and `&mut` they do not overlap. The functions ask for
// nothing else.

/// `urrezkalu_run_plan`: 70, 72, 28, or 0 and the report's length. See [`crate::run_plan`].
///
/// ```
/// assert_eq!(urrezkalu::interface::run_plan(b"", &mut []), 70 << 32 | 1);
/// ```
///
/// What is read and what is written cannot overlap, which the library asks for and C cannot promise:
///
/// ```compile_fail,E0502
/// let mut bytes = [0; 16];
/// let _ = urrezkalu::interface::run_plan(&bytes, &mut bytes);
/// ```
///
/// Nor can they in [`run_slot_plan`] and [`compare_status`]; in the other functions they are of different types besides.
#[must_use]
pub fn run_plan(plan: &[u8], report: &mut [u8]) -> u64 {
    unsafe { c::urrezkalu_run_plan(plan.as_ptr(), plan.len(), report.as_mut_ptr(), report.len()) }
}

/// `urrezkalu_run_slot_plan`: 70, 72, 28, or 0 and the report's length. See [`crate::run_slot_plan`].
///
/// ```
/// let sheet = b"ruid=0\neuid=0\nsuid=0\nfsuid=0\nrgid=0\negid=0\nsgid=0\nfsgid=0\n\
///     permitted=0000000000000000\ninheritable=0000000000000000\neffective=0000000000000000\n\
///     bounding=0000000000000000\nambient=0000000000000000\nsecurebits=00\nnnp=0\n";
/// let mut report = [0xff; 220];
/// assert_eq!(urrezkalu::interface::run_slot_plan(sheet, &mut report), 219);
/// assert_eq!(report[..7], *b"slot=0\n");
/// assert_eq!(report[7..219], *sheet);
/// assert_eq!(report[219], 0xff);
///
/// assert_eq!(urrezkalu::interface::run_slot_plan(&sheet[..211], &mut report), 70 << 32 | 15);
/// assert_eq!(urrezkalu::interface::run_slot_plan(sheet, &mut report[..218]), 28 << 32);
/// ```
///
/// What is read and what is written cannot overlap:
///
/// ```compile_fail,E0502
/// let mut bytes = [0; 16];
/// let _ = urrezkalu::interface::run_slot_plan(&bytes, &mut bytes);
/// ```
#[must_use]
pub fn run_slot_plan(plan: &[u8], report: &mut [u8]) -> u64 {
    unsafe { c::urrezkalu_run_slot_plan(plan.as_ptr(), plan.len(), report.as_mut_ptr(), report.len()) }
}

/// `urrezkalu_read_sheet`: 70, 72, 28 where there are fewer than fifteen values, or 0 and 15. See [`crate::read_sheet`].
///
/// ```
/// let sheet = b"ruid=1000\neuid=1001\nsuid=1002\nfsuid=1003\n\
///     rgid=1004\negid=1005\nsgid=1006\nfsgid=1007\n\
///     permitted=000000000000000f\ninheritable=0000000000000006\neffective=0000000000000003\n\
///     bounding=000001ffffffffff\nambient=0000000000000002\nsecurebits=2f\nnnp=1\n";
/// let mut values = [99; 16];
/// assert_eq!(urrezkalu::interface::read_sheet(sheet, &mut values), 15);
/// assert_eq!(values[..8], [1000, 1001, 1002, 1003, 1004, 1005, 1006, 1007]);
/// assert_eq!(values[8..], [0xf, 0x6, 0x3, 0x1ff_ffff_ffff, 0x2, 0x2f, 1, 99]);
///
/// assert_eq!(urrezkalu::interface::read_sheet(sheet, &mut [0; 14]), 28 << 32);
/// ```
#[must_use]
pub fn read_sheet(text: &[u8], values: &mut [u64]) -> u64 {
    unsafe { c::urrezkalu_read_sheet(text.as_ptr(), text.len(), values.as_mut_ptr(), values.len()) }
}

/// `urrezkalu_write_sheet`: 72, also where there are not exactly fifteen values or the last is neither 0 nor 1; 28, or 0 and the sheet's length.
/// See [`crate::write_sheet`].
///
/// ```
/// let mut sheet = [0; 284];
/// assert_eq!(urrezkalu::interface::write_sheet(&[0, 0, 0, 0, 0, 0, 0, 0, 0, 0, 0, 0, 0, 0, 1], &mut sheet), 212);
/// assert!(sheet.starts_with(b"ruid=0\neuid=0\n"));
/// assert!(sheet[..212].ends_with(b"\nsecurebits=00\nnnp=1\n"));
///
/// assert_eq!(urrezkalu::interface::write_sheet(&[0; 16], &mut sheet), 72 << 32);
/// assert_eq!(urrezkalu::interface::write_sheet(&[0, 0, 0, 0, 0, 0, 0, 0, 0, 0, 0, 0, 0, 0, 2], &mut sheet), 72 << 32);
/// ```
#[must_use]
pub fn write_sheet(values: &[u64], sheet: &mut [u8]) -> u64 {
    unsafe { c::urrezkalu_write_sheet(values.as_ptr(), values.len(), sheet.as_mut_ptr(), sheet.len()) }
}

/// `urrezkalu_read_attribute`: 60, 28 where there are fewer than four values, or 0 and 4. See [`crate::read_attribute`].
///
/// ```
/// let net_raw = [1, 0, 0, 2, 0, 0x20, 0, 0, 0, 0, 0, 0, 0, 0, 0, 0, 0, 0, 0, 0];
/// let mut values = [99; 5];
/// assert_eq!(urrezkalu::interface::read_attribute(&net_raw, &mut values), 4);
/// assert_eq!(values, [1, 1 << 13, 0, 1, 99]);
///
/// assert_eq!(urrezkalu::interface::read_attribute(&net_raw[..19], &mut values), 60 << 32);
/// assert_eq!(urrezkalu::interface::read_attribute(&net_raw, &mut [0; 3]), 28 << 32);
/// ```
#[must_use]
pub fn read_attribute(attribute: &[u8], values: &mut [u64]) -> u64 {
    unsafe { c::urrezkalu_read_attribute(attribute.as_ptr(), attribute.len(), values.as_mut_ptr(), values.len()) }
}

/// `urrezkalu_write_attribute`: 22, also where `effective` is neither 0 nor 1; 28, or 0 and 20. See [`crate::write_attribute`].
///
/// ```
/// let mut attribute = [0xff; 21];
/// assert_eq!(urrezkalu::interface::write_attribute(1 << 13, 0, 1, &mut attribute), 20);
/// assert_eq!(attribute, [1, 0, 0, 2, 0, 0x20, 0, 0, 0, 0, 0, 0, 0, 0, 0, 0, 0, 0, 0, 0, 0xff]);
///
/// assert_eq!(urrezkalu::interface::write_attribute(0, 0, 2, &mut attribute), 22 << 32);
/// assert_eq!(urrezkalu::interface::write_attribute(0, 0, 1, &mut attribute[..19]), 28 << 32);
/// ```
#[must_use]
pub fn write_attribute(permitted: u64, inheritable: u64, effective: u64, attribute: &mut [u8]) -> u64 {
    unsafe { c::urrezkalu_write_attribute(permitted, inheritable, effective, attribute.as_mut_ptr(), attribute.len()) }
}

/// `urrezkalu_read_names`: 70 and the place, 28 where there are fewer than three values, or 0 and 3. See [`crate::read_names`].
///
/// ```
/// let mut values = [99; 4];
/// assert_eq!(urrezkalu::interface::read_names(b"cap_net_raw+ep", &mut values), 3);
/// assert_eq!(values, [1 << 13, 0, 1 << 13, 99]);
///
/// assert_eq!(urrezkalu::interface::read_names(b"cap_net_raw", &mut values), 70 << 32 | 11);
/// assert_eq!(urrezkalu::interface::read_names(b"cap_net_raw+ep", &mut [0; 2]), 28 << 32);
/// ```
#[must_use]
pub fn read_names(text: &[u8], values: &mut [u64]) -> u64 {
    unsafe { c::urrezkalu_read_names(text.as_ptr(), text.len(), values.as_mut_ptr(), values.len()) }
}

/// `urrezkalu_write_names`: 22, 28, or 0 and the text's length. See [`crate::write_names`].
///
/// ```
/// let mut text = [0xff; 15];
/// assert_eq!(urrezkalu::interface::write_names(1 << 13, 0, 1 << 13, &mut text), 14);
/// assert_eq!(text, *b"cap_net_raw=ep\xff");
///
/// assert_eq!(urrezkalu::interface::write_names(0, 0, 1 << 41, &mut text), 22 << 32);
/// assert_eq!(urrezkalu::interface::write_names(1 << 13, 0, 1 << 13, &mut text[..13]), 28 << 32);
/// ```
#[must_use]
pub fn write_names(permitted: u64, inheritable: u64, effective: u64, text: &mut [u8]) -> u64 {
    unsafe { c::urrezkalu_write_names(permitted, inheritable, effective, text.as_mut_ptr(), text.len()) }
}

/// `urrezkalu_compare_status`: 70 and the line, 70 and 0 where the sheet is malformed, 72, 28, or 0 and the list's length. See
/// [`crate::compare_status`].
///
/// ```
/// let status = b"Name:\tlog\nUid:\t0\t0\t0\t0\n\
///     CapInh:\t0000000000000000\nCapPrm:\t0000000000002000\nCapEff:\t0000000000000000\n\
///     CapBnd:\t0000000000000000\nCapAmb:\t0000000000000000\nNoNewPrivs:\t0\n";
/// let sheet = b"ruid=0\neuid=0\nsuid=0\nfsuid=0\nrgid=0\negid=0\nsgid=0\nfsgid=0\n\
///     permitted=0000000000000000\ninheritable=0000000000000000\neffective=0000000000000000\n\
///     bounding=0000000000000000\nambient=0000000000000000\nsecurebits=00\nnnp=0\n";
/// let mut list = [0xff; 81];
/// assert_eq!(urrezkalu::interface::compare_status(status, sheet, &mut list), 80);
/// assert_eq!(list[..44], *b"permitted 0000000000000000 0000000000002000\n");
/// assert_eq!(list[44..], *b"not compared: securebits, group IDs\n\xff");
///
/// assert_eq!(urrezkalu::interface::compare_status(b"", sheet, &mut list), 70 << 32 | 1);
/// assert_eq!(urrezkalu::interface::compare_status(status, b"", &mut list), 70 << 32);
/// assert_eq!(urrezkalu::interface::compare_status(status, sheet, &mut list[..79]), 28 << 32);
/// ```
///
/// What is read and what is written cannot overlap:
///
/// ```compile_fail,E0502
/// let mut bytes = [0; 16];
/// let _ = urrezkalu::interface::compare_status(&bytes, b"", &mut bytes);
/// ```
#[must_use]
pub fn compare_status(status: &[u8], sheet: &[u8], list: &mut [u8]) -> u64 {
    let (text, predicted) = (status.as_ptr(), sheet.as_ptr());
    unsafe { c::urrezkalu_compare_status(text, status.len(), predicted, sheet.len(), list.as_mut_ptr(), list.len()) }
}
