//! A build of the library, loaded while this program runs, so that two can be held beside each other.

use objects::Object;
use std::ffi::{c_void, CString};
use std::os::unix::ffi::OsStrExt;
use std::path::Path;

type OfText = unsafe extern "C" fn(*const u8, usize, *mut u8, usize) -> u64;
type ReadSheet = unsafe extern "C" fn(*const u8, usize, *mut u64, usize) -> u64;
type OfValues = unsafe extern "C" fn(*const u64, usize, *mut u8, usize) -> u64;
type ReadDigits = unsafe extern "C" fn(*const u8, usize, u64) -> u64;

/// The functions that are timed.
pub struct Library {
    run_plan: OfText,
    read_sheet: ReadSheet,
    write_sheet: OfValues,
    read_digits: ReadDigits,
    write_digits: OfValues,
}

fn load(path: &Path) -> Result<Object, String> {
    let name = CString::new(path.as_os_str().as_bytes()).map_err(|_| "a path with a NUL".to_string())?;
    // SAFETY: the objects have no code that runs on loading.
    unsafe { Object::load(&name) }
}

impl Library {
    /// The build in a folder.
    pub fn open(folder: &Path) -> Result<Library, String> {
        let folder = folder.canonicalize().map_err(|error| format!("{}: {error}", folder.display()))?;
        let library = load(&folder.join("libcapi.so"))?;
        let digits = load(&folder.join("libdigits.so"))?;
        // SAFETY: these are the functions' types in include/urrezkalu.h and in digits/; a slice is a pointer and a length.
        unsafe {
            Ok(Library {
                run_plan: std::mem::transmute::<*mut c_void, OfText>(library.symbol(c"urrezkalu_run_plan")?),
                read_sheet: std::mem::transmute::<*mut c_void, ReadSheet>(library.symbol(c"urrezkalu_read_sheet")?),
                write_sheet: std::mem::transmute::<*mut c_void, OfValues>(library.symbol(c"urrezkalu_write_sheet")?),
                read_digits: std::mem::transmute::<*mut c_void, ReadDigits>(digits.symbol(c"digits_read")?),
                write_digits: std::mem::transmute::<*mut c_void, OfValues>(digits.symbol(c"digits_write")?),
            })
        }
    }

    // SAFETY, of every call below: the slices are valid for the whole call, and being `&` and `&mut` they do not overlap.

    pub fn run_plan(&self, plan: &[u8], report: &mut [u8]) -> u64 {
        unsafe { (self.run_plan)(plan.as_ptr(), plan.len(), report.as_mut_ptr(), report.len()) }
    }

    pub fn read_sheet(&self, text: &[u8], values: &mut [u64]) -> u64 {
        unsafe { (self.read_sheet)(text.as_ptr(), text.len(), values.as_mut_ptr(), values.len()) }
    }

    pub fn write_sheet(&self, values: &[u64], sheet: &mut [u8]) -> u64 {
        unsafe { (self.write_sheet)(values.as_ptr(), values.len(), sheet.as_mut_ptr(), sheet.len()) }
    }

    /// The lines `a=` with 16 digits from the front of the text on, `count` of them: their values, joined by exclusive or.
    pub fn read_digits(&self, text: &[u8], count: u64) -> u64 {
        unsafe { (self.read_digits)(text.as_ptr(), text.len(), count) }
    }

    /// The lines `a=` with 16 digits of these values, from the front of the buffer on: the bytes of all of them.
    pub fn write_digits(&self, values: &[u64], buffer: &mut [u8]) -> u64 {
        unsafe { (self.write_digits)(values.as_ptr(), values.len(), buffer.as_mut_ptr(), buffer.len()) }
    }
}
