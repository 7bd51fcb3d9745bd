//! Shared objects, loaded while a program runs.

#![deny(missing_docs)]

use std::ffi::{c_char, c_int, c_void, CStr};

extern "C" {
    fn dlopen(path: *const c_char, flags: c_int) -> *mut c_void;
    fn dlsym(handle: *mut c_void, name: *const c_char) -> *mut c_void;
    fn dlerror() -> *const c_char;
}

/// Every name is looked up at once; no other object sees this one's names.
const RTLD_NOW: c_int = 2;

/// An object that was loaded. It stays so until the program ends.
pub struct Object(*mut c_void);

impl Object {
    /// Loads an object: a path, or a name without a slash, which is looked for where the system has its libraries. The error says what is wrong.
    ///
    /// # Safety
    ///
    /// What the object runs on loading has to be sound.
    pub unsafe fn load(name: &CStr) -> Result<Object, String> {
        // SAFETY: the name ends in a NUL, and what runs is the caller's matter.
        match unsafe { dlopen(name.as_ptr(), RTLD_NOW) } {
            handle if handle.is_null() => Err(last_error()),
            handle => Ok(Object(handle)),
        }
    }

    /// The address of one of its functions.
    pub fn symbol(&self, name: &CStr) -> Result<*mut c_void, String> {
        // SAFETY: the handle is one that dlopen gave and that is never closed.
        match unsafe { dlsym(self.0, name.as_ptr()) } {
            address if address.is_null() => Err(last_error()),
            address => Ok(address),
        }
    }
}

fn last_error() -> String {
    // SAFETY: dlerror gives null or a text that stays until the next call of these functions.
    unsafe {
        let text = dlerror();
        if text.is_null() {
            "unknown error".into()
        } else {
            CStr::from_ptr(text).to_string_lossy().into_owned()
        }
    }
}

#[cfg(test)]
mod tests {
    use super::Object;

    #[test]
    fn what_is_missing_is_named() {
        // SAFETY: there is no such object.
        let error = unsafe { Object::load(c"libno-such-object.so.0") }.err().expect("there is no such object");
        assert!(error.contains("libno-such-object.so.0"), "{error}");
    }
}
