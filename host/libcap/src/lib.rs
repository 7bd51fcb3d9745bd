//! libcap's functions on texts in names, from the system's libcap.so.2, which is loaded while the program runs: nothing is linked against it.

#![deny(missing_docs)]

use objects::Object;
use std::ffi::{c_char, c_int, c_void, CStr};

/// Permitted, inheritable and effective set: bit n is capability n.
pub type Sets = [u64; 3];

/// The object, by the name under which systems have it.
pub const OBJECT: &CStr = c"libcap.so.2";

/// The numbers that libcap has for the three sets, in the order of [`Sets`].
const FLAGS: [c_int; 3] = [1, 2, 0];

/// A set of libcap has so many bits, and capabilities that have no name have numbers.
const BITS: c_int = 64;

/// libcap's `cap_t`.
type State = *mut c_void;

type FromText = unsafe extern "C" fn(*const c_char) -> State;
type ToText = unsafe extern "C" fn(State, *mut isize) -> *mut c_char;
type Init = unsafe extern "C" fn() -> State;
type GetFlag = unsafe extern "C" fn(State, c_int, c_int, *mut c_int) -> c_int;
type SetFlag = unsafe extern "C" fn(State, c_int, c_int, *const c_int, c_int) -> c_int;
type Free = unsafe extern "C" fn(*mut c_void) -> c_int;
type MaxBits = unsafe extern "C" fn() -> c_int;

/// The functions of libcap that are asked.
pub struct Libcap {
    from_text: FromText,
    to_text: ToText,
    init: Init,
    get_flag: GetFlag,
    set_flag: SetFlag,
    free: Free,
    max_bits: MaxBits,
}

impl Libcap {
    /// Loads it. The error says what is missing.
    pub fn load() -> Result<Libcap, String> {
        // SAFETY: it is the system's own library, and these are its functions' types in sys/capability.h.
        unsafe {
            let object = Object::load(OBJECT)?;
            Ok(Libcap {
                from_text: std::mem::transmute::<*mut c_void, FromText>(object.symbol(c"cap_from_text")?),
                to_text: std::mem::transmute::<*mut c_void, ToText>(object.symbol(c"cap_to_text")?),
                init: std::mem::transmute::<*mut c_void, Init>(object.symbol(c"cap_init")?),
                get_flag: std::mem::transmute::<*mut c_void, GetFlag>(object.symbol(c"cap_get_flag")?),
                set_flag: std::mem::transmute::<*mut c_void, SetFlag>(object.symbol(c"cap_set_flag")?),
                free: std::mem::transmute::<*mut c_void, Free>(object.symbol(c"cap_free")?),
                max_bits: std::mem::transmute::<*mut c_void, MaxBits>(object.symbol(c"cap_max_bits")?),
            })
        }
    }

    /// How many capabilities it means by `all`: it asks the running kernel.
    pub fn capabilities(&self) -> u32 {
        // SAFETY: the function takes nothing.
        unsafe { (self.max_bits)() }.try_into().unwrap_or(0)
    }

    /// `cap_from_text`: the sets, or nothing where it refuses the text.
    pub fn read(&self, text: &CStr) -> Option<Sets> {
        // SAFETY: the text ends in a NUL; the state is libcap's own, and is freed once.
        unsafe {
            let state = (self.from_text)(text.as_ptr());
            if state.is_null() {
                return None;
            }
            let sets =
                FLAGS.map(|flag| (0..BITS).fold(0, |set, bit| set | u64::from(self.has(state, bit, flag)) << bit));
            (self.free)(state);
            Some(sets)
        }
    }

    /// `cap_from_text` and no more: whether it reads the text. This is what can be timed.
    pub fn takes(&self, text: &CStr) -> bool {
        // SAFETY: as for `read`.
        unsafe {
            let state = (self.from_text)(text.as_ptr());
            if state.is_null() {
                return false;
            }
            (self.free)(state);
            true
        }
    }

    // SAFETY: the state has to be one of libcap's that was not freed.
    unsafe fn has(&self, state: State, capability: c_int, flag: c_int) -> bool {
        let mut value = 0;
        let answer = unsafe { (self.get_flag)(state, capability, flag, &mut value) };
        assert_eq!(answer, 0, "cap_get_flag refuses capability {capability} and flag {flag}");
        value != 0
    }

    /// `cap_to_text` of these sets.
    pub fn write(&self, sets: &Sets) -> Vec<u8> {
        // SAFETY: the state and the text are libcap's own, not null, and are freed once; the text ends in a NUL.
        unsafe {
            let state = (self.init)();
            assert!(!state.is_null(), "cap_init refuses");
            for (flag, set) in FLAGS.into_iter().zip(sets) {
                for capability in (0..BITS).filter(|bit| set >> bit & 1 == 1) {
                    let answer = (self.set_flag)(state, flag, 1, &capability, 1);
                    assert_eq!(answer, 0, "cap_set_flag refuses capability {capability} and flag {flag}");
                }
            }
            let text = (self.to_text)(state, std::ptr::null_mut());
            assert!(!text.is_null(), "cap_to_text refuses {sets:x?}");
            let written = CStr::from_ptr(text).to_bytes().to_vec();
            (self.free)(text.cast());
            (self.free)(state);
            written
        }
    }
}
