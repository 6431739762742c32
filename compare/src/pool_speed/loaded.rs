//! Allocators in shared libraries, where they are installed.

use std::ffi::{c_char, c_void, CStr, CString};
use std::mem::transmute;

extern "C" {
    fn dlopen(file: *const c_char, flags: i32) -> *mut c_void;
    fn dlsym(library: *mut c_void, name: *const c_char) -> *mut c_void;
    fn dlerror() -> *const c_char;
}

/// Symbols are bound at once, and for us alone.
const NOW: i32 = 2;

/// jemalloc's variables of a thread want more room than the loader leaves by itself.
pub const TUNABLE: &str = "glibc.rtld.optional_static_tls=32768";

type Alloc = unsafe extern "C" fn(usize) -> *mut u8;
type Free = unsafe extern "C" fn(*mut u8);

pub struct Loaded {
    pub alloc: Alloc,
    pub free: Free,
}

/// A library's `alloc` and `free`, by their names there; or why it is not to be had.
pub fn load(file: &str, [alloc, free]: [&str; 2]) -> Result<Loaded, String> {
    let text = |text: &str| CString::new(text).map_err(|error| error.to_string());
    let (file, alloc, free) = (text(file)?, text(alloc)?, text(free)?);
    // SAFETY: the names are strings that end; the library is never unloaded, and its two functions have these types.
    unsafe {
        let library = dlopen(file.as_ptr(), NOW);
        if library.is_null() {
            return Err(CStr::from_ptr(dlerror()).to_string_lossy().into_owned());
        }
        let (alloc, free) = (dlsym(library, alloc.as_ptr()), dlsym(library, free.as_ptr()));
        if alloc.is_null() || free.is_null() {
            return Err(format!("{file:?} has no such functions"));
        }
        Ok(Loaded { alloc: transmute::<*mut c_void, Alloc>(alloc), free: transmute::<*mut c_void, Free>(free) })
    }
}
