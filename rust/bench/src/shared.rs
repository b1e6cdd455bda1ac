//! Shared libraries and the functions in them, by the functions of the C library.

use std::ffi::{c_char, c_int, c_void, CStr, CString};
use std::fs;

/// All names are looked up at once; the names of the library are seen by no other.
const RTLD_NOW: c_int = 2;

extern "C" {
    fn dlopen(file: *const c_char, flags: c_int) -> *mut c_void;
    fn dlsym(library: *mut c_void, name: *const c_char) -> *mut c_void;
    fn dlerror() -> *const c_char;
}

/// A shared library that is never unloaded.
pub struct Loaded {
    file: String,
    library: *mut c_void,
}

impl Loaded {
    pub fn open(file: &str) -> Result<Loaded, String> {
        // A name without a folder would be looked for where the system's libraries are.
        let path = fs::canonicalize(file).map_err(|error| format!("{file}: {error}"))?;
        let path = CString::new(path.into_os_string().into_encoded_bytes());
        let path = path.map_err(|error| format!("{file}: {error}"))?;
        // SAFETY: the path ends in a zero byte. What a library does when it is loaded is the caller's choice of the file.
        let library = unsafe { dlopen(path.as_ptr(), RTLD_NOW) };
        if library.is_null() {
            return Err(last_error());
        }
        let file = file.to_string();
        Ok(Loaded { file, library })
    }

    /// The function of a name.
    ///
    /// # Safety
    /// F is the type of a function, and that of the function of this name.
    pub unsafe fn function<F: Copy>(&self, name: &CStr) -> Result<F, String> {
        let function = dlsym(self.library, name.as_ptr());
        if function.is_null() {
            return Err(format!("{} has no {}", self.file, name.to_string_lossy()));
        }
        assert_eq!(size_of::<F>(), size_of::<*mut c_void>());
        Ok(std::mem::transmute_copy(&function))
    }
}

/// Why the last function of these failed.
fn last_error() -> String {
    // SAFETY: the text, where there is one, ends in a zero byte and is copied at once.
    unsafe {
        match dlerror() {
            text if text.is_null() => "the shared library cannot be loaded".to_string(),
            text => CStr::from_ptr(text).to_string_lossy().into_owned(),
        }
    }
}
