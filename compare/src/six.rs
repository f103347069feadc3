//! Swift 6's own demangler: the function `swift_demangle` that libswiftCore.so exports, found at
//! run time. The program must run with access to Swift's libraries, through bin/in-swift of the
//! folder that compare/swift/fetch sets up.

use std::ffi::{c_char, c_void, CStr};

type SwiftDemangle = unsafe extern "C" fn(*const c_char, usize, *mut c_char, *mut usize, u32) -> *mut c_char;

extern "C" {
    fn dlopen(path: *const c_char, flags: i32) -> *mut c_void;
    fn dlsym(library: *mut c_void, name: *const c_char) -> *mut c_void;
    fn dlerror() -> *const c_char;
}

pub struct Six {
    /// Swift's version.
    pub version: String,
    call: SwiftDemangle,
    /// Memory for texts: more than any name of a list needs, because the function writes past a
    /// buffer that is too small.
    out: Vec<u8>,
}

fn found<T>(pointer: *mut T) -> Result<*mut T, String> {
    if pointer.is_null() {
        return Err(unsafe { CStr::from_ptr(dlerror()) }.to_string_lossy().into_owned());
    }
    Ok(pointer)
}

impl Six {
    pub fn open(version: String) -> Result<Six, String> {
        const NOW: i32 = 2;
        unsafe {
            let library = found(dlopen(c"libswiftCore.so".as_ptr(), NOW))?;
            let function = found(dlsym(library, c"swift_demangle".as_ptr()))?;
            Ok(Six { version, call: std::mem::transmute::<*mut c_void, SwiftDemangle>(function), out: vec![0; 1 << 20] })
        }
    }

    /// Calls it for one name, which must be followed by a NUL. Returns the first byte of what it
    /// writes: nothing more is read while time is measured.
    pub fn call(&mut self, name: &str) -> u8 {
        let mut room = self.out.len();
        let text = unsafe { (self.call)(name.as_ptr().cast(), name.len(), self.out.as_mut_ptr().cast(), &mut room, 0) };
        if text.is_null() {
            return 0;
        }
        self.out[0]
    }

    /// Whether it reads a name: a name that it does not read is returned unchanged.
    pub fn reads(&mut self, name: &str) -> bool {
        self.call(name) != 0 && CStr::from_bytes_until_nul(&self.out).is_ok_and(|text| text.to_bytes() != name.as_bytes())
    }
}
