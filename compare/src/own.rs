//! Swift's own demangler (compare/swift/own.cpp).

extern "C" {
    fn swift_own_demangle(name: *const u8, length: usize, out: *mut u8, room: usize) -> i64;
}

/// The length of the text that Swift gives for a symbol. The text is written to `out` as far as it
/// fits.
pub fn demangle(name: &[u8], out: &mut [u8]) -> Option<usize> {
    let n = unsafe { swift_own_demangle(name.as_ptr(), name.len(), out.as_mut_ptr(), out.len()) };
    (n >= 0).then_some(n as usize)
}
