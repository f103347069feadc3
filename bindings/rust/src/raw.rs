//! The C interface, and one function for each of its three forms, which calls it.

type Read = unsafe extern "C" fn(*const u8, usize, usize, *mut u32, usize, *mut u8, usize, *mut u64);
type Check = unsafe extern "C" fn(*const u8, usize, usize, *mut u32, usize, *mut u64);
type Stopped = unsafe extern "C" fn(*const u8, usize, usize, usize, *mut u32, usize, *mut u32, usize, *mut u64);

extern "C" {
    pub fn cepruvels_demangle(t: *const u8, tl: usize, n: usize, w: *mut u32, wl: usize, o: *mut u8, ol: usize, answer: *mut u64);
    pub fn cepruvels_demangle_type(t: *const u8, tl: usize, n: usize, w: *mut u32, wl: usize, o: *mut u8, ol: usize, answer: *mut u64);
    pub fn cepruvels_shape(t: *const u8, tl: usize, n: usize, w: *mut u32, wl: usize, answer: *mut u64);
    pub fn cepruvels_shape_type(t: *const u8, tl: usize, n: usize, w: *mut u32, wl: usize, answer: *mut u64);
    pub fn cepruvels_demangle_stopped(
        t: *const u8,
        tl: usize,
        n: usize,
        k: usize,
        w: *mut u32,
        wl: usize,
        o: *mut u32,
        ol: usize,
        answer: *mut u64,
    );
    pub fn cepruvels_demangle_type_stopped(
        t: *const u8,
        tl: usize,
        n: usize,
        k: usize,
        w: *mut u32,
        wl: usize,
        o: *mut u32,
        ol: usize,
        answer: *mut u64,
    );
    pub fn cepruvels_shape_stopped(
        t: *const u8,
        tl: usize,
        n: usize,
        k: usize,
        w: *mut u32,
        wl: usize,
        o: *mut u32,
        ol: usize,
        answer: *mut u64,
    );
    pub fn cepruvels_shape_type_stopped(
        t: *const u8,
        tl: usize,
        n: usize,
        k: usize,
        w: *mut u32,
        wl: usize,
        o: *mut u32,
        ol: usize,
        answer: *mut u64,
    );
}

// Safety of all three: the calls require true lengths, pointers that are not null (those of slices
// never are) and memory that does not overlap, which the borrows ensure. The calls keep no pointer.

pub fn read(f: Read, text: &[u8], n: usize, w: &mut [u32], out: &mut [u8]) -> [u64; 6] {
    let mut answer = [0; 6];
    unsafe { f(text.as_ptr(), text.len(), n, w.as_mut_ptr(), w.len(), out.as_mut_ptr(), out.len(), answer.as_mut_ptr()) };
    answer
}

pub fn check(f: Check, text: &[u8], n: usize, w: &mut [u32]) -> [u64; 6] {
    let mut answer = [0; 6];
    unsafe { f(text.as_ptr(), text.len(), n, w.as_mut_ptr(), w.len(), answer.as_mut_ptr()) };
    answer
}

pub fn stopped(f: Stopped, text: &[u8], n: usize, k: usize, w: &mut [u32], out: &mut [u32]) -> [u64; 6] {
    let mut answer = [0; 6];
    unsafe { f(text.as_ptr(), text.len(), n, k, w.as_mut_ptr(), w.len(), out.as_mut_ptr(), out.len(), answer.as_mut_ptr()) };
    answer
}
