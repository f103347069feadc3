//! Our calls, by the C interface (include/cepruvels.h).

#[path = "../../bindings/rust/src/raw.rs"]
mod raw;

use raw::{
    cepruvels_demangle, cepruvels_demangle_stopped, cepruvels_demangle_type, cepruvels_demangle_type_stopped, cepruvels_shape,
    cepruvels_shape_stopped, cepruvels_shape_type, cepruvels_shape_type_stopped,
};

#[derive(Clone, Copy, PartialEq, Eq, Hash, Debug)]
pub enum Form {
    Symbol,
    Type,
}

#[derive(Clone, Copy, PartialEq, Eq, Hash, Debug)]
pub enum Call {
    Reading,
    Check,
}

/// The number of 32-bit numbers that a call needs for each node of its ceiling.
pub fn numbers_a_node(call: Call) -> usize {
    match call {
        Call::Reading => 64,
        Call::Check => 8,
    }
}

#[derive(Clone, Copy, PartialEq, Eq, Debug)]
pub struct Answer {
    pub number: u64,
    pub place: u64,
    pub steps: u64,
    pub total: u64,
    pub wraps: u64,
    pub length: u64,
}

impl Answer {
    pub fn of(a: [u64; 6]) -> Answer {
        Answer { number: a[0], place: a[1], steps: a[2], total: a[3], wraps: a[4], length: a[5] }
    }

    pub fn refused(number: u64, place: usize) -> Answer {
        Answer { number, place: place as u64, steps: 0, total: 0, wraps: 0, length: 0 }
    }
}

/// The contents of an answer before the call: each call writes all six.
const DIRT: [u64; 6] = [0xDEAD_BEEF_0000_0001; 6];

pub fn read(form: Form, text: &[u8], n: usize, w: &mut [u32], out: &mut [u8]) -> Answer {
    let mut a = DIRT;
    let f = if form == Form::Symbol { cepruvels_demangle } else { cepruvels_demangle_type };
    unsafe { f(text.as_ptr(), text.len(), n, w.as_mut_ptr(), w.len(), out.as_mut_ptr(), out.len(), a.as_mut_ptr()) };
    Answer::of(a)
}

pub fn check(form: Form, text: &[u8], n: usize, w: &mut [u32]) -> Answer {
    let mut a = DIRT;
    let f = if form == Form::Symbol { cepruvels_shape } else { cepruvels_shape_type };
    unsafe { f(text.as_ptr(), text.len(), n, w.as_mut_ptr(), w.len(), a.as_mut_ptr()) };
    Answer::of(a)
}

pub fn stopped(call: Call, form: Form, text: &[u8], n: usize, k: usize, w: &mut [u32], out: &mut [u32]) -> Answer {
    let mut a = DIRT;
    let f = match (call, form) {
        (Call::Reading, Form::Symbol) => cepruvels_demangle_stopped,
        (Call::Reading, Form::Type) => cepruvels_demangle_type_stopped,
        (Call::Check, Form::Symbol) => cepruvels_shape_stopped,
        (Call::Check, Form::Type) => cepruvels_shape_type_stopped,
    };
    unsafe { f(text.as_ptr(), text.len(), n, k, w.as_mut_ptr(), w.len(), out.as_mut_ptr(), out.len(), a.as_mut_ptr()) };
    Answer::of(a)
}
