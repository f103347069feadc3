//! What compare/instrument.py adds to its copy of the Rust source, as a module of it: the numbers
//! of the refusals, and a call that answers like ours.

use super::{demangle, demangle_type, split, Demangler, Node};
use std::cell::Cell;

// The refusals of document 01 except 1 to 3, which the Rust does not have.
const ENCODING: u64 = 4;
const PREFIX: u64 = 5;
pub const STEPS: u64 = 6;
pub const CHARGE: u64 = 7;
pub const NESTING: u64 = 8;
pub const SPELLING: u64 = 9;
pub const STACK: u64 = 10;
const LEFTOVER: u64 = 11;
const OUTPUT: u64 = 12;

pub struct Answer {
    /// Number, place, steps, total, wraps and length, as our calls write them.
    pub values: [u64; 6],
    /// What is written: for a stopped run the stack, three numbers for each node, bottom first; for
    /// a whole run the text, if it is printed.
    pub stack: Vec<u32>,
    pub text: String,
}

fn refused(number: u64, place: usize) -> Answer {
    Answer { values: [number, place as u64, 0, 0, 0, 0], stack: Vec::new(), text: String::new() }
}

thread_local! {
    static MOST_NAMES: Cell<usize> = const { Cell::new(usize::MAX) };
}

/// The greatest number of parameter names that a signature is printed with.
pub fn most_names() -> usize {
    MOST_NAMES.get()
}

/// The Rust's result for a symbol or a type with this ceiling and this room for what is written:
/// either whole, which is printed only with `print`, or stopped after `stop` turns.
pub fn answer(text: &[u8], symbol: bool, ceiling: usize, stop: Option<usize>, print: bool, room: usize) -> Answer {
    let text = match std::str::from_utf8(text) {
        Ok(text) => text,
        Err(e) => return refused(ENCODING, e.valid_up_to()),
    };
    let (body, suffix) = match split(text) {
        _ if !symbol => (text, None),
        Some(parts) => parts,
        None => return refused(PREFIX, 0),
    };
    let end = text.len() - suffix.map_or(0, str::len);
    // a text with more names than there is room for bytes is too long, whatever follows
    MOST_NAMES.set(room.saturating_add(1));
    let mut d = Demangler::new(body);
    d.ceiling = ceiling;
    d.stop = stop;
    if d.run().is_none() {
        return refused(d.asked.get(), end - body.len() + d.place);
    }
    let (mut stack, mut printed) = (Vec::new(), String::new());
    if stop.is_some() {
        stack = d.stack.iter().flat_map(entry).collect();
    } else if !is_whole(&d.stack, symbol) {
        return refused(LEFTOVER, end);
    } else if print {
        printed = if symbol { demangle(text) } else { demangle_type(text) }.expect("it was read with a lower ceiling");
    }
    let length = stack.len() + printed.len();
    if length > room {
        return refused(OUTPUT, 0);
    }
    Answer { values: [0, 0, d.steps as u64, d.nodes as u64, d.wraps as u64, length as u64], stack, text: printed }
}

/// One node that is a symbol's or a type's.
fn is_whole(stack: &[Node], symbol: bool) -> bool {
    match stack {
        [node] if symbol => !matches!(node, Node::Identifier(_)),
        [node] => node.is_type(),
        _ => false,
    }
}

fn entry(node: &Node) -> [u32; 3] {
    [kind(node), node.size() as u32, count(node)]
}

/// The index of the node's case in the enumeration of the source, with nominals split into their
/// five kinds.
fn kind(node: &Node) -> u32 {
    const NOMINAL: u32 = 2;
    const OTHER_NOMINALS: u32 = 4;
    // the copy has the representation u8, which is stored first
    let case = unsafe { *(node as *const Node).cast::<u8>() } as u32;
    match node {
        Node::Nominal { kind, .. } => NOMINAL + *kind as u32,
        _ if case > NOMINAL => case + OTHER_NOMINALS,
        _ => case,
    }
}

/// Elements of a tuple, parameters of a function type, members of a protocol list.
fn count(node: &Node) -> u32 {
    match node {
        Node::Tuple(elements) => elements.len() as u32,
        Node::ProtocolList(members) => members.len() as u32,
        Node::FunctionType { params, .. } if matches!(**params, Node::Tuple(_)) => count(params),
        Node::FunctionType { .. } => 1,
        _ => 0,
    }
}
