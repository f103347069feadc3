//! The list of names that the bench reads: names like those of shipped binaries, each once, all
//! read by the Rust at a ceiling of 256 and, if Swift's own demangler is also asked, by it.

use crate::grammar::{Grammar, Profile};
use std::collections::HashSet;

pub const SEED: u64 = 20261116;

pub fn names(count: usize, seed: u64, mut good: impl FnMut(&str) -> bool) -> Vec<String> {
    let mut grammar = Grammar::new(seed, Profile::Plain);
    let mut seen = HashSet::new();
    let mut list = Vec::new();
    while list.len() < count {
        let text = String::from_utf8(grammar.symbol()).unwrap();
        if text.len() <= 400 && good(&text) && seen.insert(text.clone()) {
            list.push(text);
        }
    }
    list
}
