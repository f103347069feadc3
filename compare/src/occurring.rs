//! How often each operator of the Rust occurs in the names of standard input that the Rust reads,
//! for compare/declared: one line for each operator, with a tab and its count.

mod grammar;
mod mangle;
mod operators;
mod random;

use std::collections::HashMap;

fn main() {
    let mut often: HashMap<String, usize> = HashMap::new();
    for symbol in std::io::stdin().lines().map(Result::unwrap) {
        if swift_demangle::demangle(&symbol).is_none() {
            continue;
        }
        let all = operators::body_of(&symbol).and_then(operators::operators_of);
        let all = all.unwrap_or_else(|| panic!("the Rust reads {symbol}, and its operators are not found"));
        all.iter().filter_map(|o| operators::listed(o)).for_each(|o| *often.entry(o).or_default() += 1);
    }
    let every = grammar::every_operator();
    if let Some(unknown) = often.keys().find(|o| !every.contains(o)) {
        panic!("{unknown} is not among the {} operators", every.len());
    }
    for operator in every {
        println!("{operator}\t{}", often.get(&operator).unwrap_or(&0));
    }
}
