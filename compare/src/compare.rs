//! Compares our calls with the Rust source, unchanged, on many texts (compare/run builds and starts
//! it). Numbers, places, counts and stacks are compared with the instrumented copy of it, on the
//! texts that are listed and on a share of those that are drawn.

mod grammar;
mod judge;
mod mangle;
mod ours;
mod random;
mod shared;
mod texts;
mod workers;

use judge::{Judge, Rust, Verdict};
use mangle::Tree;
use ours::Form;
use shared::Shared;
use texts::Texts;
use workers::{add, by_number, get, number, Comparison, Options, Outcome, Text};

/// The texts of src/texts.rs.
struct Made {
    texts: Texts,
    total: usize,
    operators: Vec<String>,
}

impl Comparison for Made {
    const COMMAND: &'static str = "compare/run";
    /// For a name that the grammar made and that is unchanged: its tree.
    type Known = Option<Tree>;

    fn judge(judge: &mut Judge, form: Form, text: &[u8], rust: &Rust) -> Verdict<u64> {
        judge.judge(form, text, rust)
    }

    fn total(&self) -> usize {
        self.total
    }

    fn listed(&self) -> usize {
        self.texts.listed()
    }

    fn at(&self, i: usize) -> Text<Option<Tree>> {
        let text = self.texts.at(i);
        Text { form: text.form, bytes: text.bytes, known: text.tree }
    }

    /// Counts the operators of an eighth of the names that the Rust reads.
    fn count(&self, shared: &Shared, i: usize, text: &Text<Option<Tree>>, rust: &Rust, _: u64) {
        if let (Rust::Text(_), Some(tree), true) = (rust, &text.known, i % 8 == 0) {
            let mut all = Vec::new();
            tree.operators(&mut all);
            for letters in all {
                let letters = grammar::letters_of(letters);
                if let Some(at) = self.operators.iter().position(|o| *o == letters) {
                    add(&shared.counts.own[at], 1);
                }
            }
        }
    }
}

/// The options that every program has, and the number of texts.
fn options() -> Option<(Options, usize)> {
    let mut texts = 20_000_000;
    let options = Options::of_command_line(|name, value| match name {
        "--texts" => number(value).map(|count| texts = count),
        _ => None,
    })?;
    Some((options, texts))
}

fn usage() -> ! {
    eprintln!("usage: compare [--texts COUNT] [--seed NUMBER] [--workers COUNT] [--numbers-every COUNT] [--symbol TEXT | --type TEXT]");
    std::process::exit(2)
}

fn main() {
    let (options, count) = options().unwrap_or_else(|| usage());
    let shared = workers::begin();
    if let Some((form, text)) = &options.one {
        return workers::judge_one::<Made>(shared, *form, text);
    }
    let texts = Texts::new(options.seed);
    let operators = grammar::every_operator();
    assert!(operators.len() <= shared::OWN);
    let made = Made { total: count.max(texts.listed()), texts, operators };
    let outcome = workers::compare(&made, &options, shared);
    summary(shared, &made, &outcome);
}

fn summary(shared: &Shared, made: &Made, outcome: &Outcome) {
    let c = &shared.counts;
    println!("{} texts, no difference; {} calls of ours, {:.0} s", get(&c.done), get(&c.calls), outcome.seconds());
    println!("{}\n{}\n{}", outcome.reads(), outcome.failures(), outcome.with_numbers());
    println!("our numbers at N = 65,536: {}", by_number(&c.numbers));
    let operators = &made.operators;
    let mut seen: Vec<(u64, &String)> = c.own.iter().map(get).zip(operators).collect();
    seen.sort();
    let none: Vec<&String> = seen.iter().filter(|(n, _)| *n == 0).map(|(_, o)| *o).collect();
    println!(
        "operators in an eighth of the names read: {} of {}; fewest: {}",
        operators.len() - none.len(),
        operators.len(),
        seen.iter().take(6).map(|(n, o)| format!("{o} {n}")).collect::<Vec<_>>().join(", ")
    );
    if made.total > 1_000_000 {
        assert!(none.is_empty(), "operators that no name read has: {none:?}");
    }
}
