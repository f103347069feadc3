//! Compares our calls with the Rust source, unchanged, on the names of real binaries (compare/real
//! builds and starts it): each name as a symbol; if it names the metadata of a type, that type; and
//! each of these again with one byte changed. Numbers, places, counts and stacks are compared with
//! the instrumented copy of the Rust, on all unchanged texts and on a share of the others.

mod judge;
mod ours;
mod random;
mod shared;
mod workers;

use judge::{Judge, Rust, Verdict};
use ours::Form;
use random::Random;
use shared::Shared;
use std::collections::HashSet;
use std::sync::atomic::AtomicU64;
use workers::{add, by_number, get, number, Comparison, Options, Outcome, Text};

const CHANGES: usize = 10;
/// The bytes from which a byte is drawn in three of four cases.
const USUAL: &[u8] = b"ABCDEFGHIJKLMNOPQRSTUVWXYZabcdefghijklmnopqrstuvwxyz0123456789_.$";

/// The texts, in rounds: first all names and types unchanged, then all of them with their first
/// change, and so on.
struct Real {
    names: Vec<Vec<u8>>,
    /// The numbers of the names of the metadata of a type.
    types: Vec<usize>,
    changes: usize,
    seed: u64,
}

impl Real {
    fn new(names: Vec<Vec<u8>>, changes: usize, seed: u64) -> Real {
        let types = (0..names.len()).filter(|&i| type_of(&names[i]).is_some()).collect();
        Real { names, types, changes, seed }
    }

    fn a_round(&self) -> usize {
        self.names.len() + self.types.len()
    }

    /// The form of a text and the number of its name, by its place in a round.
    fn named(&self, place: usize) -> (Form, usize) {
        match place.checked_sub(self.names.len()) {
            None => (Form::Symbol, place),
            Some(place) => (Form::Type, self.types[place]),
        }
    }

    fn unchanged(&self, form: Form, name: usize) -> &[u8] {
        let symbol = &self.names[name];
        match form {
            Form::Symbol => symbol,
            Form::Type => type_of(symbol).expect("a name of a type's metadata"),
        }
    }
}

/// The type whose metadata (`N`), accessor (`Ma`) or descriptor (`Mn`) this is.
fn type_of(name: &[u8]) -> Option<&[u8]> {
    let body = ["$s", "$S", "_$s", "_$S"].iter().find_map(|prefix| name.strip_prefix(prefix.as_bytes()))?;
    ["Mn", "Ma", "N"].iter().find_map(|end| body.strip_suffix(end.as_bytes()))
}

/// The same numbers each time for the same seed, name and change.
fn random_of(seed: u64, form: Form, name: usize, change: usize) -> Random {
    [form as u64, name as u64, change as u64].iter().fold(Random::new(seed), |mut r, part| Random::new(r.next() ^ part))
}

/// The text with one byte replaced by another, left out or inserted.
fn changed(text: &[u8], r: &mut Random) -> Vec<u8> {
    let mut bytes = text.to_vec();
    let at = r.below(bytes.len());
    match r.below(3) {
        0 if !text.is_empty() => {
            while bytes[at] == text[at] {
                bytes[at] = byte(r);
            }
        }
        1 if !text.is_empty() => {
            bytes.remove(at);
        }
        _ => bytes.insert(r.below(bytes.len() + 1), byte(r)),
    }
    bytes
}

fn byte(r: &mut Random) -> u8 {
    if r.below(4) == 0 {
        r.below(256) as u8
    } else {
        r.of(USUAL)
    }
}

/// The program's own counters of the unchanged texts of a form: how many the Rust reads, and for
/// each number how many of our readings with N = 256 have it.
fn own(shared: &Shared, form: Form) -> &[AtomicU64] {
    const OF_A_FORM: usize = 1 + 13;
    &shared.counts.own[OF_A_FORM * form as usize..][..OF_A_FORM]
}

impl Comparison for Real {
    const COMMAND: &'static str = "compare/real";
    type Known = ();

    fn judge(judge: &mut Judge, form: Form, text: &[u8], rust: &Rust) -> Verdict<u64> {
        judge.judge(form, text, rust)?;
        judge.every_k(form, text, rust)
    }

    fn total(&self) -> usize {
        (1 + self.changes) * self.a_round()
    }

    fn listed(&self) -> usize {
        self.a_round()
    }

    fn at(&self, i: usize) -> Text<()> {
        let (change, place) = (i / self.a_round(), i % self.a_round());
        let (form, name) = self.named(place);
        let text = self.unchanged(form, name);
        let bytes = if change == 0 { text.to_vec() } else { changed(text, &mut random_of(self.seed, form, name, change)) };
        Text { form, bytes, known: () }
    }

    fn count(&self, shared: &Shared, i: usize, text: &Text<()>, rust: &Rust, number: u64) {
        if i < self.a_round() {
            let counts = own(shared, text.form);
            add(&counts[0], matches!(rust, Rust::Text(_)) as u64);
            add(&counts[1 + number as usize], 1);
        }
    }
}

/// What the command line asks for.
struct Asked {
    options: Options,
    changes: usize,
    names: Option<String>,
}

fn asked() -> Option<Asked> {
    let (mut changes, mut names) = (CHANGES, None);
    let options = Options::of_command_line(|name, value| match name {
        "--changes" => number(value).map(|count| changes = count),
        "--names" => Some(names = Some(value.to_string())),
        _ => None,
    })?;
    let one_kind = options.one.is_none() || names.is_none();
    one_kind.then_some(Asked { options, changes, names })
}

fn fail(say: &str) -> ! {
    eprintln!("{say}");
    std::process::exit(2)
}

fn usage() -> ! {
    fail(
        "usage: compare/real [--names FILE] [--changes COUNT] [--seed NUMBER] [--workers COUNT] [--numbers-every COUNT]\n       \
         compare/real --symbol TEXT | --type TEXT",
    )
}

/// The lines of a file that are not empty.
fn names_of(file: &str) -> Vec<Vec<u8>> {
    let bytes = std::fs::read(file).unwrap_or_else(|e| fail(&format!("compare/real: the file of names {file} cannot be read: {e}")));
    let names: Vec<Vec<u8>> = bytes.split(|&b| b == b'\n').filter(|line| !line.is_empty()).map(<[u8]>::to_vec).collect();
    if names.is_empty() {
        fail(&format!("compare/real: the file of names {file} has none: a name is a line of it"));
    }
    names
}

fn main() {
    let asked = asked().unwrap_or_else(|| usage());
    let shared = workers::begin();
    if let Some((form, text)) = &asked.options.one {
        return workers::judge_one::<Real>(shared, *form, text);
    }
    let names = names_of(&asked.names.unwrap_or_else(|| usage()));
    let real = Real::new(names, asked.changes, asked.options.seed);
    let outcome = workers::compare(&real, &asked.options, shared);
    summary(shared, &real, &outcome);
}

fn summary(shared: &Shared, real: &Real, outcome: &Outcome) {
    let c = &shared.counts;
    let (names, types, of_each) = (real.names.len(), real.types.len(), 1 + real.changes);
    println!(
        "{names} names: {} texts as symbols and {} as types, no difference; {} calls of ours, {:.0} s",
        names * of_each,
        types * of_each,
        get(&c.calls),
        outcome.seconds()
    );
    let different: HashSet<&[u8]> = real.types.iter().map(|&name| real.unchanged(Form::Type, name)).collect();
    println!("the types are {} different ones", different.len());
    for (form, count, what) in [(Form::Symbol, names, "the names"), (Form::Type, types, "their types")] {
        let counts = own(shared, form);
        println!("{what} unchanged: the Rust reads {} of {count}", get(&counts[0]));
        println!("  our readings with N = 256, by number: {}", by_number(&counts[1..]));
    }
    println!("of all texts {}", outcome.reads());
    println!("{}\n{}", outcome.failures(), outcome.with_numbers());
}
