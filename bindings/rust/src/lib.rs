//! A demangler for Swift names whose answers are proved, for Rust.
//!
//! [`Demangler`] keeps the memory that readings need and is what most programs want:
//!
//! ```
//! let mut names = cepruvels::Demangler::new();
//! assert_eq!(names.demangle("$s4main3fooyyF"), Ok("main.foo() -> ()"));
//! assert_eq!(names.demangle("$sZ").unwrap_err().to_string(), "10 at 2: a node is missing from the stack or of the wrong kind");
//! ```
//!
//! The eight functions [`demangle`], [`demangle_type`], [`shape`], [`shape_type`] and their
//! `_stopped` forms are the proved calls themselves, on memory that the caller lends. Each is
//! total: it returns an answer for every text, ceiling and length. `include/cepruvels.h` says what
//! they take, write and return, and the repository's `crates/definition` says what that means.

use std::fmt;

mod raw;

/// Why a text is refused; the numbers are those of document 01.
#[derive(Clone, Copy, Debug, PartialEq, Eq, Hash, PartialOrd, Ord)]
pub enum Refusal {
    /// The ceiling is 0 or above 65,536.
    Ceiling = 1,
    /// The workspace is too small for the ceiling.
    Workspace = 2,
    /// The text has more than 65,535 bytes.
    Length = 3,
    /// The text is not UTF-8.
    Encoding = 4,
    /// A symbol has no prefix, or nothing after it.
    Prefix = 5,
    /// A 4,097th operator.
    Steps = 6,
    /// More nodes charged than the ceiling allows.
    Charge = 7,
    /// A 257th wrap, or a 257th count after `r`.
    Nesting = 8,
    /// A letter, number, index, word or literal breaks a rule, or the text ends inside an operator.
    Spelling = 9,
    /// A node is missing from the stack or of the wrong kind.
    Stack = 10,
    /// Not exactly one node is left, or it is a bare identifier; for a type, it is not a type.
    Leftover = 11,
    /// The text, or the stack of a stopped run, exceeds the output.
    Output = 12,
}

impl Refusal {
    const ALL: [Refusal; 12] = [
        Refusal::Ceiling,
        Refusal::Workspace,
        Refusal::Length,
        Refusal::Encoding,
        Refusal::Prefix,
        Refusal::Steps,
        Refusal::Charge,
        Refusal::Nesting,
        Refusal::Spelling,
        Refusal::Stack,
        Refusal::Leftover,
        Refusal::Output,
    ];

    /// The number of document 01, 1 to 12.
    pub fn number(self) -> u8 {
        self as u8
    }
}

impl fmt::Display for Refusal {
    fn fmt(&self, f: &mut fmt::Formatter) -> fmt::Result {
        f.write_str(match self {
            Refusal::Ceiling => "the ceiling is 0 or above 65,536",
            Refusal::Workspace => "the workspace is too small for the ceiling",
            Refusal::Length => "the text has more than 65,535 bytes",
            Refusal::Encoding => "the text is not UTF-8",
            Refusal::Prefix => "a symbol has no prefix, or nothing behind it",
            Refusal::Steps => "there are more than 4,096 operators",
            Refusal::Charge => "more nodes are charged than the ceiling allows",
            Refusal::Nesting => "there are more than 256 wraps, or counts behind r",
            Refusal::Spelling => "a letter, number, index, word or literal breaks a rule",
            Refusal::Stack => "a node is missing from the stack or of the wrong kind",
            Refusal::Leftover => "not exactly one node is left, or one that names nothing",
            Refusal::Output => "the text exceeds the output",
        })
    }
}

/// A refused text: the reason, and the byte of the given text at which it is refused.
#[derive(Clone, Copy, Debug, PartialEq, Eq, Hash)]
pub struct Refused {
    pub refusal: Refusal,
    pub place: usize,
}

impl fmt::Display for Refused {
    fn fmt(&self, f: &mut fmt::Formatter) -> fmt::Result {
        write!(f, "{} at {}: {}", self.refusal.number(), self.place, self.refusal)
    }
}

impl std::error::Error for Refused {}

/// The cost of an accepted text.
#[derive(Clone, Copy, Debug, PartialEq, Eq, Hash)]
pub struct Counts {
    /// Operators read.
    pub steps: usize,
    /// Nodes charged.
    pub total: usize,
    /// Types wrapped in others.
    pub wraps: usize,
}

/// The largest ceiling: enough for every name that any call reads.
pub const MOST_CEILING: usize = 65_536;
/// The longest text.
pub const MOST_TEXT: usize = 65_535;

/// The number of 32-bit numbers that a reading with this ceiling needs.
pub const fn reading_numbers(ceiling: usize) -> usize {
    64usize.saturating_mul(ceiling)
}

/// The number of 32-bit numbers that a shape check with this ceiling needs.
pub const fn shape_numbers(ceiling: usize) -> usize {
    8usize.saturating_mul(ceiling)
}

/// The six numbers of a call: counts and length, or the refusal.
fn outcome(answer: [u64; 6]) -> Result<(Counts, usize), Refused> {
    let [number, place, steps, total, wraps, length] = answer.map(|n| n as usize);
    match number {
        0 => Ok((Counts { steps, total, wraps }, length)),
        n => Err(Refused { refusal: Refusal::ALL[n - 1], place }),
    }
}

/// Reads a symbol. The text is the part of `out` that is returned. Nothing else of `out` is
/// written, and nothing at all if the symbol is refused.
pub fn demangle<'o>(text: &[u8], ceiling: usize, workspace: &mut [u32], out: &'o mut [u8]) -> Result<(Counts, &'o [u8]), Refused> {
    let (counts, length) = outcome(raw::read(raw::cepruvels_demangle, text, ceiling, workspace, out))?;
    Ok((counts, &out[..length]))
}

/// Reads a type.
pub fn demangle_type<'o>(text: &[u8], ceiling: usize, workspace: &mut [u32], out: &'o mut [u8]) -> Result<(Counts, &'o [u8]), Refused> {
    let (counts, length) = outcome(raw::read(raw::cepruvels_demangle_type, text, ceiling, workspace, out))?;
    Ok((counts, &out[..length]))
}

/// Checks the shape of a symbol: it accepts and refuses like the reading, with the same place and
/// counts, and makes no text.
pub fn shape(text: &[u8], ceiling: usize, workspace: &mut [u32]) -> Result<Counts, Refused> {
    outcome(raw::check(raw::cepruvels_shape, text, ceiling, workspace)).map(|(counts, _)| counts)
}

/// Checks the shape of a type.
pub fn shape_type(text: &[u8], ceiling: usize, workspace: &mut [u32]) -> Result<Counts, Refused> {
    outcome(raw::check(raw::cepruvels_shape_type, text, ceiling, workspace)).map(|(counts, _)| counts)
}

macro_rules! stopped {
    ($(#[$about:meta])* $name:ident, $raw:ident) => {
        $(#[$about])*
        pub fn $name<'o>(text: &[u8], ceiling: usize, k: usize, workspace: &mut [u32], out: &'o mut [u32]) -> Result<(Counts, &'o [u32]), Refused> {
            let (counts, length) = outcome(raw::stopped(raw::$raw, text, ceiling, k, workspace, out))?;
            Ok((counts, &out[..length]))
        }
    };
}

stopped!(
    /// Reads the first `k` operators of a symbol, or all if there are fewer, and returns the stack,
    /// bottom first: kind, size and count of each entry.
    demangle_stopped,
    cepruvels_demangle_stopped
);
stopped!(
    /// Reads the first `k` operators of a type.
    demangle_type_stopped,
    cepruvels_demangle_type_stopped
);
stopped!(
    /// Checks the shape of the first `k` operators of a symbol: the stack is the same as the
    /// reading's.
    shape_stopped,
    cepruvels_shape_stopped
);
stopped!(
    /// Checks the shape of the first `k` operators of a type.
    shape_type_stopped,
    cepruvels_shape_type_stopped
);

type Reading = for<'o> fn(&[u8], usize, &mut [u32], &'o mut [u8]) -> Result<(Counts, &'o [u8]), Refused>;

/// Readings with their own memory, which is used again for each name.
pub struct Demangler {
    ceiling: usize,
    workspace: Vec<u32>,
    out: Vec<u8>,
    most: usize,
}

impl Default for Demangler {
    fn default() -> Demangler {
        Demangler::new()
    }
}

impl Demangler {
    /// A ceiling of 256, which nearly all names of shipped binaries stay within (64 KB of
    /// workspace), and texts of up to 1 MB.
    pub fn new() -> Demangler {
        Demangler::with(256, 1 << 20)
    }

    /// A ceiling, which is clamped to 1 to 65,536, and the greatest length of a text.
    pub fn with(ceiling: usize, longest_text: usize) -> Demangler {
        let ceiling = ceiling.clamp(1, MOST_CEILING);
        Demangler { ceiling, workspace: vec![0; reading_numbers(ceiling)], out: vec![0; longest_text.min(4096)], most: longest_text }
    }

    /// Returns the text of a symbol.
    pub fn demangle(&mut self, symbol: &str) -> Result<&str, Refused> {
        self.read(symbol, demangle)
    }

    /// Returns the text of a type.
    pub fn demangle_type(&mut self, mangled: &str) -> Result<&str, Refused> {
        self.read(mangled, demangle_type)
    }

    fn read(&mut self, text: &str, call: Reading) -> Result<&str, Refused> {
        let length = loop {
            let answer = call(text.as_bytes(), self.ceiling, &mut self.workspace, &mut self.out);
            match answer.map(|(_, written)| written.len()) {
                Ok(length) => break length,
                // the output is enlarged and the name is read again, up to the longest text that is
                // wanted
                Err(Refused { refusal: Refusal::Output, .. }) if self.out.len() < self.most => {
                    let larger = (4 * self.out.len()).clamp(1, self.most);
                    self.out.resize(larger, 0);
                }
                Err(refused) => return Err(refused),
            }
        };
        Ok(std::str::from_utf8(&self.out[..length]).expect("names of a text in UTF-8 are UTF-8"))
    }
}
