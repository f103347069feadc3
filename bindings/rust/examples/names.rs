//! Reads names from standard input, one per line, and writes the text of each name, or the line
//! itself if it is not a Swift name:
//!
//!     nm -j program | cargo run --release --example names

use std::io::{BufRead, BufWriter, Write};

fn main() -> std::io::Result<()> {
    let mut names = cepruvels::Demangler::new();
    let mut out = BufWriter::new(std::io::stdout().lock());
    for line in std::io::stdin().lock().lines() {
        let line = line?;
        writeln!(out, "{}", names.demangle(&line).unwrap_or(&line))?;
    }
    out.flush()
}
