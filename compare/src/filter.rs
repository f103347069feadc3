//! The Rust as a line filter, for the bench: one line for each name, either `=`, tab, text; or `!`.

use std::io::{BufRead, BufReader, BufWriter, Write};

fn main() -> std::io::Result<()> {
    let mut input = BufReader::with_capacity(1 << 20, std::io::stdin().lock());
    let mut out = BufWriter::with_capacity(1 << 20, std::io::stdout().lock());
    let mut line = Vec::new();
    while input.read_until(b'\n', &mut line)? > 0 {
        if line.last() == Some(&b'\n') {
            line.pop();
        }
        match std::str::from_utf8(&line).ok().and_then(swift_demangle::demangle) {
            Some(text) => {
                out.write_all(b"=\t")?;
                out.write_all(text.as_bytes())?;
                out.write_all(b"\n")?;
            }
            None => out.write_all(b"!\n")?,
        }
        line.clear();
    }
    out.flush()
}
