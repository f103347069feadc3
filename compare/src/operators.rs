//! The operators of a name one by one, as they are spelled in it; for names that the Rust reads.

use crate::grammar;

/// A symbol without its prefix and its suffix.
pub fn body_of(symbol: &str) -> Option<&str> {
    let rest = ["_$s", "$s", "_$S", "$S"].iter().find_map(|prefix| symbol.strip_prefix(prefix))?;
    rest.split('.').next()
}

/// The operators of a body; None if the body ends in the middle of one.
pub fn operators_of(body: &str) -> Option<Vec<&str>> {
    let mut cursor = Cursor { body: body.as_bytes(), at: 0 };
    let mut all = Vec::new();
    while cursor.at < body.len() {
        let start = cursor.at;
        cursor.operator()?;
        all.push(body.get(start..cursor.at)?);
    }
    Some(all)
}

/// An operator as `grammar::every_operator` lists it; None for a name and for `A`, which are not
/// in that list.
pub fn listed(operator: &str) -> Option<String> {
    match operator.as_bytes() {
        [b'0'..=b'9' | b'A', ..] => None,
        [b'S', .., letter] => Some(format!("S{}", *letter as char)),
        _ => Some(grammar::letters_of(operator)),
    }
}

struct Cursor<'a> {
    body: &'a [u8],
    at: usize,
}

impl Cursor<'_> {
    fn peek(&self) -> Option<u8> {
        self.body.get(self.at).copied()
    }

    fn next(&mut self) -> Option<u8> {
        let byte = self.peek()?;
        self.at += 1;
        Some(byte)
    }

    fn next_if(&mut self, byte: u8) -> bool {
        let there = self.peek() == Some(byte);
        self.at += there as usize;
        there
    }

    /// Skips `count` bytes.
    fn skip(&mut self, count: usize) -> Option<()> {
        self.at = self.at.checked_add(count)?;
        (self.at <= self.body.len()).then_some(())
    }

    fn operator(&mut self) -> Option<()> {
        if self.peek()?.is_ascii_digit() {
            return self.name();
        }
        match self.next()? {
            b'A' => self.substitutions(),
            b'R' => self.requirement(),
            b'S' => self.standard(),
            b'Q' => self.member_type(),
            b'q' => self.parameter(),
            b'r' => self.counts(),
            b'w' => self.skip(2),
            b'M' => self.letters(b'X'),
            b'W' => self.letters(b'v'),
            b'X' => self.letters(b'M'),
            b'T' => self.thunk(),
            b'f' | b'v' | b'Y' => self.skip(1),
            _ => Some(()),
        }
    }

    /// One letter, and one more after the letter `long`.
    fn letters(&mut self, long: u8) -> Option<()> {
        let count = 1 + (self.peek()? == long) as usize;
        self.skip(count)
    }

    fn number(&mut self) -> Option<usize> {
        let digits = self.body[self.at..].iter().take_while(|b| b.is_ascii_digit()).count();
        let number = std::str::from_utf8(&self.body[self.at..self.at + digits]).ok()?.parse().ok()?;
        self.at += digits;
        Some(number)
    }

    /// `_`, or a number and `_`.
    fn index(&mut self) -> Option<()> {
        if !self.next_if(b'_') {
            self.number()?;
            return self.next_if(b'_').then_some(());
        }
        Some(())
    }

    /// A generic parameter: `z`, an index, or `d` and two indices.
    fn parameter(&mut self) -> Option<()> {
        if self.next_if(b'z') {
            return Some(());
        }
        if self.next_if(b'd') {
            self.index()?;
        }
        self.index()
    }

    /// A literal of a name: its length and that many bytes.
    fn literal(&mut self) -> Option<()> {
        let length = self.number()?;
        self.skip(length)
    }

    fn name(&mut self) -> Option<()> {
        if self.body[self.at..].starts_with(b"00") {
            self.at += 2;
            let length = self.number()?;
            self.next_if(b'_');
            return self.skip(length);
        }
        if self.next_if(b'0') {
            return self.words();
        }
        self.literal()
    }

    /// Word letters and literals, up to `0` or to the literal after the capital.
    fn words(&mut self) -> Option<()> {
        let mut more = true;
        while more {
            while more && self.peek()?.is_ascii_alphabetic() {
                more = self.next()?.is_ascii_lowercase();
            }
            if self.next_if(b'0') {
                return Some(());
            }
            self.literal()?;
        }
        Some(())
    }

    /// Small letters and numbers up to a capital or `_`.
    fn substitutions(&mut self) -> Option<()> {
        loop {
            let byte = self.next()?;
            if byte.is_ascii_uppercase() || byte == b'_' {
                return Some(());
            }
        }
    }

    fn standard(&mut self) -> Option<()> {
        if self.peek()?.is_ascii_digit() {
            self.number()?;
        }
        self.skip(1)
    }

    fn member_type(&mut self) -> Option<()> {
        match self.next()? {
            b'y' => self.index(),
            b'd' => {
                self.index()?;
                self.index()
            }
            _ => Some(()),
        }
    }

    fn requirement(&mut self) -> Option<()> {
        let letter = self.peek()?;
        if b"pQbBcsStlLm".contains(&letter) {
            self.at += 1;
        }
        if !b"QBSL".contains(&letter) {
            self.parameter()?;
        }
        self.skip(b"lLm".contains(&letter) as usize)
    }

    /// The counts of parameters after `r`, and `l`.
    fn counts(&mut self) -> Option<()> {
        while !self.next_if(b'l') {
            self.parameter()?;
        }
        Some(())
    }

    fn thunk(&mut self) -> Option<()> {
        if self.next()? == b'Y' {
            return self.index();
        }
        Some(())
    }
}
