//! Trees of operators, and how a compiler spells one: each operator after what it takes, with
//! substitutions (`A`), words (`0`) and repeats (`S2i`, `A2B`) where they apply.
//!
//! Written from document 01: what is remembered, which words are kept and how indices are spelled.
//! A tree represents what the text puts on the stack; two trees are the same node if their plain
//! spelling is the same.

use crate::random::Random;

#[derive(Clone)]
pub enum Tree {
    /// An identifier.
    Name(String),
    /// An identifier kept in its punycode form, with or without a `_` after its length.
    Coded(String, bool),
    /// The letters of an operator, after its parts.
    Op(Op),
}

#[derive(Clone)]
pub struct Op {
    pub parts: Vec<Tree>,
    pub letters: String,
    /// Whether the reading remembers what the operator makes.
    pub remembered: bool,
    plain: String,
}

pub fn name(text: &str) -> Tree {
    Tree::Name(text.to_string())
}

/// A leaf: letters that take nothing.
pub fn leaf(letters: &str) -> Tree {
    op(Vec::new(), letters)
}

pub fn op(parts: Vec<Tree>, letters: &str) -> Tree {
    make(parts, letters, false)
}

/// An operator whose result is remembered.
pub fn kept(parts: Vec<Tree>, letters: &str) -> Tree {
    make(parts, letters, true)
}

fn make(parts: Vec<Tree>, letters: &str, remembered: bool) -> Tree {
    let mut plain = String::new();
    for part in &parts {
        part.plain_to(&mut plain);
    }
    plain.push_str(letters);
    Tree::Op(Op { parts, letters: letters.to_string(), remembered, plain })
}

impl Tree {
    fn plain_to(&self, to: &mut String) {
        match self {
            Tree::Name(n) => {
                to.push_str(&n.len().to_string());
                to.push_str(n);
            }
            Tree::Coded(n, bar) => {
                to.push_str("00");
                to.push_str(&n.len().to_string());
                to.push_str(if *bar { "_" } else { "" });
                to.push_str(n);
            }
            Tree::Op(o) => to.push_str(&o.plain),
        }
    }

    fn plain(&self) -> String {
        let mut s = String::new();
        self.plain_to(&mut s);
        s
    }

    /// The letters of every operator in the tree.
    pub fn operators<'a>(&'a self, to: &mut Vec<&'a str>) {
        if let Tree::Op(o) = self {
            for part in &o.parts {
                part.operators(to);
            }
            to.push(&o.letters);
        }
    }
}

/// The last operator, if the next may be joined to it.
#[derive(Clone, Copy)]
enum Last {
    Other,
    /// `S`, copies and a letter, from this place on.
    Standard(usize, usize, u8),
    /// copies and a capital under `A`, from this place on.
    Substitution(usize, usize, u8),
}

pub struct Mangler<'r> {
    pub text: Vec<u8>,
    r: &'r mut Random,
    /// How many of a hundred chances to substitute, repeat or join are taken.
    thrift: usize,
    remembered: Vec<String>,
    words: Vec<Vec<u8>>,
    last: Last,
}

const MOST_WORDS: usize = 26;
const LETTERS: usize = 26;

impl<'r> Mangler<'r> {
    pub fn new(r: &'r mut Random, thrift: usize) -> Mangler<'r> {
        Mangler { text: Vec::new(), r, thrift, remembered: Vec::new(), words: Vec::new(), last: Last::Other }
    }

    pub fn put(&mut self, tree: &Tree) {
        let can_be_known = match tree {
            Tree::Op(o) => o.remembered,
            _ => true,
        };
        if can_be_known {
            let plain = tree.plain();
            if let Some(i) = self.remembered.iter().position(|p| *p == plain) {
                if self.r.chance(self.thrift) {
                    return self.substitute(i);
                }
            }
        }
        match tree {
            Tree::Name(n) => self.spell(n.as_bytes()),
            Tree::Coded(..) => {
                self.text.extend(tree.plain().bytes());
                self.last = Last::Other;
            }
            Tree::Op(o) => {
                for part in &o.parts {
                    self.put(part);
                }
                self.letters(o.letters.as_bytes());
            }
        }
        if can_be_known {
            self.remembered.push(tree.plain());
        }
    }

    fn letters(&mut self, letters: &[u8]) {
        if let ([b'S', letter], Last::Standard(at, copies, last)) = (letters, self.last) {
            if *letter == last && last != b'g' && self.r.chance(self.thrift) {
                self.text.truncate(at);
                self.text.extend(format!("S{}{}", copies + 1, last as char).bytes());
                self.last = Last::Standard(at, copies + 1, last);
                return;
            }
        }
        self.last = match letters {
            [b'S', letter] => Last::Standard(self.text.len(), 1, *letter),
            _ => Last::Other,
        };
        self.text.extend(letters);
    }

    fn substitute(&mut self, i: usize) {
        if i >= LETTERS {
            let n = if i == LETTERS { String::new() } else { (i - LETTERS - 1).to_string() };
            self.text.extend(format!("A{n}_").bytes());
            self.last = Last::Other;
            return;
        }
        let letter = b'A' + i as u8;
        if let Last::Substitution(at, copies, last) = self.last {
            if self.r.chance(self.thrift) {
                if last == letter {
                    self.text.truncate(at);
                    self.text.extend(format!("{}{}", copies + 1, letter as char).bytes());
                    self.last = Last::Substitution(at, copies + 1, letter);
                } else {
                    let end = self.text.len() - 1;
                    self.text[end] = last.to_ascii_lowercase();
                    self.last = Last::Substitution(self.text.len(), 1, letter);
                    self.text.push(letter);
                }
                return;
            }
        }
        self.text.push(b'A');
        self.last = Last::Substitution(self.text.len(), 1, letter);
        self.text.push(letter);
    }

    /// An identifier, with letters for the words that are known.
    fn spell(&mut self, name: &[u8]) {
        self.last = Last::Other;
        // (start, end, its letter) of each word to be spelled by a letter
        let mut by_letter = Vec::new();
        for (start, end) in words_of(name) {
            if let Some(i) = self.words.iter().position(|w| w[..] == name[start..end]) {
                if self.r.chance(self.thrift) {
                    by_letter.push((start, end, i as u8));
                }
            }
        }
        if by_letter.is_empty() {
            return self.literal(name);
        }
        self.text.push(b'0');
        let mut at = 0;
        let count = by_letter.len();
        for (n, (start, end, i)) in by_letter.into_iter().enumerate() {
            if at < start {
                self.literal(&name[at..start]);
            }
            self.text.push(if n + 1 == count { b'A' + i } else { b'a' + i });
            at = end;
        }
        if at < name.len() {
            self.literal(&name[at..]);
        } else {
            self.text.push(b'0');
        }
    }

    fn literal(&mut self, part: &[u8]) {
        self.text.extend(part.len().to_string().bytes());
        self.text.extend(part);
        for (start, end) in words_of(part) {
            if end - start >= 2 && self.words.len() < MOST_WORDS {
                self.words.push(part[start..end].to_vec());
            }
        }
    }
}

/// Where the words of a name start and end.
fn words_of(name: &[u8]) -> Vec<(usize, usize)> {
    let mut words = Vec::new();
    let mut at = 0;
    while at < name.len() {
        if name[at] == b'_' || name[at].is_ascii_digit() {
            at += 1;
            continue;
        }
        let start = at;
        at += 1;
        while at < name.len() && name[at] != b'_' && (name[at - 1].is_ascii_uppercase() || !name[at].is_ascii_uppercase()) {
            at += 1;
        }
        words.push((start, at));
    }
    words
}
