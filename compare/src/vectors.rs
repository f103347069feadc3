//! The fixed list of cases of the test program `vectors`, and what it must answer (compare/vectors
//! builds and starts it, and appends the lines of key.py, stacks.py and leaves.py).
//!
//! A case is a line: call, N, k or `-`, numbers of workspace lent, elements of output lent, text in
//! hexadecimal digits; tabs between. The calls: 0 demangle, 1 demangle_type, 2 shape, 3 shape_type,
//! and 4 to 7 the same stopped after k. An answer is a line: number, place, steps, total, wraps,
//! length, with blanks between; a tab; what was written, a text in hexadecimal digits, a stack as
//! numbers with blanks between. A line that starts with a letter is no case: it is for a reader of
//! bytes (leaves.py).
//!
//! No code of ours makes an answer. Acceptance and text are the Rust's (`check` asks the unchanged
//! source again); numbers, places, counts and stacks come from an instrumented copy of it
//! (README.md).

mod grammar;
mod mangle;
mod operators;
mod ours;
mod random;
mod texts;

use grammar::{Grammar, Profile};
use ours::{numbers_a_node, Call, Form};
use std::collections::{HashMap, HashSet};
use std::io::BufRead;

const MOST: usize = 65_536;

/// The most that the program `vectors` lends to a reading: a program of ours has no heap, and 64 × 65,536 numbers are more than its stack.
/// Readings with N = 65,536 are compared by `compare/run`.
const LENT: usize = 16_384;
const ROOM: usize = 4096;

/// The most that the program `vectors` reads of its lines.
const INPUT: usize = 1_572_864;

/// Names from declarations, a row a line: section, declaration, mangled name, the Rust's text,
/// Swift's own text where it differs; tabs between (compare/declared makes them).
const ROWS: &str = include_str!("../declarations/rows");

/// The ceiling of their cases, that of the program `names`.
const DECLARED: usize = 256;

#[derive(Clone, PartialEq, Eq, Hash)]
struct Case {
    call: Call,
    form: Form,
    ceiling: usize,
    k: Option<usize>,
    workspace: usize,
    room: usize,
    text: Vec<u8>,
}

impl Case {
    fn whole(call: Call, form: Form, ceiling: usize, room: usize, text: &[u8]) -> Case {
        let workspace = numbers_a_node(call) * ceiling;
        let room = if call == Call::Check { 0 } else { room };
        Case { call, form, ceiling, k: None, workspace, room, text: text.to_vec() }
    }

    fn number(&self) -> usize {
        4 * self.k.is_some() as usize + 2 * (self.call == Call::Check) as usize + (self.form == Form::Type) as usize
    }

    fn line(&self) -> String {
        let k = self.k.map_or("-".to_string(), |k| k.to_string());
        format!("{}\t{}\t{k}\t{}\t{}\t{}", self.number(), self.ceiling, self.workspace, self.room, hex(&self.text))
    }

    fn of(line: &str) -> Case {
        let parts: Vec<&str> = line.split('\t').collect();
        let [number, ceiling, k, workspace, room, hex] = parts[..] else { panic!("no case: {line}") };
        let number: usize = number.parse().unwrap();
        Case {
            call: if number & 2 == 0 { Call::Reading } else { Call::Check },
            form: if number & 1 == 0 { Form::Symbol } else { Form::Type },
            ceiling: ceiling.parse().unwrap(),
            k: k.parse().ok(),
            workspace: workspace.parse().unwrap(),
            room: room.parse().unwrap(),
            text: (0..hex.len() / 2).map(|i| u8::from_str_radix(&hex[2 * i..2 * i + 2], 16).unwrap()).collect(),
        }
    }
}

fn main() {
    let args: Vec<String> = std::env::args().skip(1).collect();
    match args.iter().map(String::as_str).collect::<Vec<_>>()[..] {
        ["cases"] => cases().iter().for_each(|c| println!("{}", c.line())),
        ["answers"] => std::io::stdin().lock().lines().for_each(|l| println!("{}", answer(&Case::of(&l.unwrap())))),
        ["ours", cases, answers] => ours(cases, answers),
        ["check", cases, answers] => check(cases, answers),
        _ => {
            eprintln!("usage: vectors cases | vectors answers < CASES | vectors ours LINES ANSWERS | vectors check LINES ANSWERS");
            std::process::exit(2);
        }
    }
}

fn hex(bytes: &[u8]) -> String {
    bytes.iter().map(|b| format!("{b:02x}")).collect()
}

fn joined(numbers: &[impl ToString]) -> String {
    numbers.iter().map(|n| n.to_string()).collect::<Vec<_>>().join(" ")
}

// Answers

#[cfg(oracle)]
fn answer(c: &Case) -> String {
    let refused = |number: u64| format!("{number} 0 0 0 0 0\t");
    if c.ceiling == 0 || c.ceiling > MOST {
        return refused(1);
    }
    if c.workspace < numbers_a_node(c.call) * c.ceiling {
        return refused(2);
    }
    if c.text.len() > 65_535 {
        return refused(3);
    }
    let print = c.call == Call::Reading && c.k.is_none();
    let a = instrumented::answer(&c.text, c.form == Form::Symbol, c.ceiling, c.k, print, c.room);
    let written = match c.k {
        Some(_) => joined(&a.stack),
        None => hex(a.text.as_bytes()),
    };
    format!("{}\t{written}", joined(&a.values))
}

#[cfg(not(oracle))]
fn answer(_: &Case) -> String {
    panic!("the answers are the instrumented copy's, and this was built without it")
}

/// What our calls answer, by the C interface.
#[cfg(capi)]
fn ours_of(c: &Case) -> String {
    let mut workspace = vec![0x5A5A_5A5A; c.workspace];
    let (mut bytes, mut numbers) = (vec![0x5A; c.room], vec![0x5A5A_5A5A; c.room]);
    let a = match (c.k, c.call) {
        (Some(k), call) => ours::stopped(call, c.form, &c.text, c.ceiling, k, &mut workspace, &mut numbers),
        (None, Call::Reading) => ours::read(c.form, &c.text, c.ceiling, &mut workspace, &mut bytes),
        (None, Call::Check) => ours::check(c.form, &c.text, c.ceiling, &mut workspace),
    };
    let length = a.length as usize;
    let written = match c.k {
        Some(_) => joined(&numbers[..length]),
        None => hex(&bytes[..length]),
    };
    format!("{} {} {} {} {} {length}\t{written}", a.number, a.place, a.steps, a.total, a.wraps)
}

#[cfg(not(capi))]
fn ours_of(_: &Case) -> String {
    panic!("our calls are not linked: set LIBCAPI")
}

/// The contents of the two files of a folder.
struct Rows {
    /// Each case and its answer.
    cases: Vec<(String, String)>,
    /// How many lines are for the readers of bytes, about which neither the Rust nor our calls can be asked.
    readers: usize,
}

impl Rows {
    fn of(lines: &str, answers: &str) -> Rows {
        let (lines, answers) = (std::fs::read(lines).unwrap(), std::fs::read(answers).unwrap());
        assert!(lines.len() <= INPUT, "{} bytes of lines, and the program reads {INPUT}", lines.len());
        let split = |bytes: &[u8]| -> Vec<Vec<u8>> {
            bytes.split_inclusive(|b| *b == b'\n').map(|l| l.strip_suffix(b"\n").unwrap().to_vec()).collect()
        };
        let (lines, answers) = (split(&lines), split(&answers));
        assert_eq!(lines.len(), answers.len(), "as many answers as lines");
        let all = lines.len();
        let cases: Vec<(String, String)> = (lines.into_iter().zip(answers))
            .filter(|(line, _)| !line.first().is_some_and(u8::is_ascii_alphabetic))
            .map(|(line, answer)| (String::from_utf8(line).unwrap(), String::from_utf8(answer).unwrap()))
            .collect();
        Rows { readers: all - cases.len(), cases }
    }
}

/// Our calls asked about all cases.
fn ours(lines: &str, answers: &str) {
    let rows = Rows::of(lines, answers);
    for (line, answer) in &rows.cases {
        let ours = ours_of(&Case::of(line));
        assert!(ours == *answer, "{line}\n{answer}\nour call: {ours}");
    }
    println!("our calls answer all {} cases; {} lines of the readers of bytes are passed over", rows.cases.len(), rows.readers);
}

/// The unchanged Rust asked again about the cases that are not stopped: a reading and a check are
/// accepted where it reads, with its text. Its ceiling is 65,536, so it can be asked about a smaller
/// one where the answer is not 7. It is not asked where a number has more than six digits, nor where
/// sugar is nested too deep for it.
fn check(lines: &str, answers: &str) {
    let rows = Rows::of(lines, answers);
    let made: Vec<String> = self::cases().iter().map(Case::line).collect();
    assert!(
        rows.cases.iter().map(|row| &row.0).take(made.len()).eq(&made),
        "the first {} cases are those that this program makes",
        made.len()
    );
    let (mut asked, mut numbers, mut calls) = (0, [0; 13], [0; 8]);
    for (line, answer) in &rows.cases {
        let c = Case::of(line);
        let (head, written) = answer.split_once('\t').unwrap();
        let head: Vec<u64> = head.split(' ').map(|n| n.parse().unwrap()).collect();
        numbers[head[0] as usize] += 1;
        calls[c.number()] += 1;
        let of_lent = head[0] == 1 || head[0] == 2 || head[0] == 3 || head[0] == 7 && c.ceiling < MOST;
        let text = match std::str::from_utf8(&c.text) {
            Ok(text) if c.k.is_none() && !of_lent && !huge(&c.text) && !deep(text) => text,
            _ => continue,
        };
        let theirs = if c.form == Form::Symbol { swift_demangle::demangle(text) } else { swift_demangle::demangle_type(text) };
        asked += 1;
        let expected = match &theirs {
            Some(t) if c.call == Call::Reading && t.len() > c.room => head[0] == 12,
            Some(t) if c.call == Call::Reading => head[0] == 0 && written == hex(t.as_bytes()),
            Some(_) => head[0] == 0 && written.is_empty(),
            None => head[0] != 0 && head[0] != 12 && written.is_empty(),
        };
        assert!(expected, "{line}\n{answer}\nthe Rust: {theirs:?}");
    }
    println!("{} cases, by call {calls:?}, by number {numbers:?}; the Rust was asked about {asked} and agrees", rows.cases.len());
    println!("{} lines of the readers of bytes are passed over", rows.readers);
    check_rows(&rows.cases.iter().map(|(line, answer)| (line.as_str(), answer.as_str())).collect());
}

/// The unchanged Rust asked again about the names from declarations: a row has its text, and so has
/// the answer to the name's case.
fn check_rows(answers: &HashMap<&str, &str>) {
    for (name, text) in rows() {
        assert_eq!(swift_demangle::demangle(name).as_deref(), Some(text), "the text of {name} by the Rust and in the row");
        let line = Case::whole(Call::Reading, Form::Symbol, DECLARED, ROOM, name.as_bytes()).line();
        let answer = answers.get(line.as_str()).unwrap_or_else(|| panic!("no case: {line}"));
        let front = format!("0 0 {} ", operators_in(name));
        assert!(answer.starts_with(&front) && answer.ends_with(&format!("\t{}", hex(text.as_bytes()))), "{name}: {answer}");
    }
    println!("{} names from declarations have the Rust's text, in their rows and in the answers", rows().count());
}

/// A number with more than six digits: the Rust may want more memory than there is.
fn huge(text: &[u8]) -> bool {
    text.windows(7).any(|w| w.iter().all(u8::is_ascii_digit))
}

/// The name of key.py with sugar nested more than four levels deep: the Rust does not end on 250.
fn deep(text: &str) -> bool {
    text.matches("vpAAVyxG").count() > 4
}

// Cases

struct List {
    all: Vec<Case>,
    seen: HashSet<Case>,
}

impl List {
    fn add(&mut self, mut c: Case) {
        if c.call == Call::Reading && c.ceiling == MOST && c.workspace + 1 >= 64 * MOST {
            (c.ceiling, c.workspace) = (LENT, c.workspace - 64 * (MOST - LENT));
        }
        if self.seen.insert(c.clone()) {
            self.all.push(c);
        }
    }

    fn whole(&mut self, call: Call, form: Form, ceiling: usize, room: usize, text: &[u8]) {
        self.add(Case::whole(call, form, ceiling, room, text));
    }

    fn stopped(&mut self, call: Call, form: Form, ceiling: usize, k: usize, room: usize, text: &[u8]) {
        self.add(Case { call, form, ceiling, k: Some(k), workspace: numbers_a_node(call) * ceiling, room, text: text.to_vec() });
    }

    /// Reading and check at a ceiling.
    fn both(&mut self, form: Form, ceiling: usize, text: &[u8]) {
        self.whole(Call::Reading, form, ceiling, ROOM, text);
        self.whole(Call::Check, form, ceiling, 0, text);
    }

    /// Reading and check stopped after k.
    fn both_stopped(&mut self, form: Form, ceiling: usize, k: usize, text: &[u8]) {
        self.stopped(Call::Reading, form, ceiling, k, ROOM, text);
        self.stopped(Call::Check, form, ceiling, k, ROOM, text);
    }
}

fn cases() -> Vec<Case> {
    let mut l = List { all: Vec::new(), seen: HashSet::new() };
    key(&mut l);
    decisions(&mut l);
    before_the_run(&mut l);
    limits(&mut l);
    rooms_and_ceilings(&mut l);
    every_operator(&mut l);
    drawn(&mut l);
    declared(&mut l);
    l.all
}

/// Document 01's key, every row, and the readings that it shuts out.
fn key(l: &mut List) {
    for s in [
        "$s4main3fooyyF",
        "_$S4main3fooyyF.1",
        "$s4main3foo3barySi_tF",
        "$s4main3FooV1aACvp",
        "$s4main7FooItemV0C0Sivp",
        "$s_",
        "$s",
        "$sZ",
        "$s4main",
        "$sr0_l",
        "$s4mainA0C",
        "$s4main3FooVA0C",
        "$s4main3foo1ayySi_tF",
        "$s4main3fooyyySi_tF",
        "$s4main3fooyyF.1.2",
        "$s4main3f.oyyF",
        "$s8main.Foo3fooyyF",
    ] {
        l.both(Form::Symbol, MOST, s.as_bytes());
        l.both(Form::Symbol, 256, s.as_bytes());
        for k in [0, 2, 5, 8] {
            l.both_stopped(Form::Symbol, MOST, k, s.as_bytes());
        }
    }
    for t in [
        "SiSg",
        "S0i",
        "q23_",
        "q24_",
        "q25_",
        "q49_",
        "q50_",
        "q700_",
        "qd_24_",
        "S4096i",
        "S4097i",
        "4mainA65534A",
        "4mainA65535A",
        "",
        "Si",
        "4main",
        "y",
    ] {
        l.both(Form::Type, MOST, t.as_bytes());
        l.both_stopped(Form::Type, 256, 1, t.as_bytes());
    }
    for n in [255, 256, 257, 258] {
        l.both(Form::Type, MOST, format!("Si{}", "m".repeat(n)).as_bytes());
    }
    for n in [4096, 4097] {
        l.both(Form::Type, MOST, "y".repeat(n).as_bytes());
    }
}

/// What document 01 leaves open and docs/DECISIONS.md decides, with what it says plainly beside it.
fn decisions(l: &mut List) {
    for body in [
        // an index past the remembered nodes, a word past the words, numbers past 2^64
        "4mainAB",
        "4mainA_",
        "4mainA0_",
        "7FooItem0c0",
        "7FooItem0C",
        "4mainA18446744073709551615_",
        "4mainA18446744073709551588_",
        "q18446744073709551615_",
        "q18446744073709551614_",
        "qd18446744073709551614__",
        "qd_18446744073709551615_",
        "4mainA18446744073709551615A",
        "4main3FooVA9223372036854775808C",
        "4mainA18446744073709551616A",
        // S repeats
        "S0i",
        "S0$",
        "S4097$",
        "S4096$",
        "S1i",
        "S01i",
        "S00002i",
        "S2",
        "S2g",
        "SiS2g",
        "SiS2gAA",
        "SiS3g_t",
        "S2o",
        "S3C",
        // one protocol wanted
        "ypMp",
        "SQ_SHpMp",
        "SQ_pMp",
        "SQ_p_p",
        "SQ_SHp_p",
        "ypRzl",
        "SQ_pRzl",
        "4main3foo_ySiF",
        "4main3foo4mainySiF",
        "4main3fooSiySiF",
        "4main3fooxySiF",
        // the order inside an operator
        "v",
        "vx",
        "Sivx",
        "4main1aSivx",
        "4main1aSiv",
        "Rl",
        "Rlz",
        "RlzD",
        "RLD",
        "xRLD",
        "RmzD",
        "1ARmzD",
        "1ARmz",
        "XM",
        "XMt",
        "SiXM",
        "Sg",
        "S2g",
        "S0g",
        "z",
        "t",
        "c",
        "p",
        "G",
        // half a character under XM
        "SiXMé",
        "SiXM€",
        "SiXMét",
        // literals
        "5main",
        "3é",
        "1é",
        "2é",
        "3éa",
        "00",
        "000",
        "0010",
        "001a",
        "001_a",
        "002_a",
        "004abcd",
        "004_abcd",
        "00abcd",
        "0",
        "01a",
        "01aA",
        "03abc0",
        "04main.x",
        // labels: an empty list is taken first; without one, one entry a parameter
        "4main3fooyySi_tF",
        "4main3fooyySi1a_tF",
        "4main3foo1bySi1a_tF",
        "4main3fooySiF",
        "4main3fooyySiF",
        "4main3foo__yS2i_tF",
        "4main3foo_yyS2i_tF",
        "4main3FooVyyySi_tcfC",
        // huge counts of parameters
        "r18446744073709551613_l",
        "r18446744073709551614_l",
        "r18446744073709551615_l",
        "r384307168202282324_l",
        "r1000000_l",
        "r4093_l",
        "rl",
        "rz_l",
        "r_zl",
        "r0_1_l",
        "1P1a1byyr384307168202282324_lF1cPQz",
        // sugar goes by name, count and context
        "s8OptionalVySiG",
        "5Swift8OptionalCySiG",
        "5Swift5ArrayPySiG",
        "s5ArrayVySi_SSG",
        "s10DictionaryVySi_SSG",
        "s10DictionaryVySiSSG",
        "4main8OptionalOySiG",
        "SaySiG",
        "SDySiSSG",
        "SqySiG",
        "SoSa",
        "s4main8OptionalOVySiG",
        "1a5SwiftV5ArrayVySiG",
        // markers print nothing
        "_",
        "d",
        "K",
        "Ya",
        "y",
        "l",
        "s",
        "So",
        "SC",
        "yMK",
        "_MK",
        "KMK",
        "4mainMK",
        "lMK",
        // empty bodies and dots
        ".",
        "..",
        ".é",
        "4main3fooyyF.",
        "4main3fooyyF.é",
        "Xl",
        "yXl",
        "RlzC",
        "RlzCl",
        "SHRz",
        "SHRzl",
        "x_tvp",
        "1a1blxvp",
        "1a1bylxvp",
        "1a1byxvp",
        "1a1bSivpfi",
        "1a1bSivgfi",
        "1a1bSivpZ",
        "1a1bSivpZZ",
    ] {
        l.whole(Call::Reading, Form::Symbol, MOST, ROOM, format!("$s{body}").as_bytes());
        l.whole(Call::Check, Form::Type, MOST, 0, body.as_bytes());
        l.whole(Call::Reading, Form::Type, MOST, ROOM, body.as_bytes());
        l.stopped(Call::Check, Form::Symbol, 300, 3, ROOM, format!("$s{body}").as_bytes());
    }
    for unit in ["z", "_", "0_"] {
        for n in [255, 256, 257] {
            for back in ["l", "", "x"] {
                l.stopped(Call::Reading, Form::Type, 256, 9, ROOM, format!("r{}{back}", unit.repeat(n)).as_bytes());
            }
            l.both(Form::Symbol, MOST, format!("$sr{}l", unit.repeat(n)).as_bytes());
        }
    }
    // a stopped run never starts turn k + 1
    let many = "y".repeat(4097);
    for k in [4096, 4097, usize::MAX] {
        l.both_stopped(Form::Type, MOST, k, many.as_bytes());
    }
    l.stopped(Call::Reading, Form::Type, MOST, 4096, 3 * 4096, many.as_bytes());
    l.stopped(Call::Check, Form::Type, 4096, 4096, 3 * 4096, many.as_bytes());
    l.stopped(Call::Check, Form::Type, 4095, 4096, 3 * 4096, many.as_bytes());
}

/// 1 to 5, in their order.
fn before_the_run(l: &mut List) {
    let name = b"$s4main3fooyyF";
    for ceiling in [0, 65_537, 131_072, 1 << 32, usize::MAX / 64 + 1, usize::MAX] {
        for (call, k) in [(Call::Reading, None), (Call::Check, None), (Call::Reading, Some(2)), (Call::Check, Some(2))] {
            for (workspace, text) in [(0, &name[..]), (4096, b"\xff")] {
                l.add(Case { call, form: Form::Symbol, ceiling, k, workspace, room: 64, text: text.to_vec() });
            }
        }
    }
    for (call, form) in [(Call::Reading, Form::Symbol), (Call::Check, Form::Symbol), (Call::Reading, Form::Type), (Call::Check, Form::Type)]
    {
        for ceiling in [1, 256, MOST] {
            let enough = numbers_a_node(call) * ceiling;
            for workspace in [0, enough - 1, enough] {
                l.add(Case { call, form, ceiling, k: None, workspace, room: 64, text: name.to_vec() });
                l.add(Case { call, form, ceiling, k: Some(3), workspace, room: 64, text: b"\xff".to_vec() });
            }
        }
    }
    for text in [
        &b"\x80"[..],
        b"$s\x80",
        b"$s4main3foo\xc3",
        b"$s4main3foo\xc3(",
        b"\xe2\x82",
        b"\xe2\x82\xac\xe2\x82",
        b"\xed\xa0\x80",
        b"\xed\x9f\xbf",
        b"\xf4\x90\x80\x80",
        b"\xf4\x8f\xbf\xbf",
        b"\xc0\x80",
        b"\xc1\xbf",
        b"\xe0\x80\x80",
        b"\xe0\xa0\x80",
        b"\xf0\x80\x80\x80",
        b"\xf0\x90\x80\x80",
        b"\xf5\x80\x80\x80",
        b"\xff",
        b"x\xf0\x9f\x98",
        b"$s4main3fooyyF.\xff",
        b"$s4main3fooyyF.\xc3\xa9",
        b"\xf0\x9f\x98\x80\xfe",
    ] {
        l.both(Form::Symbol, 16, text);
        l.both(Form::Type, 16, text);
        l.both_stopped(Form::Symbol, 16, 0, text);
    }
    for text in [
        "",
        "$",
        "$s",
        "_$s",
        "$S",
        "_$S",
        "$t",
        "_s",
        "s",
        "__$s4mainyyF",
        "$$s",
        "$sx",
        "_$sx",
        "$Sx",
        "_$Sx",
        "$s.",
        "$s.x",
        "_$S.1",
        "4main3fooyyF",
        " $sx",
        "$s x",
    ] {
        l.both(Form::Symbol, 16, text.as_bytes());
        l.stopped(Call::Check, Form::Symbol, 16, 0, ROOM, text.as_bytes());
    }
    // lengths: 65,535 bytes are read
    let long = |n: usize| format!("$s1a{}{}V", n - 10, "b".repeat(n - 10));
    l.whole(Call::Reading, Form::Symbol, 16, MOST, long(65_535).as_bytes());
    l.whole(Call::Check, Form::Symbol, 16, 0, long(65_536).as_bytes());
}

/// Words, remembered nodes, charges and wraps about their limits.
fn limits(l: &mut List) {
    let words =
        |n: usize| (0..n).map(|i| format!("3A{}{}", (b'a' + (i / 26) as u8) as char, (b'a' + (i % 26) as u8) as char)).collect::<String>();
    for n in [1, 25, 26, 27] {
        for c in "aAyYzZ".chars() {
            l.both(Form::Symbol, MOST, format!("$s{}0{c}0V", words(n)).as_bytes());
        }
        let joined = words(n).replace('3', "");
        l.both(Form::Symbol, MOST, format!("$s1m{}{joined}0zA0V", joined.len()).as_bytes());
        l.both(Form::Symbol, MOST, format!("$s1m{}{joined}0aA0V", joined.len()).as_bytes());
    }
    for n in [1, 26, 27, 28, 29] {
        let many = "1a".repeat(n);
        for back in ["AZ", "Az", "A_", "A0_", "A1_", "A2_", "AA", "AaA", "A2a3A", "A0A", "A00A", "A", "Aa", "A2", "A2a", "A-"] {
            l.both_stopped(Form::Type, 256, n + 1, format!("{many}{back}").as_bytes());
        }
    }
    for (n, body) in [
        (256, "S128i"),
        (256, "yS127i"),
        (300, "4mainA298A"),
        (300, "4mainA299A"),
        (300, "4main3FooVA148C"),
        (300, "4main3FooVA149C"),
        (24, "SaySiG"),
        (9, "SiSg"),
        (8, "SiSg"),
    ] {
        l.both(Form::Type, n, body.as_bytes());
        l.both_stopped(Form::Type, n, 9, body.as_bytes());
    }
    for (front, unit) in [
        ("Si", "m"),
        ("Si", "z"),
        ("Si", "Xp"),
        ("Si", "XMt"),
        ("Si", "Sg"),
        ("Si", "_t"),
        ("y", "yc"),
        ("x", "yXE"),
        ("", "yp"),
        ("1a", "1byyF"),
        ("1a", "1byylF"),
        ("1a", "1blxvp"),
        ("1a", "yxclfC"),
    ] {
        for n in [127, 128, 129, 255, 256, 257] {
            let body = format!("{front}{}", unit.repeat(n));
            if unit != "Sg" || n < 200 {
                l.both_stopped(Form::Type, MOST, usize::MAX, body.as_bytes());
            }
        }
    }
}

/// Output lengths and ceilings one by one.
fn rooms_and_ceilings(l: &mut List) {
    for name in ["$s4main3fooyyF", "$s4main3foo3barySi_tF.1", "$s_", "$sr0_l", "$s4main3FooV1aACvp"] {
        let length = swift_demangle::demangle(name).unwrap().len();
        for room in [0, 1, length.saturating_sub(2), length.saturating_sub(1), length, length + 1, length + 60] {
            l.whole(Call::Reading, Form::Symbol, MOST, room, name.as_bytes());
        }
        for ceiling in 1..=12 {
            l.both(Form::Symbol, ceiling, name.as_bytes());
        }
        for k in [0, 1, 3, 8] {
            for room in [0, 2, 3, 8, 9] {
                l.stopped(Call::Reading, Form::Symbol, 256, k, room, name.as_bytes());
                l.stopped(Call::Check, Form::Symbol, 256, k, room, name.as_bytes());
            }
        }
    }
    for body in ["SaySiSgG", "SDySSSaySiSgGG", "4main3FooV3BarVySi_SSG", "4main3FooVA3C_tACc"] {
        for ceiling in 1..=24 {
            l.whole(Call::Reading, Form::Type, ceiling, 64, body.as_bytes());
        }
        for k in 0..8 {
            l.both_stopped(Form::Type, 64, k, body.as_bytes());
        }
    }
}

/// For each operator the shortest names of the grammar that have it, and such names cut and changed.
fn every_operator(l: &mut List) {
    let operators = grammar::every_operator();
    let mut shortest: Vec<Vec<Vec<u8>>> = vec![Vec::new(); operators.len()];
    for seed in 0..60_000 {
        let mut g = Grammar::new(seed, Profile::Wide);
        let tree = g.symbol_tree();
        let text = [b"$s", &g.spell(&tree)[..]].concat();
        if swift_demangle::demangle(std::str::from_utf8(&text).unwrap()).map_or(true, |t| t.len() > 400) {
            continue;
        }
        let mut letters = Vec::new();
        tree.operators(&mut letters);
        for letters in letters {
            let of = grammar::letters_of(letters);
            let at = operators.iter().position(|o| *o == of).unwrap_or_else(|| panic!("{letters}"));
            let list = &mut shortest[at];
            if !list.contains(&text) {
                list.push(text.clone());
                list.sort_by_key(|t| (t.len(), t.clone()));
                list.truncate(2);
            }
        }
    }
    for (i, (operator, names)) in operators.iter().zip(&shortest).enumerate() {
        assert!(!names.is_empty(), "no name has {operator}");
        l.whole(Call::Reading, Form::Symbol, MOST, ROOM, &names[0]);
        l.stopped(Call::Reading, Form::Symbol, 256, names[0].len() / 4, 300, &names[0]);
        let last = names.last().unwrap();
        l.both(Form::Symbol, 256, last);
        l.stopped(Call::Check, Form::Symbol, 256, last.len() / 4, 300, last);
        // the operator after one node or none
        for j in 0..2 {
            let front = ["", "Si", "1a", "y", "SH", "1a1byyF"][(i + 3 * j) % 6];
            l.stopped(Call::Reading, Form::Type, 256, 9, 64, format!("{front}{}", operator.replace("Rg", "Rz")).as_bytes());
        }
    }
}

/// Names of the grammar and names with changes.
fn drawn(l: &mut List) {
    let texts = texts::Texts::new(20261116);
    let (mut i, mut taken) = (texts.listed(), 0);
    while taken < 400 {
        i += 1;
        let text = texts.at(i);
        if text.bytes.len() > 220 || huge(&text.bytes) {
            continue;
        }
        taken += 1;
        let k = i % 12;
        match i % 3 {
            0 => l.both(text.form, MOST, &text.bytes),
            1 => l.both(text.form, 1 + i % 90, &text.bytes),
            _ => l.both_stopped(text.form, 256, k, &text.bytes),
        }
    }
}

/// Names and texts of the rows.
fn rows() -> impl Iterator<Item = (&'static str, &'static str)> {
    ROWS.lines().map(|line| {
        let parts: Vec<&str> = line.split('\t').collect();
        let [_, _, name, text, _] = parts[..] else { panic!("no row: {line}") };
        (name, text)
    })
}

fn operators_in(name: &str) -> usize {
    operators::body_of(name).and_then(operators::operators_of).map_or(0, |all| all.len())
}

/// Names that Swift's own compiler gave to declarations, whole and stopped in the middle.
fn declared(l: &mut List) {
    for (name, _) in rows() {
        l.both(Form::Symbol, DECLARED, name.as_bytes());
        l.both_stopped(Form::Symbol, DECLARED, operators_in(name) / 2, name.as_bytes());
    }
}
