//! The texts of the comparison. Each is a function of the seed and its number, so that a run can be
//! resumed anywhere.
//!
//! First every text of up to three characters over ALPHABET, as type and as symbol; then the
//! boundaries of every limit; then names of the grammar, such names with changes, and operators in
//! any order.

use crate::grammar::{self, Grammar, Profile};
use crate::mangle::Tree;
use crate::ours::Form;
use crate::random::Random;

/// Letters, digits, `_`, `.`, `$` and a character of two bytes.
pub const ALPHABET: &str = "ABCDEFGHIJKLMNOPQRSTUVWXYZabcdefghijklmnopqrstuvwxyz0123456789_.$é";

pub struct Text {
    pub bytes: Vec<u8>,
    pub form: Form,
    /// For a name that the grammar made and that is unchanged: its tree.
    pub tree: Option<Tree>,
}

pub struct Texts {
    seed: u64,
    shorts: usize,
    boundaries: Vec<(Form, Vec<u8>)>,
    tokens: Vec<String>,
}

impl Texts {
    pub fn new(seed: u64) -> Texts {
        let n = ALPHABET.chars().count();
        Texts { seed, shorts: 1 + n + n * n + n * n * n, boundaries: boundaries(), tokens: tokens() }
    }

    /// The number of texts before those that are drawn at random.
    pub fn listed(&self) -> usize {
        2 * self.shorts + self.boundaries.len()
    }

    pub fn at(&self, i: usize) -> Text {
        if i < 2 * self.shorts {
            let form = if i % 2 == 0 { Form::Type } else { Form::Symbol };
            return plain(form, with_prefix(form, short(i / 2).into_bytes()));
        }
        let i = i - 2 * self.shorts;
        if let Some((form, bytes)) = self.boundaries.get(i) {
            return plain(*form, bytes.clone());
        }
        self.drawn(self.seed.wrapping_mul(0x2545_F491_4F6C_DD1D).wrapping_add(i as u64))
    }

    fn drawn(&self, seed: u64) -> Text {
        let mut g = Grammar::new(seed, Profile::Wide);
        let kind = g.r.weighted(&[32, 50, 18]);
        if kind == 2 {
            let form = if g.r.chance(50) { Form::Type } else { Form::Symbol };
            let bytes = self.operators(&mut g.r);
            return plain(form, with_prefix(form, bytes));
        }
        let (form, tree, bytes) = named(&mut g);
        if kind == 0 {
            return Text { bytes, form, tree };
        }
        let mut bytes = bytes;
        for _ in 0..1 + g.r.weighted(&[5, 3, 2, 1]) {
            bytes = self.changed(&mut g, bytes);
        }
        bytes.truncate(70_000);
        plain(form, bytes)
    }

    /// Operators in any order; those that take nothing are more frequent.
    fn operators(&self, r: &mut Random) -> Vec<u8> {
        let count = r.of(&[1, 2, 3, 4, 6, 8, 12, 20, 40]);
        let mut bytes = Vec::new();
        for _ in 0..count {
            let token = if r.chance(45) { r.of(&MAKERS) } else { &self.tokens[r.below(self.tokens.len())] };
            bytes.extend(token.bytes());
        }
        bytes
    }

    /// One change: a part left out, doubled, moved or inserted, a byte or a number replaced, two
    /// names joined, the end cut off.
    fn changed(&self, g: &mut Grammar, mut b: Vec<u8>) -> Vec<u8> {
        let (mut from, mut to) = (g.r.below(b.len() + 1), g.r.below(b.len() + 1));
        if from > to {
            (from, to) = (to, from);
        }
        if g.r.chance(60) {
            to = to.min(from + 1 + g.r.below(4)).min(b.len());
        }
        match g.r.weighted(&[14, 8, 20, 10, 10, 8, 8, 5, 3, 6]) {
            0 => {
                b.drain(from..to);
            }
            1 => {
                let part = b[from..to].to_vec();
                b.splice(from..from, part);
            }
            2 => {
                let token = self.tokens[g.r.below(self.tokens.len())].clone();
                b.splice(from..from, token.into_bytes());
            }
            3 => {
                if from < b.len() {
                    let all = ALPHABET.as_bytes();
                    b[from] = all[g.r.below(all.len())];
                }
            }
            4 => number_changed(&mut g.r, &mut b),
            5 => {
                let (_, _, other) = named(g);
                let at = g.r.below(other.len() + 1);
                b.truncate(from);
                b.extend(&other[at..]);
            }
            6 => {
                let part: Vec<u8> = b.drain(from..to).collect();
                let at = g.r.below(b.len() + 1);
                b.splice(at..at, part);
            }
            7 => b.truncate(to),
            8 => {
                let byte = g.r.of(&[0x00, 0x7F, 0x80, 0xBF, 0xC0, 0xC2, 0xE2, 0xED, 0xF0, 0xF4, 0xFF, b' ', b'-']);
                b.insert(from, byte);
            }
            _ => {
                let token = g.r.of(&MAKERS);
                b.splice(from..from, token.bytes());
            }
        }
        b
    }
}

fn plain(form: Form, bytes: Vec<u8>) -> Text {
    Text { bytes, form, tree: None }
}

fn with_prefix(form: Form, bytes: Vec<u8>) -> Vec<u8> {
    match form {
        Form::Type => bytes,
        Form::Symbol => [b"$s", &bytes[..]].concat(),
    }
}

/// The text of up to three characters with this number.
fn short(mut i: usize) -> String {
    let all: Vec<char> = ALPHABET.chars().collect();
    let mut text = String::new();
    while i > 0 {
        i -= 1;
        text.push(all[i % all.len()]);
        i /= all.len();
    }
    text
}

fn named(g: &mut Grammar) -> (Form, Option<Tree>, Vec<u8>) {
    if g.r.chance(25) {
        return (Form::Type, None, g.type_text());
    }
    let tree = g.symbol_tree();
    let mut bytes = g.r.of(&["$s", "$s", "$s", "_$s", "$S", "_$S"]).as_bytes().to_vec();
    bytes.extend(g.spell(&tree));
    if g.r.chance(4) {
        bytes.extend(g.suffix());
    }
    (Form::Symbol, Some(tree), bytes)
}

/// Operators that take nothing from the stack, and short sequences that leave one node.
const MAKERS: [&str; 34] = [
    "y", "_", "d", "K", "Ya", "x", "q_", "q0_", "qd__", "Si", "SS", "Sb", "Sa", "SD", "Sq", "SH", "SQ", "S2i", "S3S", "s", "So", "SC",
    "Xl", "1a", "4main", "3Foo", "7FooItem", "0A0", "0B3Bar", "AA", "AB", "AC", "Ab", "A2a",
];

/// Every operator with an operand or none, and operands at the edge of a rule.
fn tokens() -> Vec<String> {
    let mut all: Vec<String> = grammar::every_operator().into_iter().filter(|o| !["q", "r"].contains(&&o[..])).collect();
    for o in ["Rg", "Qy", "Qd", "Rp", "Rb", "Rc", "Rs", "Rt", "Rl", "Rm", "TY"] {
        all.retain(|x| x != o);
    }
    let more = "Rz R_ R1_ Rd_0_ Rpz Rp_ Rbz Rcz Rsz Rs0_ Rtz Rtd__ RlzC Rl_C RmzC Rm_C RlzD RLC Qy_ Qy5_ Qd__ Qd1_0_ TY_ TY7_ q_ q1_ q24_ qz qd__ qd0_1_ \
                l rl r_l r0_l rzl r_0_zl r24_l A_ A0_ A2_ AaB A2B A0A Aab S0i S2g S4096i 0 00 0a0 0aB 004abcd 007_caf_dma 1é 2é 12 SaySiG SDySiSSG \
                SiSg Si_t Si_SSt yyc S2ic yp SH_p 1AQz 1ASTQz 1a1bV 1a1bC 1a1bP 1a1byyF 1a1bSivp 1a1bSivg 1a1bCfD SiSHs SiSQ1a .1";
    all.extend(more.split_ascii_whitespace().map(str::to_string));
    all
}

pub const NUMBERS: [&str; 27] = [
    "0",
    "1",
    "2",
    "3",
    "9",
    "10",
    "25",
    "26",
    "27",
    "00",
    "01",
    "007",
    "255",
    "256",
    "257",
    "4095",
    "4096",
    "4097",
    "65535",
    "65536",
    "4294967295",
    "4294967296",
    "9223372036854775807",
    "18446744073709551588",
    "18446744073709551614",
    "18446744073709551615",
    "18446744073709551616",
];

/// A number of the text replaced by one at an edge, or increased or decreased by one.
fn number_changed(r: &mut Random, b: &mut Vec<u8>) {
    let starts: Vec<usize> = (0..b.len()).filter(|&i| b[i].is_ascii_digit() && (i == 0 || !b[i - 1].is_ascii_digit())).collect();
    if starts.is_empty() {
        return;
    }
    let from = starts[r.below(starts.len())];
    let to = (from..b.len()).find(|&i| !b[i].is_ascii_digit()).unwrap_or(b.len());
    let old: u64 = std::str::from_utf8(&b[from..to]).unwrap().parse().unwrap_or(0);
    let new = match r.below(4) {
        0 => old.wrapping_add(1).to_string(),
        1 => old.saturating_sub(1).to_string(),
        _ => r.of(&NUMBERS).to_string(),
    };
    b.splice(from..to, new.into_bytes());
}

// Boundaries

fn around(n: usize) -> std::ops::RangeInclusive<usize> {
    n - 2..=n + 2
}

/// That many names `A`.., which are words of their own and all different.
fn words(count: usize) -> String {
    (0..count).map(|i| format!("3A{}{}", (b'a' + (i / 26) as u8) as char, (b'a' + (i % 26) as u8) as char)).collect()
}

/// The texts at the edges of every limit.
fn boundaries() -> Vec<(Form, Vec<u8>)> {
    let mut bodies: Vec<String> = Vec::new();
    let mut add = |s: String| bodies.push(s);

    // 4,096 operators
    for n in around(4096) {
        add("y".repeat(n));
        add(format!("Si{}", "_".repeat(n - 1)));
        add("1a".repeat(n));
        add(format!("Si_{}t", "x".repeat(n - 3)));
        add(format!("Sa{}", "y".repeat(n - 1)));
        add(format!("1a1aSivp{}", "Z".repeat(n - 4)));
        add(format!("1a{}", "1aV".repeat(n / 2)));
        add(format!("1a{}", "1bAAV".repeat(n / 3)));
        add(format!("SH_{}p", "SQ".repeat(n - 3)));
        add(format!("1a1bV{}1cV", "y".repeat(n)));
    }
    // 256 wraps, by each operator that wraps
    for n in around(256) {
        for (front, unit, back) in [
            ("Si", "m", ""),
            ("Si", "z", ""),
            ("Si", "Xp", ""),
            ("Si", "XMt", ""),
            ("Si", "Sg", ""),
            ("Si", "_t", ""),
            ("y", "yc", ""),
            ("Si", "Sic", ""),
            ("x", "yXE", ""),
            ("", "yp", ""),
            ("", "yt", ""),
            ("", "SayG", ""),
            ("1a", "1byyF", ""),
            ("1a", "1byylF", ""),
            ("1a", "1blxvp", ""),
            ("1a", "yxclfC", ""),
            ("yt", "mz", "m"),
        ] {
            add(format!("{front}{}{back}", unit.repeat(n)));
            add(format!("{front}{}{back}", unit.repeat(n / 2)));
        }
        // the last wrap in each place of an operator that wraps twice
        add(format!("Si{}1a1byylF", "m".repeat(n - 2)));
        add(format!("1a1bSi{}lxvp", "m".repeat(n - 1)));
    }
    // 256 counts after r
    for n in around(256) {
        for unit in ["z", "_", "0_", "1_"] {
            for back in ["l", "", "x", "lx", "5"] {
                add(format!("r{}{back}", unit.repeat(n)));
            }
            add(format!("SHRzr{}l", unit.repeat(n)));
        }
    }
    // charges: copies about 65,536 and about what small ceilings allow
    for n in around(65_534) {
        add(format!("4mainA{n}A"));
        add(format!("1a1bVA{}C", n / 2));
        add(format!("1aA{n}aA"));
        add(format!("1aA{}a{}A", n / 2, n / 2));
        add(format!("1aA{n}_"));
    }
    for n in (0..40).chain(around(256)).chain(around(4096)).chain(around(8192)) {
        add(format!("S{n}i"));
        add(format!("S{n}o"));
        add(format!("SiS{n}g"));
        add(format!("Si_S{n}it"));
        add(format!("1aA{n}A"));
        add(format!("1aA{n}a"));
        add(format!("1aA{n}aA"));
        add(format!("1aA{n}_"));
        add(format!("q{n}_"));
        add(format!("qd{n}_{n}_"));
        add(format!("1AQy{n}_"));
        add(format!("1AQd{n}_{n}_"));
        add(format!("SHR{n}_l"));
        add(format!("r{n}_l"));
        add(format!("1a1byyr{n}_lF"));
        add(format!("1a1byyFTY{n}_"));
        add(format!("{n}ab"));
    }
    // every level of Optional doubles nothing and charges all below it
    for n in 1..=260 {
        add(format!("Si{}", "Sg".repeat(n)));
        add(format!("Say{}Si{}", "Say".repeat(n - 1), "G".repeat(n)));
    }
    // 2^64 in each place of a number
    for base in
        ["18446744073709551615", "9223372036854775807", "4294967295", "384307168202282325", "184467440737095516", "99999999999999999999"]
    {
        let b: u128 = base.parse().unwrap();
        for d in -31..=4i128 {
            let n = b.wrapping_add(d as u128);
            for form in [
                "q@_",
                "qd@__",
                "qd_@_",
                "qd@_@_",
                "1AQy@_",
                "1AQd@__",
                "1AQd_@_",
                "SHR@_l",
                "SHRd@__l",
                "SHRd_@_l",
                "Rl@_Cl",
                "SH1ARp@_l",
                "SiRs@_l",
                "r@_l",
                "r@_zl",
                "rz@_l",
                "1a1byyr@_lF",
                "1a1b1cySi_tr@_lF",
                "1aA@A",
                "1aA@a",
                "1aA@_",
                "1a1bVA@C",
                "S@i",
                "SiS@g",
                "@a",
                "0@a",
                "00@a",
                "00@_a",
                "1a1byyFTY@_",
                "1P1a1byyr@_lF1cPQz",
            ] {
                add(form.replace('@', &n.to_string()));
            }
        }
    }
    // words: 26 are kept
    for n in [1, 2, 24, 25, 26, 27, 28, 40] {
        for c in "abyzABYZ".chars() {
            add(format!("{}0{c}0V", words(n)));
            add(format!("{}0{c}1x", words(n)));
            add(format!("{}0a{c}0", words(n)));
        }
        let joined: String = words(n).replace('3', "");
        add(format!("1m{}{joined}V", joined.len()));
        for c in "abyzABYZ".chars() {
            add(format!("1m{}{joined}0{c}0V", joined.len()));
        }
    }
    // remembered nodes: the last index, one past it, and every way to spell one
    for n in [1, 2, 3, 24, 25, 26, 27, 28, 29, 30, 52, 53, 54, 100] {
        let many: String = "1a".repeat(n);
        for i in 0..n.min(26) + 2 {
            let (low, high) = ((b'a' + i as u8) as char, (b'A' + i as u8) as char);
            add(format!("{many}A{high}"));
            add(format!("{many}A{low}A"));
            add(format!("{many}A2{high}"));
        }
        add(format!("{many}A_"));
        for i in n.saturating_sub(30)..n.saturating_sub(24) {
            add(format!("{many}A{i}_"));
        }
    }
    // trees that are deep, wide, or copied
    for n in [1, 2, 3, 4, 5, 6, 7, 8, 9, 10, 11, 12] {
        let mut t = "x".to_string();
        for level in 0..n {
            let front = if level + 1 == n { "s5Array" } else { "sAA" };
            t = format!("{front}{t}vpAAVyxG");
        }
        add(t);
    }
    for n in [100, 300, 1000, 4000] {
        add(format!("1a1axvp{}", "Z".repeat(n)));
        add(format!("1a1b1a1bV_A{n}Etvp"));
        add(format!("1a1bV_{}t", "AC".repeat(n)));
        add(format!("1a1bVy{}G", "AC".repeat(n)));
        add(format!("1a1bVy{}G", "AC_".repeat(n)));
        add(format!("1a1b{}y{}F", "1c".repeat(n / 4), format!("x_{}t", "x".repeat(n / 4 - 1))));
        add(format!("{}l", "SHRz".repeat(n / 2)));
        add(format!("{}r0_l", "SHRzSiRs_".repeat(n / 8)));
        add(format!("1a1b{n}{}V", "é".repeat(n / 2)));
    }
    for n in 1..=10 {
        // each tuple holds two of the one before
        let mut t = "1a1bV".to_string();
        for level in 0..n {
            t = format!("{t}_A{}tSg", if level == 0 { "C".to_string() } else { ((b'C' + level as u8) as char).to_string() });
        }
        add(t);
    }
    // texts of about 65,535 bytes, with the prefix and without, and names that long
    for n in 65_500..=65_540 {
        add(format!("1a{}{}V", n, "b".repeat(n)));
        add(format!("1a{}{}V", n - 10, "aB".repeat((n - 10) / 2 + 1)));
        add(format!("1a1bV.{}", "x".repeat(n)));
    }
    for n in 65_526..=65_540 {
        add(format!("1a{}{}V", n - 10, "b".repeat(n - 10)));
        add("é".repeat(n / 2));
    }
    add(format!("1a20000{}V_A10000CtSg", "b".repeat(20_000)));
    add(format!("1m2000{}{}0V", "b".repeat(2000), "0".to_string() + &"a".repeat(60_000) + "A"));

    let mut list = Vec::new();
    for body in bodies {
        list.push((Form::Type, body.clone().into_bytes()));
        list.push((Form::Symbol, with_prefix(Form::Symbol, body.into_bytes())));
    }
    // prefixes, suffixes, and bytes that are not UTF-8
    let mut symbol = |b: &[u8]| {
        list.push((Form::Symbol, b.to_vec()));
        list.push((Form::Type, b.to_vec()));
    };
    for p in ["", "$", "_", "_$", "$s", "$S", "_$s", "_$S", "__$s", "$$s", "s", "$ s", "$T", "_$T", "$s.", "$s.x", "$S..", "_$s.é", "x$s"]
    {
        for body in ["", "4main3fooyyF", "4main3fooyyF.1", "4main3fooyyF.1.2", "4main3foo.yyF", "8main.Foo3fooyyF", "_", "_.", "."] {
            symbol(format!("{p}{body}").as_bytes());
        }
    }
    for first in [0x00u8, 0x7F, 0x80, 0xBF, 0xC0, 0xC1, 0xC2, 0xDF, 0xE0, 0xE1, 0xEC, 0xED, 0xEE, 0xEF, 0xF0, 0xF1, 0xF3, 0xF4, 0xF5, 0xFF]
    {
        for second in [0x7Fu8, 0x80, 0x8F, 0x90, 0x9F, 0xA0, 0xBF, 0xC0] {
            for tail in [&b""[..], b"\x80", b"\xBF\x80", b"\x80\xBFz", b"\xC0\x80"] {
                let sequence = [&[first, second], tail].concat();
                symbol(&sequence);
                symbol(&[b"$s1a", &sequence[..]].concat());
                symbol(&[b"$s1a1bV.", &sequence[..]].concat());
                symbol(&[b"$s1a5", &sequence[..], b"xxxx"].concat());
            }
        }
    }
    list
}
