//! Names of the grammar with their operators, for compare/swift/differences: symbol, the Rust's
//! text, every operator of the tree as `parent<child` (`.` for the parent of the root), separated
//! by tabs. Names that the Rust does not read are left out.

mod grammar;
mod mangle;
mod random;

use grammar::{letters_of, Grammar, Profile};
use mangle::Tree;
use std::io::{BufWriter, Write};

fn edges(parent: &str, tree: &Tree, to: &mut Vec<String>) {
    match tree {
        Tree::Name(_) => to.push(format!("{parent}<name")),
        Tree::Coded(..) => to.push(format!("{parent}<00")),
        Tree::Op(o) => {
            let own = letters_of(&o.letters);
            to.push(format!("{parent}<{own}"));
            let several = own == "r" && o.letters.bytes().filter(|b| b"_z".contains(b)).count() > 1;
            if several {
                to.push(format!("{own}<counts"));
            }
            o.parts.iter().for_each(|p| edges(&own, p, to));
        }
    }
}

fn main() {
    let mut args = std::env::args().skip(1);
    let profile = if args.next().as_deref() == Some("wide") { Profile::Wide } else { Profile::Plain };
    let count: usize = args.next().and_then(|n| n.parse().ok()).unwrap_or(60_000);
    let mut out = BufWriter::new(std::io::stdout().lock());
    let (mut made, mut seed) = (0, 0);
    while made < count {
        seed += 1;
        let mut g = Grammar::new(seed, profile);
        let tree = g.symbol_tree();
        let mut text = [b"$s", &g.spell(&tree)[..]].concat();
        if g.r.chance(4) {
            text.extend(g.suffix());
        }
        let text = String::from_utf8(text).unwrap();
        if text.len() > 300 {
            continue;
        }
        let Some(theirs) = swift_demangle::demangle(&text) else { continue };
        let mut all = Vec::new();
        edges(".", &tree, &mut all);
        all.sort();
        all.dedup();
        writeln!(out, "{text}\t{theirs}\t{}", all.join(" ")).unwrap();
        made += 1;
    }
}
