//! Names made by the grammar, as trees of operators (`mangle.rs` spells them).
//!
//! Two profiles. `Plain` makes names like those of shipped binaries, with the kinds and lengths
//! that are common there. `Wide` uses every operator of the source's tables with anything that it
//! takes, common or not. Written from document 01 and from the operators' tables.

use crate::mangle::{kept, leaf, name, op, Mangler, Tree};
use crate::random::Random;

#[derive(Clone, Copy, PartialEq)]
pub enum Profile {
    Plain,
    Wide,
}

/// `S` and one of these is a type of the standard library that is not a protocol.
pub const STANDARD_TYPES: &str = "aAbDdfhIiJNnOPpRrSsuVvWwq";
/// `S` and one of these is a protocol of the standard library.
pub const STANDARD_PROTOCOLS: &str = "BEeFGHjKkLlMmQTtUXxYyZz";
pub const NOMINALS: &str = "CVOPa";
pub const FUNCTION_TYPES: [&str; 9] = ["c", "XE", "XB", "XC", "XA", "XK", "Xf", "XL", "XU"];
pub const METATYPES: [&str; 5] = ["m", "Xp", "XMt", "XMT", "XMo"];
pub const ACCESSORS: &str = "pgsMrmwWGal";
pub const TYPE_RECORDS: &str = "afmnFBSALiIlrPdR";
pub const CONTEXT_RECORDS: &str = "MEX";
pub const CONFORMANCE_RECORDS: &str = "PpaS";
pub const ENTITY_THUNKS: &str = "qujVoODIXm";
pub const VALUE_WITNESSES: [&str; 24] = [
    "al", "ca", "ta", "de", "xx", "XX", "Xx", "CP", "Cp", "cp", "Tk", "tk", "pr", "TK", "Cc", "Tt", "tT", "xs", "xg", "ug", "up", "ui",
    "et", "st",
];

/// Every operator, as its letters without numbers, in the form that `letters_of` gives.
pub fn every_operator() -> Vec<String> {
    let mut all: Vec<String> = Vec::new();
    let mut add = |front: &str, letters: &str| all.extend(letters.chars().map(|c| format!("{front}{c}")));
    add("S", STANDARD_TYPES);
    add("S", STANDARD_PROTOCOLS);
    add("S", "oCg");
    add("", "CVOPasy_dKtcxzmpGlrFZN");
    add("", "q");
    add("Q", "zyd");
    add("X", "EBCAKfLUlMp");
    add("Y", "a");
    add("R", "pQbBcsStlLm");
    add("R", "g");
    add("v", ACCESSORS);
    add("f", "CcDdieE");
    add("M", TYPE_RECORDS);
    add("M", "pcVK");
    add("MX", CONTEXT_RECORDS);
    add("W", "VlL");
    add("Wv", "di");
    add("W", CONFORMANCE_RECORDS);
    add("T", "WLSlnY");
    add("T", ENTITY_THUNKS);
    all.extend(VALUE_WITNESSES.iter().map(|w| format!("w{w}")));
    all
}

/// The letters of an operator as `every_operator` lists them: operands are left out, `Rg` is a
/// requirement `R` with no letter of its own.
pub fn letters_of(letters: &str) -> String {
    let b = letters.as_bytes();
    match b {
        [b'R', c, ..] if !"pQbBcsStlLm".contains(*c as char) => "Rg".to_string(),
        [b'q' | b'r', ..] => (b[0] as char).to_string(),
        [b'M', b'X', ..] | [b'W', b'v', ..] | [b'w', ..] => letters.to_string(),
        [a, c, ..] => format!("{}{}", *a as char, *c as char),
        _ => letters.to_string(),
    }
}

const MODULES: [&str; 12] = [
    "main",
    "sample",
    "AppCore",
    "NetworkKit",
    "PhotoEditor",
    "Combine",
    "SwiftUI",
    "Foundation",
    "FeatureFlags",
    "PaymentsUI",
    "Storage",
    "Logging",
];
const WORDS: [&str; 72] = [
    "Account",
    "Action",
    "Address",
    "Asset",
    "Badge",
    "Batch",
    "Bridge",
    "Buffer",
    "Button",
    "Cache",
    "Camera",
    "Card",
    "Cell",
    "Chart",
    "Client",
    "Cloud",
    "Code",
    "Collection",
    "Config",
    "Content",
    "Context",
    "Controller",
    "Coordinator",
    "Cursor",
    "Data",
    "Date",
    "Decoder",
    "Delegate",
    "Detail",
    "Device",
    "Document",
    "Editor",
    "Element",
    "Error",
    "Event",
    "Factory",
    "Feed",
    "Field",
    "File",
    "Filter",
    "Frame",
    "Group",
    "HTTP",
    "Handler",
    "Header",
    "Image",
    "Index",
    "Item",
    "JSON",
    "Key",
    "Layer",
    "Layout",
    "List",
    "Loader",
    "Manager",
    "Map",
    "Message",
    "Model",
    "Node",
    "Observer",
    "Options",
    "Page",
    "Parser",
    "Player",
    "Point",
    "Provider",
    "Queue",
    "Request",
    "Response",
    "Result",
    "Row",
    "Session",
];
const MORE: [&str; 24] = [
    "Set", "Settings", "Shape", "State", "Status", "Store", "Stream", "String", "Style", "Table", "Task", "Text", "Theme", "Timer",
    "Token", "Tree", "URL", "User", "Value", "Video", "View", "Window", "Wrapper", "Zone",
];
const VERBS: [&str; 26] = [
    "add",
    "append",
    "apply",
    "begin",
    "cancel",
    "change",
    "compute",
    "configure",
    "decode",
    "did",
    "encode",
    "fetch",
    "handle",
    "insert",
    "load",
    "make",
    "perform",
    "prepare",
    "reload",
    "remove",
    "render",
    "reset",
    "save",
    "set",
    "update",
    "validate",
];
const LABELS: [&str; 20] = [
    "with",
    "for",
    "at",
    "in",
    "of",
    "to",
    "from",
    "using",
    "by",
    "on",
    "animated",
    "completion",
    "index",
    "value",
    "key",
    "options",
    "type",
    "into",
    "animation",
    "error",
];
/// Names that use every path of words: one letter, one word of capitals, digits, underscores,
/// characters of two and three bytes.
const ODD: [&str; 16] =
    ["a", "x", "id", "HTTPServer", "URLSession", "_impl", "a_b", "ab_cd", "foo2Bar", "v2", "_0", "café", "Ωmega", "x€y", "ABC", "aB"];
const CODED: [&str; 6] = ["caf_dma", "mega_gdc", "abcd", "_aeao", "gre_Kva", "tst_boa"];

pub struct Grammar {
    pub r: Random,
    profile: Profile,
    module: String,
    types: Vec<Tree>,
    /// How many generic parameters the current name may use.
    params: usize,
}

impl Grammar {
    pub fn new(seed: u64, profile: Profile) -> Grammar {
        let mut g = Grammar { r: Random::new(seed), profile, module: String::new(), types: Vec::new(), params: 0 };
        g.begin();
        g
    }

    fn wide(&self) -> bool {
        self.profile == Profile::Wide
    }

    /// The surroundings of a new name: its module, and the types that it may mention again.
    fn begin(&mut self) {
        self.module = self.r.of(&MODULES).to_string();
        self.types.clear();
        self.params = if self.r.chance(20) { 1 + self.r.below(3) } else { 0 };
    }

    /// A symbol: prefix, body, sometimes a suffix.
    pub fn symbol(&mut self) -> Vec<u8> {
        let tree = self.symbol_tree();
        let prefix = ["$s", "_$s", "$S", "_$S"][self.r.weighted(&[88, 8, 2, 2])];
        let mut text = prefix.as_bytes().to_vec();
        text.extend(self.spell(&tree));
        if self.r.chance(2) {
            text.extend(self.suffix());
        }
        text
    }

    /// The text of a type.
    pub fn type_text(&mut self) -> Vec<u8> {
        self.begin();
        let depth = self.r.weighted(&[2, 3, 3, 2, 1]);
        let tree = self.ty(depth);
        self.spell(&tree)
    }

    pub fn symbol_tree(&mut self) -> Tree {
        self.begin();
        let depth = if self.wide() { self.r.weighted(&[2, 4, 4, 2, 1]) } else { self.r.weighted(&[3, 5, 3, 1]) };
        if !self.wide() {
            return match self.r.weighted(&[34, 66]) {
                0 => self.record(depth),
                _ => self.entity_maybe_thunk(depth),
            };
        }
        match self.r.weighted(&[30, 40, 16, 8, 2]) {
            0 => self.entity(depth),
            1 => self.record(depth),
            2 => self.ty(depth),
            3 => {
                let of = self.entity(depth);
                op(vec![of], "Z")
            }
            _ => self.odd_leaf(),
        }
    }

    pub fn spell(&mut self, tree: &Tree) -> Vec<u8> {
        let thrift = if self.wide() { self.r.of(&[0, 30, 70, 100, 100]) } else { 100 };
        let mut m = Mangler::new(&mut self.r, thrift);
        m.put(tree);
        m.text
    }

    pub fn suffix(&mut self) -> Vec<u8> {
        let all = [".1", ".resume.0", ".cold.1", ".llvm.8174635", "."];
        if self.wide() && self.r.chance(20) {
            return ".é€".as_bytes().to_vec();
        }
        self.r.of(&all[..if self.wide() { 5 } else { 4 }]).as_bytes().to_vec()
    }

    /// Markers and signatures, which a symbol may also be.
    fn odd_leaf(&mut self) -> Tree {
        match self.r.below(8) {
            0 => leaf("y"),
            1 => leaf("_"),
            2 => leaf("d"),
            3 => leaf("K"),
            4 => leaf("Ya"),
            5 => leaf(self.r.of(&["s", "So", "SC"])),
            6 => op(self.requirements(2), "l"),
            _ => self.signature(),
        }
    }

    // Names

    fn word(&mut self) -> &'static str {
        if self.r.chance(70) {
            self.r.of(&WORDS)
        } else {
            self.r.of(&MORE)
        }
    }

    fn type_name(&mut self) -> Tree {
        if let Some(odd) = self.odd_name() {
            return odd;
        }
        let count = 1 + self.r.weighted(&[4, 5, 3, 1]);
        let text: String = (0..count).map(|_| self.word()).collect();
        name(&text)
    }

    fn odd_name(&mut self) -> Option<Tree> {
        if !self.wide() || !self.r.chance(18) {
            return None;
        }
        if self.r.chance(12) {
            let (code, bar) = (self.r.of(&CODED), self.r.chance(20));
            return Some(Tree::Coded(code.to_string(), bar));
        }
        Some(name(self.r.of(&ODD)))
    }

    fn member_name(&mut self) -> Tree {
        if let Some(odd) = self.odd_name() {
            return odd;
        }
        let count = self.r.weighted(&[3, 5, 3, 1]);
        let mut text = self.r.of(&VERBS).to_string();
        for _ in 0..count {
            text.push_str(self.word());
        }
        if self.r.chance(40) {
            let first = self.word();
            text = first.to_lowercase();
            for _ in 0..count {
                text.push_str(self.word());
            }
        }
        name(&text)
    }

    fn label(&mut self) -> Tree {
        if self.r.chance(22) {
            return leaf("_");
        }
        if let Some(odd) = self.odd_name() {
            return odd;
        }
        let mut text = self.r.of(&LABELS).to_string();
        if self.r.chance(25) {
            text.push_str(self.word());
        }
        name(&text)
    }

    // Contexts

    fn module(&mut self) -> Tree {
        if self.wide() && self.r.chance(18) {
            return leaf(self.r.of(&["s", "So", "SC"]));
        }
        if self.r.chance(15) {
            return name(self.r.of(&MODULES));
        }
        name(&self.module.clone())
    }

    fn context(&mut self, depth: usize) -> Tree {
        if self.wide() && depth > 0 && self.r.chance(12) {
            return self.entity(depth - 1);
        }
        if self.r.chance(30) {
            return self.module();
        }
        self.nominal(depth)
    }

    fn class(&mut self) -> Tree {
        let context = name(&self.module.clone());
        let own = self.type_name();
        kept(vec![context, own], "C")
    }

    /// A nominal type: an earlier one, or a new one, in a module or in another type.
    pub fn nominal(&mut self, depth: usize) -> Tree {
        if !self.types.is_empty() && self.r.chance(45) {
            return self.types[self.r.below(self.types.len())].clone();
        }
        let letter = if self.wide() { NOMINALS.as_bytes()[self.r.weighted(&[4, 4, 3, 2, 1])] as char } else { self.r.letter("CCVVVO") };
        let context = if depth > 0 && self.r.chance(25) { self.nominal_or_context(depth - 1) } else { self.module() };
        let own = self.type_name();
        let tree = kept(vec![context, own], &letter.to_string());
        self.types.push(tree.clone());
        tree
    }

    fn nominal_or_context(&mut self, depth: usize) -> Tree {
        if self.wide() && self.r.chance(30) {
            return self.context(depth);
        }
        self.nominal(depth)
    }

    // Protocols

    /// A protocol as one node.
    fn protocol_node(&mut self) -> Tree {
        if self.r.chance(65) {
            let letter = self.r.letter(STANDARD_PROTOCOLS);
            return leaf(&format!("S{letter}"));
        }
        let (context, own) = (self.module(), self.type_name());
        kept(vec![context, own], "P")
    }

    /// A protocol where the source takes one: a node, a name after its context, or a list of one.
    fn protocol(&mut self) -> Vec<Tree> {
        if self.r.chance(25) {
            let (context, own) = (self.module(), self.type_name());
            return vec![context, own];
        }
        if self.wide() && self.r.chance(12) {
            let one = self.protocol_node();
            return vec![op(vec![one, leaf("_")], "p")];
        }
        vec![self.protocol_node()]
    }

    // Types

    fn standard(&mut self) -> Tree {
        let letter = if self.wide() {
            if self.r.chance(85) {
                self.r.letter(STANDARD_TYPES)
            } else {
                self.r.letter(STANDARD_PROTOCOLS)
            }
        } else {
            self.r.letter("iiiSSSSbbbddfuusJV")
        };
        leaf(&format!("S{letter}"))
    }

    fn param(&mut self) -> Tree {
        match self.r.below(if self.wide() { 8 } else { 3 }) {
            0 | 1 => leaf("x"),
            2 => leaf("q_"),
            3 => leaf("qz"),
            4 => {
                let n = self.r.of(&[0, 1, 22, 23, 24, 25, 600, 700, 18_278]);
                op(Vec::new(), &format!("q{n}_"))
            }
            5 => leaf("qd__"),
            6 => leaf("qd_0_"),
            _ => leaf("qd1_2_"),
        }
    }

    fn own_param(&mut self) -> Tree {
        match self.r.below(self.params.max(1)) {
            0 => leaf("x"),
            1 => leaf("q_"),
            n => leaf(&format!("q{}_", n - 2)),
        }
    }

    fn member_type(&mut self) -> Tree {
        let mut parts = vec![self.type_name()];
        if self.r.chance(60) {
            parts.push(self.protocol_node());
        }
        let letters = self.r.of(&["Qz", "Qz", "Qy_", "Qy0_", "Qd__", "Qd0_1_"][..if self.wide() { 6 } else { 4 }]);
        kept(parts, letters)
    }

    pub fn ty(&mut self, depth: usize) -> Tree {
        if depth == 0 {
            return self.small_type();
        }
        let inner = depth - 1;
        match self.r.weighted(if self.wide() {
            &[6, 10, 10, 8, 10, 10, 10, 4, 6, 6, 5, 4]
        } else {
            &[34, 16, 12, 6, 5, 6, 5, 1, 1, 1, 0, 0]
        }) {
            0 => self.small_type(),
            1 => {
                let t = self.ty(inner);
                kept(vec![t], "Sg")
            }
            2 => {
                let t = self.ty(inner);
                kept(vec![leaf("Sa"), leaf("y"), t], "G")
            }
            3 => {
                let (k, v) = (self.small_type(), self.ty(inner));
                kept(vec![leaf("SD"), leaf("y"), k, v], "G")
            }
            4 => self.bound(inner),
            5 => self.tuple(inner),
            6 => self.function_type(inner),
            7 => {
                let t = self.ty(inner);
                let letters = if self.wide() { self.r.of(&METATYPES) } else { "m" };
                op(vec![t], letters)
            }
            8 => self.composition(),
            9 => self.member_type(),
            10 => {
                let t = self.ty(inner);
                op(vec![t], "z")
            }
            _ => leaf("Xl"),
        }
    }

    fn small_type(&mut self) -> Tree {
        let own = if self.params > 0 { 20 } else { 0 };
        match self.r.weighted(&[40, 34, own, if self.wide() { 14 } else { 0 }, 2, 6]) {
            0 => self.standard(),
            1 => self.nominal(1),
            2 => self.own_param(),
            3 => self.param(),
            4 => op(vec![leaf("y")], "p"),
            _ => {
                let own = self.type_name();
                kept(vec![leaf("So"), own], "C")
            }
        }
    }

    /// `G`: a type bound to arguments, sometimes with the markers between levels.
    fn bound(&mut self, depth: usize) -> Tree {
        let base = if self.wide() && self.r.chance(25) { self.ty(depth) } else { self.nominal(1) };
        let mut parts = vec![base, leaf("y")];
        let count = if self.wide() { self.r.weighted(&[1, 5, 3, 1]) } else { 1 + self.r.weighted(&[6, 2]) };
        for i in 0..count {
            if self.wide() && i > 0 && self.r.chance(20) {
                parts.push(leaf("_"));
            }
            parts.push(self.ty(depth));
        }
        if self.wide() && self.r.chance(10) {
            parts.push(leaf("_"));
        }
        kept(parts, "G")
    }

    fn tuple(&mut self, depth: usize) -> Tree {
        let count = self.r.weighted(&[1, if self.wide() { 2 } else { 0 }, 6, 3, 1]);
        self.elements(depth, count)
    }

    /// `t` over that many elements, labelled and variadic at random.
    fn elements(&mut self, depth: usize, count: usize) -> Tree {
        if count == 0 {
            return op(vec![leaf("y")], "t");
        }
        let labelled = self.r.chance(25);
        let mut parts = Vec::new();
        for i in 0..count {
            parts.push(self.ty(depth));
            if labelled && self.r.chance(80) {
                let label = self.member_name();
                parts.push(label);
            }
            if self.wide() && self.r.chance(6) {
                parts.push(leaf("d"));
            }
            if i == 0 {
                parts.push(leaf("_"));
            }
        }
        op(parts, "t")
    }

    /// What represents the parameters of a function, and their number.
    fn parameters(&mut self, depth: usize) -> (Tree, usize) {
        let count = self.r.weighted(&[4, 6, 3, 2, 1]);
        match count {
            0 if self.wide() && self.r.chance(20) => (op(vec![leaf("y")], "t"), 0),
            0 => (leaf("y"), 0),
            1 if self.r.chance(40) => {
                let t = self.parameter(depth);
                (t, 1)
            }
            n => {
                let mut parts = Vec::new();
                for i in 0..n {
                    parts.push(self.parameter(depth));
                    if i == 0 {
                        parts.push(leaf("_"));
                    }
                }
                (op(parts, "t"), n)
            }
        }
    }

    /// The type of a parameter: not a tuple, whose elements would count as parameters of their own.
    fn parameter(&mut self, depth: usize) -> Tree {
        let t = self.ty(depth);
        match &t {
            Tree::Op(o) if o.letters == "t" => self.small_type(),
            _ if self.r.chance(4) => op(vec![t], "z"),
            _ => t,
        }
    }

    fn result(&mut self, depth: usize) -> Tree {
        if self.r.chance(35) {
            return leaf("y");
        }
        self.ty(depth)
    }

    /// Result, parameters and markers, as they are written before `c` or `F`; and the number of
    /// parameters.
    fn function_parts(&mut self, depth: usize) -> (Vec<Tree>, usize) {
        let result = self.result(depth);
        let (params, count) = self.parameters(depth);
        let mut parts = vec![result, params];
        if self.r.chance(8) {
            parts.push(leaf("Ya"));
        }
        if self.r.chance(15) {
            parts.push(leaf("K"));
        }
        (parts, count)
    }

    fn function_type(&mut self, depth: usize) -> Tree {
        let (parts, _) = self.function_parts(depth);
        let letters = if self.wide() { self.r.of(&FUNCTION_TYPES) } else { self.r.of(&["c", "c", "XE"]) };
        op(parts, letters)
    }

    fn composition(&mut self) -> Tree {
        let count = self.r.weighted(&[1, 6, 3, 1]);
        if count == 0 {
            return op(vec![leaf("y")], "p");
        }
        let mut parts = Vec::new();
        for i in 0..count {
            parts.extend(self.protocol());
            if i == 0 {
                parts.push(leaf("_"));
            }
        }
        op(parts, "p")
    }

    // Signatures

    fn index_of_param(&mut self) -> String {
        if self.wide() && self.r.chance(20) {
            return self.r.of(&["d__", "d_0_", "d0_1_", "22_"]).to_string();
        }
        match self.r.below(self.params.max(1)) {
            0 => "z".to_string(),
            1 => "_".to_string(),
            n => format!("{}_", n - 2),
        }
    }

    fn requirement(&mut self) -> Tree {
        let at = self.index_of_param();
        let mut parts = Vec::new();
        let letters =
            match self.r.weighted(if self.wide() { &[4, 3, 3, 3, 3, 3, 3, 3, 3, 3, 3, 3] } else { &[10, 1, 0, 1, 0, 0, 2, 1, 2, 0, 0, 0] })
            {
                0 => {
                    parts.extend(self.protocol());
                    format!("R{at}")
                }
                1 => {
                    parts.extend(self.protocol());
                    parts.extend(self.associated());
                    format!("Rp{at}")
                }
                2 => {
                    parts.extend(self.protocol());
                    parts.push(self.ty(1));
                    "RQ".to_string()
                }
                3 => {
                    parts.push(self.class());
                    format!("Rb{at}")
                }
                4 => {
                    parts.push(self.class());
                    parts.push(self.ty(1));
                    "RB".to_string()
                }
                5 => {
                    parts.push(self.class());
                    parts.extend(self.associated());
                    format!("Rc{at}")
                }
                6 => {
                    parts.push(self.ty(0));
                    format!("Rs{at}")
                }
                7 => {
                    parts.push(self.ty(0));
                    parts.push(self.member_type());
                    "RS".to_string()
                }
                8 => {
                    parts.push(self.ty(0));
                    parts.extend(self.associated());
                    format!("Rt{at}")
                }
                9 => format!("Rl{at}C"),
                10 => {
                    parts.push(self.ty(1));
                    "RLC".to_string()
                }
                _ => {
                    parts.extend(self.associated());
                    format!("Rm{at}C")
                }
            };
        op(parts, &letters)
    }

    /// The name of an associated type, at random under its protocol.
    fn associated(&mut self) -> Vec<Tree> {
        let mut parts = vec![self.type_name()];
        if self.r.chance(60) {
            parts.push(self.protocol_node());
        }
        parts
    }

    fn requirements(&mut self, most: usize) -> Vec<Tree> {
        let count = self.r.below(most + 1);
        (0..count).map(|_| self.requirement()).collect()
    }

    fn signature(&mut self) -> Tree {
        let parts = self.requirements(3);
        let params = self.params.max(1);
        if self.wide() && self.r.chance(25) {
            let letters = self.r.of(&["rl", "rzl", "r_l", "r_0_l", "rz_zl", "r24_l", "r25_l", "r40_l"]);
            return op(parts, letters);
        }
        match params {
            1 => op(parts, "l"),
            n => op(parts, &format!("r{}_l", n - 2)),
        }
    }

    // Entities

    /// Labels before the type of a function: none for no parameters, an empty list, or one for
    /// each. A compiler writes an empty list if no parameter has a label, and labels a single
    /// parameter only as a tuple of one.
    fn labels(&mut self, params: &Tree, count: usize) -> Vec<Tree> {
        if count == 0 {
            return if self.wide() && self.r.chance(15) { vec![leaf("y")] } else { Vec::new() };
        }
        let tuple = matches!(params, Tree::Op(o) if o.letters == "t");
        if self.r.chance(20) || !self.wide() && !tuple {
            return vec![leaf("y")];
        }
        let labels: Vec<Tree> = (0..count).map(|_| self.label()).collect();
        if !self.wide() && labels.iter().all(|l| !matches!(l, Tree::Name(_))) {
            return vec![leaf("y")];
        }
        labels
    }

    fn function(&mut self, depth: usize) -> Tree {
        let mut parts = vec![self.context(depth), self.member_name()];
        let (ty, count) = self.function_parts(depth);
        parts.extend(self.labels(&ty[1], count));
        parts.extend(ty);
        if self.params > 0 {
            parts.push(self.signature());
        }
        op(parts, "F")
    }

    fn variable(&mut self, depth: usize) -> Tree {
        let mut parts = vec![self.context(depth), self.member_name()];
        if self.wide() && self.r.chance(15) {
            parts.push(leaf("y"));
        }
        if self.wide() && self.r.chance(15) {
            parts.push(self.signature());
        }
        parts.push(if self.wide() { self.ty(depth) } else { self.value_type(depth) });
        let letter = if self.wide() { self.r.letter(ACCESSORS) } else { self.r.letter("ppggggsssMMr") };
        op(parts, &format!("v{letter}"))
    }

    fn stored(&mut self, depth: usize) -> Tree {
        let parts = vec![self.nominal(depth), self.member_name(), self.value_type(depth)];
        op(parts, "vp")
    }

    /// A type that is not a function: Swift's own demangler requires labels before a variable of
    /// function type.
    fn value_type(&mut self, depth: usize) -> Tree {
        let t = self.ty(depth);
        match &t {
            Tree::Op(o) if FUNCTION_TYPES.contains(&o.letters.as_str()) => self.small_type(),
            _ => t,
        }
    }

    fn initializer(&mut self, depth: usize) -> Tree {
        let of = if self.wide() { self.context(depth) } else { self.nominal(depth) };
        let (params, count) = self.parameters(depth);
        let mut parts = vec![of.clone()];
        parts.extend(self.labels(&params, count));
        if self.wide() && self.r.chance(10) {
            parts.truncate(1);
            parts.push(self.ty(0));
        } else {
            let result = if self.wide() && self.r.chance(40) { self.result(depth) } else { of };
            let mut ty = vec![if matches!(&result, Tree::Name(_)) { leaf("y") } else { result }, params];
            if self.r.chance(12) {
                ty.push(leaf("K"));
            }
            parts.push(op(ty, "c"));
        }
        if self.wide() && self.params > 0 {
            parts.push(self.signature());
        }
        op(parts, self.r.of(&["fC", "fC", "fc"]))
    }

    pub fn entity(&mut self, depth: usize) -> Tree {
        match self.r.weighted(&[40, 34, 14, 5, if self.wide() { 4 } else { 1 }, if self.wide() { 4 } else { 5 }]) {
            0 => self.function(depth),
            1 => self.variable(depth),
            2 => self.initializer(depth),
            3 => {
                let of = if self.wide() { self.context(depth) } else { self.class() };
                op(vec![of], self.r.of(&["fD", "fd"]))
            }
            4 => {
                let of = self.stored(depth);
                op(vec![of], "fi")
            }
            _ => {
                let of = if self.r.chance(50) { self.function(depth) } else { self.variable(depth) };
                op(vec![of], "Z")
            }
        }
    }

    fn entity_maybe_thunk(&mut self, depth: usize) -> Tree {
        let of = self.entity(depth);
        match self.r.weighted(&[80, 5, 5, 3, 2, 2, 3]) {
            1 => op(vec![of], "Tj"),
            2 => op(vec![of], "Tq"),
            3 => op(vec![of], "To"),
            4 => op(vec![of], "Tm"),
            5 => op(vec![of], "Tu"),
            6 => {
                let mut parts = self.conformance();
                parts.push(of);
                op(parts, "TW")
            }
            _ => of,
        }
    }

    // Records

    /// A type, its protocol and the module of the conformance.
    fn conformance(&mut self) -> Vec<Tree> {
        let mut parts = vec![if self.wide() { self.ty(1) } else { self.nominal(1) }];
        parts.extend(self.protocol());
        parts.push(if self.wide() { self.context(1) } else { name(&self.module.clone()) });
        parts
    }

    pub fn record(&mut self, depth: usize) -> Tree {
        let weights: &[usize] = if self.wide() {
            &[16, 3, 3, 3, 3, 5, 4, 3, 4, 4, 6, 12, 6, 3, 4, 5, 4, 14, 3]
        } else {
            &[26, 2, 8, 5, 0, 1, 12, 1, 8, 6, 10, 5, 12, 2, 2, 0, 1, 0, 0]
        };
        match self.r.weighted(weights) {
            0 => {
                let of = if self.wide() { self.ty(depth) } else { self.nominal(1) };
                let letter = if self.wide() { self.r.letter(TYPE_RECORDS) } else { self.r.letter("aaaannnffFFFBLiIlrPm") };
                op(vec![of], &format!("M{letter}"))
            }
            1 => op(self.protocol(), "Mp"),
            2 => op(self.conformance(), "Mc"),
            3 => {
                let of = if self.wide() { self.entity(depth) } else { self.stored(depth) };
                op(vec![of], "MV")
            }
            4 => {
                let of = match self.r.below(4) {
                    0 => self.ty(depth),
                    1 => self.entity(depth),
                    2 => self.record(depth.saturating_sub(1)),
                    _ => self.odd_leaf(),
                };
                op(vec![of], "MK")
            }
            5 => {
                if self.wide() {
                    let of = self.context(depth);
                    let letter = self.r.letter(CONTEXT_RECORDS);
                    op(vec![of], &format!("MX{letter}"))
                } else {
                    op(vec![name(&self.module.clone())], "MXM")
                }
            }
            6 => {
                let of = if self.wide() { self.ty(depth) } else { self.nominal(1) };
                op(vec![of], "N")
            }
            7 => {
                let of = self.ty(depth);
                op(vec![of], "WV")
            }
            8 => {
                let of = if self.wide() { self.entity(depth) } else { self.stored(depth) };
                op(vec![of], self.r.of(&["Wvd", "Wvd", "Wvi"]))
            }
            9 => {
                let mut parts = vec![if self.wide() { self.ty(depth) } else { self.nominal(1) }];
                parts.extend(self.conformance());
                op(parts, self.r.of(&["Wl", "WL"]))
            }
            10 => {
                let letter = if self.wide() { self.r.letter(CONFORMANCE_RECORDS) } else { self.r.letter("PPPpa") };
                op(self.conformance(), &format!("W{letter}"))
            }
            11 => {
                let of = if self.wide() { self.ty(depth) } else { self.nominal(1) };
                let which = self.r.of(&VALUE_WITNESSES);
                op(vec![of], &format!("w{which}"))
            }
            12 => {
                let mut parts = self.conformance();
                parts.push(self.entity(depth));
                op(parts, "TW")
            }
            13 => op(self.protocol(), if self.wide() { self.r.of(&["TL", "TS"]) } else { "TL" }),
            14 => {
                let mut parts = vec![self.type_name()];
                parts.extend(if self.wide() { self.protocol() } else { vec![self.protocol_node()] });
                op(parts, "Tl")
            }
            15 => {
                let mut parts = vec![if self.r.chance(70) { self.protocol_node() } else { self.ty(1) }, self.type_name()];
                if self.r.chance(40) {
                    parts.push(self.protocol_node());
                }
                if self.r.chance(40) {
                    parts.push(leaf("_"));
                }
                parts.extend(self.protocol());
                op(parts, "Tn")
            }
            16 => {
                let of = self.entity(depth);
                op(vec![of], self.r.of(&["TY_", "TY0_", "TY3_"]))
            }
            17 => {
                let of = self.entity(depth);
                let letter = self.r.letter(ENTITY_THUNKS);
                op(vec![of], &format!("T{letter}"))
            }
            _ => {
                let of = self.context(depth);
                op(vec![of], self.r.of(&["fe", "fE"]))
            }
        }
    }
}
