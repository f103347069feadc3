//! Names per second of the Rust, of Swift's own demanglers and of ours, on a list of made names and
//! on real names, in one run; memory; and growth of time (compare/bench builds and starts it). Its
//! output goes into docs/SPEED.md.
//!
//! Times are processor time, not wall-clock time, so that other work on the machine has little
//! effect. Each number is the median of five. The contenders take turns: every one once, then every
//! one again.

mod grammar;
mod mangle;
mod names;
mod ours;
mod own;
mod random;
mod six;

use ours::Form;
use random::Random;
use six::Six;
use std::hint::black_box;
use std::sync::OnceLock;

const ROUNDS: usize = 5;
const NAMES: usize = 20_000;
const CEILING: usize = 256; // the ceiling of the program `names`
const ROOM: usize = 16_384;
const MOST: usize = 65_536;
const NOTHING: &str = "/dev/null";
const FIVE: &str = "Swift 5.5.1's own"; // the demangler that compare/swift/build builds
const SHUFFLED_BY: u64 = 20261117; // the seed of the order in which the real names are read
const MADE_REPEATED: usize = 20; // how often each list is repeated in the file for the line filters
const REAL_REPEATED: usize = 4;

#[repr(C)]
struct Moment {
    seconds: i64,
    rest: i64,
}

/// What the system reports about a process that ended (struct rusage).
#[repr(C)]
struct Usage {
    user: Moment,
    system: Moment,
    most_resident: i64,
    others: [i64; 13],
}

extern "C" {
    fn clock_gettime(clock: i32, to: *mut Moment) -> i32;
    fn wait4(pid: i32, status: *mut i32, options: i32, usage: *mut Usage) -> i32;
}

/// Seconds of processor time of this thread.
fn now() -> f64 {
    const OF_THIS_THREAD: i32 = 3;
    let mut m = Moment { seconds: 0, rest: 0 };
    unsafe { clock_gettime(OF_THIS_THREAD, &mut m) };
    m.seconds as f64 + m.rest as f64 * 1e-9
}

fn median(mut all: Vec<f64>) -> f64 {
    all.sort_by(f64::total_cmp);
    all[all.len() / 2]
}

/// Our calls with their own memory.
struct Ours {
    ceiling: usize,
    workspace: Vec<u32>,
    out: Vec<u8>,
}

impl Ours {
    fn new(ceiling: usize, room: usize) -> Ours {
        Ours { ceiling, workspace: vec![0; 64 * ceiling], out: vec![0; room] }
    }

    fn read(&mut self, form: Form, text: &str) -> ours::Answer {
        ours::read(form, text.as_bytes(), self.ceiling, &mut self.workspace, &mut self.out)
    }

    fn check(&mut self, form: Form, text: &str) -> ours::Answer {
        ours::check(form, text.as_bytes(), self.ceiling, &mut self.workspace[..8 * self.ceiling])
    }
}

/// Seconds that each piece of work takes, once through, as the median of the rounds.
fn in_turn(work: &mut [Box<dyn FnMut() -> usize + '_>]) -> Vec<f64> {
    let mut times: Vec<Vec<f64>> = work.iter().map(|_| Vec::new()).collect();
    let mut passes = Vec::new();
    for w in work.iter_mut() {
        black_box(w());
        let begun = now();
        black_box(w());
        // enough passes that a measurement takes at least a tenth of a second
        passes.push((0.1 / (now() - begun).max(1e-9)).ceil().clamp(1.0, 1e7) as usize);
    }
    for _ in 0..ROUNDS {
        for (i, w) in work.iter_mut().enumerate() {
            let begun = now();
            for _ in 0..passes[i] {
                black_box(w());
            }
            times[i].push((now() - begun) / passes[i] as f64);
        }
    }
    times.into_iter().map(median).collect()
}

fn main() {
    let mut args = std::env::args().skip(1);
    match args.next().as_deref() {
        Some("there") => {} // Swift's loader runs this program
        Some("names") => println!("{}", names_of(&list()).join("\n")),
        Some("run") => measured(&args.collect::<Vec<_>>()),
        Some("one") => one(&args.next().unwrap(), &args.next().unwrap()),
        Some("readings") => tables(&list(), &mut Real::of(&args.next().unwrap_or_default())),
        Some("all") => all(&args.collect::<Vec<_>>()),
        _ => {
            eprintln!("usage: bench all BENCH FOLDER NAMES SWIFT6 HOW .. | bench readings [SWIFT6] | bench names");
            std::process::exit(2);
        }
    }
}

/// Names as one text, each followed by a NUL. With separate memory for each name, every contender
/// would wait for memory. Swift 6's function looks for the NUL although it is given the length.
fn joined(names: &[impl AsRef<str>]) -> String {
    names.iter().map(|name| format!("{}\0", name.as_ref())).collect()
}

fn names_of(joined: &str) -> Vec<&str> {
    joined.split_terminator('\0').collect()
}

/// 20,000 names that the Rust and Swift 5.5.1's own demangler read and that charge at most 256.
fn list() -> String {
    let mut out = vec![0; 1 << 20];
    let good = |text: &str| swift_demangle::demangle(text).is_some() && own::demangle(text.as_bytes(), &mut out).is_some();
    joined(&names::names(NAMES, names::SEED, good))
}

/// Swift 6's own demangler, and the real names that all contenders read.
struct Real {
    six: Six,
    names: String,
    /// How many there are, read or not.
    all: usize,
    /// The demangler as a program.
    filter: String,
}

impl Real {
    /// From the folder that compare/swift/fetch sets up. The names are shuffled, so that no
    /// contender profits from neighbours in a sorted list.
    fn of(folder: &str) -> Result<Real, String> {
        if folder.is_empty() {
            return Err("it was not fetched".to_string());
        }
        let file = |name: &str| std::fs::read_to_string(format!("{folder}/{name}")).map_err(|e| format!("{folder}/{name}: {e}"));
        let mut six = Six::open(file("version")?.split(" (").next().unwrap_or("").to_string())?;
        let (mut ours, mut out) = (Ours::new(CEILING, ROOM), vec![0; 1 << 20]);
        let all = joined(&file("names")?.lines().collect::<Vec<_>>());
        let mut names: Vec<&str> = names_of(&all)
            .into_iter()
            .filter(|t| ours.read(Form::Symbol, t).number == 0 && swift_demangle::demangle(t).is_some())
            .filter(|t| own::demangle(t.as_bytes(), &mut out).is_some() && six.reads(t))
            .collect();
        let mut random = Random::new(SHUFFLED_BY);
        for last in (1..names.len()).rev() {
            names.swap(last, random.below(last + 1));
        }
        Ok(Real { six, names: joined(&names), all: names_of(&all).len(), filter: format!("{folder}/bin/swift-demangle") })
    }
}

fn all(args: &[String]) {
    let [program, folder, names, swift6, how @ ..] = args else { panic!("program, folder, `names` and Swift 6's folder") };
    ME.set(program.clone()).unwrap();
    println!("{}\n", machine(how));
    let (made, mut real) = (list(), Real::of(swift6));
    tables(&made, &mut real);
    filters("made names", &names_of(&made), MADE_REPEATED, folder, names, real.as_ref().ok());
    if let Ok(real) = &real {
        filters("real names", &names_of(&real.names), REAL_REPEATED, folder, names, Some(real));
    }
    memory();
    growth();
}

/// Reading and check of both lists, or of the made list only if Swift 6 is missing.
fn tables(made: &str, real: &mut Result<Real, String>) {
    let about = "made by compare/src/grammar.rs from a fixed seed, all read by the Rust and by Swift 5.5.1";
    readings("made names", about, &names_of(made), real.as_mut().ok().map(|real| &mut real.six));
    match real {
        Err(why) => println!("Real names were left out, since Swift 6 is not there ({why}): compare/swift/fetch sets it up.\n"),
        Ok(Real { six, names, all, .. }) => {
            let about =
                format!("of the {} in the libraries and programs of {}, those that everybody reads", thousands(*all as f64), six.version);
            readings("real names", &about, &names_of(names), Some(six));
        }
    }
}

fn machine(how: &[String]) -> String {
    let cpu = std::fs::read_to_string("/proc/cpuinfo").unwrap_or_default();
    let of = |key: &str| cpu.lines().find(|l| l.starts_with(key)).and_then(|l| l.split(": ").nth(1)).unwrap_or("?").to_string();
    let cores = cpu.lines().filter(|l| l.starts_with("processor")).count();
    format!("Machine: {} (family {}, model {}), {cores} cores. {}", of("model name"), of("cpu family"), of("model"), how.join(". "))
}

fn thousands(n: f64) -> String {
    let digits = format!("{n:.0}");
    let mut out = String::new();
    for (i, c) in digits.chars().enumerate() {
        if i > 0 && (digits.len() - i) % 3 == 0 {
            out.push(',');
        }
        out.push(c);
    }
    out
}

/// A contender: its name, and its work, once through the list.
type Contender<'a> = (String, Box<dyn FnMut() -> usize + 'a>);

fn readings(title: &str, about: &str, list: &[&str], six: Option<&mut Six>) {
    println!("## Reading and check: {title}\n");
    let texts = judged(list);
    describe(about, list, texts);
    let (mut small, mut large, mut checking) = (Ours::new(CEILING, ROOM), Ours::new(MOST, ROOM), Ours::new(CEILING, 0));
    let mut out = vec![0; 1 << 20];
    let mut contenders: Vec<Contender> = vec![
        ("the Rust".to_string(), Box::new(|| list.iter().map(|t| swift_demangle::demangle(t).map_or(0, |s| s.len())).sum())),
        (FIVE.to_string(), Box::new(|| list.iter().map(|t| own::demangle(t.as_bytes(), &mut out).unwrap_or(0)).sum())),
    ];
    if let Some(six) = six {
        let read = list.iter().filter(|t| six.reads(t)).count();
        if read < list.len() {
            println!("{} reads {} of them.\n", six.version, thousands(read as f64));
        }
        contenders.push((format!("{}'s own", six.version), Box::new(|| list.iter().map(|t| six.call(t) as usize).sum())));
    }
    let others = contenders.len();
    contenders
        .push(("our reading, N = 256".to_string(), Box::new(|| list.iter().map(|t| small.read(Form::Symbol, t).length as usize).sum())));
    contenders
        .push(("our reading, N = 65,536".to_string(), Box::new(|| list.iter().map(|t| large.read(Form::Symbol, t).length as usize).sum())));
    contenders
        .push(("our check, N = 256".to_string(), Box::new(|| list.iter().map(|t| checking.check(Form::Symbol, t).total as usize).sum())));
    let (names, mut work): (Vec<String>, Vec<Box<dyn FnMut() -> usize>>) = contenders.into_iter().unzip();
    let times = in_turn(&mut work);
    let rate = |i: usize| list.len() as f64 / times[i];
    let against: Vec<String> = names[..others].iter().map(|name| format!("× {name}")).collect();
    println!("| | names per second | a name | {} |\n|---|---|---|{}", against.join(" | "), "---|".repeat(others));
    for (i, what) in names.iter().enumerate() {
        let ratios: Vec<String> = (0..others).map(|other| format!("{:.2}", rate(i) / rate(other))).collect();
        println!("| {what} | {} | {:.0} ns | {} |", thousands(rate(i)), 1e9 / rate(i), ratios.join(" | "));
    }
    println!("\nThe check reads {:.2} × as many names a second as the reading.\n", rate(others + 2) / rate(others));
}

/// Compares our calls at N = 256 with the Rust on every name. Returns the total number of bytes of
/// the texts.
fn judged(list: &[&str]) -> usize {
    let mut ours = Ours::new(CEILING, ROOM);
    let mut bytes = 0;
    for t in list {
        let a = ours.read(Form::Symbol, t);
        assert_eq!(a.number, 0, "{t}");
        assert_eq!(&ours.out[..a.length as usize], swift_demangle::demangle(t).unwrap().as_bytes(), "{t}");
        assert_eq!(ours.check(Form::Symbol, t).number, 0, "{t}");
        bytes += a.length as usize;
    }
    bytes
}

fn describe(about: &str, list: &[&str], texts: usize) {
    let mut lengths: Vec<usize> = list.iter().map(|t| t.len()).collect();
    lengths.sort();
    let mean = |n: usize| n as f64 / list.len() as f64;
    println!(
        "{} names, {about}: {} to {} bytes, median {}, mean {:.1}; their texts have {:.1} bytes in the mean.\n",
        thousands(list.len() as f64),
        lengths[0],
        lengths[lengths.len() - 1],
        lengths[lengths.len() / 2],
        mean(lengths.iter().sum()),
        mean(texts)
    );
}

/// The path of this program, as it was given. If Swift's loader runs the program, the system
/// reports the loader instead.
static ME: OnceLock<String> = OnceLock::new();

fn me() -> &'static str {
    ME.get().unwrap()
}

/// Seconds of processor time and the greatest memory in kilobytes of a program that is run on a
/// file. A small process starts it and measures, because what the system reports about a process
/// begins with the values of the process that started it.
fn run(program: &str, args: &[&str], input: &str, output: &str) -> Option<(f64, i64)> {
    let said = std::process::Command::new(me()).args(["run", input, output, program]).args(args).output().unwrap().stdout;
    let said = String::from_utf8(said).unwrap();
    let mut numbers = said.split_whitespace();
    Some((numbers.next()?.parse().ok()?, numbers.next()?.parse().ok()?))
}

fn measured(args: &[String]) {
    use std::fs::File;
    let [input, output, program, rest @ ..] = args else { panic!("input, output and program") };
    let mut command = std::process::Command::new(program);
    command.args(rest).stdin(File::open(input).unwrap()).stdout(File::create(output).unwrap()).stderr(std::process::Stdio::null());
    let Ok(child) = command.spawn() else { return };
    let (mut status, mut usage) = (0, unsafe { std::mem::zeroed::<Usage>() });
    unsafe { wait4(child.id() as i32, &mut status, 0, &mut usage) };
    let seconds = |m: &Moment| m.seconds as f64 + m.rest as f64 * 1e-6;
    if status == 0 {
        println!("{} {}", seconds(&usage.user) + seconds(&usage.system), usage.most_resident);
    }
}

fn filters(title: &str, list: &[&str], repeated: usize, folder: &str, program: &str, real: Option<&Real>) {
    let input = format!("{folder}/names.in");
    std::fs::write(&input, (list.join("\n") + "\n").repeat(repeated)).unwrap();
    let rust = format!("{folder}/filter");
    let mut contenders =
        vec![("the Rust's".to_string(), rust.clone(), vec![]), (FIVE.to_string(), format!("{folder}/swift/swift-filter"), vec![])];
    if let Some(Real { six, filter, .. }) = real {
        contenders.push((format!("{}'s own `swift-demangle -compact`", six.version), filter.clone(), vec!["-compact"]));
    }
    contenders.push(("our program `names`".to_string(), program.to_string(), vec![]));
    let lines = (list.len() * repeated) as f64;
    println!(
        "## Line filters: {title}\n\nA file of {} lines (the list {repeated} times) to /dev/null: processor time with the system's share.\n",
        thousands(lines)
    );
    let mut times: Vec<Vec<(f64, i64)>> = vec![Vec::new(); contenders.len()];
    for _ in 0..ROUNDS {
        for (i, (_, path, args)) in contenders.iter().enumerate() {
            times[i].extend(run(path, args, &input, NOTHING));
        }
    }
    let there = |i: usize| times[i].len() == ROUNDS;
    let rate = |i: usize| if there(i) { lines / median(times[i].iter().map(|t| t.0).collect()) } else { f64::NAN };
    let others = contenders.len() - 1;
    let against: Vec<String> = contenders[..others].iter().map(|(name, ..)| format!("× {name}")).collect();
    println!("| | names per second | {} | most memory |\n|---|---|{}---|", against.join(" | "), "---|".repeat(others));
    for (i, (what, ..)) in contenders.iter().enumerate() {
        if !there(i) {
            println!("| {what} | not there |{}", " |".repeat(others + 1));
            continue;
        }
        let ratios: Vec<String> = (0..others).map(|other| format!("{:.2}", rate(i) / rate(other))).collect();
        let memory = times[i].iter().map(|t| t.1).max().unwrap();
        println!("| {what} | {} | {} | {} KB |", thousands(rate(i)), ratios.join(" | "), thousands(memory as f64));
    }
    // what is written must be what the Rust writes
    let (a, b) = (format!("{folder}/names.rust"), format!("{folder}/names.ours"));
    if run(&rust, &[], &input, &a).is_some() && run(program, &[], &input, &b).is_some() {
        let same = std::fs::read(&a).unwrap() == std::fs::read(&b).unwrap();
        println!("\nThe program `names` and the Rust's filter write {}.", if same { "the same bytes" } else { "DIFFERENT bytes" });
    }
    println!();
}

/// Texts that are large in one way, by that number.
fn series() -> Vec<(&'static str, &'static str, Vec<usize>, fn(usize) -> String)> {
    let doubling = |from: usize, to: usize| std::iter::successors(Some(from), |n| Some(n * 2)).take_while(|n| *n <= to).collect::<Vec<_>>();
    vec![
        ("length", "bytes of one name, all one word", [doubling(2048, 32_768), vec![65_520]].concat(), |n| {
            format!("$s1a{n}{}V", "b".repeat(n))
        }),
        ("words", "bytes of one name, a word every two", [doubling(2048, 32_768), vec![65_520]].concat(), |n| {
            format!("$s1a{n}{}V", "aB".repeat(n / 2))
        }),
        ("suffix", "bytes after a dot", [doubling(2048, 32_768), vec![65_520]].concat(), |n| format!("$s1a1bV.{}", "x".repeat(n))),
        ("names", "names in names, 12 bytes each", doubling(128, 4096).into_iter().map(|n| n.min(2046)).take(5).collect(), |n| {
            format!("$s1a{}", "9nestedABCV".repeat(n))
        }),
        ("nodes", "elements of a tuple", doubling(128, 2048).into_iter().chain([4090]).collect(), |n| {
            format!("$s1a1bSi_{}tvp", "SS".repeat(n - 1))
        }),
        ("parameters", "parameters with labels", doubling(64, 1024).into_iter().chain([2040]).collect(), |n| {
            format!("$s1a1b{}ySi_{}tF", "3lab".repeat(n), "Sb".repeat(n - 1))
        }),
        ("depth", "`static` upon `static`", doubling(128, 2048).into_iter().chain([4090]).collect(), |n| {
            format!("$s1a1bSivp{}", "Z".repeat(n))
        }),
        ("wraps", "metatypes of metatypes", doubling(16, 256), |n| format!("$s1a1bSi{}vp", "m".repeat(n))),
        ("copies", "copies of one type in a tuple", doubling(1024, 16_384).into_iter().chain([32_700]).collect(), |n| {
            format!("$s1a1bV1cAC_A{n}Ctvp")
        }),
        ("requirements", "requirements of a signature", doubling(64, 1024).into_iter().chain([2040]).collect(), |n| {
            format!("$s{}r0_l", "SHRz".repeat(n))
        }),
        ("counts", "generic parameters", doubling(1024, 65_536), |n| format!("$sr{}_l", n - 2)),
        ("arrays", "`Array` in the context of an argument", (2..=20).step_by(2).collect(), arrays),
    ]
}

/// The shape on which the Rust's time doubles with each level.
fn arrays(levels: usize) -> String {
    let mut t = "x".to_string();
    for level in 0..levels {
        t = format!("{}{t}vpAAVyxG", if level + 1 == levels { "s5Array" } else { "sAA" });
    }
    format!("$s{t}")
}

fn growth() {
    println!("## How time grows\n\nMicroseconds a name; in brackets, how many times that of the row above. Our calls have N = 65,536. `none`: not read.\n");
    let mut reading = Ours::new(MOST, 4 << 20);
    let mut checking = Ours::new(MOST, 0);
    let mut out = vec![0; 4 << 20];
    for (name, what, sizes, make) in series() {
        println!("### {name}: {what}\n\n| {name} | bytes | text | the Rust | {FIVE} | our reading | our check | reading, ns a byte |\n|---|---|---|---|---|---|---|---|");
        let mut before: Option<Vec<Option<f64>>> = None;
        for n in sizes {
            let text = make(n);
            let length = reading.read(Form::Symbol, &text);
            assert_eq!(length.number, 0, "{name} {n}");
            let by_rust = swift_demangle::demangle(&text);
            assert_eq!(by_rust.as_deref().map(str::as_bytes), Some(&reading.out[..length.length as usize]), "{name} {n}");
            let by_swift = own::demangle(text.as_bytes(), &mut out).is_some();
            let mut work: Vec<Box<dyn FnMut() -> usize>> = vec![
                Box::new(|| swift_demangle::demangle(&text).map_or(0, |s| s.len())),
                Box::new(|| own::demangle(text.as_bytes(), &mut out).unwrap_or(0)),
                Box::new(|| reading.read(Form::Symbol, &text).length as usize),
                Box::new(|| checking.check(Form::Symbol, &text).total as usize),
            ];
            let times = in_turn(&mut work);
            drop(work);
            let times: Vec<Option<f64>> = times.into_iter().enumerate().map(|(i, t)| (i != 1 || by_swift).then_some(t)).collect();
            let cell = |i: usize| match (times[i], before.as_ref().and_then(|b| b[i])) {
                (None, _) => "none".to_string(),
                (Some(t), None) => format!("{:.2}", t * 1e6),
                (Some(t), Some(b)) => format!("{:.2} (×{:.2})", t * 1e6, t / b),
            };
            println!(
                "| {} | {} | {} | {} | {} | {} | {} | {:.2} |",
                thousands(n as f64),
                thousands(text.len() as f64),
                thousands(length.length as f64),
                cell(0),
                cell(1),
                cell(2),
                cell(3),
                times[2].unwrap() * 1e9 / (text.len() + length.length as usize) as f64
            );
            before = Some(times);
        }
        println!();
    }
}

/// Reads one text in a separate process, for its memory.
fn one(who: &str, text: &str) {
    match who {
        "none" => {}
        "rust" => drop(black_box(swift_demangle::demangle(text))),
        "swift" => {
            let mut out = vec![0; 1 << 16];
            black_box(own::demangle(text.as_bytes(), &mut out));
        }
        _ => {
            let n: usize = who.parse().unwrap();
            let mut ours = Ours::new(n, 1 << 16);
            black_box(ours.read(Form::Symbol, text).number);
        }
    }
}

fn memory() {
    println!("## Memory\n\nKilobytes that one name takes beyond the program itself, in a process of its own; ours with the workspace that it is lent.\n");
    println!("| name | the Rust | {FIVE} | ours, N = 256 | ours, N = 65,536 |\n|---|---|---|---|---|");
    // the least of the rounds: what the system counts besides the name differs from run to run
    let least =
        |who: &str, text: &str| (0..ROUNDS).filter_map(|_| run(me(), &["one", who, text], NOTHING, NOTHING)).map(|(_, kb)| kb).min();
    let base = least("none", "").unwrap();
    for (what, text) in [
        ("`$s4main3fooyyF`", "$s4main3fooyyF".to_string()),
        ("`static` 4,000 times", format!("$s1a1bSivp{}", "Z".repeat(4000))),
        ("a tuple of 4,000", format!("$s1a1bSi_{}tvp", "SS".repeat(3999))),
        ("30,000 copies of one type", "$s1a1bV1cAC_A30000Ctvp".to_string()),
        ("100,000 generic parameters", "$sr99998_l".to_string()),
        ("30,000 copies in a tuple, remembered 40 times", format!("$s1a1b1a1bV_A30000Etvp{}", "AAO".repeat(40))),
    ] {
        let cell = |who: &str| least(who, &text).map_or("ends the process".to_string(), |kb| thousands((kb - base).max(0) as f64));
        println!("| {what} | {} | {} | {} | {} |", cell("rust"), cell("swift"), cell("256"), cell("65536"));
    }
    println!();
}
