//! The processes that judge the texts of a comparison, and the one that watches them: what the
//! programs `compare` and `real` share.
//!
//! Workers are processes. Where the Rust itself fails is known from what happens to its process,
//! and is counted separately:
//! - it panics (caught);
//! - its process ends, out of memory (more than MOST_MEMORY) or out of call stack (512 MB);
//! - it is not done after MOST_SECONDS.
//! Our own answers on such a text are still compared with each other. If a process ends, or is not
//! done, while it is in one of our calls, or in the instrumented copy where the Rust itself
//! answers, this is a difference.

use crate::judge::{self, Judge, Rust, Verdict};
use crate::ours::Form;
use crate::shared::{self, End, Phase, Shared};
use std::ffi::OsString;
use std::io::{IsTerminal, Write};
use std::sync::atomic::{AtomicU64, Ordering::Relaxed};
use std::time::{Duration, Instant};

const MOST_MEMORY: u64 = 3 << 30;
const MOST_SECONDS: u64 = 10;
/// Of the texts that are drawn, each whose number is a multiple of this is compared with numbers.
/// It divides no usual count of workers. Workers take turns, so each has the same number of such
/// texts.
const NUMBERS_EVERY: usize = 7;

/// A text, and what its program knows about it when it is counted.
pub struct Text<Known> {
    pub form: Form,
    pub bytes: Vec<u8>,
    pub known: Known,
}

/// What a program compares: its texts, how each of them is judged, and what is counted.
pub trait Comparison: Sync {
    /// The command that starts the program: a difference is reported as this command with one text.
    const COMMAND: &'static str;
    /// What the program knows about a text.
    type Known;

    /// Judges one text. Returns the number of our answer that is counted.
    fn judge(judge: &mut Judge, form: Form, text: &[u8], rust: &Rust) -> Verdict<u64>;
    /// The number of texts.
    fn total(&self) -> usize;
    /// The number of texts before those that are drawn; they are all compared with numbers.
    fn listed(&self) -> usize;
    /// The text of this number: the same each time.
    fn at(&self, i: usize) -> Text<Self::Known>;
    /// Counts what only this program counts about a text that was judged.
    fn count(&self, shared: &Shared, i: usize, text: &Text<Self::Known>, rust: &Rust, number: u64);
}

// Options

/// The options that every program has.
pub struct Options {
    pub seed: u64,
    workers: usize,
    numbers_every: usize,
    /// One text that is judged instead of all.
    pub one: Option<(Form, Vec<u8>)>,
}

impl Options {
    /// The options of the command line. `own` is given the name and the value of each option that
    /// is not one of them. None if an option is unknown or its value is not allowed.
    pub fn of_command_line(mut own: impl FnMut(&str, &str) -> Option<()>) -> Option<Options> {
        let workers = std::thread::available_parallelism().map_or(1, |n| n.get());
        let mut o = Options { seed: 1, workers, numbers_every: NUMBERS_EVERY, one: None };
        let mut args = std::env::args_os().skip(1).map(OsString::into_string);
        while let Some(name) = args.next() {
            let (name, value) = (name.ok()?, args.next()?.ok()?);
            match name.as_str() {
                "--seed" => o.seed = number(&value)? as u64,
                "--workers" => o.workers = number(&value)?.clamp(1, shared::WORKERS),
                "--numbers-every" => o.numbers_every = number(&value)?.max(1),
                "--symbol" => o.one = Some((Form::Symbol, unescaped(&value)?)),
                "--type" => o.one = Some((Form::Type, unescaped(&value)?)),
                _ => own(&name, &value)?,
            }
        }
        Some(o)
    }
}

pub fn number(value: &str) -> Option<usize> {
    value.replace([',', '_'], "").parse().ok()
}

/// A text with bytes as `\xNN`, which a shell takes literally between single quotes.
fn escaped(text: &[u8]) -> String {
    let plain = |b: u8| (b.is_ascii_graphic() || b == b' ') && b != b'\\' && b != b'\'';
    text.iter().map(|&b| if plain(b) { (b as char).to_string() } else { format!("\\x{b:02x}") }).collect()
}

fn unescaped(text: &str) -> Option<Vec<u8>> {
    let b = text.as_bytes();
    let mut out = Vec::new();
    let mut i = 0;
    while i < b.len() {
        if b[i] == b'\\' && i + 3 < b.len() && b[i + 1] == b'x' {
            out.push(u8::from_str_radix(text.get(i + 2..i + 4)?, 16).ok()?);
            i += 4;
        } else {
            out.push(b[i]);
            i += 1;
        }
    }
    Some(out)
}

// Counts

pub fn get(count: &AtomicU64) -> u64 {
    count.load(Relaxed)
}

pub fn add(count: &AtomicU64, more: u64) {
    count.fetch_add(more, Relaxed);
}

/// A line of counts, each after its number.
pub fn by_number(counts: &[AtomicU64]) -> String {
    counts.iter().enumerate().map(|(i, n)| format!("{i}: {}", get(n))).collect::<Vec<_>>().join(", ")
}

/// What is counted where the workers are watched, and the lines about it and about their counts.
pub struct Outcome {
    shared: &'static Shared,
    /// The number of texts on which the Rust ended its process, and the number on which it was not
    /// done.
    died: u64,
    slow: u64,
    begun: Instant,
}

impl Outcome {
    pub fn seconds(&self) -> f64 {
        self.begun.elapsed().as_secs_f64()
    }

    fn progress(&self, total: usize) {
        let c = &self.shared.counts;
        let (done, seconds) = (get(&c.done), self.seconds());
        eprint!(
            "\r{done} of {total} texts, {} read by the Rust, {} counted apart, {} calls, no difference, {seconds:.0} s, {:.0} texts/s ",
            get(&c.read_by_rust),
            get(&c.panicked) + self.died + self.slow,
            get(&c.calls),
            done as f64 / seconds
        );
        let _ = std::io::stderr().flush();
    }

    pub fn reads(&self) -> String {
        let c = &self.shared.counts;
        format!(
            "the Rust reads {}, gives none for {}, was not asked about {} that are no UTF-8",
            get(&c.read_by_rust),
            get(&c.none_by_rust),
            get(&c.not_asked)
        )
    }

    pub fn failures(&self) -> String {
        format!(
            "the Rust fails: it panics on {}, runs out of memory or stack on {}, is not done after {MOST_SECONDS} s on {}",
            get(&self.shared.counts.panicked),
            self.died,
            self.slow
        )
    }

    pub fn with_numbers(&self) -> String {
        format!("with numbers, places, counts and stacks: {} texts", get(&self.shared.counts.with_numbers))
    }
}

// Workers

/// A process is stalled if it made no turn for this long.
struct Watch {
    turns: u64,
    since: Instant,
}

impl Watch {
    fn new() -> Watch {
        Watch { turns: u64::MAX, since: Instant::now() }
    }

    fn still(&mut self, turns: u64) -> bool {
        if turns != self.turns {
            *self = Watch { turns, since: Instant::now() };
        }
        self.since.elapsed() > Duration::from_secs(MOST_SECONDS)
    }
}

struct Process {
    pid: i32,
    watch: Watch,
}

/// A running comparison.
struct Work<'a, C> {
    comparison: &'a C,
    options: &'a Options,
    shared: &'static Shared,
}

impl<C: Comparison> Work<'_, C> {
    fn launch(&self, worker: usize, start: usize, skip: Option<usize>) -> Process {
        Process { pid: shared::start(worker, MOST_MEMORY, || self.judge_from(start, skip)), watch: Watch::new() }
    }

    /// Judges the texts of one worker from `start` on. The Rust is not asked about the text `skip`.
    fn judge_from(&self, start: usize, skip: Option<usize>) {
        let (shared, seed, total) = (self.shared, self.options.seed, self.comparison.total());
        let mut judge = Judge::new(seed.wrapping_add(start as u64), shared);
        for i in (start..total).step_by(self.options.workers) {
            let numbers = i < self.comparison.listed() || i % self.options.numbers_every == 0;
            shared.enter(Phase::Idle, i as u64);
            let text = self.comparison.at(i);
            let skipped = skip == Some(i);
            let rust = if skipped { Rust::Failed } else { judge::rust(text.form, &text.bytes, shared, i as u64) };
            shared.enter(Phase::Ours, i as u64);
            judge.begin(seed.wrapping_mul(31).wrapping_add(i as u64), numbers);
            match C::judge(&mut judge, text.form, &text.bytes, &rust) {
                Ok(number) => {
                    self.count(&rust, number, numbers && judge::has_numbers(&text.bytes, &rust), skipped);
                    self.comparison.count(shared, i, &text, &rust, number);
                }
                Err(say) => return shared.difference(form_number(text.form), &text.bytes, &say),
            }
            add(&shared.counts.calls, std::mem::take(&mut judge.calls));
        }
        shared.enter(Phase::Idle, total as u64);
    }

    /// Counts a text that was judged. That the Rust failed on a skipped one was counted before.
    fn count(&self, rust: &Rust, number: u64, with_numbers: bool, skipped: bool) {
        let c = &self.shared.counts;
        add(&c.done, 1);
        add(&c.numbers[number as usize], 1);
        add(&c.with_numbers, with_numbers as u64);
        match rust {
            Rust::Text(_) => add(&c.read_by_rust, 1),
            Rust::None => add(&c.none_by_rust, 1),
            Rust::NotAsked => add(&c.not_asked, 1),
            Rust::Failed => add(&c.panicked, !skipped as u64),
        }
    }

    /// Checks the process of a worker. Returns it while it runs, none when it is done, and a new
    /// one in its place if the Rust failed in it.
    fn looked_after(&self, worker: usize, mut process: Process, outcome: &mut Outcome) -> Option<Process> {
        let end = shared::end_of(process.pid);
        let (at, phase, turns) = self.shared.at(worker);
        let still = end == End::Running && process.watch.still(turns);
        match end {
            End::Ended => return None,
            End::Running if !still => return Some(process),
            End::Running => shared::stop(process.pid),
            End::Died => {}
        }
        if phase == Phase::Rust {
            *(if still { &mut outcome.slow } else { &mut outcome.died }) += 1;
            return Some(self.launch(worker, at as usize, Some(at as usize)));
        }
        let text = self.comparison.at(at as usize);
        self.shared.difference(form_number(text.form), &text.bytes, &failure(phase, still));
        None
    }
}

fn form_number(form: Form) -> usize {
    form as usize
}

fn form_of(number: usize) -> Form {
    [Form::Symbol, Form::Type][number]
}

/// The report about a process that ended, or is not done, while it was not in the Rust itself.
fn failure(phase: Phase, still: bool) -> String {
    let who = if phase == Phase::Instrumented { "the instrumented Rust" } else { "our call" };
    format!("{who} {}", if still { "is not done" } else { "ended the process" })
}

/// What the processes share. From here on a panic is a difference, except within the Rust.
pub fn begin() -> &'static Shared {
    let shared = Shared::new();
    std::env::set_var("RUST_BACKTRACE", "0");
    std::panic::set_hook(Box::new(move |panic| {
        if shared.here().1 != Phase::Rust {
            eprintln!("{panic}");
            shared.difference(0, b"", &format!("the comparison itself: {panic}"));
        }
    }));
    shared
}

/// Judges all texts. Ends the program with exit status 1 at the first difference.
pub fn compare<C: Comparison>(comparison: &C, options: &Options, shared: &'static Shared) -> Outcome {
    let work = Work { comparison, options, shared };
    let total = comparison.total();
    let mut outcome = Outcome { shared, died: 0, slow: 0, begun: Instant::now() };
    let mut processes: Vec<Option<Process>> = (0..options.workers).map(|w| Some(work.launch(w, w, None))).collect();
    let every = Duration::from_secs(if std::io::stderr().is_terminal() { 1 } else { 60 });
    let mut last_line = Instant::now();
    while processes.iter().any(Option::is_some) && shared.noted().is_none() {
        std::thread::sleep(Duration::from_millis(20));
        for (w, process) in processes.iter_mut().enumerate() {
            *process = process.take().and_then(|p| work.looked_after(w, p, &mut outcome));
        }
        if last_line.elapsed() > every {
            last_line = Instant::now();
            outcome.progress(total);
        }
    }
    outcome.progress(total);
    eprintln!();
    for process in processes.into_iter().flatten() {
        shared::stop(process.pid);
    }
    if let Some((form, text, say)) = shared.noted() {
        report::<C>(shared, form_of(form), text, say);
        std::process::exit(1);
    }
    assert_eq!(get(&shared.counts.done) as usize, total, "texts were left out");
    outcome
}

// One text

/// Judges one text and reports what differs. Ends the program with exit status 1 if something does.
pub fn judge_one<C: Comparison>(shared: &'static Shared, form: Form, text: &[u8]) {
    match differs::<C>(shared, form, text) {
        None => println!("no difference"),
        Some(say) => {
            println!("{say}");
            std::process::exit(1);
        }
    }
}

/// Judges one text in a separate process, several times with other choices. Returns what differs,
/// if anything does.
fn differs<C: Comparison>(shared: &'static Shared, form: Form, text: &[u8]) -> Option<String> {
    shared.forget();
    let mut skip = false;
    loop {
        let pid = shared::start(0, MOST_MEMORY, || {
            let rust = if skip { Rust::Failed } else { judge::rust(form, text, shared, 0) };
            shared.enter(Phase::Ours, 0);
            let mut judge = Judge::new(7, shared);
            for seed in 0..40 {
                judge.begin(seed, true);
                if let Err(say) = C::judge(&mut judge, form, text, &rust) {
                    return shared.difference(form_number(form), text, &say);
                }
                shared.enter(Phase::Ours, 0);
            }
        });
        let mut watch = Watch::new();
        let still = loop {
            match shared::end_of(pid) {
                End::Ended => return shared.noted().map(|(_, _, say)| say),
                End::Died => break false,
                End::Running if watch.still(shared.at(0).2) => {
                    shared::stop(pid);
                    break true;
                }
                End::Running => std::thread::sleep(Duration::from_micros(200)),
            }
        };
        let (_, phase, _) = shared.at(0);
        if phase != Phase::Rust {
            return Some(failure(phase, still));
        }
        skip = true;
    }
}

/// Prints a smaller text that still differs, as a command, and what differs.
fn report<C: Comparison>(shared: &'static Shared, form: Form, text: Vec<u8>, say: String) {
    println!("DIFFERENCE in a {form:?} of {} bytes: {say}", text.len());
    let differs = |text: &[u8]| differs::<C>(shared, form, text);
    let mut found = Differing { text, say, differs: &differs };
    match differs(&found.text) {
        None => println!("It does not come again with other dirt and other choices; the text is not made smaller."),
        Some(again) => {
            found.say = again;
            found.make_small();
        }
    }
    let which = if form == Form::Symbol { "--symbol" } else { "--type" };
    println!("smallest: {} bytes: {} {which} '{}'\n  {}", found.text.len(), C::COMMAND, escaped(&found.text), found.say);
}

/// A text that differs, what differs, and how another text is judged.
struct Differing<'a> {
    text: Vec<u8>,
    say: String,
    differs: &'a dyn Fn(&[u8]) -> Option<String>,
}

impl Differing<'_> {
    /// Makes it as small as possible by using names of one letter and by leaving out bytes.
    fn make_small(&mut self) {
        let mut length = usize::MAX;
        while self.text.len() < length {
            length = self.text.len();
            self.shorten_names();
            self.leave_out();
        }
    }

    /// Replaces it by a smaller text if that differs too. Returns whether it does.
    fn take(&mut self, less: Vec<u8>) -> bool {
        let again = (self.differs)(&less);
        let differs = again.is_some();
        if let Some(say) = again {
            (self.text, self.say) = (less, say);
        }
        differs
    }

    fn shorten_names(&mut self) {
        let mut at = 0;
        while at < self.text.len() {
            if let Some(less) = with_short_name(&self.text, at) {
                self.take(less);
            }
            at += 1;
        }
    }

    /// Leaves out parts, large ones first.
    fn leave_out(&mut self) {
        let mut size = self.text.len().next_power_of_two();
        while size > 0 {
            let mut at = 0;
            let mut smaller = false;
            while at < self.text.len() {
                let mut less = self.text.clone();
                less.drain(at..(at + size).min(self.text.len()));
                if self.take(less) {
                    smaller = true;
                } else {
                    at += size;
                }
            }
            if !smaller || size > 1 {
                size /= 2;
            }
        }
    }
}

/// The text with the name at this place, a number and that many bytes, replaced by a name of one
/// letter.
fn with_short_name(text: &[u8], at: usize) -> Option<Vec<u8>> {
    let digits = text[at..].iter().take_while(|b| b.is_ascii_digit()).count();
    let length: usize = std::str::from_utf8(&text[at..at + digits]).ok()?.parse().ok()?;
    let rest = text[at + digits..].get(length..)?;
    (length > 1).then(|| [&text[..at], b"1a", rest].concat())
}
