//! Judges one text: our calls against the Rust, against each other, and against what they may
//! write.

use crate::ours::{self, numbers_a_node, Answer, Call, Form};
use crate::random::Random;
use crate::shared::{Phase, Shared};

pub const MOST: usize = 65_536; // the Rust's ceiling
const MOST_TEXT: usize = 65_535;
const GUARD: usize = 64;
/// The Rust is not asked for texts longer than this. Our calls are then judged only by 12 and by
/// the check.
const MOST_OUT: usize = 64 << 20;
/// The ceiling of the programs `names` and `shapes`, and the room that `names` has for a text.
const NAMES_CEILING: usize = 256;
const NAMES_ROOM: usize = 16_384;

/// The result of the Rust for a text.
pub enum Rust {
    Text(String),
    None,
    /// It takes only UTF-8, and is given no longer texts than ours reads.
    NotAsked,
    /// It panicked, or it ended the process or took too long in an earlier attempt.
    Failed,
}

/// The Rust source unchanged, its panics caught.
pub fn rust(form: Form, text: &[u8], shared: &Shared, at: u64) -> Rust {
    let Ok(text) = std::str::from_utf8(text) else { return Rust::NotAsked };
    shared.enter(Phase::Rust, at);
    let answer = std::panic::catch_unwind(|| match form {
        Form::Symbol => swift_demangle::demangle(text),
        Form::Type => swift_demangle::demangle_type(text),
    });
    shared.enter(Phase::Ours, at);
    match answer {
        Ok(Some(text)) => Rust::Text(text),
        Ok(None) => Rust::None,
        Err(_) => Rust::Failed,
    }
}

pub struct Judge {
    r: Random,
    dirt: Vec<u32>,
    dirt_bytes: Vec<u8>,
    /// For the ceiling 65,536; each call finds what the calls before it left.
    big: Vec<u32>,
    small: Vec<u32>,
    out: Vec<u8>,
    stack: Vec<u32>,
    /// Whether the current text is also compared with the instrumented copy of the Rust.
    numbers: bool,
    pub calls: u64,
    shared: &'static Shared,
}

/// Dirt of this length, starting there and wrapping around.
fn lay<T: Copy>(dirt: &[T], from: usize, length: usize, to: &mut Vec<T>) {
    to.clear();
    let mut at = from;
    while to.len() < length {
        let part = (dirt.len() - at).min(length - to.len());
        to.extend_from_slice(&dirt[at..at + part]);
        at = 0;
    }
}

/// Whether the dirt that was taken from there is unchanged from the place `start` on, guard
/// included.
fn kept<T: PartialEq>(dirt: &[T], from: usize, laid: &[T], start: usize) -> bool {
    let mut at = (from + start) % dirt.len();
    let mut rest = &laid[start.min(laid.len())..];
    while !rest.is_empty() {
        let part = (dirt.len() - at).min(rest.len());
        if dirt[at..at + part] != rest[..part] {
            return false;
        }
        rest = &rest[part..];
        at = 0;
    }
    true
}

pub type Verdict<T> = Result<T, String>;
/// The answer of a stopped run, and its stack.
type Stopped = (Answer, Vec<u32>);

fn must(holds: bool, say: impl FnOnce() -> String) -> Verdict<()> {
    if holds {
        Ok(())
    } else {
        Err(say())
    }
}

/// The refusals 1 to 5 in the order of document 01, using the standard library's own UTF-8.
fn refused_early(call: Call, form: Form, text: &[u8], n: usize, workspace: usize) -> Option<Answer> {
    if n == 0 || n > MOST {
        return Some(Answer::refused(1, 0));
    }
    if workspace < numbers_a_node(call) * n {
        return Some(Answer::refused(2, 0));
    }
    if text.len() > MOST_TEXT {
        return Some(Answer::refused(3, 0));
    }
    if let Err(e) = std::str::from_utf8(text) {
        return Some(Answer::refused(4, e.valid_up_to()));
    }
    if form == Form::Symbol && !["$s", "$S", "_$s", "_$S"].iter().any(|p| text.starts_with(p.as_bytes()) && text.len() > p.len()) {
        return Some(Answer::refused(5, 0));
    }
    None
}

impl Judge {
    pub fn new(seed: u64, shared: &'static Shared) -> Judge {
        let mut r = Random::new(seed);
        let dirt: Vec<u32> = (0..1 << 18).map(|_| r.next() as u32).collect();
        let dirt_bytes: Vec<u8> = (0..1 << 18).map(|_| r.next() as u8).collect();
        let big: Vec<u32> = (0..64 * MOST + GUARD).map(|i| dirt[i % dirt.len()]).collect();
        Judge { r, dirt, dirt_bytes, big, small: Vec::new(), out: Vec::new(), stack: Vec::new(), numbers: false, calls: 0, shared }
    }

    /// A call was made: the process makes progress.
    fn called(&mut self) {
        self.calls += 1;
        self.shared.turn();
    }

    /// From here on the choices are the same for the same seed. With `numbers` the instrumented
    /// copy of the Rust is also asked.
    pub fn begin(&mut self, seed: u64, numbers: bool) {
        self.r = Random::new(seed);
        self.numbers = numbers;
    }

    /// A workspace of that many numbers, all dirt, followed by a guard. Returns where the dirt was
    /// taken from.
    fn workspace(&mut self, length: usize) -> usize {
        let from = self.r.below(self.dirt.len());
        lay(&self.dirt, from, length + GUARD, &mut self.small);
        from
    }

    /// An output slice of that many bytes.
    fn output(&mut self, length: usize) -> usize {
        let from = self.r.below(self.dirt_bytes.len());
        lay(&self.dirt_bytes, from, length + GUARD, &mut self.out);
        from
    }

    /// An output slice of that many numbers.
    fn stack_out(&mut self, length: usize) -> usize {
        let from = self.r.below(self.dirt.len());
        lay(&self.dirt, from, length + GUARD, &mut self.stack);
        from
    }

    /// The length of the workspace to lend: exactly enough, or more, or, if it is small, much more.
    fn enough(&mut self, call: Call, n: usize) -> usize {
        numbers_a_node(call) * n + self.r.of(&[0, 0, 1, 7, 64, 1000])
    }

    /// A whole reading with a workspace of dirt, and everything that holds for it whatever it
    /// answers.
    fn read(&mut self, form: Form, text: &[u8], n: usize, workspace: usize, room: usize) -> Verdict<Answer> {
        let w = self.workspace(workspace);
        let o = self.output(room);
        let a = ours::read(form, text, n, &mut self.small[..workspace], &mut self.out[..room]);
        self.called();
        let what = || format!("reading with N = {n}, a workspace of {workspace} and room for {room}");
        self.judge_whole(Call::Reading, form, text, n, workspace, room, a, what)?;
        must(kept(&self.dirt, w, &self.small, if (1..=5).contains(&a.number) { 0 } else { 64 * n }), || {
            format!("{}: {a:?}, and the workspace was touched where it may not be", what())
        })?;
        must(kept(&self.dirt_bytes, o, &self.out, a.length as usize), || {
            format!("{}: {a:?}, and the output was touched past its length", what())
        })?;
        Ok(a)
    }

    /// A whole reading at 65,536 in the workspace that holds what earlier calls left.
    fn read_at_most(&mut self, form: Form, text: &[u8], room: usize) -> Verdict<Answer> {
        let o = self.output(room);
        self.soil();
        let before: Vec<u32> = self.big[64 * MOST..].to_vec();
        let a = ours::read(form, text, MOST, &mut self.big, &mut self.out[..room]);
        self.called();
        let what = || format!("reading with N = 65,536 and room for {room}");
        self.judge_whole(Call::Reading, form, text, MOST, 64 * MOST, room, a, what)?;
        must(self.big[64 * MOST..] == before[..], || format!("{}: {a:?}, and the workspace past 64 x N was touched", what()))?;
        must(kept(&self.dirt_bytes, o, &self.out, a.length as usize), || {
            format!("{}: {a:?}, and the output was touched past its length", what())
        })?;
        Ok(a)
    }

    /// New dirt at the front of the large workspace and at some other places.
    fn soil(&mut self) {
        let length = self.r.of(&[0, 0, 64, 512, 4096]);
        let from = self.r.below(self.dirt.len() - length);
        self.big[..length].copy_from_slice(&self.dirt[from..from + length]);
        for _ in 0..8 {
            let at = self.r.below(self.big.len());
            self.big[at] = self.r.next() as u32;
        }
    }

    fn check(&mut self, form: Form, text: &[u8], n: usize, workspace: usize) -> Verdict<Answer> {
        let w = self.workspace(workspace);
        let a = ours::check(form, text, n, &mut self.small[..workspace]);
        self.called();
        let what = || format!("check with N = {n} and a workspace of {workspace}");
        self.judge_whole(Call::Check, form, text, n, workspace, 0, a, what)?;
        must(a.length == 0, || format!("{}: {a:?} has a length", what()))?;
        must(kept(&self.dirt, w, &self.small, if (1..=5).contains(&a.number) { 0 } else { 8 * n }), || {
            format!("{}: {a:?}, and the workspace was touched where it may not be", what())
        })?;
        Ok(a)
    }

    fn check_at_most(&mut self, form: Form, text: &[u8]) -> Verdict<Answer> {
        self.soil();
        let before: Vec<u32> = self.big[8 * MOST..8 * MOST + GUARD].to_vec();
        let a = ours::check(form, text, MOST, &mut self.big[..8 * MOST + GUARD / 2]);
        self.called();
        let what = || "check with N = 65,536".to_string();
        self.judge_whole(Call::Check, form, text, MOST, 8 * MOST, 0, a, what)?;
        must(a.length == 0, || format!("{}: {a:?} has a length", what()))?;
        must(self.big[8 * MOST..8 * MOST + GUARD] == before[..], || {
            format!("{}: {a:?}, and the workspace past 8 x N was touched", what())
        })?;
        Ok(a)
    }

    /// What holds for every whole call: 1 to 5 in the order of document 01, places in bounds, no
    /// counts with a refusal.
    fn judge_whole(
        &self,
        call: Call,
        form: Form,
        text: &[u8],
        n: usize,
        workspace: usize,
        room: usize,
        a: Answer,
        what: impl Fn() -> String,
    ) -> Verdict<()> {
        match refused_early(call, form, text, n, workspace) {
            Some(early) => must(a == early, || format!("{}: {a:?}, and it must be {early:?}", what())),
            None => {
                must(a.number == 0 || a.number >= 6 && a.number <= 12, || format!("{}: {a:?} has a number that it cannot have", what()))?;
                must(a.place as usize <= text.len(), || format!("{}: {a:?} has a place past the text", what()))?;
                must(a.number != 12 && a.number != 0 || a.place == 0, || format!("{}: {a:?} has a place", what()))?;
                must(a.number == 0 || (a.steps, a.total, a.wraps, a.length) == (0, 0, 0, 0), || {
                    format!("{}: {a:?} has counts beside a refusal", what())
                })?;
                must(a.length as usize <= room, || format!("{}: {a:?} has a length past the room", what()))?;
                must(a.steps <= 4096 && a.total as usize <= n && a.wraps <= 256 && a.steps <= a.total, || {
                    format!("{}: {a:?} has counts past the limits", what())
                })
            }
        }
    }

    /// A stopped call and, if it is accepted, its stack in `self.stack`.
    fn stopped(&mut self, call: Call, form: Form, text: &[u8], n: usize, k: usize, room: usize) -> Verdict<Answer> {
        let workspace = self.enough(call, n);
        let most = n == MOST;
        let w = if most { 0 } else { self.workspace(workspace) };
        let o = self.stack_out(room);
        let numbers = numbers_a_node(call) * n;
        let a = if most {
            self.soil();
            ours::stopped(call, form, text, n, k, &mut self.big[..numbers], &mut self.stack[..room])
        } else {
            ours::stopped(call, form, text, n, k, &mut self.small[..workspace], &mut self.stack[..room])
        };
        self.called();
        let what = || format!("stopped {call:?} with N = {n}, k = {k} and room for {room}");
        match refused_early(call, form, text, n, numbers) {
            Some(early) => must(a == early, || format!("{}: {a:?}, and it must be {early:?}", what()))?,
            None => {
                must(a.number == 0 || (6..=12).contains(&a.number) && a.number != 11, || {
                    format!("{}: {a:?} has a number that it cannot have", what())
                })?;
                must(a.number == 0 || (a.steps, a.total, a.wraps, a.length) == (0, 0, 0, 0), || {
                    format!("{}: {a:?} has counts beside a refusal", what())
                })?;
                must(a.steps as usize <= k && a.steps <= 4096 && a.total as usize <= n && a.length % 3 == 0, || {
                    format!("{}: {a:?} has counts past the limits", what())
                })?;
            }
        }
        if !most {
            must(kept(&self.dirt, w, &self.small, if (1..=5).contains(&a.number) { 0 } else { numbers }), || {
                format!("{}: {a:?}, and the workspace was touched where it may not be", what())
            })?;
        }
        must(kept(&self.dirt, o, &self.stack, a.length as usize), || {
            format!("{}: {a:?}, and the output was touched past its length", what())
        })?;
        Ok(a)
    }

    /// Reading and check stopped after k, with the same room: the same answer and the same stack.
    /// Returns the answer and the stack.
    fn both_stopped(&mut self, form: Form, text: &[u8], n: usize, k: usize, room: usize) -> Verdict<Stopped> {
        let a = self.stopped(Call::Reading, form, text, n, k, room)?;
        let stack = self.stack[..a.length as usize].to_vec();
        let b = self.stopped(Call::Check, form, text, n, k, room)?;
        must(a == b, || format!("stopped with N = {n}, k = {k} and room for {room}: the reading answers {a:?}, the check {b:?}"))?;
        must(stack == self.stack[..a.length as usize], || {
            format!("stopped with N = {n}, k = {k}: the reading's stack is {stack:?}, the check's {:?}", &self.stack[..a.length as usize])
        })?;
        Ok((a, stack))
    }

    /// Whole reading and whole check with a ceiling, compared with each other, with the Rust's text
    /// and with the check at N = 65,536: accepted if its charged total fits, otherwise 7; a refusal
    /// is the same or becomes 7 at no later place. Returns the reading's answer and the check's.
    fn both_whole(&mut self, form: Form, text: &[u8], rust: &Rust, at_most: Answer, n: usize, room: usize) -> Verdict<(Answer, Answer)> {
        let w = self.enough(Call::Reading, n);
        let a = self.read(form, text, n, w, room)?;
        let w = self.enough(Call::Check, n);
        let c = self.check(form, text, n, w)?;
        self.as_instrumented(form, text, rust, Run { n, k: None, room: 0 }, c, &[])?;
        let say = || format!("with N = 65,536 {at_most:?}; with N = {n} and room for {room} the reading answers {a:?}, the check {c:?}");
        if at_most.number == 0 {
            let fits = at_most.total as usize <= n;
            must(if fits { c == at_most } else { c.number == 7 }, say)?;
        } else {
            must(c == at_most || c.number == 7 && (c.place <= at_most.place || at_most.number == 7), say)?;
        }
        must(if a.number == 12 { c.number == 0 } else { Answer { length: 0, ..a } == c }, say)?;
        if let Rust::Text(t) = rust {
            if c.number == 0 && t.len() <= MOST_OUT {
                must(a.number == if room >= t.len() { 0 } else { 12 }, || format!("the Rust's text has {} bytes; {}", t.len(), say()))?;
                must(a.number == 12 || written(&self.out, a) == t.as_bytes(), || {
                    format!("with N = {n} the Rust reads {t:?}, ours {:?}", String::from_utf8_lossy(written(&self.out, a)))
                })?;
            }
        }
        Ok((a, c))
    }

    /// All of this for one text. Returns the number at N = 65,536.
    pub fn judge(&mut self, form: Form, text: &[u8], rust: &Rust) -> Verdict<u64> {
        // the whole reading at the Rust's ceiling: its acceptance and its text
        let room = match rust {
            Rust::Text(t) => t.len() + self.r.below(24),
            Rust::Failed => 1 << 16,
            _ => self.r.of(&[0, 1, 40, 200]),
        };
        let at_most = match rust {
            Rust::Text(t) if t.len() > MOST_OUT => None,
            _ => Some(self.read_at_most(form, text, room)?),
        };
        let accepted = at_most.filter(|a| a.number == 0);
        if let Some(a) = at_most {
            match rust {
                Rust::Text(t) if text.len() <= MOST_TEXT => {
                    must(a.number == 0, || format!("the Rust reads {t:?}, the reading answers {a:?}"))?;
                    must(self.out[..a.length as usize] == *t.as_bytes(), || {
                        format!("the Rust reads {t:?}, ours {:?}", String::from_utf8_lossy(&self.out[..a.length as usize]))
                    })?;
                }
                Rust::None => must((3..=11).contains(&a.number), || format!("the Rust reads nothing, the reading answers {a:?}"))?,
                _ => {}
            }
        }
        let checked = self.check_at_most(form, text)?;
        match (at_most, rust) {
            (None, Rust::Text(_)) => must(checked.number == 0, || format!("the Rust reads a text, the check answers {checked:?}"))?,
            (Some(a), _) if a.number == 12 => must(checked.number == 0, || format!("the reading answers 12, the check {checked:?}"))?,
            (Some(a), _) => {
                must(Answer { length: 0, ..a } == checked, || format!("with N = 65,536 the reading answers {a:?}, the check {checked:?}"))?
            }
            _ => {}
        }

        self.as_instrumented(form, text, rust, Run { n: MOST, k: None, room: 0 }, checked, &[])?;

        // stopped after k
        let steps = checked.steps as usize;
        let known = if checked.number == 0 { steps } else { text.len().min(5000) };
        let k = match self.r.below(6) {
            0 => usize::MAX,
            1 => self.r.of(&[0, 1, 2, 4095, 4096, 4097]),
            _ => self.r.below(known + 2),
        };
        let room = 3 * (MOST.min(4 * text.len() + 64));
        let n = if self.r.chance(30) { MOST } else { 1 + self.r.below(400) };
        let (a, stack) = self.both_stopped(form, text, n, k, room)?;
        self.as_instrumented(form, text, rust, Run { n, k: Some(k), room }, a, &stack)?;
        if a.number == 0 && a.length > 0 {
            let less = self.r.below(a.length as usize);
            let (b, _) = self.both_stopped(form, text, n, k, less)?;
            must(b == Answer::refused(12, 0), || {
                format!("stopped with N = {n}, k = {k}: {} numbers into {less} are {b:?} and not 12", a.length)
            })?;
            let (b, again) = self.both_stopped(form, text, n, k, a.length as usize)?;
            must(b == a && again == stack, || format!("stopped with N = {n}, k = {k}: {a:?} with room to spare, {b:?} with just enough"))?;
        }
        if n == MOST && checked.number == 0 && k >= steps {
            must(a.number == 0 && a.length == 3 && (a.steps, a.total, a.wraps) == (checked.steps, checked.total, checked.wraps), || {
                format!("accepted with {checked:?}, and stopped after k = {k} {a:?}")
            })?;
        }
        if n == MOST && (6..=10).contains(&checked.number) && (k > 4096 || k > text.len()) {
            must(a == checked, || format!("refused with {checked:?}, and stopped after k = {k} {a:?}"))?;
        }
        if n == MOST && a.number == 0 && k < steps {
            must(a.steps as usize == k, || format!("stopped after k = {k}: {a:?}"))?;
        }

        // other ceilings
        if refused_early(Call::Check, form, text, 1, usize::MAX).is_some() {
            let (n, room) = (1 + self.r.below(30), self.r.below(30));
            let w = self.enough(Call::Reading, n);
            self.read(form, text, n, w, room)?;
            let w = self.enough(Call::Check, n);
            self.check(form, text, n, w)?;
        } else {
            let n = match self.r.below(4) {
                0 if checked.number == 0 => checked.total as usize,
                1 if checked.number == 0 => (checked.total as usize).saturating_sub(1).max(1),
                2 => self.r.of(&[1, 2, 3, 255, 256, 257, 4096]),
                _ => 1 + self.r.below(300),
            };
            let length = match (&rust, accepted) {
                (Rust::Text(t), _) => t.len().min(MOST_OUT),
                (_, Some(a)) => a.length as usize,
                _ => 0,
            };
            let room = match self.r.below(4) {
                0 => length,
                1 => length + self.r.below(100),
                2 => length.saturating_sub(1),
                _ => self.r.below(length + 2),
            };
            self.both_whole(form, text, rust, checked, n, room)?;
        }

        // ceilings and workspaces that are refused
        if self.r.chance(10) {
            let n = self.r.of(&[0, 65_537, 65_536 * 2, 1 << 32, usize::MAX, usize::MAX / 64 + 1, usize::MAX / 8 + 2]);
            let w = self.r.of(&[0, 1, 64, 4096]);
            self.read(form, text, n, w, 30)?;
            self.check(form, text, n, w)?;
            let n = 1 + self.r.below(200);
            let few = 64 * n - 1 - self.r.below(64 * n);
            self.read(form, text, n, few, 30)?;
            let few = 8 * n - 1 - self.r.below(8 * n);
            self.check(form, text, n, few)?;
        }
        Ok(at_most.map_or(0, |a| a.number))
    }

    /// Reading and check with the ceiling of the program `names`: whole, and stopped after every k
    /// until the run is refused or the end of the body is reached. A larger k then changes nothing,
    /// and that end is the end of the whole check. Returns the number of the whole reading.
    pub fn every_k(&mut self, form: Form, text: &[u8], rust: &Rust) -> Verdict<u64> {
        let at_most = self.check_at_most(form, text)?;
        let (read, checked) = self.both_whole(form, text, rust, at_most, NAMES_CEILING, NAMES_ROOM)?;
        let mut k = 0;
        let mut run = self.stopped_as_names(form, text, rust, k)?;
        while run.0.number == 0 && run.0.steps as usize == k {
            k += 1;
            let next = self.stopped_as_names(form, text, rust, k)?;
            must(next.0.number != 0 || next.0.steps as usize == k || next == run, || not_as_before(k - 1, &run, k, &next))?;
            run = next;
        }
        for more in [k + 1, usize::MAX] {
            let again = self.stopped_as_names(form, text, rust, more)?;
            must(again == run, || not_as_before(k, &run, more, &again))?;
        }
        let (end, _) = run;
        let fits = match checked.number {
            0 => end == Answer { length: 3, ..checked },
            11 => end.number == 0,
            _ => end == checked,
        };
        must(fits, || format!("with N = {NAMES_CEILING} the check answers {checked:?}, and stopped after k = {k} {end:?}"))?;
        Ok(read.number)
    }

    /// Both calls stopped after k, with the ceiling of the program `names` and room for any stack.
    fn stopped_as_names(&mut self, form: Form, text: &[u8], rust: &Rust, k: usize) -> Verdict<Stopped> {
        let (n, room) = (NAMES_CEILING, 3 * NAMES_CEILING);
        let (a, stack) = self.both_stopped(form, text, n, k, room)?;
        self.as_instrumented(form, text, rust, Run { n, k: Some(k), room }, a, &stack)?;
        Ok((a, stack))
    }
}

/// Whether the instrumented copy of the Rust can answer for a text: the Rust itself must answer,
/// and our calls must read the text.
pub fn has_numbers(text: &[u8], rust: &Rust) -> bool {
    cfg!(oracle) && matches!(rust, Rust::Text(_) | Rust::None) && text.len() <= MOST_TEXT
}

/// A run that the instrumented copy of the Rust also makes: its ceiling, the number of turns after
/// which it is stopped, and the room for its stack.
#[derive(Debug)]
struct Run {
    n: usize,
    k: Option<usize>,
    room: usize,
}

#[cfg(oracle)]
impl Judge {
    /// Number, place, counts and stack as the instrumented copy of the Rust returns them.
    fn as_instrumented(&self, form: Form, text: &[u8], rust: &Rust, run: Run, ours: Answer, stack: &[u32]) -> Verdict<()> {
        if !self.numbers || !has_numbers(text, rust) {
            return Ok(());
        }
        let (at, ..) = self.shared.here();
        self.shared.enter(Phase::Instrumented, at);
        let theirs = instrumented::answer(text, form == Form::Symbol, run.n, run.k, false, run.room);
        self.shared.enter(Phase::Ours, at);
        let a = Answer::of(theirs.values);
        must(a == ours && theirs.stack == stack, || {
            format!("{run:?}: the instrumented Rust answers {a:?} {:?}, ours {ours:?} {stack:?}", theirs.stack)
        })
    }
}

#[cfg(not(oracle))]
impl Judge {
    fn as_instrumented(&self, _: Form, _: &[u8], _: &Rust, _: Run, _: Answer, _: &[u32]) -> Verdict<()> {
        Ok(())
    }
}

fn not_as_before(k: usize, run: &Stopped, more: usize, again: &Stopped) -> String {
    format!("stopped with N = {NAMES_CEILING} after k = {k}: {run:?}, and after k = {more}: {again:?}, though the run had ended")
}

fn written(out: &[u8], a: Answer) -> &[u8] {
    &out[..a.length as usize]
}
