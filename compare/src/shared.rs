//! What the processes of a comparison share: counters, the current work of each worker, and the
//! text that differs.

use std::sync::atomic::{AtomicU64, AtomicU8, AtomicUsize, Ordering::Relaxed, Ordering::SeqCst};

extern "C" {
    fn mmap(at: *mut u8, length: usize, protection: i32, flags: i32, file: i32, offset: i64) -> *mut u8;
    fn fork() -> i32;
    fn waitpid(pid: i32, status: *mut i32, options: i32) -> i32;
    fn kill(pid: i32, signal: i32) -> i32;
    fn _exit(status: i32) -> !;
    fn setrlimit(what: i32, limit: *const [u64; 2]) -> i32;
    fn prctl(what: i32, value: u64) -> i32;
    fn open(path: *const u8, flags: i32) -> i32;
    fn dup2(from: i32, to: i32) -> i32;
}

pub const WORKERS: usize = 64;
/// The number of counters that a program has for what only it counts.
pub const OWN: usize = 256;
const TEXT: usize = 1 << 17;

#[derive(Clone, Copy, PartialEq, Eq, Debug)]
pub enum Phase {
    Idle,
    Rust,
    Ours,
    /// In the instrumented copy of the Rust.
    Instrumented,
}

#[repr(C)]
pub struct Worker {
    /// 4 × the text's number, plus the phase.
    at: AtomicU64,
    /// The number of turns made. It changes as long as the worker makes progress.
    turns: AtomicU64,
}

#[repr(C)]
pub struct Counts {
    pub done: AtomicU64,
    pub calls: AtomicU64,
    pub read_by_rust: AtomicU64,
    pub none_by_rust: AtomicU64,
    pub not_asked: AtomicU64,
    /// Texts for which numbers, places, counts and stacks were also compared.
    pub with_numbers: AtomicU64,
    pub panicked: AtomicU64,
    pub numbers: [AtomicU64; 13],
    /// What only one of the programs counts.
    pub own: [AtomicU64; OWN],
}

#[repr(C)]
pub struct Shared {
    pub counts: Counts,
    workers: [Worker; WORKERS],
    /// 0 nothing, 1 being noted, 2 a text that differs.
    differs: AtomicUsize,
    length: AtomicUsize,
    form: AtomicUsize,
    say_length: AtomicUsize,
    text: [AtomicU8; TEXT],
    say: [AtomicU8; TEXT],
}

/// Which worker this process is.
static mut ME: usize = 0;

impl Shared {
    pub fn new() -> &'static Shared {
        const READ_WRITE: i32 = 3;
        const SHARED_ANONYMOUS: i32 = 0x21;
        unsafe {
            let p = mmap(std::ptr::null_mut(), std::mem::size_of::<Shared>(), READ_WRITE, SHARED_ANONYMOUS, -1, 0);
            assert!(p as isize != -1, "no shared memory");
            &*(p as *const Shared)
        }
    }

    fn me(&self) -> &Worker {
        &self.workers[unsafe { ME }]
    }

    pub fn enter(&self, phase: Phase, at: u64) {
        self.me().at.store(4 * at + phase as u64, Relaxed);
        self.turn();
    }

    pub fn turn(&self) {
        self.me().turns.fetch_add(1, Relaxed);
    }

    /// The current work of this process.
    pub fn here(&self) -> (u64, Phase, u64) {
        self.at(unsafe { ME })
    }

    pub fn at(&self, worker: usize) -> (u64, Phase, u64) {
        let at = self.workers[worker].at.load(SeqCst);
        (at / 4, [Phase::Idle, Phase::Rust, Phase::Ours, Phase::Instrumented][(at % 4) as usize], self.workers[worker].turns.load(SeqCst))
    }

    /// Notes a text that differs, only the first one.
    pub fn difference(&self, form: usize, text: &[u8], say: &str) {
        if self.differs.compare_exchange(0, 1, SeqCst, SeqCst).is_err() {
            return;
        }
        self.length.store(keep(&self.text, text), SeqCst);
        self.say_length.store(keep(&self.say, say.as_bytes()), SeqCst);
        self.form.store(form, SeqCst);
        self.differs.store(2, SeqCst);
    }

    pub fn noted(&self) -> Option<(usize, Vec<u8>, String)> {
        if self.differs.load(SeqCst) != 2 {
            return None;
        }
        let of = |bytes: &[AtomicU8], n: &AtomicUsize| bytes[..n.load(SeqCst)].iter().map(|b| b.load(Relaxed)).collect::<Vec<u8>>();
        let say = String::from_utf8_lossy(&of(&self.say, &self.say_length)).into_owned();
        Some((self.form.load(SeqCst), of(&self.text, &self.length), say))
    }

    pub fn forget(&self) {
        self.differs.store(0, SeqCst);
    }
}

/// Keeps as much as there is room for, and returns how much that is.
fn keep(to: &[AtomicU8], bytes: &[u8]) -> usize {
    to.iter().zip(bytes).for_each(|(to, b)| to.store(*b, Relaxed));
    bytes.len().min(to.len())
}

/// Runs `work` in a separate process, as this worker, with a large stack and a bound on memory, and
/// with no standard error, because the Rust reports each failure there. Its status is 0 if it ends.
pub fn start(worker: usize, most_memory: u64, work: impl FnOnce() + Send) -> i32 {
    unsafe {
        let pid = fork();
        assert!(pid >= 0, "no process");
        if pid > 0 {
            return pid;
        }
        ME = worker;
        const SIGNAL_WHEN_THE_PARENT_ENDS: i32 = 1;
        const KILL: u64 = 9;
        const ADDRESS_SPACE: i32 = 9;
        const CORE: i32 = 4;
        prctl(SIGNAL_WHEN_THE_PARENT_ENDS, KILL);
        setrlimit(ADDRESS_SPACE, &[most_memory, most_memory]);
        setrlimit(CORE, &[0, 0]);
        dup2(open(b"/dev/null\0".as_ptr(), 1), 2);
        let status = std::thread::scope(|s| {
            let thread = std::thread::Builder::new().stack_size(512 << 20).spawn_scoped(s, work);
            thread.expect("no thread").join().is_err() as i32
        });
        _exit(status)
    }
}

/// How a process ended.
#[derive(Clone, Copy, PartialEq, Eq, Debug)]
pub enum End {
    Running,
    Ended,
    Died,
}

pub fn end_of(pid: i32) -> End {
    let mut status = 0;
    const NO_HANG: i32 = 1;
    match unsafe { waitpid(pid, &mut status, NO_HANG) } {
        0 => End::Running,
        _ if status == 0 => End::Ended,
        _ => End::Died,
    }
}

pub fn stop(pid: i32) {
    let mut status = 0;
    unsafe {
        kill(pid, 9);
        waitpid(pid, &mut status, 0);
    }
}
