//! Times of passes taken by turns, and a library that is loaded while the program runs.
use std::ffi::{c_char, c_int, c_void, CStr, CString};
use std::time::{Duration, Instant};

/// How often each side has its turn, and how long a turn is at the least.
pub const ROUNDS: usize = 101;
const TURN: Duration = Duration::from_millis(2);

pub type Symbol = *mut c_void;

extern "C" {
    fn dlopen(file: *const c_char, flags: c_int) -> *mut c_void;
    fn dlsym(library: *mut c_void, name: *const c_char) -> *mut c_void;
    fn dlerror() -> *const c_char;
}
const RTLD_NOW: c_int = 2;

/// Ends the program with a message.
pub fn fail(program: &str, message: String) -> ! {
    eprintln!("{program}: {message}");
    std::process::exit(1)
}

/// A function of a dynamic library.
pub fn load(program: &str, file: &str, name: &CStr) -> Symbol {
    let path = CString::new(file).expect("a path without zero bytes");
    // SAFETY: both strings end in a zero byte.
    unsafe {
        let library = dlopen(path.as_ptr(), RTLD_NOW);
        let symbol = match library.is_null() {
            true => library,
            false => dlsym(library, name.as_ptr()),
        };
        if symbol.is_null() {
            fail(program, CStr::from_ptr(dlerror()).to_string_lossy().into_owned());
        }
        symbol
    }
}

/// The libraries whose files the program is told: one library at one place of its code or at several and, after `--`, an
/// earlier one likewise.
pub fn load_all<L>(program: &str, load: impl Fn(&str) -> L) -> Vec<Vec<L>> {
    let files: Vec<String> = std::env::args().skip(1).collect();
    let groups: Vec<Vec<L>> = files.split(|f| f == "--").map(|group| group.iter().map(|f| load(f)).collect()).collect();
    if groups.len() > 2 || groups.iter().any(Vec::is_empty) {
        fail(program, format!("{program} FILE.so.. [-- EARLIER.so..]"));
    }
    groups
}

/// The best time of one pass so far, and how many passes fill a turn.
#[derive(Default)]
pub struct Timing {
    best: Option<Duration>,
    passes: u32,
}

impl Timing {
    /// As many passes as fill a turn; the best time of one counts.
    pub fn turn(&mut self, mut pass: impl FnMut()) {
        let passes = self.passes.max(1);
        let start = Instant::now();
        for _ in 0..passes {
            pass();
        }
        let time = start.elapsed() / passes;
        let best = self.best.map_or(time, |best| best.min(time));
        self.best = Some(best);
        self.passes = (TURN.as_nanos() / best.as_nanos().max(1)) as u32 + 1;
    }

    pub fn nanoseconds(&self) -> f64 {
        self.best.unwrap_or_default().as_nanos() as f64
    }
}

/// The mean of a library's times at the places of its code, in nanoseconds.
pub fn mean<'a>(timings: impl IntoIterator<Item = &'a Timing>) -> f64 {
    let (sum, n) = timings.into_iter().fold((0.0, 0), |(sum, n), t| (sum + t.nanoseconds(), n + 1));
    sum / f64::from(n)
}
