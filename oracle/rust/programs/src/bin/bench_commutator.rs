//! Times products of two operators: zixy's `commutator` and `mul` and, in the same process, a library's.
//!
//! ```text
//! bench_commutator FILE.so
//! ```
//!
//! First commutators of random two-body terms. Then how cost grows with rows: products of the sums of {w|w} over the first
//! words w, which have as many rows as pairs and as many result terms as words; and {|0..b-1} times {0..b-1|}, whose 2^b rows
//! are all different; and what wiping costs. zixy multiplies f64 coefficients into a set of terms of its own; the library reads and checks two
//! records, works in lent memory that it wipes, and writes one record. A call that it refuses gives no ratio.
use programs::draw::Draw;
use programs::operators::{operator, record, zixy_terms, Operator};
use programs::timing::{self, Symbol, Timing};
use std::ffi::CStr;
use std::hint::black_box;
use zixy::container::traits::proj::Borrow;
use zixy::fermion::operator::normal::cmpnt_major::lincomb;

type Call = unsafe extern "C" fn(*const u8, usize, *const u8, usize, *mut u8, usize, *mut u8, usize, *mut u64);

/// A function of the library on two records, in lent memory.
struct Library {
    call: Call,
    work: Vec<u8>,
    out: Vec<u8>,
}

impl Library {
    fn new(file: &str, name: &CStr, rows: usize) -> Library {
        // SAFETY: the functions named here have this type in the header.
        let call = unsafe { std::mem::transmute::<Symbol, Call>(timing::load("bench_commutator", file, name)) };
        Library { call, work: vec![0; 24 * rows], out: vec![0; 49_184] }
    }

    fn call(&mut self, a: &[u8], b: &[u8]) -> [u64; 8] {
        let mut answer = [0; 8];
        let (work, out) = (&mut self.work, &mut self.out);
        // SAFETY: every slice is passed with its length, and the answer has eight entries.
        unsafe {
            (self.call)(
                a.as_ptr(),
                a.len(),
                b.as_ptr(),
                b.len(),
                work.as_mut_ptr(),
                work.len(),
                out.as_mut_ptr(),
                out.len(),
                answer.as_mut_ptr(),
            );
        }
        black_box(&self.out);
        answer
    }
}

/// Both sides on two operators, by turns: the library's answer, and the microseconds of each.
fn measure(m: u64, a: &Operator, b: &Operator, commutator: bool, library: &mut Library, rounds: usize) -> ([u64; 8], f64, f64) {
    let (left, right) = (record(m, a), record(m, b));
    let (zixy_left, zixy_right) = (zixy_terms(m, a, |c| c), zixy_terms(m, b, |c| c));
    let (mut zixy, mut own, mut answer) = (Timing::default(), Timing::default(), [0; 8]);
    for _ in 0..rounds {
        zixy.turn(|| {
            let (a, b) = (&zixy_left.borrow(), &zixy_right.borrow());
            let product = if commutator { lincomb::commutator(a, b) } else { lincomb::mul(a, b) };
            black_box(product.is_ok());
        });
        own.turn(|| answer = library.call(&left, &right));
    }
    (answer, zixy.nanoseconds() / 1000.0, own.nanoseconds() / 1000.0)
}

/// A row: annihilations, creations, and whether the coefficient is negative.
type Row = (u64, u64, bool);

/// The rows of one product with coefficients 1 or -1, the lowest branching mode the most significant choice, low first.
fn rows(left: (u64, u64), right: (u64, u64), minus: bool, out: &mut Vec<Row>) {
    let ((la, lc), (ra, rc)) = (left, right);
    if lc & rc & !la | la & ra & !rc != 0 {
        return;
    }
    // the exchanges of inserting or removing the modes of `at`, one at a time, in the occupation `word`
    let crossed = |word: u64, at: u64| (0..64).filter(|p| at >> p & 1 == 1).map(|p| (word & ((1 << p) - 1)).count_ones()).sum::<u32>();
    let common = la & rc;
    let branching: Vec<u64> = (0..64).rev().map(|p| 1 << p).filter(|mode| common & !lc & !ra & mode != 0).collect();
    for choice in 0..1u64 << branching.len() {
        let kept = (0..branching.len()).filter(|i| choice >> i & 1 == 1).fold(0, |word, i| word | branching[i]);
        let (cre, ann) = (lc | (rc ^ common) | kept, ra | (la ^ common) | kept);
        let flips = kept.count_ones() + crossed(ra, rc) + crossed(ra ^ rc, la) + crossed(ra ^ rc ^ la, lc) + crossed(ann, cre);
        out.push((ann, cre, minus ^ (flips % 2 == 1)));
    }
}

/// How many rows of a commutator the library writes: the last row of the first order is kept in hand, and cancels the last
/// row before it where it has the same words and the opposite coefficient.
fn rows_written(a: &Operator, b: &Operator) -> usize {
    let mut written: Vec<(Row, i64)> = Vec::new();
    for (t, x) in a {
        for (u, y) in b {
            let [mut one, mut two] = [Vec::new(), Vec::new()];
            rows(*t, *u, false, &mut one);
            rows(*u, *t, true, &mut two);
            let hand = one.pop().map(|row| (row, x * y));
            written.extend(one.into_iter().chain(two).map(|row| (row, x * y)));
            let Some((row, size)) = hand else { continue };
            match written.last() {
                Some(((ann, cre, minus), z)) if (*ann, *cre, *z) == (row.0, row.1, size) && *minus != row.2 => drop(written.pop()),
                _ => written.push((row, size)),
            }
        }
    }
    written.len()
}

fn ratio(answer: &[u64; 8], zixy: f64, own: f64) -> String {
    match answer[0] {
        0 => format!("{:.1}", zixy / own),
        number => format!("refused {number}"),
    }
}

fn commutators(file: &str) {
    println!("commutators of two-body terms");
    println!("{:>6}{:>7}{:>8}{:>10}{:>9}{:>12}{:>12}{:>12}", "modes", "terms", "result", "branches", "written", "zixy us", "library us", "zixy / it");
    for (m, n) in [16, 32, 64].into_iter().flat_map(|m| [32, 64, 90].map(|n| (m, n))) {
        let mut draw = Draw(m * 100_000 + n as u64);
        let [a, b] = [(); 2].map(|()| operator(&mut draw, m, n, &Operator::new()));
        // work for three times the pairs of both orders
        let mut library = Library::new(file, c"fermion_commutator", 3 * n * n);
        let (answer, zixy, own) = measure(m, &a, &b, true, &mut library, timing::ROUNDS);
        let terms = answer[3].saturating_sub(32) / 24;
        let (written, ratio) = (rows_written(&a, &b), ratio(&answer, zixy, own));
        println!("{m:>6}{n:>7}{terms:>8}{:>10}{written:>9}{zixy:>12.1}{own:>12.1}{ratio:>12}", answer[4]);
    }
}

fn growth(file: &str) {
    println!("products of sums of {{w|w}} on 10 modes");
    println!("{:>7}{:>10}{:>8}{:>14}{:>16}{:>12}", "terms", "rows", "result", "zixy ns/row", "library ns/row", "zixy / it");
    for n in [32u64, 100, 316, 1_000] {
        let a: Operator = (0..n).map(|w| ((w, w), 1 + (w % 7) as i64)).collect();
        let mut library = Library::new(file, c"fermion_mul", (n * n) as usize);
        let (answer, zixy, own) = measure(10, &a, &a, false, &mut library, if n > 100 { 5 } else { 21 });
        let row = |us: f64| 1000.0 * us / answer[4] as f64;
        println!("{n:>7}{:>10}{:>8}{:>14.1}{:>16.1}{:>12}", answer[4], (answer[3] - 32) / 24, row(zixy), row(own), ratio(&answer, zixy, own));
    }
    println!("{{|0..b-1}} times {{0..b-1|}}, the library alone; from 2,049 rows on it refuses the result with 10");
    println!("{:>4}{:>10}{:>16}{:>12}", "b", "rows", "library ns/row", "refusal");
    for b in [8u32, 10, 12, 14, 16, 18, 20] {
        let word = (1u64 << b) - 1;
        let (a, c) = (record(20, &Operator::from([((word, 0), 1)])), record(20, &Operator::from([((0, word), 1)])));
        let mut library = Library::new(file, c"fermion_mul", 1 << b);
        let (mut own, mut answer) = (Timing::default(), [0; 8]);
        for _ in 0..11 {
            own.turn(|| answer = library.call(&a, &c));
        }
        println!("{b:>4}{:>10}{:>16.1}{:>12}", 1 << b, own.nanoseconds() / (1u64 << b) as f64, answer[0]);
    }
}

/// One product of two terms, in work and output of growing lengths: nearly all of the time goes into wiping them.
fn wiping(file: &str) {
    println!("{{0|1}} times {{1|0}}: what wiping costs");
    println!("{:>12}{:>14}{:>16}", "work bytes", "library ns", "ns a work byte");
    let (a, b) = (record(2, &Operator::from([((2, 1), 1)])), record(2, &Operator::from([((1, 2), 1)])));
    for rows in [2usize, 256, 2_730, 65_536, 1 << 20] {
        let mut library = Library::new(file, c"fermion_mul", rows);
        library.out.truncate(80);
        let mut own = Timing::default();
        for _ in 0..21 {
            own.turn(|| assert_eq!(library.call(&a, &b)[0], 0));
        }
        println!("{:>12}{:>14.0}{:>16.3}", 24 * rows, own.nanoseconds(), own.nanoseconds() / (24 * rows) as f64);
    }
}

fn main() {
    let file = std::env::args().nth(1).unwrap_or_else(|| timing::fail("bench_commutator", "bench_commutator FILE.so".into()));
    commutators(&file);
    growth(&file);
    wiping(&file);
}
