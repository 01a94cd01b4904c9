//! Times the largest rank: zixy's `max_n_body` and, in the same process, a library's `fermion_max_n_body`.
//!
//! ```text
//! bench_n_body FILE.so
//! ```
//!
//! The operators have two-body terms, for which both give 2. The library also checks its records.
use programs::draw::Draw;
use programs::operators::{operator, record, zixy_terms, Operator};
use programs::timing::{self, Symbol, Timing, ROUNDS};
use std::hint::black_box;
use zixy::container::traits::proj::Borrow;
use zixy::fermion::operator::normal::cmpnt_major::lincomb;

type Figure = unsafe extern "C" fn(*const u8, usize, *mut u64);

fn main() {
    let file = std::env::args().nth(1).unwrap_or_else(|| timing::fail("bench_n_body", "bench_n_body FILE.so".into()));
    // SAFETY: the symbol has the type that the header declares.
    let max_n_body =
        unsafe { std::mem::transmute::<Symbol, Figure>(timing::load("bench_n_body", &file, c"fermion_max_n_body")) };
    println!("{:>6}{:>8}{:>10}{:>12}{:>10}", "modes", "terms", "zixy", "library", "zixy /");
    println!("{:>6}{:>8}{:>10}{:>12}{:>10}", "", "", "us", "us", "library");
    for (m, n) in [(16, 64), (16, 2048), (32, 2048), (64, 64), (64, 2048)] {
        let a = operator(&mut Draw(m * 100_000 + n as u64), m, n, &Operator::new());
        let (bytes, terms) = (record(m, &a), zixy_terms(m, &a, |c| c));
        let (mut zixy, mut library) = (Timing::default(), Timing::default());
        for _ in 0..ROUNDS {
            zixy.turn(|| assert_eq!(lincomb::max_n_body(black_box(&terms.borrow())), 2));
            library.turn(|| {
                let mut answer = [0u64; 8];
                // SAFETY: the record is passed with its length, and the answer has eight numbers.
                unsafe { max_n_body(bytes.as_ptr(), bytes.len(), answer.as_mut_ptr()) };
                assert_eq!((answer[0], answer[5]), (0, 2), "{answer:?}");
            });
        }
        let us = |t: &Timing| t.nanoseconds() / 1000.0;
        println!("{m:>6}{n:>8}{:>10.2}{:>12.2}{:>10.1}", us(&zixy), us(&library), us(&zixy) / us(&library));
    }
}
