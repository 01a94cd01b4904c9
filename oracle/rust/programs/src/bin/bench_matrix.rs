//! Times projected matrices: zixy's `mat_ortho_projected` and, in the same process, a library's
//! `fermion_mat_ortho_projected`; and the library's `fermion_compare`, which has no counterpart in zixy. Then the same of an
//! earlier library, where it is named. Of a library with several files, the same code at several places, the mean counts.
//!
//! ```text
//! bench_matrix FILE.so.. [-- EARLIER.so..]
//! ```
//!
//! The operators have two-body terms, and the basis eight words with half of the modes. The library also checks its
//! records. Compared are an operator and itself, every term of the two being looked at.
use programs::draw::Draw;
use programs::operators::{operator, record, zixy_terms, Operator};
use programs::timing::{self, Symbol, Timing, ROUNDS};
use std::hint::black_box;
use zixy::container::traits::proj::Borrow;
use zixy::container::word_iters::WordIters;
use zixy::fermion::mode::Modes;
use zixy::fermion::operator::normal::cmpnt_major::mat_elem;
use zixy::fermion::state::cmpnt_list::CmpntList as StateList;

type Matrix = unsafe extern "C" fn(*const u8, usize, *const u64, usize, *mut i64, *mut u64);
type Compare = unsafe extern "C" fn(*const u8, usize, *const u8, usize, *mut u64);

/// A word with half of m modes.
fn half_filled(draw: &mut Draw, m: u64) -> u64 {
    let mut word = 0u64;
    while u64::from(word.count_ones()) < m / 2 {
        word |= 1 << (draw.next() % m);
    }
    word
}

fn states(m: u64, words: &[u64]) -> StateList {
    let mut list = StateList::new(Modes::from_count(m as usize));
    words.iter().for_each(|word| list.push_u64it([*word].into_iter()));
    list
}

struct Library {
    matrix: Matrix,
    compare: Compare,
}

fn load(file: &str) -> Library {
    let symbol = |name| timing::load("bench_matrix", file, name);
    // SAFETY: the symbols have the types that the header declares.
    unsafe {
        Library {
            matrix: std::mem::transmute::<Symbol, Matrix>(symbol(c"fermion_mat_ortho_projected")),
            compare: std::mem::transmute::<Symbol, Compare>(symbol(c"fermion_compare")),
        }
    }
}

fn bench(libraries: &[Vec<Library>], m: u64, n: usize) {
    let mut draw = Draw(m * 100_000 + n as u64);
    let a = operator(&mut draw, m, n, &Operator::new());
    let left = record(m, &a);
    let right = left.clone();
    let zixy_left = zixy_terms(m, &a, |c| c);
    let basis: Vec<u64> = (0..8).map(|_| half_filled(&mut draw, m)).collect();
    let mut entries = [0i64; 64];
    let mut zixy = Timing::default();
    let mut times: Vec<Vec<[Timing; 2]>> = libraries.iter().map(|l| l.iter().map(|_| Default::default()).collect()).collect();
    for _ in 0..ROUNDS {
        zixy.turn(|| {
            black_box(mat_elem::mat_ortho_projected(black_box(&zixy_left.borrow()), states(m, &basis)).is_ok());
        });
        for (library, times) in libraries.iter().flatten().zip(times.iter_mut().flatten()) {
            times[0].turn(|| {
                let mut answer = [0u64; 8];
                let (entries, answers) = (entries.as_mut_ptr(), answer.as_mut_ptr());
                // SAFETY: every slice is passed with its length, the matrix has 64 entries and the answer eight.
                unsafe { (library.matrix)(left.as_ptr(), left.len(), basis.as_ptr(), basis.len(), entries, answers) };
                assert_eq!(answer[0], 0, "the library refused: {answer:?}");
            });
            black_box(&entries);
            times[1].turn(|| {
                let mut answer = [0u64; 8];
                // SAFETY: as above.
                unsafe { (library.compare)(left.as_ptr(), left.len(), right.as_ptr(), right.len(), answer.as_mut_ptr()) };
                assert_eq!((answer[0], answer[5]), (0, 1), "not equal: {answer:?}");
            });
        }
    }
    let zixy = zixy.nanoseconds() / 1000.0;
    for (times, which) in times.iter().zip(["", "  earlier"]) {
        let [matrix, compared] = [0, 1].map(|call| timing::mean(times.iter().map(|t| &t[call])) / 1000.0);
        println!("{m:>6}{n:>8}{zixy:>14.1}{matrix:>16.1}{:>14.1}{compared:>18.1}{which}", zixy / matrix);
    }
}

fn main() {
    let libraries = timing::load_all("bench_matrix", load);
    println!("{:>6}{:>8}{:>14}{:>16}{:>14}{:>18}", "modes", "terms", "zixy matrix", "library matrix", "zixy /", "library compare");
    println!("{:>6}{:>8}{:>14}{:>16}{:>14}{:>18}", "", "", "us", "us", "library", "us");
    for (m, n) in [(16, 64), (16, 2048), (32, 2048), (64, 2048)] {
        bench(&libraries, m, n);
    }
}
