//! Times one element over a list of terms: zixy's `mat_elem_cmpnts` and, in the same process, a library's
//! `fermion_mat_elem_real`, `fermion_mat_elem_complex` and `fermion_element`, and those of an earlier one, where it is named.
//! Of a library with several files, the same code at several places, the mean counts.
//!
//! ```text
//! bench_float FILE.so.. [-- EARLIER.so..]
//! ```
//!
//! The lists have 2,048 two-body terms with whole-number coefficients, so that all three calls have one answer, which is
//! compared first. zixy takes lists that it has made before; the library checks what it is given in the same call.
use num_complex::Complex64;
use programs::draw::Draw;
use programs::operators::{record, zixy_terms, Operator};
use programs::timing::{self, Symbol, Timing, ROUNDS};
use std::hint::black_box;
use zixy::container::traits::RefElements;
use zixy::container::word_iters::WordIters;
use zixy::fermion::mode::Modes;
use zixy::fermion::operator::normal::cmpnt_major::mat_elem::mat_elem_cmpnts;
use zixy::fermion::state::cmpnt_list::CmpntList as StateList;

type Words = *const u64;
type Floats = *const f64;
type Real = unsafe extern "C" fn(u64, Words, usize, Words, usize, Floats, usize, u64, u64, *mut f64, *mut u64);
type Complex =
    unsafe extern "C" fn(u64, Words, usize, Words, usize, Floats, usize, Floats, usize, u64, u64, *mut f64, *mut u64);
type Element = unsafe extern "C" fn(*const u8, usize, u64, u64, *mut u64);

const TERMS: usize = 2048;

/// Terms with coefficients from 1 to 1,000, and the two words between which they stand.
struct Question {
    modes: u64,
    terms: Operator,
    bra: u64,
    ket: u64,
}

/// Two-body terms on a half-filled ket. The bra is where one of them takes it: most terms give Zero, and few join.
fn few_join(modes: u64) -> Question {
    let mut draw = Draw(modes);
    let mut terms = Operator::new();
    while terms.len() < TERMS {
        terms.insert((draw.pair(modes), draw.pair(modes)), 1 + (draw.next() % 1000) as i64);
    }
    let ket = 0x5555_5555_5555_5555 & (u64::MAX >> (64 - modes));
    let acts = |(ann, cre): &&(u64, u64)| ket & ann == *ann && ket & !ann & cre == 0;
    let (ann, cre) = terms.keys().find(acts).expect("one of them acts");
    let bra = ket & !ann | cre;
    Question { modes, terms, bra, ket }
}

/// Terms {c|c} of two to six modes on a word that holds all modes: every one joins.
fn all_join(modes: u64) -> Question {
    let mut draw = Draw(modes);
    let mut terms = Operator::new();
    while terms.len() < TERMS {
        let word = draw.pair(modes) | draw.pair(modes) | draw.pair(modes);
        terms.insert((word, word), 1 + (draw.next() % 1000) as i64);
    }
    let full = u64::MAX >> (64 - modes);
    Question { modes, terms, bra: full, ket: full }
}

struct Library {
    real: Real,
    complex: Complex,
    element: Element,
}

fn load(file: &str) -> Library {
    let symbol = |name| timing::load("bench_float", file, name);
    // SAFETY: the symbols have the types that the header declares.
    unsafe {
        Library {
            real: std::mem::transmute::<Symbol, Real>(symbol(c"fermion_mat_elem_real")),
            complex: std::mem::transmute::<Symbol, Complex>(symbol(c"fermion_mat_elem_complex")),
            element: std::mem::transmute::<Symbol, Element>(symbol(c"fermion_element")),
        }
    }
}

fn bench(libraries: &[Vec<Library>], name: &str, q: &Question) {
    let (ann, cre): (Vec<u64>, Vec<u64>) = q.terms.keys().copied().unzip();
    let coefficients: Vec<f64> = q.terms.values().map(|c| *c as f64).collect();
    let (n, bytes) = (q.terms.len(), record(q.modes, &q.terms));
    let (reals, complexes) = (zixy_terms(q.modes, &q.terms, |c| c), zixy_terms(q.modes, &q.terms, |c| Complex64::new(c, c)));
    let mut states = StateList::new(Modes::from_count(q.modes as usize));
    [q.bra, q.ket].iter().for_each(|word| states.push_u64it([*word].into_iter()));
    let (bra, ket) = (states.get_elem_ref(0), states.get_elem_ref(1));
    let expected = mat_elem_cmpnts(&reals, &bra, &ket);
    let (mut value, mut answer) = ([0f64; 2], [0u64; 8]);
    let mut zixy: [Timing; 2] = Default::default();
    let mut times: Vec<Vec<[Timing; 3]>> = libraries.iter().map(|l| l.iter().map(|_| Default::default()).collect()).collect();
    for _ in 0..ROUNDS {
        zixy[0].turn(|| {
            black_box(mat_elem_cmpnts(black_box(&reals), black_box(&bra), black_box(&ket)));
        });
        zixy[1].turn(|| {
            black_box(mat_elem_cmpnts(black_box(&complexes), black_box(&bra), black_box(&ket)));
        });
        for (library, times) in libraries.iter().flatten().zip(times.iter_mut().flatten()) {
            times[0].turn(|| {
                let (cre, ann, c) = (cre.as_ptr(), ann.as_ptr(), coefficients.as_ptr());
                let (value, answer) = (value.as_mut_ptr(), answer.as_mut_ptr());
                // SAFETY: every slice is passed with its length; the value has two entries and the answer eight.
                unsafe { (library.real)(q.modes, cre, n, ann, n, c, n, q.bra, q.ket, value, answer) };
            });
            assert!(answer[0] == 0 && value == [expected, 0.0], "the library gave {value:?} {answer:?}, zixy {expected}");
            times[1].turn(|| {
                let (cre, ann, c) = (cre.as_ptr(), ann.as_ptr(), coefficients.as_ptr());
                let (value, answer) = (value.as_mut_ptr(), answer.as_mut_ptr());
                // SAFETY: as above.
                unsafe { (library.complex)(q.modes, cre, n, ann, n, c, n, c, n, q.bra, q.ket, value, answer) };
            });
            assert!(answer[0] == 0 && value == [expected; 2], "the library gave {value:?} {answer:?}, zixy {expected}");
            times[2].turn(|| {
                // SAFETY: as above.
                unsafe { (library.element)(bytes.as_ptr(), bytes.len(), q.bra, q.ket, answer.as_mut_ptr()) };
            });
            assert!(answer[0] == 0 && answer[5] as i64 as f64 == expected, "the library gave {answer:?}, zixy {expected}");
        }
    }
    let [zixy, zixy_complex] = zixy.map(|t| t.nanoseconds() / n as f64);
    for (times, name) in times.iter().zip([name, "earlier"]) {
        let [real, complex, exact] = [0, 1, 2].map(|call| timing::mean(times.iter().map(|t| &t[call])) / n as f64);
        println!(
            "{:>6}{name:>11}{zixy:>8.1}{real:>9.2}{:>8.1}{zixy_complex:>11.1}{complex:>9.2}{:>8.1}{exact:>10.2}{:>8.1}",
            q.modes,
            zixy / real,
            zixy_complex / complex,
            zixy / exact
        );
    }
}

fn main() {
    let libraries = timing::load_all("bench_float", load);
    println!("ns a term, and how many times as fast as zixy the library is");
    println!(
        "{:>6}{:>11}{:>8}{:>9}{:>8}{:>11}{:>9}{:>8}{:>10}{:>8}",
        "modes", "terms", "zixy", "library", "times", "zixy", "library", "times", "library", "times"
    );
    println!("{:>17}{:>8}{:>9}{:>8}{:>11}{:>9}{:>8}{:>10}", "", "real", "real", "", "complex", "complex", "", "element");
    for modes in [16, 32, 64] {
        bench(&libraries, "few join", &few_join(modes));
        bench(&libraries, "all join", &all_join(modes));
    }
}
