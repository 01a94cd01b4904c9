//! Times the exchanges of one word against another: zixy's `count_before_each_set_bit` and, in the same process, that of a
//! library and of an earlier one, where it is named. Of a library with several files, the same code at several places, the
//! mean counts. Started by `bench/exchanges.sh`, since the C face does not have the function.
//!
//! ```text
//! bench_count FILE.so.. [-- EARLIER.so..]
//! ```
//!
//! For 1, 2, 4, 8, 16, 32 and 64 set bits in each of the two words, drawn; every answer is compared with zixy's first.
use programs::draw::Draw;
use programs::timing::{self, Symbol, Timing};
use std::hint::black_box;
use zixy::fermion::operator::normal::products_open::count_open;

type Count = extern "C" fn(u64, u64) -> u32;

const SIZES: [u32; 7] = [1, 2, 4, 8, 16, 32, 64];
const PAIRS: usize = 1024;
const ROUNDS: usize = 25;

extern "C" fn zixy_count(word: u64, at: u64) -> u32 {
    count_open(word, at)
}

fn word(draw: &mut Draw, size: u32) -> u64 {
    let mut word = if size == 64 { u64::MAX } else { 0 };
    while word.count_ones() < size {
        word |= 1 << (draw.next() % 64);
    }
    word
}

/// Nanoseconds a call on words of so many set bits: of zixy's function, of the library's, and of the earlier library's.
fn times(libraries: &[Vec<Count>], bits: u32, at_bits: u32) -> Vec<f64> {
    let mut draw = Draw(u64::from(100 * bits + at_bits));
    let pairs: Vec<(u64, u64)> = (0..PAIRS).map(|_| (word(&mut draw, bits), word(&mut draw, at_bits))).collect();
    for (word, at) in &pairs {
        let expected = zixy_count(*word, *at);
        libraries.iter().flatten().for_each(|count| assert_eq!(count(*word, *at), expected, "{word:#x} {at:#x}"));
    }
    let mut timings: Vec<Vec<Timing>> = libraries.iter().map(|l| l.iter().map(|_| Timing::default()).collect()).collect();
    for _ in 0..ROUNDS {
        for (count, timing) in libraries.iter().flatten().zip(timings.iter_mut().flatten()) {
            let count = black_box(*count);
            timing.turn(|| {
                black_box(pairs.iter().fold(0u32, |sum, (word, at)| sum.wrapping_add(count(*word, *at))));
            });
        }
    }
    timings.iter().map(|group| timing::mean(group) / PAIRS as f64).collect()
}

fn print(title: &str, cell: impl Fn(usize, usize) -> f64) {
    println!("{title}; a row for each number of bits of `word`, a column for each of `at`\n");
    println!("| |{}", SIZES.map(|n| format!(" {n} |")).concat());
    println!("|---|{}", "---|".repeat(SIZES.len()));
    for (i, n) in SIZES.iter().enumerate() {
        println!("| {n} |{}", (0..SIZES.len()).map(|j| format!(" {:.1} |", cell(i, j))).collect::<String>());
    }
    println!();
}

fn load(file: &str) -> Count {
    // SAFETY: bench/exchanges.sh gives the function this type.
    unsafe { std::mem::transmute::<Symbol, Count>(timing::load("bench_count", file, c"fermion_count")) }
}

fn main() {
    let mut libraries = timing::load_all("bench_count", load);
    libraries.insert(0, vec![zixy_count]);
    let of = |bits: &u32| SIZES.iter().map(|at_bits| times(&libraries, *bits, *at_bits)).collect();
    let all: Vec<Vec<Vec<f64>>> = SIZES.iter().map(of).collect();
    println!("every answer is zixy's, on {} pairs of words\n", SIZES.len() * SIZES.len() * PAIRS);
    print("the library, ns a call", |i, j| all[i][j][1]);
    print("zixy, ns a call", |i, j| all[i][j][0]);
    print("zixy / the library", |i, j| all[i][j][0] / all[i][j][1]);
    if libraries.len() > 2 {
        print("the earlier library, ns a call", |i, j| all[i][j][2]);
        print("the earlier library / the library", |i, j| all[i][j][2] / all[i][j][1]);
    }
}
