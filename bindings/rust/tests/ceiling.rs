//! How much memory a call takes by itself, and what it does where there is none: told by an allocator that remembers the
//! largest request of each thread and gives each only so much.
mod common;

use std::alloc::{GlobalAlloc, Layout, System};
use std::cell::Cell;
use std::ptr::null_mut;
use std::time::{Duration, Instant};

use common::{one, refusal};
use fermion::{Branches, Counted, Product, Record, Refusal, Report, WORK_CEILING};

struct Counting;

#[global_allocator]
static COUNTING: Counting = Counting;

thread_local! {
    static LARGEST: Cell<usize> = const { Cell::new(0) };
    /// What is left to give: less than 24 * 2^40, so that the system, which may promise that, is not asked for it.
    static LEFT: Cell<usize> = const { Cell::new(1 << 40) };
}

/// Remembers a request, and whether there is so much left: then it is taken off.
fn given(size: usize) -> bool {
    LARGEST.set(LARGEST.get().max(size));
    LEFT.get().checked_sub(size).map(|left| LEFT.set(left)).is_some()
}

fn taken_back(size: usize) {
    LEFT.set(LEFT.get().saturating_add(size));
}

// SAFETY: every request goes on to the system's allocator as it is, or is answered with null, as where there is no memory.
unsafe impl GlobalAlloc for Counting {
    unsafe fn alloc(&self, layout: Layout) -> *mut u8 {
        if given(layout.size()) {
            System.alloc(layout)
        } else {
            null_mut()
        }
    }

    unsafe fn alloc_zeroed(&self, layout: Layout) -> *mut u8 {
        if given(layout.size()) {
            System.alloc_zeroed(layout)
        } else {
            null_mut()
        }
    }

    unsafe fn realloc(&self, at: *mut u8, layout: Layout, size: usize) -> *mut u8 {
        if !given(size) {
            return null_mut();
        }
        taken_back(layout.size());
        System.realloc(at, layout, size)
    }

    unsafe fn dealloc(&self, at: *mut u8, layout: Layout) {
        taken_back(layout.size());
        System.dealloc(at, layout)
    }
}

/// What a call answers that is given no more than so many bytes, and 2^16 for all that is small.
fn given_only<T>(bytes: usize, call: impl FnOnce() -> T) -> T {
    let before = LEFT.replace(bytes + (1 << 16));
    let answer = call();
    LEFT.set(before);
    answer
}

/// What a call answers, and the largest piece of memory that it asked for.
fn largest<T>(call: impl FnOnce() -> T) -> (T, usize) {
    LARGEST.set(0);
    let answer = call();
    (answer, LARGEST.get())
}

/// {|0..m-1} and {0..m-1|} on m modes: their product has 2^m branches, that in the other order one.
fn ladders(m: u32, coeff: i64) -> (Record<'static>, Record<'static>) {
    let all = u64::MAX >> (64 - m);
    (one(m.into(), 0, all, coeff), one(m.into(), all, 0, coeff))
}

type Call = fn(&Record<'static>, &Record<'static>) -> Result<Product<'static>, Refusal>;
const CALLS: [Call; 3] = [fermion::mul, fermion::commutator, fermion::anticommutator];

#[test]
fn what_passes_the_ceiling_is_refused_at_once() {
    let (a, b) = ladders(23, 1);
    assert_eq!((a.as_bytes().len(), b.as_bytes().len()), (56, 56));
    assert_eq!(fermion::branches(&a, &b), Ok(Branches { forward: 1 << 23, backward: 1 }));
    let start = Instant::now();
    for call in CALLS {
        let (answer, taken) = largest(|| call(&a, &b));
        assert_eq!(refusal(answer), (7, 0, 0));
        assert!(taken <= 56, "{taken}");
    }
    let all = (1 << 23) - 1;
    let (answer, taken) = largest(|| fermion::mul_cmpnts((0, all), (all, 0)));
    assert_eq!(refusal(answer), (7, 0, 0));
    assert!(taken < 1000, "{taken}");
    assert!(start.elapsed() < Duration::from_millis(500));
}

#[test]
fn a_ceiling_of_the_callers_lets_it_through() {
    let (a, b) = ladders(23, 1);
    let (answer, taken) = largest(|| fermion::mul_within(&a, &b, 1 << 28));
    assert_eq!(refusal(answer), (10, 0, 0)); // 2^23 terms
    assert_eq!(taken, 24 << 23);
    assert_eq!(refusal(fermion::mul_within(&a, &b, (24 << 23) - 1)), (7, 0, 0));
}

#[test]
fn exactly_what_is_needed_is_taken_up_to_the_ceiling() {
    assert_eq!(WORK_CEILING, 16_777_216);
    let (a, b) = ladders(19, 1); // 12,582,912 bytes
    let (answer, taken) = largest(|| fermion::mul(&a, &b));
    assert_eq!((refusal(answer), taken), ((10, 0, 0), 24 << 19));
    let (answer, taken) = largest(|| fermion::commutator(&a, &b));
    assert_eq!((refusal(answer), taken), ((10, 0, 0), 24 * ((1 << 19) + 1)));
    let (a, b) = ladders(20, 1); // 25,165,824 bytes
    assert_eq!(refusal(fermion::mul(&a, &b)), (7, 0, 0));
    // In the other order it is one row.
    let (answer, taken) = largest(|| fermion::mul(&b, &a));
    assert_eq!((answer.unwrap().branches, taken), (1, 56));
}

#[test]
fn a_report_takes_nothing() {
    let (a, mut report) = (one(64, 1, 1, 1), Report::new());
    for (bytes, accepted) in [(a.as_bytes(), true), (&[][..], false)] {
        let (answer, taken) = largest(|| report.add(bytes));
        assert_eq!((answer.map(Counted::is_accepted), taken), (Ok(accepted), 0));
    }
}

/// Five lines of 4 ladders are tried once; one of 12 ladders with four times as much each time.
#[test]
fn a_text_takes_what_lines_of_4_ladders_need_and_more_where_that_is_too_little() {
    let (few, many) = ("1 0^ 1^ 2_ 3_\n".repeat(5), format!("1{}\n", " 0_ 0^".repeat(6)));
    let (answer, taken) = largest(|| fermion::import(4, &few));
    assert_eq!((answer.unwrap().len(), taken), (1, (5 * 48) << 4));
    let (answer, taken) = largest(|| fermion::import_within(4, &many, usize::MAX));
    assert_eq!((answer.unwrap().len(), taken), (2, 48 << 12));
    let (answer, taken) = largest(|| fermion::import(4, &many.repeat(86)));
    assert_eq!((refusal(answer), taken), ((7, 0, 0), WORK_CEILING));
    assert_eq!(refusal(given_only(48 << 11, || fermion::import_within(4, &many, usize::MAX))), (7, 0, 0));
    let (answer, taken) = largest(|| fermion::export(&one(64, 1, 1, 1)));
    assert_eq!(answer.unwrap(), "1 0^ 0_\n");
    assert!(taken <= 2 * 513, "{taken}");
}

#[test]
fn eight_comes_before_seven() {
    for m in [23, 58, 59, 64] {
        let (a, b) = ladders(m, 1 << 31); // weights of 2^31, so a product of 2^62
        for call in CALLS {
            assert_eq!(refusal(call(&a, &b)), (8, 0, 0));
        }
        assert_eq!(refusal(fermion::mul_within(&a, &b, 0)), (8, 0, 0));
        let (a, b) = ladders(m, 1 << 30);
        for call in CALLS {
            assert_eq!(refusal(call(&a, &b)), (7, 0, 0));
        }
    }
}

#[test]
fn a_product_fits_whatever_the_other_order_has() {
    for m in [58, 59, 64] {
        let (a, b) = ladders(m, 1);
        let counts = fermion::branches(&b, &a).map_err(|refusal| refusal.number);
        assert_eq!(counts, if m == 58 { Ok(Branches { forward: 1, backward: 1 << 58 }) } else { Err(7) });
        let all = u64::MAX >> (64 - m);
        let product = one(m.into(), all, all, 1);
        for ceiling in [24, 1 << 30] {
            let (answer, taken) = largest(|| fermion::mul_within(&b, &a, ceiling));
            assert_eq!(answer.unwrap(), Product { record: product.clone(), branches: 1 });
            assert!(taken <= WORK_CEILING, "{taken}");
            let (rows, taken) = largest(|| fermion::mul_cmpnts_within((all, 0), (0, all), ceiling));
            assert_eq!(rows.unwrap(), [(all, all, 1).into()]);
            assert!(taken < 1000, "{taken}");
        }
        assert_eq!(refusal(fermion::mul_within(&b, &a, 23)), (7, 0, 0));
        assert_eq!(refusal(fermion::mul_cmpnts_within((all, 0), (0, all), 23)), (7, 0, 0));
        assert_eq!(refusal(fermion::commutator(&b, &a)), (7, 0, 0));
    }
}

/// 5 modes branch in one order and 59 in the other.
#[test]
fn rows_fit_whatever_the_other_order_has() {
    let (few, many) = (31 << 59, (1 << 59) - 1);
    assert_eq!(refusal(fermion::branches(&one(64, many, few, 1), &one(64, few, many, 1))), (7, 0, 0));
    assert_eq!(fermion::mul_cmpnts((many, few), (few, many)).unwrap().len(), 32);
    assert_eq!(fermion::mul_cmpnts_within((many, few), (few, many), 32 * 24).unwrap().len(), 32);
    assert_eq!(refusal(fermion::mul_cmpnts_within((many, few), (few, many), 32 * 24 - 1)), (7, 0, 0));
    assert_eq!(refusal(fermion::mul_cmpnts((few, many), (many, few))), (7, 0, 0));
    assert_eq!(fermion::mul(&one(64, many, few, 1), &one(64, few, many, 1)).unwrap().branches, 32);
}

/// a = {S|S} for S = 1, .., n and {0..63|}, b = the same and {|0..63}. a b has n^2 + 1 branches, b a more than 2^64.
fn untold(n: u64) -> (Record<'static>, Record<'static>) {
    let and = |cre, ann| Record::build(64, (1..=n).map(|s| (s, s, 1)).chain([(cre, ann, 1)])).unwrap();
    (and(u64::MAX, 0), and(0, u64::MAX))
}

#[test]
fn a_need_that_is_not_told_is_found_up_to_the_ceiling() {
    let (a, b) = untold(2047);
    let needed = 24 * 4_190_210; // 100,565,040 bytes
    assert_eq!(refusal(fermion::branches(&a, &b)), (7, 0, 0));
    let (answer, taken) = largest(|| fermion::mul(&a, &b));
    assert_eq!((refusal(answer), taken / 24), ((7, 0, 0), WORK_CEILING / 24));
    let (answer, taken) = largest(|| fermion::mul_within(&a, &b, needed - 1));
    assert_eq!((refusal(answer), taken), ((7, 0, 0), needed - 24));
    let (answer, taken) = largest(|| fermion::mul_within(&a, &b, needed));
    let product = answer.unwrap();
    assert_eq!((product.branches, product.record.len(), taken), (4_190_210, 2048, needed));
}

/// Four times as much each time: 2^24, 2^26 and 2^28 bytes, and not the 2^30 that it may take.
#[test]
fn a_need_that_is_not_told_does_not_take_the_whole_ceiling() {
    for (n, last) in [(500, 1 << 24), (1024, 1 << 26), (2047, 1 << 28)] {
        let (a, b) = untold(n);
        let (answer, taken) = largest(|| fermion::mul_within(&a, &b, 1 << 30));
        assert_eq!((answer.unwrap().branches, taken / 24), (n * n + 1, last / 24));
    }
}

type Within = fn(&Record<'static>, &Record<'static>, usize) -> Result<Product<'static>, Refusal>;
const CALLS_WITHIN: [Within; 3] = [fermion::mul_within, fermion::commutator_within, fermion::anticommutator_within];

/// 40 modes branch: 26,388,279,066,624 bytes or more, which this allocator does not give. The process goes on.
#[test]
fn work_that_is_not_given_is_a_refusal() {
    for (coeff, number) in [(1, 7), (1 << 31, 8)] {
        let (a, b) = ladders(40, coeff);
        for call in CALLS_WITHIN {
            let (answer, asked) = largest(|| call(&a, &b, usize::MAX));
            assert_eq!(refusal(answer), (number, 0, 0));
            assert!(asked >= 24 << 40, "{asked}");
        }
    }
    // Here the need is not told: 2^24 and 2^26 bytes are given, and are too little; 2^28 are not given.
    let (a, b) = untold(2047);
    assert_eq!(refusal(given_only(1 << 27, || fermion::mul_within(&a, &b, usize::MAX))), (7, 0, 0));
}

#[test]
fn rows_that_are_not_given_are_a_refusal() {
    let all = (1 << 40) - 1;
    let (answer, asked) = largest(|| fermion::mul_cmpnts_within((0, all), (all, 0), usize::MAX));
    assert_eq!((refusal(answer), asked), ((7, 0, 0), 24 << 40));
    // The terms handed back take as much as the rows: where only one of the two is given, the process goes on as well.
    let (all, rows) = ((1 << 16) - 1, 24 << 16);
    let within = || fermion::mul_cmpnts_within((0, all), (all, 0), usize::MAX);
    assert_eq!(given_only(2 * rows, within).unwrap().len(), 1 << 16);
    assert_eq!(refusal(given_only(rows, within)), (7, 0, 0));
}
