//! Memory: the caller's own, and how much is taken where none is lent.
mod common;

use common::{one, refusal, EXAMPLE};
use fermion::Record;

/// Memory full of what an earlier job left.
fn dirty(length: usize) -> Vec<u8> {
    (0..length).map(|i| (i * 37 + 11) as u8 | 1).collect()
}

fn zeros(bytes: &[u8]) -> bool {
    bytes.iter().all(|&byte| byte == 0)
}

#[test]
fn case_14_in_own_memory() {
    let (a, b) = (one(2, 1, 2, 1), one(2, 2, 1, 1));
    let (mut work, mut out) = (dirty(97), dirty(83));
    let answer = fermion::commutator_into(&a, &b, &mut work, &mut out).unwrap();
    assert_eq!((answer.record.as_bytes(), answer.branches), (&EXAMPLE[..], 4));
    assert!(zeros(&work) && zeros(&out[80..]));
    for (number, work_len, out_len) in [(7, 95, 80), (11, 96, 79), (7, 0, 0)] {
        let (mut work, mut out) = (dirty(work_len), dirty(out_len));
        assert_eq!(refusal(fermion::commutator_into(&a, &b, &mut work, &mut out)), (number, 0, 0));
        assert!(zeros(&work) && zeros(&out));
    }
}

#[test]
fn products_in_own_memory() {
    let (a, b) = (one(1, 0, 1, 2), one(1, 1, 0, 3));
    let (mut work, mut out) = (dirty(72), dirty(100));
    let product = fermion::mul_into(&a, &b, &mut work, &mut out).unwrap();
    assert_eq!((product.record.to_string().as_str(), product.branches), ("6 {|} - 6 {0|0}", 2));
    let product = fermion::anticommutator_into(&a, &b, &mut work, &mut out).unwrap();
    assert_eq!((product.record.to_string().as_str(), product.branches), ("6 {|}", 3));
    assert!(zeros(&work) && zeros(&out[56..]));
}

#[test]
fn sums_and_adjoints_in_own_memory() {
    let a = one(2, 1, 2, 5);
    let mut out = dirty(60);
    assert_eq!(fermion::add_into(&a, &a, &mut out).unwrap(), one(2, 1, 2, 10));
    assert!(zeros(&out[56..]));
    let mut out = dirty(60);
    assert!(fermion::sub_into(&a, &a, &mut out).unwrap().is_empty());
    assert!(zeros(&out[32..]));
    let mut out = dirty(60);
    assert_eq!(fermion::adjoint_into(&a, &mut out).unwrap(), one(2, 2, 1, 5));
    assert!(zeros(&out[56..]));
    for call in [fermion::add_into, fermion::sub_into] {
        let mut out = dirty(31);
        assert_eq!(refusal(call(&a, &a, &mut out)), (11, 0, 0));
        assert!(zeros(&out));
    }
    let mut out = dirty(55);
    assert_eq!(refusal(fermion::adjoint_into(&a, &mut out)), (11, 0, 0));
    assert!(zeros(&out));
}

#[test]
fn rows_in_own_memory() {
    let mut out = dirty(50);
    let rows = fermion::mul_cmpnts_into((0, 1), (1, 0), &mut out).unwrap();
    assert_eq!(rows.as_bytes().len(), 48);
    assert!(rows.eq([(0, 0, 1).into(), (1, 1, -1).into()]));
    assert!(zeros(&out[48..]));
    let mut out = dirty(47);
    assert_eq!(refusal(fermion::mul_cmpnts_into((0, 1), (1, 0), &mut out)), (7, 0, 0));
    assert!(zeros(&out));
    assert_eq!(fermion::mul_cmpnts_into((1, 0), (1, 0), &mut []).unwrap().len(), 0);
}

#[test]
fn rows_are_taken_up_to_the_ceiling() {
    let (twelve, full, needed) = ((1 << 12) - 1, u64::MAX, 24 << 12);
    assert_eq!(fermion::mul_cmpnts((0, twelve), (twelve, 0)).unwrap().len(), 1 << 12);
    assert_eq!(fermion::mul_cmpnts_within((0, twelve), (twelve, 0), needed).unwrap().len(), 1 << 12);
    assert_eq!(refusal(fermion::mul_cmpnts_within((0, twelve), (twelve, 0), needed - 1)), (7, 0, 0));
    for ceiling in [0, 1, 1 << 20] {
        assert_eq!(refusal(fermion::mul_cmpnts_within((0, full), (full, 0), ceiling)), (7, 0, 0));
    }
}

#[test]
fn work_is_taken_up_to_the_ceiling() {
    let ladder = |m: u32| {
        let word = (1 << m) - 1;
        (one(m.into(), 0, word, 1), one(m.into(), word, 0, 1))
    };
    let (a, b) = ladder(11);
    let product = fermion::mul(&a, &b).unwrap();
    assert_eq!((product.branches, product.record.len()), (2048, 2048));
    assert_eq!(fermion::mul_within(&a, &b, 24 << 11).unwrap(), product);
    assert_eq!(refusal(fermion::mul_within(&a, &b, (24 << 11) - 1)), (7, 0, 0));
    assert_eq!(refusal(fermion::commutator_within(&a, &b, 24 << 11)), (7, 0, 0));
    assert_eq!(fermion::anticommutator_within(&a, &b, 24 * 2049).unwrap().branches, 2049);
    let (a, b) = ladder(13);
    assert_eq!(refusal(fermion::mul(&a, &b)), (10, 0, 0));
}

#[test]
fn results_fit_into_what_is_taken() {
    let many = |start: u64| Record::build(12, (start..start + 1024).map(|cre| (cre, 0, 1))).unwrap();
    let sum = fermion::add(&many(0), &many(1024)).unwrap();
    assert_eq!(sum.as_bytes().len(), fermion::MAX_BYTES);
    assert_eq!(fermion::adjoint(&sum).unwrap().as_bytes().len(), fermion::MAX_BYTES);
    assert_eq!(fermion::mul(&sum, &one(12, 0, 0, 1)).unwrap().record, sum);
}
