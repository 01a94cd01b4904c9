//! Drawn records: what a call answers with memory of its own and with memory of the caller's.
mod common;

use common::Draw;
use fermion::{Branches, Product, Reason, Record, Refusal, Term};

/// At most ten modes out of all that there are, so that many terms meet in a mode.
fn modes(draw: &mut Draw, m: u64) -> Vec<u32> {
    (0..1 + draw.below(10)).map(|_| draw.below(m) as u32).collect()
}

/// The two words of a term. With a lean of 0 or 1 most modes are created, or annihilated; with 2 they are as often left out.
fn words(draw: &mut Draw, modes: &[u32], lean: u64) -> (u64, u64) {
    let (mut cre, mut ann) = (0, 0);
    for &mode in modes {
        let kind = draw.below(8);
        let kind = if kind < 4 { lean } else { kind - 4 };
        cre |= u64::from(kind == 0 || kind == 3) << mode;
        ann |= u64::from(kind == 1 || kind == 3) << mode;
    }
    (cre, ann)
}

/// A record of up to 12 terms; one in eight may be too heavy for a product.
fn record(draw: &mut Draw, m: u64, modes: &[u32], lean: u64) -> Record<'static> {
    let bits = if draw.below(8) == 0 { 34 } else { 12 };
    let mut terms = vec![];
    for _ in 0..draw.below(13) {
        let (cre, ann) = words(draw, modes, lean);
        terms.push((cre, ann, draw.below(1 << bits) as i64 - (1 << (bits - 1))));
    }
    Record::build(m, terms).unwrap()
}

/// The rows of one product, counted as docs/RECORD.md says.
fn rows(l: Term, r: Term) -> u64 {
    let empty = l.cre & r.cre & !l.ann != 0 || l.ann & r.ann & !r.cre != 0;
    if empty {
        0
    } else {
        1 << (l.ann & r.cre & !l.cre & !r.ann).count_ones()
    }
}

fn all_rows(a: &Record, b: &Record) -> u64 {
    a.terms().map(|l| b.terms().map(|r| rows(l, r)).sum::<u64>()).sum()
}

type Own = fn(&Record<'static>, &Record<'static>) -> Result<Product<'static>, Refusal>;
type Lent = for<'o> fn(&Record<'static>, &Record<'static>, &mut [u8], &'o mut [u8]) -> Result<Product<'o>, Refusal>;
const CALLS: [(Own, Lent); 3] = [
    (fermion::mul, fermion::mul_into),
    (fermion::commutator, fermion::commutator_into),
    (fermion::anticommutator, fermion::anticommutator_into),
];

fn reason<T>(answer: &Result<T, Refusal>) -> Option<Reason> {
    answer.as_ref().err().and_then(Refusal::reason)
}

#[test]
fn products_are_the_same_in_both_kinds_of_memory() {
    let mut draw = Draw(12);
    let (mut answered, mut refused, mut most) = (0, 0, 0);
    for _ in 0..2_000 {
        let m = 1 + draw.below(64);
        let modes = modes(&mut draw, m);
        let [a, b] = [(); 2].map(|()| {
            let lean = draw.below(3);
            record(&mut draw, m, &modes, lean)
        });
        let (forward, backward) = (all_rows(&a, &b), all_rows(&b, &a));
        assert_eq!(fermion::branches(&a, &b), Ok(Branches { forward, backward }));
        for ((own, lent), count) in CALLS.into_iter().zip([forward, forward + backward, forward + backward]) {
            let (mut work, mut out) = (vec![7; 24 * count as usize + 1_000], vec![7; fermion::MAX_BYTES]);
            let (own, lent) = (own(&a, &b), lent(&a, &b, &mut work, &mut out));
            assert_eq!(own, lent);
            let heavy = u128::from(a.weight()) * u128::from(b.weight()) > 1 << 60;
            assert_eq!(heavy, reason(&own) == Some(Reason::ProductTooHeavy));
            match &own {
                Ok(product) => assert_eq!(product.branches, count),
                Err(_) => assert!(heavy || reason(&own) == Some(Reason::TooManyTerms)),
            }
            (answered, refused) = (answered + u64::from(own.is_ok()), refused + u64::from(own.is_err()));
            most = most.max(count);
        }
    }
    // The draws reach what they are for.
    assert!(answered > 4_000 && refused > 50 && most > 2_048, "{answered} {refused} {most}");
}

#[test]
fn rows_are_the_same_in_both_kinds_of_memory() {
    let mut draw = Draw(13);
    let mut out = vec![7; 24 << 10];
    let (mut empty, mut most) = (0, 0);
    for _ in 0..5_000 {
        let modes = modes(&mut draw, 64);
        let [left, right] = [1, 0].map(|lean| words(&mut draw, &modes, lean));
        let own = fermion::mul_cmpnts(left, right).unwrap();
        assert!(fermion::mul_cmpnts_into(left, right, &mut out).unwrap().eq(own.iter().copied()));
        assert_eq!(own.len() as u64, rows((left.0, left.1, 1).into(), (right.0, right.1, 1).into()));
        (empty, most) = (empty + u64::from(own.is_empty()), most.max(own.len()));
    }
    assert!((1_000..4_000).contains(&empty) && most >= 64, "{empty} {most}");
}
