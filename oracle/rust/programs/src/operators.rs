//! Operators of two-body terms, each as a record of the library and as a list of zixy's.
use crate::draw::Draw;
use std::collections::BTreeMap;
use zixy::container::coeffs::traits::FieldElem;
use zixy::container::word_iters::terms::AsViewMut;
use zixy::fermion::mode::Modes;
use zixy::fermion::operator::normal::cmpnt_major::terms::Terms;

/// Terms by (annihilation, creation), with whole-number coefficients.
pub type Operator = BTreeMap<(u64, u64), i64>;

/// n two-body terms, up to half of them from `shared`, with coefficients from 1 to 1,000.
pub fn operator(draw: &mut Draw, m: u64, n: usize, shared: &Operator) -> Operator {
    let mut terms: Operator = shared.iter().take(n / 2).map(|(k, c)| (*k, *c)).collect();
    while terms.len() < n {
        terms.insert((draw.pair(m), draw.pair(m)), 1 + (draw.next() % 1000) as i64);
    }
    terms
}

pub fn record(m: u64, terms: &Operator) -> Vec<u8> {
    let n = terms.len() as u32;
    let header = [1, m as u32, n, 32, 32 + 8 * n, 32 + 16 * n, 32 + 24 * n, 0];
    let mut out: Vec<u8> = header.iter().flat_map(|x| x.to_le_bytes()).collect();
    out.extend(terms.keys().flat_map(|(ann, _)| ann.to_le_bytes()));
    out.extend(terms.keys().flat_map(|(_, cre)| cre.to_le_bytes()));
    out.extend(terms.values().flat_map(|c| c.to_le_bytes()));
    out
}

pub fn zixy_terms<C: FieldElem>(m: u64, terms: &Operator, coefficient: impl Fn(f64) -> C) -> Terms<C> {
    let mut out = Terms::<C>::new(Modes::from_count(m as usize));
    for ((ann, cre), c) in terms {
        out.push_u64it([*cre, *ann].into_iter(), coefficient(*c as f64));
    }
    out
}
