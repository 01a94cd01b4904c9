//! The specification's small cases, and examples worked out by hand.
mod common;

use common::{one, refusal, EXAMPLE};
use fermion::{apply, word, Blocked, Branches, Checked, Comparison, Outcome, Record, Refusal, Report, Term};

fn applied(word: u64, sign: i64) -> Outcome {
    Outcome::Applied { word, sign }
}

/// The rows of {l_cre|l_ann} times {r_cre|r_ann}, modes given one by one.
fn rows(l_cre: &[u32], l_ann: &[u32], r_cre: &[u32], r_ann: &[u32]) -> Vec<Term> {
    fermion::mul_cmpnts((word(l_cre), word(l_ann)), (word(r_cre), word(r_ann))).unwrap()
}

fn term(cre: &[u32], ann: &[u32], coeff: i64) -> Term {
    Term { cre: word(cre), ann: word(ann), coeff }
}

#[test]
fn cases_1_to_8() {
    assert_eq!(rows(&[0], &[], &[0], &[]), []);
    assert_eq!(rows(&[0], &[0], &[0], &[0]), [term(&[0], &[0], 1)]);
    assert_eq!(rows(&[], &[0], &[0], &[]), [term(&[], &[], 1), term(&[0], &[0], -1)]);
    assert_eq!(rows(&[], &[0], &[1], &[]), [term(&[1], &[0], -1)]);
    assert_eq!(rows(&[], &[0], &[1], &[2]), [term(&[1], &[0, 2], -1)]);
    assert_eq!(rows(&[0], &[2], &[1], &[]), [term(&[0, 1], &[2], -1)]);
    assert_eq!(rows(&[1], &[], &[0], &[]), [term(&[0, 1], &[], -1)]);
    assert_eq!(
        rows(&[], &[0, 1], &[0, 1], &[]),
        [term(&[], &[], -1), term(&[1], &[1], 1), term(&[0], &[0], 1), term(&[0, 1], &[0, 1], 1)]
    );
}

#[test]
fn cases_9_to_13() {
    for ket in [0, 1, 1 << 63, u64::MAX] {
        assert_eq!(apply(0, 0, ket), applied(ket, 1));
    }
    assert_eq!(apply(word(&[2]), word(&[0]), 3), applied(6, -1));
    assert_eq!(apply(0, word(&[2]), 3), Outcome::Zero(Blocked::Missing { mode: 2 }));
    assert_eq!(apply(word(&[0]), 0, 1), Outcome::Zero(Blocked::Occupied { mode: 0 }));
    assert_eq!(apply(word(&[0]), word(&[0]), 1), applied(1, 1));
    assert_eq!(apply(word(&[63]), 0, u64::MAX >> 1), applied(u64::MAX, -1));
    assert_eq!(apply(0, word(&[0, 1]), 3), applied(0, -1));
    assert_eq!(apply(word(&[0, 1]), 0, 0), applied(3, 1));
}

#[test]
fn what_blocks_a_term_is_told_in_a_sentence() {
    let told = |cre: &[u32], ann: &[u32], ket: &[u32]| match apply(word(cre), word(ann), word(ket)) {
        Outcome::Zero(blocked) => (blocked.mode(), blocked.to_string()),
        other => panic!("{other:?}"),
    };
    assert_eq!(told(&[0], &[63, 3], &[0]), (3, "mode 3 is not occupied and cannot be annihilated".into()));
    assert_eq!(told(&[63, 0], &[0], &[0, 63]), (63, "mode 63 is still occupied and cannot be created".into()));
}

#[test]
fn what_blocks_a_term_on_four_modes() {
    let lowest = |modes: u64| (0..64).find(|mode| modes >> mode & 1 == 1);
    for code in 0..4096u64 {
        let (cre, ann, ket) = (code & 15, code >> 4 & 15, code >> 8);
        let blocked = match (lowest(ann & !ket), lowest(cre & ket & !ann)) {
            (Some(mode), _) => Some(Blocked::Missing { mode }),
            (None, Some(mode)) => Some(Blocked::Occupied { mode }),
            (None, None) => None,
        };
        match apply(cre, ann, ket) {
            Outcome::Zero(told) => assert_eq!(Some(told), blocked, "{code}"),
            Outcome::Applied { word, .. } => assert_eq!((blocked, word), (None, ket & !ann | cre), "{code}"),
        }
    }
}

#[test]
fn case_14() -> Result<(), Refusal> {
    let answer = fermion::commutator(&one(2, 1, 2, 1), &one(2, 2, 1, 1))?;
    assert_eq!(answer.record.as_bytes(), EXAMPLE);
    assert_eq!(answer.branches, 4);
    assert_eq!(fermion::element(&EXAMPLE, 1, 1)?, 1);
    assert_eq!(fermion::element(&EXAMPLE, 2, 2)?, -1);
    assert_eq!(fermion::element(&EXAMPLE, 3, 3)?, 0);
    Ok(())
}

#[test]
fn case_15() -> Result<(), Refusal> {
    let (some, none) = (one(2, 0, 0, 1), Record::build(2, [(0, 0, 0)])?);
    assert_eq!(fermion::compare(&some, &none)?, Comparison::Different { bra: 0, ket: 0 });
    assert_eq!(fermion::compare(&none, &some)?, Comparison::Different { bra: 0, ket: 0 });
    assert_eq!(fermion::compare(&none, &none)?, Comparison::Equal);
    assert_eq!(fermion::compare(&one(2, 3, 1, 5), &one(2, 3, 1, 6))?, Comparison::Different { bra: 3, ket: 1 });
    Ok(())
}

#[test]
fn sums_and_products() -> Result<(), Refusal> {
    let (number, hop) = (one(2, 1, 1, 3), one(2, 1, 2, 2));
    assert_eq!(fermion::add(&number, &hop)?.to_string(), "3 {0|0} + 2 {0|1}");
    assert_eq!(fermion::sub(&number, &hop)?.to_string(), "3 {0|0} - 2 {0|1}");
    assert_eq!(fermion::mul(&number, &hop)?.record.to_string(), "6 {0|1}");
    assert_eq!(fermion::mul(&hop, &number)?.record.to_string(), "0");
    assert_eq!(fermion::commutator(&hop, &number)?.record.to_string(), "-6 {0|1}");
    assert_eq!(fermion::anticommutator(&hop, &number)?.record.to_string(), "6 {0|1}");
    Ok(())
}

/// [{0|1}, {1|2}] = {0|2}, and so on, every call taking an answer as it is.
#[test]
fn a_product_is_taken_wherever_a_record_is() -> Result<(), Refusal> {
    let [a, b, c] = [(1, 2), (2, 4), (4, 1)].map(|(cre, ann)| one(3, cre, ann, 1));
    let inner = fermion::commutator(&a, &b)?;
    assert_eq!(inner.record, one(3, 1, 4, 1));
    let outer = fermion::commutator(&fermion::commutator(&a, &b)?, &c)?;
    assert_eq!(outer.record.to_string(), "1 {0|0} - 1 {2|2}");
    assert_eq!(fermion::commutator(&c, &inner)?.record.to_string(), "-1 {0|0} + 1 {2|2}");
    assert_eq!(fermion::anticommutator(&inner, &c)?.record.to_string(), "1 {0|0} + 1 {2|2} + 2 {0,2|0,2}");
    assert_eq!(fermion::mul(&inner, &c)?.record.to_string(), "1 {0|0} + 1 {0,2|0,2}");
    assert_eq!(fermion::branches(&inner, &c)?, Branches { forward: 2, backward: 2 });
    assert_eq!(fermion::add(&inner, &a)?.to_string(), "1 {0|1} + 1 {0|2}");
    assert_eq!(fermion::sub(&inner, &inner)?.to_string(), "0");
    assert_eq!(fermion::adjoint(&inner)?, c);
    assert_eq!(fermion::compare(&inner, &one(3, 1, 4, 1))?, Comparison::Equal);
    assert_eq!(fermion::check(&outer)?, Checked { modes: 3, terms: 2, weight: 2 });
    assert_eq!(fermion::element(&inner, word(&[0]), word(&[2]))?, 1);
    assert_eq!(fermion::mat_ortho_projected(&outer, &[1, 4])?[1][1], -1);
    assert_eq!(fermion::block(&inner, word(&[2])), 1u64.to_le_bytes());
    assert!(fermion::is_hermitian(&outer)? && fermion::conserves_particle_number(&outer)?);
    assert_eq!((fermion::max_n_body(&outer)?, fermion::active_modes(&outer)?), (1, word(&[0, 2])));
    assert!(Report::new().add(&inner)?.is_accepted());
    Ok(())
}

#[test]
fn adjoints_and_figures() -> Result<(), Refusal> {
    assert_eq!(fermion::adjoint(&one(2, 3, 0, 1))?, one(2, 0, 3, -1));
    assert!(fermion::is_hermitian(&EXAMPLE)? && !fermion::is_hermitian(&one(2, 1, 2, 1))?);
    let mixed = Record::build(64, [(word(&[0, 1]), 0, 1), (word(&[63]), word(&[0, 2]), 1)])?;
    assert!(fermion::conserves_particle_number(&EXAMPLE)? && !fermion::conserves_particle_number(&mixed)?);
    assert_eq!(fermion::max_n_body(&mixed)?, 2);
    assert_eq!(fermion::active_modes(&mixed)?, word(&[0, 1, 2, 63]));
    Ok(())
}

#[test]
fn refusals_of_two_records() {
    let (heavy, light, two) = (one(2, 0, 0, 1 << 60), one(2, 0, 0, 1), one(2, 0, 0, 2));
    assert_eq!(refusal(fermion::add(&light, &one(3, 0, 0, 1))), (6, 0, 0));
    assert_eq!(refusal(fermion::branches(&light, &one(3, 0, 0, 1))), (6, 0, 0));
    for call in [fermion::mul, fermion::commutator, fermion::anticommutator] {
        assert_eq!(refusal(call(&light, &one(3, 0, 0, 1))), (6, 0, 0));
    }
    assert_eq!(refusal(fermion::compare(&light, &one(3, 0, 0, 1))), (6, 0, 0));
    assert_eq!(refusal(fermion::mul(&heavy, &two)), (8, 0, 0));
    assert_eq!(refusal(fermion::anticommutator(&heavy, &light)), (9, 0, 0));
    assert_eq!(refusal(fermion::add(&heavy, &light)), (9, 0, 0));
    let many = |start: u64| Record::build(12, (start..start + 1025).map(|cre| (cre, 0, 1))).unwrap();
    assert_eq!(refusal(fermion::add(&many(0), &many(1025))), (10, 0, 0));
    assert_eq!(fermion::add(&many(0), &many(0)).unwrap().len(), 1025);
}

#[test]
fn elements_and_matrices() -> Result<(), Refusal> {
    assert_eq!(fermion::element(&one(2, 2, 0, 1), 3, 1)?, -1);
    assert_eq!(fermion::element(&one(2, 0, 0, -1 << 60), 3, 3)?, -1 << 60);
    assert_eq!(refusal(fermion::element(&EXAMPLE, 4, 4)), (12, 3, 0));
    assert_eq!(refusal(fermion::element(&EXAMPLE, 3, 4)), (12, 4, 0));
    let mut expected = [[0; 8]; 8];
    expected[1][0] = 1;
    assert_eq!(fermion::mat_ortho_projected(&one(2, 1, 0, 1), &[0, 1])?, expected);
    assert_eq!(fermion::mat_ortho_projected(&EXAMPLE, &[])?, [[0; 8]; 8]);
    assert_eq!(refusal(fermion::mat_ortho_projected(&EXAMPLE, &[4; 9])), (14, 3, 0));
    assert_eq!(refusal(fermion::mat_ortho_projected(&EXAMPLE, &[0, 4, 0])), (12, 3, 1));
    assert_eq!(refusal(fermion::mat_ortho_projected(&EXAMPLE, &[0, 1, 2, 1, 0])), (14, 3, 3));
    Ok(())
}

#[test]
fn float_elements() -> Result<(), Refusal> {
    let on_one = |coeff: &[f64], bra, ket| {
        let words = vec![0; coeff.len()];
        fermion::mat_elem_real(1, &words, &words, coeff, bra, ket)
    };
    assert_eq!(on_one(&[1e16, 1.0], 0, 0)?, 1e16);
    assert_eq!(on_one(&[-0.0], 0, 0)?.to_bits(), 0);
    assert_eq!(fermion::mat_elem_complex(2, &[0], &[3], &[1.0], &[-2.0], 0, 3)?, (-1.0, 2.0));
    assert_eq!(refusal(on_one(&[1.0; 2049], 0, 0)), (1, 1, 0));
    assert_eq!(refusal(on_one(&[1.0, f64::NAN], 0, 0)), (13, 1, 1));
    assert_eq!(refusal(on_one(&[1.5e308, 1.5e308], 0, 0)), (13, 1, 1));
    assert_eq!(refusal(on_one(&[1.0], 2, 2)), (12, 3, 0));
    assert_eq!(refusal(on_one(&[1.0], 1, 2)), (12, 4, 0));
    assert_eq!(refusal(fermion::mat_elem_real(1, &[0, 2], &[0, 0], &[1.0, 1.0], 0, 0)), (2, 1, 1));
    assert_eq!(refusal(fermion::mat_elem_real(0, &[], &[], &[], 0, 0)), (1, 1, 0));
    assert_eq!(refusal(fermion::mat_elem_real(1, &[0], &[], &[1.0], 0, 0)), (1, 1, 0));
    assert_eq!(refusal(fermion::mat_elem_complex(1, &[0], &[0], &[1.0], &[], 0, 0)), (1, 1, 0));
    assert_eq!(refusal(fermion::mat_elem_complex(1, &[0], &[0], &[1.0], &[f64::INFINITY], 0, 0)), (13, 1, 0));
    Ok(())
}
