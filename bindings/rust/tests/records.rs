//! Records: built, read, accepted and refused.
mod common;

use std::collections::HashSet;

use common::{one, refusal, EXAMPLE};
use fermion::{Counted, Record, Refusal, Report, Term};

#[test]
fn the_example_is_read_and_built() -> Result<(), Refusal> {
    let record = Record::new(&EXAMPLE[..])?;
    assert!(record.terms().eq([(1, 1, 1), (2, 2, -1)].map(Term::from)));
    assert_eq!((record.modes(), record.len(), record.weight()), (2, 2, 2));
    assert_eq!(Record::build(2, record.terms())?.as_bytes(), EXAMPLE);
    assert_eq!(Record::build(2, [(2, 2, -1), (1, 1, 1)])?, record);
    assert_eq!(format!("{record:?}"), "Record on 2 modes: 1 {0|0} - 1 {1|1}");
    Ok(())
}

#[test]
fn owned_and_borrowed_records_are_equal() -> Result<(), Refusal> {
    let bytes = EXAMPLE.to_vec();
    let view = Record::new(&bytes)?;
    let owned = Record::new(bytes.clone())?;
    assert_eq!(view, owned);
    assert_eq!(view.as_bytes().as_ptr(), bytes.as_ptr());
    assert_eq!(HashSet::from([view.clone().into_owned()]), HashSet::from([owned.clone()]));
    assert_eq!(owned.into_bytes(), bytes);
    Ok(())
}

#[test]
fn building_joins_sorts_and_drops() -> Result<(), Refusal> {
    let terms = [(2, 1, 5), (1, 0, 3), (2, 1, -4), (0, 1, 9), (1, 1, 2), (1, 1, -2)];
    let record = Record::build(2, terms)?;
    assert_eq!(record.to_string(), "3 {0|} + 9 {|0} + 1 {1|0}");
    assert_eq!(record.into_iter().len(), 3);
    assert_eq!(
        Record::build(1, [(1, 0, i64::MAX), (1, 0, i64::MAX), (1, 0, -i64::MAX), (1, 0, 2 - i64::MAX)])?.weight(),
        2
    );
    assert_eq!(Record::build(64, [(u64::MAX, u64::MAX, 1)])?.len(), 1);
    Ok(())
}

#[test]
fn building_says_what_is_wrong() {
    for modes in [0, 65, u64::MAX] {
        assert_eq!(refusal(Record::build(modes, [(0, 0, 1)])), (1, 1, 0));
    }
    for wrong in [(4, 0, 1), (0, 4, 1), (5, 1, 0)] {
        assert_eq!(refusal(Record::build(2, [(2, 2, 1), wrong, (1, 1, 1)])), (2, 1, 1));
    }
    assert_eq!(refusal(Record::build(12, (0..2049).map(|cre| (cre, 0, 1 << 60)))), (10, 0, 0));
    assert_eq!(refusal(Record::build(1, [(0, 0, 1 << 60), (1, 0, -1)])), (9, 0, 0));
    assert_eq!(refusal(Record::build(1, [(0, 0, i64::MIN)])), (9, 0, 0));
    assert_eq!(Record::build(12, (0..2048).map(|cre| (cre, 0, 1))).unwrap().len(), 2048);
}

/// The example with another number in one of its entries.
fn with_entry(at: usize, number: u64) -> Vec<u8> {
    let mut bytes = EXAMPLE.to_vec();
    bytes[at..at + 8].copy_from_slice(&number.to_le_bytes());
    bytes
}

#[test]
fn every_refusal_of_a_record_by_every_call() {
    for (number, place, bytes) in [
        (1, 0, EXAMPLE[..79].to_vec()),
        (1, 0, vec![]),
        (2, 1, with_entry(56, 4)),
        (3, 1, with_entry(40, 0)),
        (4, 0, with_entry(64, 0)),
        (5, 0, with_entry(64, 1 << 60)),
        (5, 0, with_entry(64, 1 << 63)),
    ] {
        let first = (number, 1, place);
        assert_eq!(refusal(Record::new(&bytes)), first);
        assert_eq!(refusal(fermion::check(&bytes)), first);
        assert_eq!(refusal(fermion::adjoint(&bytes)), first);
        assert_eq!(refusal(fermion::is_hermitian(&bytes)), first);
        assert_eq!(refusal(fermion::conserves_particle_number(&bytes)), first);
        assert_eq!(refusal(fermion::max_n_body(&bytes)), first);
        assert_eq!(refusal(fermion::active_modes(&bytes)), first);
        assert_eq!(refusal(fermion::element(&bytes, 99, 99)), first);
        assert_eq!(refusal(fermion::mat_ortho_projected(&bytes, &[99; 9])), first);
        assert!(fermion::block(&bytes, 1).is_empty());
        let own = Refusal { number, operand: 1, place };
        assert_eq!(Report::new().add(&bytes), Ok(Counted::Refused(own))); // a report goes on
        for (a, b, operand) in [(&bytes[..], &[][..], 1), (&EXAMPLE[..], &bytes[..], 2)] {
            let numbers = (number, operand, place);
            assert_eq!(refusal(fermion::add(a, b)), numbers);
            assert_eq!(refusal(fermion::sub(a, b)), numbers);
            assert_eq!(refusal(fermion::mul(a, b)), numbers);
            assert_eq!(refusal(fermion::commutator(a, b)), numbers);
            assert_eq!(refusal(fermion::anticommutator(a, b)), numbers);
            assert_eq!(refusal(fermion::branches(a, b)), numbers);
            assert_eq!(refusal(fermion::compare(a, b)), numbers);
        }
    }
}

#[test]
fn a_block_is_a_part_of_the_bytes_given() {
    let bytes = Record::build(2, [(1, 2, 5), (2, 2, 7), (0, 1, 1)]).unwrap().into_bytes();
    assert_eq!(fermion::block(&bytes, 2).as_ptr(), bytes[64..].as_ptr());
    let record = Record::new(&bytes).unwrap();
    assert!(record.creations(2).eq([1, 2]));
    assert_eq!(record.creations(3).count() + record.creations(u64::MAX).count(), 0);
}

#[test]
fn an_operator_without_terms() -> Result<(), Refusal> {
    let none = fermion::sub(&one(64, 1, 1, 1), &one(64, 1, 1, 1))?;
    assert_eq!((none.modes(), none.len(), none.weight(), none.as_bytes().len()), (64, 0, 0, 32));
    assert!(none.is_empty() && none.terms().next().is_none());
    assert_eq!(none.to_string(), "0");
    Ok(())
}
