//! Figures for a batch: reports worked out by hand, full ones and bad ones, orders, and stored reports.
mod common;

use common::{one, refusal, Draw, EXAMPLE};
use fermion::{report_add, Counted, Reason, Record, Refusal, Report, Share, Term, MAX_REPORTED, REPORT};

/// The rank of a term: the larger of its creation and annihilation counts.
fn rank(term: &Term) -> usize {
    term.cre.count_ones().max(term.ann.count_ones()) as usize
}

/// Adds a term to its count and its weight, which has a high and a low.
fn count(numbers: &mut [u64], term: &Term) {
    let low = u128::from(numbers[2]) + u128::from(term.coeff.unsigned_abs());
    numbers[0] += 1;
    numbers[1] += (low / (1 << 60)) as u64;
    numbers[2] = (low % (1 << 60)) as u64;
}

/// The numbers of the report over a batch, which has a record's terms, and none for one that is refused.
fn figures(batch: &[Option<Vec<Term>>]) -> [u64; REPORT] {
    let mut numbers = [0; REPORT];
    for terms in batch {
        numbers[usize::from(terms.is_none())] += 1;
        for term in terms.iter().flatten() {
            count(&mut numbers[2..5], term);
            count(&mut numbers[6 + 3 * rank(term)..][..3], term);
        }
        let weight = terms.iter().flatten().map(|term| term.coeff.unsigned_abs()).sum();
        numbers[5] = numbers[5].max(weight);
    }
    numbers
}

/// A fresh report with one number changed.
fn with_number(at: usize, number: u64) -> [u64; REPORT] {
    let mut numbers = [0; REPORT];
    numbers[at] = number;
    numbers
}

/// {s|s} for each set s of 11 modes: 2,048 terms, "11 over r" of them of rank r, and a weight of 2^60.
fn heaviest() -> Record<'static> {
    Record::build(11, (0..2048).map(|modes| (modes, modes, 1 << 49))).unwrap()
}

/// A record without terms: it changes nothing but the accepted records.
fn none() -> Record<'static> {
    Record::build(1, [(0, 0, 0)]).unwrap()
}

#[test]
fn a_fresh_report() {
    let report = Report::new();
    assert_eq!((report.accepted(), report.refused(), report.terms()), (0, 0, 0));
    assert_eq!((report.weight(), report.largest()), (0, 0));
    assert!((0..=64).all(|rank| report.rank(rank) == Share::default()));
    assert_eq!((report.numbers(), &report), (&[0; REPORT], &Report::default()));
    assert_eq!(report.to_string(), "0 records accepted, 0 refused\n0 terms of weight 0, the most in one record 0");
}

#[test]
fn a_batch_by_hand() -> Result<(), Refusal> {
    let mut report = Report::new();
    assert_eq!(report.add(&EXAMPLE)?, Counted::Accepted); // {0|0} - {1|1}
    assert_eq!(report.numbers()[..12], [1, 0, 2, 0, 2, 2, 0, 0, 0, 2, 0, 2]);
    assert!(report.numbers()[12..].iter().all(|&number| number == 0));
    report.add(&Record::build(4, [(3, 12, -5), (3, 3, 2), (0, 0, 9)])?)?;
    report.add(&one(64, 1 << 63, 1, 3))?;
    report.add(&one(64, u64::MAX, u64::MAX, -1))?;
    assert_eq!((report.accepted(), report.refused(), report.terms()), (4, 0, 7));
    assert_eq!((report.weight(), report.largest()), (22, 16));
    for rank in 0..=70 {
        let (terms, weight) = match rank {
            0 => (1, 9),
            1 => (3, 5),
            2 => (2, 7),
            64 => (1, 1),
            _ => (0, 0),
        };
        assert_eq!(report.rank(rank), Share { terms, weight }, "{rank}");
    }
    assert_eq!(report.rank(u64::MAX), Share::default());
    assert_eq!(
        report.to_string(),
        "4 records accepted, 0 refused\n7 terms of weight 22, the most in one record 16\nrank 0: 1 term of weight 9\n\
         rank 1: 3 terms of weight 5\nrank 2: 2 terms of weight 7\nrank 64: 1 term of weight 1"
    );
    let mut short = Report::new();
    short.add(&EXAMPLE)?;
    assert_eq!(
        format!("{short:?}"),
        "Report { accepted: 1, refused: 0, terms: 2, weight: 2, largest: 2, ranks: [(1, Share { terms: 2, weight: 2 })] }"
    );
    Ok(())
}

#[test]
fn a_refused_record_only_adds_one_to_refused() -> Result<(), Refusal> {
    let mut report = Report::new();
    report.add(&EXAMPLE)?;
    let mut expected = *report.numbers();
    let mut outside = EXAMPLE;
    outside[56] = 4;
    for (bytes, number, place) in [(&[][..], 1, 0), (&EXAMPLE[..79], 1, 0), (&outside[..], 2, 1)] {
        let answer = report.add(bytes)?;
        assert_eq!(answer, Counted::Refused(Refusal { number, operand: 1, place }));
        assert_eq!((answer.is_accepted(), answer.refusal().map(|own| own.number)), (false, Some(number)));
        expected[1] += 1;
        assert_eq!(report.numbers(), &expected);
    }
    let answer = report.add(&none())?;
    assert_eq!((answer.is_accepted(), answer.refusal()), (true, None));
    expected[0] += 1;
    assert_eq!(report.numbers(), &expected);
    Ok(())
}

#[test]
fn weights_carry() -> Result<(), Refusal> {
    let mut report = Report::new();
    report.add(&one(1, 1, 1, -1 << 60))?;
    report.add(&one(1, 0, 0, (1 << 60) - 1))?;
    assert_eq!((report.weight(), report.largest()), ((1 << 61) - 1, 1 << 60));
    let low = (1 << 60) - 1;
    assert_eq!(report.numbers()[..12], [2, 0, 2, 1, low, 1 << 60, 1, 0, low, 1, 1, 0]);
    report.add(&one(1, 1, 1, 1))?;
    assert_eq!((&report.numbers()[3..5], &report.numbers()[9..12]), (&[2, 0][..], &[2, 1, 1][..]));
    assert_eq!(report.rank(1), Share { terms: 2, weight: (1 << 60) + 1 });
    Ok(())
}

/// No record is counted any more, whatever it is, and the report stays as it is.
fn assert_refused(numbers: [u64; REPORT]) {
    let (mut report, mut own) = (Report::from_numbers(numbers), numbers);
    for bytes in [&EXAMPLE[..], &[], none().as_bytes()] {
        assert_eq!(refusal(report.add(bytes)), (15, 0, 0));
        assert_eq!(refusal(report_add(bytes, &mut own)), (15, 0, 0));
        assert_eq!((report.numbers(), own), (&numbers, numbers));
    }
    assert_eq!(report.add(&EXAMPLE).unwrap_err().reason(), Some(Reason::BadReport));
}

#[test]
fn the_heaviest_1024_and_one_more() -> Result<(), Refusal> {
    let (mut report, heaviest) = (Report::new(), heaviest());
    assert_eq!((heaviest.len(), heaviest.weight()), (2048, 1 << 60));
    for _ in 0..MAX_REPORTED {
        report.add(&heaviest)?;
    }
    assert_eq!((report.accepted(), report.terms(), report.weight()), (1024, 1 << 21, 1 << 70));
    assert_eq!((report.largest(), &report.numbers()[2..5]), (1 << 60, &[1 << 21, 1024, 0][..]));
    let mut sets: u64 = 1; // "11 over rank", from the one before
    for rank in 0..=64 {
        let terms = 1024 * sets;
        assert_eq!(report.rank(rank), Share { terms, weight: u128::from(terms) << 49 });
        sets = sets * 11u64.saturating_sub(rank) / (rank + 1);
    }
    assert_refused(*report.numbers());
    Ok(())
}

#[test]
fn refused_records_are_among_the_1024() -> Result<(), Refusal> {
    for accepted in [0, 1, 1000, 1023] {
        let mut report = Report::new();
        for i in 0..1024 {
            assert_eq!(report.add(&EXAMPLE[..if i < accepted { 80 } else { 79 }])?.is_accepted(), i < accepted);
        }
        assert_eq!((report.accepted(), report.refused()), (accepted, 1024 - accepted));
        assert_refused(*report.numbers());
    }
    Ok(())
}

#[test]
fn numbers_above_their_limits() {
    for at in [2].into_iter().chain((6..REPORT).step_by(3)) {
        for (part, limit) in [(at, 1 << 21), (at + 1, 1024), (at + 2, (1 << 60) - 1)] {
            assert_refused(with_number(part, limit + 1));
            assert_refused(with_number(part, u64::MAX));
            let (mut numbers, mut expected) = (with_number(part, limit), with_number(part, limit));
            expected[0] = 1;
            assert_eq!(report_add(&none(), &mut numbers), Ok(Counted::Accepted));
            assert_eq!(numbers, expected);
        }
    }
}

#[test]
fn counts_that_no_report_has() {
    let counts = |accepted, refused| {
        let mut numbers = with_number(0, accepted);
        numbers[1] = refused;
        numbers
    };
    for (accepted, refused) in [(1024, 0), (0, 1024), (1025, 0), (600, 424), (1 << 63, 1 << 63), (u64::MAX, 1)] {
        assert_refused(counts(accepted, refused));
        assert_refused(counts(refused, accepted));
    }
    for (accepted, refused) in [(1023, 0), (0, 1023), (600, 423)] {
        let mut report = Report::from_numbers(counts(accepted, refused));
        assert_eq!(report.add(&EXAMPLE), Ok(Counted::Accepted));
        assert_eq!((report.accepted(), report.refused()), (accepted + 1, refused));
    }
}

/// A word with many modes, with few or with none.
fn word(draw: &mut Draw) -> u64 {
    match draw.below(4) {
        0 => 0,
        1 => draw.number() & draw.number() & draw.number() & draw.number(),
        2 => draw.number(),
        _ => draw.number() | draw.number() | draw.number(),
    }
}

/// A record's bytes and its terms; one in five is damaged, and has none.
fn drawn(draw: &mut Draw) -> (Vec<u8>, Option<Vec<Term>>) {
    let (mut terms, bits) = (vec![], [1, 20, 57][draw.below(3) as usize]);
    for _ in 0..draw.below(8) {
        let (cre, ann) = (word(draw), word(draw));
        terms.push((cre, ann, draw.below(1 << bits) as i64 - (1 << (bits - 1))));
    }
    let record = Record::build(64, terms).unwrap();
    let (mut bytes, terms) = (record.as_bytes().to_vec(), record.terms().collect());
    if draw.below(5) == 0 {
        bytes.pop();
        return (bytes, None);
    }
    (bytes, Some(terms))
}

#[test]
fn the_order_does_not_matter() -> Result<(), Refusal> {
    let mut draw = Draw(21);
    let mut batch: Vec<_> = (0..200).map(|_| drawn(&mut draw)).collect();
    let expected = figures(&batch.iter().map(|(_, terms)| terms.clone()).collect::<Vec<_>>());
    assert!(expected[0] > 100 && expected[1] > 10 && expected[3] > 1, "{:?}", &expected[..6]);
    for _ in 0..10 {
        for end in (1..batch.len()).rev() {
            batch.swap(end, draw.below(end as u64 + 1) as usize);
        }
        let mut report = Report::new();
        for (bytes, terms) in &batch {
            assert_eq!(report.add(bytes)?.is_accepted(), terms.is_some());
        }
        assert_eq!(report.numbers(), &expected);
    }
    Ok(())
}

#[test]
fn every_step_of_a_batch() -> Result<(), Refusal> {
    let mut draw = Draw(22);
    let (mut report, mut own, mut known) = (Report::new(), [0; REPORT], vec![]);
    for _ in 0..300 {
        let (bytes, terms) = drawn(&mut draw);
        assert_eq!(report.add(&bytes)?, report_add(&bytes, &mut own)?);
        known.push(terms);
        assert_eq!((report.numbers(), own), (&figures(&known), figures(&known)));
        report = Report::from_numbers(*report.numbers()); // stored and loaded
    }
    Ok(())
}

#[test]
fn odd_terms_by_hand() -> Result<(), Refusal> {
    let (all, most) = (u64::MAX, u64::MAX - 1);
    let terms = [
        (0, 0, 0),
        (1, 0, 1),
        (0, 32, 1),
        (3, 4, 2),
        (4, 3, 2),
        (7, 0, 3),
        (0, 31, 5),
        (all, 0, 64),
        (1, all, 64),
        (most, all, 64),
        (most, 0, 63),
    ];
    for (cre, ann, rank) in terms {
        let (record, mut report) = (one(64, cre, ann, -3), Report::new());
        report.add(&record)?;
        assert_eq!((fermion::max_n_body(&record)?, report.rank(rank)), (rank, Share { terms: 1, weight: 3 }));
        assert_eq!(report.terms(), 1);
    }
    Ok(())
}

#[test]
fn the_largest_rank_is_that_of_max_n_body() -> Result<(), Refusal> {
    let mut draw = Draw(23);
    for _ in 0..300 {
        if let (bytes, Some(_)) = drawn(&mut draw) {
            let mut report = Report::new();
            report.add(&bytes)?;
            let largest = (0..=64).filter(|&rank| report.rank(rank).terms > 0).max();
            assert_eq!(largest.unwrap_or(0), fermion::max_n_body(&bytes)?);
        }
    }
    Ok(())
}

#[test]
fn a_report_is_a_value() -> Result<(), Refusal> {
    let mut report = Report::new();
    report.add(&EXAMPLE)?;
    let mut later = report.clone();
    later.add(&EXAMPLE)?;
    assert_ne!(later, report);
    assert_eq!((report.accepted(), later.accepted()), (1, 2));
    Ok(())
}
