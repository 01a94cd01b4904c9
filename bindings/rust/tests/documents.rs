//! The crate beside the documents of the repository.
use std::path::Path;

use fermion::{Reason, Record, Refusal, UnknownReason};
use fermion::{HALF, REPORT, ROW, SHELF, SLOTS};
use fermion::{MAX_BASIS, MAX_BYTES, MAX_LADDERS, MAX_MODES, MAX_REPORTED, MAX_TERMS, MAX_TEXT, MAX_WEIGHT};

fn text(path: &str) -> String {
    std::fs::read_to_string(Path::new(env!("CARGO_MANIFEST_DIR")).join("../..").join(path)).unwrap()
}

fn refused(number: u64) -> Refusal {
    Refusal { number, operand: 0, place: 0 }
}

#[test]
fn the_sentences_are_those_of_the_table() {
    let text = text("docs/RECORD.md");
    let section = text.split("\n## Refusals\n").nth(1).unwrap();
    let mut numbers = vec![];
    for row in section.lines().filter(|line| line.starts_with("| ")) {
        let cells: Vec<&str> = row.split(" | ").collect();
        if let Ok(number) = cells[0].trim_start_matches("| ").parse() {
            assert_eq!(refused(number).sentence(), cells[1]);
            assert_eq!(refused(number).reason().map(Reason::sentence), Some(cells[1]));
            numbers.push(number);
        }
    }
    assert!(numbers.iter().copied().eq(1..=22));
    for number in [0, 23, u64::MAX] {
        assert_eq!(refused(number).sentence(), "a refusal that this crate has no words for");
    }
}

#[test]
fn the_reasons_have_the_numbers_of_the_document() {
    let named = [
        Reason::Malformed,
        Reason::WordOutside,
        Reason::OutOfOrder,
        Reason::ZeroCoeff,
        Reason::TooHeavy,
        Reason::ModesDiffer,
        Reason::RowsDoNotFit,
        Reason::ProductTooHeavy,
        Reason::ResultTooHeavy,
        Reason::TooManyTerms,
        Reason::OutputTooShort,
        Reason::OccupationOutside,
        Reason::NotFinite,
        Reason::BadBasis,
        Reason::BadReport,
        Reason::BadLine,
        Reason::TooManyLadders,
        Reason::NoSuchParty,
        Reason::DamagedHalf,
        Reason::NoFreeSlot,
        Reason::NoGap,
        Reason::NoSuchSlot,
    ];
    for (number, reason) in (1..).zip(named) {
        assert_eq!((u64::from(reason), reason.number()), (number, number));
        assert_eq!(Reason::try_from(number), Ok(reason));
        assert_eq!(refused(number).reason(), Some(reason));
    }
    for number in [0, 23, u64::MAX] {
        assert_eq!(Reason::try_from(number), Err(UnknownReason(number)));
        assert_eq!(refused(number).reason(), None);
    }
}

/// `RowsDoNotFit` as the header writes it: `ROWS_DO_NOT_FIT`.
fn in_capitals(name: &str) -> String {
    let parted = name.chars().flat_map(|c| [if c.is_uppercase() { "_" } else { "" }.to_string(), c.to_string()]);
    parted.collect::<String>().trim_start_matches('_').to_uppercase()
}

#[test]
fn the_names_are_those_of_the_header() {
    let header = text("include/fermion.h");
    let listed = header.split("enum fermion_refusal {").nth(1).unwrap().split('}').next().unwrap();
    let mut numbers = vec![];
    for line in listed.lines().filter_map(|line| line.trim().strip_prefix("FERMION_")) {
        let (name, rest) = line.split_once(" = ").unwrap();
        let number: u64 = rest.split([',', ' ']).next().unwrap().parse().unwrap();
        let named = Reason::try_from(number).map_or("OK".into(), |reason| in_capitals(&format!("{reason:?}")));
        assert_eq!(named, name, "{number}");
        numbers.push(number);
    }
    assert!(numbers.iter().copied().eq(0..=22));
}

#[test]
fn the_limits_are_those_of_the_document() {
    assert_eq!((MAX_MODES, MAX_TERMS, MAX_BYTES, MAX_BASIS, ROW), (64, 2_048, 49_184, 8, 24));
    assert_eq!(MAX_WEIGHT, 1_152_921_504_606_846_976);
    assert_eq!((REPORT, MAX_REPORTED), (201, 1_024));
    assert_eq!((MAX_LADDERS, MAX_TEXT), (12, 1_048_576));
    assert_eq!((SHELF, HALF, SLOTS), (65_536, 32_768, 16));
    let header = text("include/fermion.h");
    for (name, number) in [
        ("REPORT", REPORT),
        ("MAX_REPORTED", MAX_REPORTED as usize),
        ("MAX_LADDERS", MAX_LADDERS),
        ("MAX_TEXT", MAX_TEXT),
        ("SHELF", SHELF),
        ("HALF", HALF),
        ("SLOTS", SLOTS as usize),
    ] {
        let rest = header.split(&format!("#define FERMION_{name} ")).nth(1).unwrap();
        assert_eq!(rest.split_whitespace().next(), Some(number.to_string().as_str()), "{name}");
    }
}

#[test]
fn the_example_is_that_of_the_document() {
    let text = text("docs/RECORD.md");
    let section = text.split("\n### An example\n").nth(1).unwrap().split("\n##").next().unwrap();
    let hex: String = section.split('`').skip(1).step_by(2).collect::<String>().replace(' ', "");
    let bytes: Vec<u8> = (0..hex.len()).step_by(2).map(|i| u8::from_str_radix(&hex[i..i + 2], 16).unwrap()).collect();
    assert_eq!(Record::build(2, [(1, 1, 1), (2, 2, -1)]).unwrap().as_bytes(), bytes);
}

/// The page is installed too, without the scripts of the repository.
#[test]
fn the_front_page_asks_for_scripts_only_where_it_speaks_of_the_repository() {
    let page = text("bindings/rust/README.md");
    let (for_users, for_the_repository) = page.split_once("\n## Tests\n").unwrap();
    for block in for_users.split("```").skip(1).step_by(2) {
        assert!(!block.contains("tools/") && !block.contains("tests/"), "{block}");
    }
    assert!(for_users.contains("repository's: an installation does not have them."));
    assert!(for_the_repository.starts_with("\nThey are in the repository, not in an installation."));
}

#[test]
fn every_function_of_the_header_is_bound() {
    let (header, face, calls) =
        (text("include/fermion.h"), text("bindings/rust/src/face.rs"), text("bindings/rust/src/calls.rs"));
    let mut bound = 0;
    for name in header.split("void fermion_").skip(1).map(|rest| rest.split('(').next().unwrap()) {
        assert!(face.contains(&format!("fn fermion_{name}(")), "{name}");
        assert!(calls.contains(&format!("pub fn {name}(")), "{name}");
        bound += 1;
    }
    assert_eq!(face.matches("fn fermion_").count(), bound);
}
