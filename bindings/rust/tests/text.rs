//! Ladder text in and out: by hand, drawn beside products of ladders made one by one, and in memory of the caller's.
mod common;

use common::{one, refusal, Draw, EXAMPLE};
use fermion::{Reason, Record, Refusal, MAX_BYTES, MAX_TEXT, WORK_CEILING};

const TEXT: &str = "1 0^ 0_\n-1 1^ 1_\n";
/// 12 ladders: 4,096 parts, 64 terms.
const PAIRS: &str = "1 0_ 0^ 1_ 1^ 2_ 2^ 3_ 3^ 4_ 4^ 5_ 5^\n";

#[test]
fn case_14() -> Result<(), Refusal> {
    assert_eq!(Record::parse(2, TEXT)?.as_bytes(), EXAMPLE);
    assert_eq!(fermion::export(&EXAMPLE)?, TEXT);
    let (hop, back) = (Record::parse(2, "1 0^ 1_\n")?, Record::parse(2, "1 1^ 0_\n")?);
    let answer = fermion::commutator(&hop, &back)?;
    assert_eq!(answer.record.to_text(), TEXT);
    assert_eq!(fermion::export(&answer)?, TEXT);
    Ok(())
}

/// Modes, a text, and its terms: creation word, annihilation word, coefficient.
type Worked = (u64, &'static str, &'static [(u64, u64, i64)]);

#[test]
fn lines_by_hand() -> Result<(), Refusal> {
    let worked: [Worked; 10] = [
        (1, "", &[]),
        (3, "0\n-0 2^\n", &[]),
        (1, "-5\n", &[(0, 0, -5)]),
        (4, "1 3^ 0^\n", &[(9, 0, -1)]),
        (4, "1 3^ 3^\n", &[]),
        (4, "1 3_ 3^ 3_\n", &[(0, 8, 1)]),
        (1, "1 0_ 0^\n", &[(0, 0, 1), (1, 1, -1)]),
        (64, "-7 63^ 63_\n", &[(1 << 63, 1 << 63, -7)]),
        (2, "1 1^ 1_\n1 0^ 0_\n-1 1^ 1_\n", &[(1, 1, 1)]),
        (1, "1152921504606846976\n", &[(0, 0, 1 << 60)]),
    ];
    for (modes, text, terms) in worked {
        assert_eq!(Record::parse(modes, text)?, Record::build(modes, terms.iter().copied())?, "{text}");
        assert_eq!(Record::parse(modes, text.as_bytes())?, fermion::import(modes, text)?, "{text}");
    }
    Ok(())
}

#[test]
fn refusals_with_their_lines() {
    let thirteen = format!("1\n1{}\n", " 0^".repeat(13));
    let digits = format!("{}\n", "9".repeat(10_000));
    let far = format!("1 {}^\n", "1".repeat(40));
    for (numbers, modes, text) in [
        ((1, 1, 0), 0, "x"),
        ((1, 1, 0), 65, ""),
        ((1, 1, 0), u64::MAX, "1\n"),
        ((16, 0, 0), 2, "1"),
        ((16, 0, 1), 2, "1\n\n"),
        ((16, 0, 2), 2, "1\n1\n+1 9^\n"),
        ((16, 0, 1), 2, "1\n\u{2212}1\n"),
        ((16, 0, 0), 2, "1\r\n"),
        ((2, 1, 1), 2, "1\n1 0^ 2_\n01\n"),
        ((2, 1, 0), 64, &far),
        ((17, 0, 1), 2, &thirteen),
        ((8, 0, 0), 2, "576460752303423489 0^\n"),
        ((8, 0, 0), 2, &digits),
    ] {
        assert_eq!(refusal(Record::parse(modes, text)), numbers, "{text}");
        assert_eq!(refusal(fermion::import_into(modes, text, &mut [7; 500], &mut [7; 500])), numbers, "{text}");
    }
    let many: String = (0..2049u64).map(line).collect();
    assert_eq!(refusal(Record::parse(12, &many)), (10, 0, 0));
    assert_eq!(Record::parse(12, &format!("{many}-1\n")).unwrap().len(), 2048);
    assert_eq!(refusal(fermion::export(&EXAMPLE[..79])), (1, 1, 0));
}

/// A line that annihilates the modes of a word.
fn line(word: u64) -> String {
    format!("1{}\n", fermion::modes(word).map(|mode| format!(" {mode}_")).collect::<String>())
}

#[test]
fn refusals_in_words() {
    for (text, sentence) in [
        ("1\n1 0 ^\n", "refused 16 (operand 0, place 1): a line breaks the grammar of ladder text"),
        (
            "1 0^ 0^ 0^ 0^ 0^ 0^ 0^ 0^ 0^ 0^ 0^ 0^ 0^\n",
            "refused 17 (operand 0, place 0): a line has more than 12 ladders",
        ),
        ("1 5^\n", "refused 2 (operand 1, place 0): a word of a term, or a mode of a line, is outside the modes"),
    ] {
        assert_eq!(Record::parse(5, text).unwrap_err().to_string(), sentence);
    }
    assert_eq!(Record::parse(5, "x").unwrap_err().reason(), Some(Reason::BadLine));
}

/// Memory full of what an earlier job left.
fn dirty(length: usize) -> Vec<u8> {
    (0..length).map(|i| (i * 37 + 11) as u8 | 1).collect()
}

fn zeros(bytes: &[u8]) -> bool {
    bytes.iter().all(|&byte| byte == 0)
}

#[test]
fn in_own_memory() {
    for (work_len, out_len, number) in [(384, 80, 0), (500, 99, 0), (383, 80, 7), (384, 79, 11), (0, 0, 7)] {
        let (mut work, mut out) = (dirty(work_len), dirty(out_len));
        match fermion::import_into(2, TEXT, &mut work, &mut out) {
            Ok(record) => assert_eq!((record.as_bytes(), number), (&EXAMPLE[..], 0)),
            Err(refusal) => assert_eq!(refusal.number, number),
        }
        assert!(zeros(&work) && zeros(&out[if number == 0 { 80 } else { 0 }..]));
    }
    for (out_len, number) in [(17, 0), (30, 0), (16, 11), (0, 11)] {
        let mut out = dirty(out_len);
        match fermion::export_into(&EXAMPLE, &mut out) {
            Ok(text) => assert_eq!((text, number), (TEXT, 0)),
            Err(refusal) => assert_eq!(refusal.number, number),
        }
        assert!(zeros(&out[if number == 0 { 17 } else { 0 }..]));
    }
}

#[test]
fn work_up_to_the_ceiling() {
    assert_eq!(fermion::import_within(6, PAIRS, 48 << 12).unwrap().len(), 64);
    assert_eq!(refusal(fermion::import_within(6, PAIRS, (48 << 12) - 1)), (7, 0, 0));
    assert_eq!(refusal(fermion::import_within(6, PAIRS, 0)), (7, 0, 0));
    assert_eq!(refusal(fermion::import_within(6, "100000000000000000000\n", 0)), (8, 0, 0));
    assert!(fermion::import_within(6, "", 0).unwrap().is_empty());
    let lines = WORK_CEILING / (48 << 12);
    assert_eq!(Record::parse(6, &PAIRS.repeat(lines)).unwrap().len(), 64);
    assert_eq!(refusal(Record::parse(6, &PAIRS.repeat(lines + 1))), (7, 0, 0));
    assert_eq!(fermion::import_within(6, &PAIRS.repeat(lines + 1), usize::MAX).unwrap().len(), 64);
}

/// The record of a product of ladders, (mode, whether it creates), by products of records of one ladder each.
fn multiplied(modes: u64, ladders: &[(u64, bool)], coeff: i64) -> Record<'static> {
    ladders.iter().fold(one(modes, 0, 0, coeff), |left, &(mode, creates)| {
        let right = if creates { one(modes, 1 << mode, 0, 1) } else { one(modes, 0, 1 << mode, 1) };
        fermion::mul(&left, &right).unwrap().record
    })
}

#[test]
fn texts_are_the_sums_of_their_products() -> Result<(), Refusal> {
    let mut draw = Draw(21);
    let (mut terms, mut nothing) = (0, 0);
    for _ in 0..1_500 {
        let modes = [1, 2, 4, 64][draw.below(4) as usize];
        let (mut text, mut sum) = (String::new(), Record::build(modes, [(0, 0, 0)])?);
        for _ in 0..draw.below(6) {
            let coeff = draw.below(19) as i64 - 9;
            let ladders: Vec<_> = (0..draw.below(7)).map(|_| (draw.below(modes), draw.below(2) == 1)).collect();
            text += &coeff.to_string();
            for &(mode, creates) in &ladders {
                text += &format!(" {mode}{}", if creates { '^' } else { '_' });
            }
            text.push('\n');
            if coeff != 0 {
                sum = fermion::add(&sum, &multiplied(modes, &ladders, coeff))?;
            }
        }
        let record = Record::parse(modes, &text)?;
        assert_eq!(record, sum, "{text}");
        assert_eq!(Record::parse(modes, &record.to_text())?, record);
        let mut out = dirty(record.to_text().len() + 3);
        assert_eq!(fermion::export_into(&record, &mut out)?, record.to_text());
        (terms, nothing) = (terms + record.len(), nothing + u64::from(record.is_empty()));
    }
    // The draws reach what they are for.
    assert!(terms > 2_000 && (200..1_000).contains(&nothing), "{terms} {nothing}");
    Ok(())
}

#[test]
fn the_longest_lines_fit() {
    let full = u64::MAX;
    let longest = one(64, full, full, -1 << 60).to_text();
    assert_eq!(longest.len(), 513);
    assert!(longest.starts_with("-1152921504606846976 0^ 1^ 2^") && longest.ends_with(" 62_ 63_\n"));
    let many = Record::build(64, (0..2048).map(|p| (full ^ p << 40, full, -1 << 49))).unwrap();
    assert_eq!(many.as_bytes().len(), MAX_BYTES);
    let text = many.to_text();
    assert!(text.len() < MAX_TEXT && text.lines().count() == 2048);
    assert_eq!(refusal(Record::parse(64, &text)), (17, 0, 0));
}
