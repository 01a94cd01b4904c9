use std::borrow::Cow;
use std::collections::BTreeMap;
use std::fmt;

use crate::face;
use crate::term::{take, write_sum};
use crate::{Reason, Refusal, Term};

/// The most modes that an operator may have.
pub const MAX_MODES: u64 = 64;
/// The most terms that a record may have.
pub const MAX_TERMS: usize = 2048;
/// The largest weight that a record may have: the sum of its coefficients' magnitudes.
pub const MAX_WEIGHT: u64 = 1 << 60;
/// The length of a record with as many terms as there may be: the longest there is.
pub const MAX_BYTES: usize = HEADER + ROW * MAX_TERMS;
/// The length of a row, as [`crate::mul_cmpnts_into`] writes them and as the work of a product holds one for each branch.
pub const ROW: usize = 24;
pub(crate) const HEADER: usize = 32;

/// An operator in bytes that the library accepted: its own bytes, or a view of the caller's.
///
/// Equal operators are equal records. `docs/RECORD.md` of the repository describes the bytes.
///
/// ```
/// use fermion::{word, Record};
/// let record = Record::build(2, [(word(&[1]), word(&[1]), -1), (word(&[0]), word(&[0]), 1)])?;
/// assert_eq!(record.to_string(), "1 {0|0} - 1 {1|1}");
/// assert_eq!((record.modes(), record.len(), record.weight()), (2, 2, 2));
///
/// let view = Record::new(record.as_bytes())?; // no copy
/// assert_eq!(view, record);
/// assert_eq!(Record::new(&b"no record"[..]).unwrap_err().number, 1);
/// # Ok::<(), fermion::Refusal>(())
/// ```
#[derive(Clone, PartialEq, Eq, Hash)]
pub struct Record<'a> {
    bytes: Cow<'a, [u8]>,
}

impl<'a> Record<'a> {
    /// The bytes as a record, if the library accepts them. Refusals: 1 to 5.
    pub fn new(bytes: impl Into<Cow<'a, [u8]>>) -> Result<Record<'a>, Refusal> {
        let bytes = bytes.into();
        face::CHECK.call(&bytes)?;
        Ok(Record { bytes })
    }

    /// Bytes that the library wrote as a record: it is proved that it accepts them.
    pub(crate) fn written(bytes: impl Into<Cow<'a, [u8]>>) -> Record<'a> {
        let bytes = bytes.into();
        Record { bytes }
    }

    /// The bytes.
    pub fn as_bytes(&self) -> &[u8] {
        &self.bytes
    }

    /// The bytes, copied only if they are the caller's.
    pub fn into_bytes(self) -> Vec<u8> {
        self.bytes.into_owned()
    }

    /// The record with bytes of its own.
    pub fn into_owned(self) -> Record<'static> {
        Record::written(self.into_bytes())
    }

    /// The mode count m.
    pub fn modes(&self) -> u64 {
        u64::from(self.bytes[4])
    }

    /// The number of terms.
    pub fn len(&self) -> usize {
        (self.bytes.len() - HEADER) / ROW
    }

    /// Whether there are no terms.
    pub fn is_empty(&self) -> bool {
        self.len() == 0
    }

    /// The sum of the coefficients' magnitudes.
    pub fn weight(&self) -> u64 {
        self.terms().map(|term| term.coeff.unsigned_abs()).sum()
    }

    /// The terms, ascending by annihilation word and then by creation word.
    ///
    /// ```
    /// use fermion::{Record, Term};
    /// let record = Record::build(2, [(1, 2, 5), (0, 1, -1)])?;
    /// assert!(record.terms().eq([Term { cre: 0, ann: 1, coeff: -1 }, Term { cre: 1, ann: 2, coeff: 5 }]));
    /// # Ok::<(), fermion::Refusal>(())
    /// ```
    pub fn terms(&self) -> Terms<'_> {
        let column = 8 * self.len();
        let (ann, rest) = self.bytes[HEADER..].split_at(column);
        let (cre, coeff) = rest.split_at(column);
        Terms { ann, cre, coeff }
    }

    /// The creation words of the terms with this annihilation word, ascending.
    ///
    /// ```
    /// let record = fermion::Record::build(2, [(1, 2, 5), (2, 2, 7), (0, 1, 1)])?;
    /// assert!(record.creations(2).eq([1, 2]));
    /// # Ok::<(), fermion::Refusal>(())
    /// ```
    pub fn creations(&self, ann: u64) -> impl Iterator<Item = u64> + '_ {
        let mut part = crate::block(self, ann);
        std::iter::from_fn(move || take(&mut part))
    }

    /// The operator as ladder text, one line a term, as [`Record::parse`] reads it. What `to_string` gives is for people: it
    /// shows the words.
    ///
    /// ```
    /// let record = fermion::Record::build(4, [(8, 1, -2), (0, 0, 7)])?;
    /// assert_eq!(record.to_text(), "7\n-2 3^ 0_\n");
    /// assert_eq!(record.to_string(), "7 {|} - 2 {3|0}");
    /// assert_eq!(fermion::Record::parse(4, &record.to_text())?, record);
    /// # Ok::<(), fermion::Refusal>(())
    /// ```
    pub fn to_text(&self) -> String {
        crate::export(self).expect("an accepted record has a text, and the output is long enough")
    }
}

impl Record<'static> {
    /// The record of a sum of terms (creation word, annihilation word, coefficient), in any order and with repeats.
    ///
    /// Terms are sorted, like terms joined and zeros dropped. Refusals: 1 for the mode count; for each term in turn 2, its
    /// place being that in the list given; then 10 and 9, as for a sum.
    ///
    /// ```
    /// use fermion::Record;
    /// assert!(Record::build(2, [(1, 2, 5), (1, 2, -5)])?.is_empty());
    /// let refusal = Record::build(2, [(1, 2, 5), (4, 0, 1)]).unwrap_err();
    /// assert_eq!((refusal.number, refusal.operand, refusal.place), (2, 1, 1));
    /// # Ok::<(), fermion::Refusal>(())
    /// ```
    pub fn build<T: Into<Term>>(modes: u64, terms: impl IntoIterator<Item = T>) -> Result<Record<'static>, Refusal> {
        if !(1..=MAX_MODES).contains(&modes) {
            return Err(Refusal::new(Reason::Malformed, 1, 0));
        }
        let sums = joined(modes, terms)?;
        if sums.len() > MAX_TERMS {
            return Err(Refusal::new(Reason::TooManyTerms, 0, 0));
        }
        // Up to 2,048 sums of numbers of 64 bits stay far below 2^127.
        let weight: u128 = sums.values().map(|sum| sum.unsigned_abs()).sum();
        if weight > u128::from(MAX_WEIGHT) {
            return Err(Refusal::new(Reason::ResultTooHeavy, 0, 0));
        }
        Record::new(encode(modes, &sums))
    }

    /// The operator that is written as ladder text, one product of ladders a line: [`crate::import`].
    ///
    /// A line is a whole number, then ladders such as `3^`, which creates mode 3, and `0_`, which annihilates mode 0, in any
    /// order and with repeats, each after one space, and a line feed. Refusals: 1 for the mode count; for each line in turn,
    /// the place being the line from 0, 16 for broken grammar, 2 for a mode outside, 17 for more than 12 ladders; then 8, 7,
    /// 10.
    ///
    /// ```
    /// use fermion::{Reason, Record};
    /// let record = Record::parse(2, "3 0^ 1_\n5 1_ 1^\n")?;
    /// assert_eq!(record.to_string(), "5 {|} + 3 {0|1} - 5 {1|1}");
    /// let refusal = Record::parse(2, "3 0^ 1_\n+5\n").unwrap_err();
    /// assert_eq!((refusal.reason(), refusal.place), (Some(Reason::BadLine), 1));
    /// # Ok::<(), fermion::Refusal>(())
    /// ```
    pub fn parse(modes: u64, text: &(impl AsRef<[u8]> + ?Sized)) -> Result<Record<'static>, Refusal> {
        crate::import(modes, text)
    }
}

/// Sums by (annihilation, creation). They have room for as many terms as memory holds.
type Joined = BTreeMap<(u64, u64), i128>;

fn joined<T: Into<Term>>(modes: u64, terms: impl IntoIterator<Item = T>) -> Result<Joined, Refusal> {
    let mut sums = Joined::new();
    for (place, term) in terms.into_iter().enumerate() {
        let Term { cre, ann, coeff } = term.into();
        if (cre | ann).checked_shr(modes as u32).unwrap_or(0) != 0 {
            return Err(Refusal::new(Reason::WordOutside, 1, place as u64));
        }
        *sums.entry((ann, cre)).or_default() += i128::from(coeff);
    }
    sums.retain(|_, sum| *sum != 0);
    Ok(sums)
}

fn encode(modes: u64, sums: &Joined) -> Vec<u8> {
    let n = sums.len();
    let header = [1, modes as usize, n, HEADER, HEADER + 8 * n, HEADER + 16 * n, HEADER + ROW * n, 0];
    let mut bytes = Vec::with_capacity(HEADER + ROW * n);
    bytes.extend(header.iter().flat_map(|&field| (field as u32).to_le_bytes()));
    bytes.extend(sums.keys().flat_map(|&(ann, _)| ann.to_le_bytes()));
    bytes.extend(sums.keys().flat_map(|&(_, cre)| cre.to_le_bytes()));
    bytes.extend(sums.values().flat_map(|&sum| (sum as i64).to_le_bytes()));
    bytes
}

impl AsRef<[u8]> for Record<'_> {
    fn as_ref(&self) -> &[u8] {
        &self.bytes
    }
}

impl<'a> IntoIterator for &'a Record<'_> {
    type Item = Term;
    type IntoIter = Terms<'a>;

    fn into_iter(self) -> Terms<'a> {
        self.terms()
    }
}

impl fmt::Display for Record<'_> {
    fn fmt(&self, f: &mut fmt::Formatter<'_>) -> fmt::Result {
        write_sum(f, self.terms())
    }
}

impl fmt::Debug for Record<'_> {
    fn fmt(&self, f: &mut fmt::Formatter<'_>) -> fmt::Result {
        write!(f, "Record on {} modes: {self}", self.modes())
    }
}

/// The terms of a record.
#[derive(Clone, Debug)]
pub struct Terms<'a> {
    ann: &'a [u8],
    cre: &'a [u8],
    coeff: &'a [u8],
}

impl Iterator for Terms<'_> {
    type Item = Term;

    fn next(&mut self) -> Option<Term> {
        Some(Term { ann: take(&mut self.ann)?, cre: take(&mut self.cre)?, coeff: take(&mut self.coeff)? as i64 })
    }

    fn size_hint(&self) -> (usize, Option<usize>) {
        (self.ann.len() / 8, Some(self.ann.len() / 8))
    }
}

impl ExactSizeIterator for Terms<'_> {}
