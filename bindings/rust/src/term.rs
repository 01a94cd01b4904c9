use std::fmt;

use crate::ROW;

/// A creation word, an annihilation word and a coefficient.
///
/// ```
/// use fermion::{word, Term};
/// let term = Term { cre: word(&[0, 1]), ann: word(&[2]), coeff: -3 };
/// assert_eq!(term, (3, 4, -3).into());
/// assert_eq!(term.to_string(), "-3 {0,1|2}");
/// ```
#[derive(Clone, Copy, Debug, PartialEq, Eq, Hash)]
pub struct Term {
    /// The modes that are created.
    pub cre: u64,
    /// The modes that are annihilated.
    pub ann: u64,
    /// The coefficient.
    pub coeff: i64,
}

impl From<(u64, u64, i64)> for Term {
    /// From creation word, annihilation word and coefficient.
    fn from((cre, ann, coeff): (u64, u64, i64)) -> Term {
        Term { cre, ann, coeff }
    }
}

impl fmt::Display for Term {
    fn fmt(&self, f: &mut fmt::Formatter<'_>) -> fmt::Result {
        write!(f, "{} ", self.coeff)?;
        write_words(f, self)
    }
}

/// A term's words, such as {0,1|2}.
fn write_words(f: &mut fmt::Formatter<'_>, term: &Term) -> fmt::Result {
    let listed = |word| modes(word).map(|mode| mode.to_string()).collect::<Vec<_>>().join(",");
    write!(f, "{{{}|{}}}", listed(term.cre), listed(term.ann))
}

/// A sum of terms for people, 0 if there are none.
pub(crate) fn write_sum(f: &mut fmt::Formatter<'_>, terms: impl Iterator<Item = Term>) -> fmt::Result {
    let mut first = true;
    for term in terms {
        if first {
            write!(f, "{} ", term.coeff)?;
        } else {
            let sign = if term.coeff < 0 { '-' } else { '+' };
            write!(f, " {sign} {} ", term.coeff.unsigned_abs())?;
        }
        write_words(f, &term)?;
        first = false;
    }
    if first {
        write!(f, "0")?;
    }
    Ok(())
}

/// The word that holds these modes. A mode given twice is in it once.
///
/// ```
/// assert_eq!(fermion::word(&[0, 2]), 5);
/// ```
///
/// # Panics
///
/// If a mode is above 63.
pub const fn word(modes: &[u32]) -> u64 {
    let (mut made, mut i) = (0, 0);
    while i < modes.len() {
        assert!(modes[i] < 64, "a mode is 0 to 63");
        made |= 1 << modes[i];
        i += 1;
    }
    made
}

/// The modes of a word, ascending.
///
/// ```
/// assert!(fermion::modes(5).eq([0, 2]));
/// ```
pub fn modes(word: u64) -> impl Iterator<Item = u32> {
    (0..64).filter(move |mode| word >> mode & 1 == 1)
}

/// The terms of a product, read from rows of 24 bytes.
#[derive(Clone, Debug)]
pub struct Rows<'a>(&'a [u8]);

impl<'a> Rows<'a> {
    pub(crate) fn new(bytes: &'a [u8]) -> Rows<'a> {
        Rows(bytes)
    }

    /// The bytes of the rows that are still to come.
    pub fn as_bytes(&self) -> &'a [u8] {
        self.0
    }
}

impl Iterator for Rows<'_> {
    type Item = Term;

    fn next(&mut self) -> Option<Term> {
        let (ann, cre, coeff) = (take(&mut self.0)?, take(&mut self.0)?, take(&mut self.0)?);
        Some(Term { cre, ann, coeff: coeff as i64 })
    }

    fn size_hint(&self) -> (usize, Option<usize>) {
        (self.0.len() / ROW, Some(self.0.len() / ROW))
    }
}

impl ExactSizeIterator for Rows<'_> {}

/// The number at the front, which is taken away.
pub(crate) fn take(bytes: &mut &[u8]) -> Option<u64> {
    let (front, rest) = bytes.split_first_chunk()?;
    *bytes = rest;
    Some(u64::from_le_bytes(*front))
}
