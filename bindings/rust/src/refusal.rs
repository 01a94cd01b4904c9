use std::error::Error;
use std::fmt;

/// Why a call was refused: the numbers of `docs/RECORD.md` of the repository, by name.
///
/// ```
/// use fermion::{mul, Reason, Record};
/// let (a, b) = (Record::build(1, [(0, 1, 1)])?, Record::build(2, [(2, 0, 1)])?);
/// let advice = match mul(&a, &b).map_err(|refusal| refusal.reason()) {
///     Ok(_) => "none",
///     Err(Some(Reason::ModesDiffer)) => "give both records the same mode count",
///     Err(Some(Reason::RowsDoNotFit)) => "name a higher ceiling, with mul_within",
///     Err(_) => "see docs/RECORD.md",
/// };
/// assert_eq!(advice, "give both records the same mode count");
///
/// assert_eq!(u64::from(Reason::ModesDiffer), 6);
/// assert_eq!(Reason::try_from(6), Ok(Reason::ModesDiffer));
/// assert_eq!(Reason::try_from(99).unwrap_err().to_string(), "99 is no refusal that this crate knows");
/// # Ok::<(), fermion::Refusal>(())
/// ```
#[non_exhaustive]
#[derive(Clone, Copy, Debug, PartialEq, Eq, PartialOrd, Ord, Hash)]
pub enum Reason {
    /// The header, the length, the mode count (1 to 64), the number of terms (at most 2,048) or the lengths of the lists
    /// break the rules.
    Malformed = 1,
    /// A word of a term, or a mode of a line, is outside the modes.
    WordOutside = 2,
    /// A term does not stand above the one before it.
    OutOfOrder = 3,
    /// A coefficient is zero.
    ZeroCoeff = 4,
    /// The weight is above 2^60.
    TooHeavy = 5,
    /// The mode counts of the two records differ.
    ModesDiffer = 6,
    /// The rows, 24 bytes each, do not fit.
    RowsDoNotFit = 7,
    /// The product of the two weights, or the weight that the lines may come to, is above 2^60.
    ProductTooHeavy = 8,
    /// The weight of the result is above 2^60.
    ResultTooHeavy = 9,
    /// The result has more than 2,048 terms.
    TooManyTerms = 10,
    /// The output is shorter than the record or the text of the result.
    OutputTooShort = 11,
    /// A bra, a ket or a basis word is outside the modes.
    OccupationOutside = 12,
    /// A float coefficient or a running sum is not finite.
    NotFinite = 13,
    /// The basis has more than 8 words, or a word twice.
    BadBasis = 14,
    /// The report counts 1,024 records, or one of its numbers is above its limit.
    BadReport = 15,
    /// A line breaks the grammar of ladder text.
    BadLine = 16,
    /// A line has more than 12 ladders.
    TooManyLadders = 17,
    /// The party is not 0 or 1.
    NoSuchParty = 18,
    /// The party's half of the shelf is damaged, or the shelf is not 65,536 bytes.
    DamagedHalf = 19,
    /// The party has no free slot.
    NoFreeSlot = 20,
    /// No gap of the party's half is long enough for the record.
    NoGap = 21,
    /// The slot is empty or unknown.
    NoSuchSlot = 22,
}

/// All of them.
const EACH: [Reason; 22] = [
    Reason::Malformed,
    Reason::WordOutside,
    Reason::OutOfOrder,
    Reason::ZeroCoeff,
    Reason::TooHeavy,
    Reason::ModesDiffer,
    Reason::RowsDoNotFit,
    Reason::ProductTooHeavy,
    Reason::ResultTooHeavy,
    Reason::TooManyTerms,
    Reason::OutputTooShort,
    Reason::OccupationOutside,
    Reason::NotFinite,
    Reason::BadBasis,
    Reason::BadReport,
    Reason::BadLine,
    Reason::TooManyLadders,
    Reason::NoSuchParty,
    Reason::DamagedHalf,
    Reason::NoFreeSlot,
    Reason::NoGap,
    Reason::NoSuchSlot,
];

impl Reason {
    /// The number, 1 or more.
    pub const fn number(self) -> u64 {
        self as u64
    }

    /// The number in words.
    pub const fn sentence(self) -> &'static str {
        match self {
            Reason::Malformed => {
                "the header, the length, the mode count (1 to 64), the number of terms (at most 2,048) \
                 or the lengths of the lists break the rules"
            }
            Reason::WordOutside => "a word of a term, or a mode of a line, is outside the modes",
            Reason::OutOfOrder => "a term does not stand above the one before it",
            Reason::ZeroCoeff => "a coefficient is zero",
            Reason::TooHeavy => "the weight is above 2^60",
            Reason::ModesDiffer => "the mode counts of the two records differ",
            Reason::RowsDoNotFit => "the rows, 24 bytes each, do not fit",
            Reason::ProductTooHeavy => {
                "the product of the two weights, or the weight that the lines may come to, is above 2^60"
            }
            Reason::ResultTooHeavy => "the weight of the result is above 2^60",
            Reason::TooManyTerms => "the result has more than 2,048 terms",
            Reason::OutputTooShort => "the output is shorter than the record or the text of the result",
            Reason::OccupationOutside => "a bra, a ket or a basis word is outside the modes",
            Reason::NotFinite => "a float coefficient or a running sum is not finite",
            Reason::BadBasis => "the basis has more than 8 words, or a word twice",
            Reason::BadReport => "the report counts 1,024 records, or one of its numbers is above its limit",
            Reason::BadLine => "a line breaks the grammar of ladder text",
            Reason::TooManyLadders => "a line has more than 12 ladders",
            Reason::NoSuchParty => "the party is not 0 or 1",
            Reason::DamagedHalf => "the party's half of the shelf is damaged, or the shelf is not 65,536 bytes",
            Reason::NoFreeSlot => "the party has no free slot",
            Reason::NoGap => "no gap of the party's half is long enough for the record",
            Reason::NoSuchSlot => "the slot is empty or unknown",
        }
    }
}

impl From<Reason> for u64 {
    fn from(reason: Reason) -> u64 {
        reason.number()
    }
}

impl TryFrom<u64> for Reason {
    type Error = UnknownReason;

    fn try_from(number: u64) -> Result<Reason, UnknownReason> {
        EACH.into_iter().find(|reason| reason.number() == number).ok_or(UnknownReason(number))
    }
}

/// A number that stands for no [`Reason`].
#[derive(Clone, Copy, Debug, PartialEq, Eq, Hash)]
pub struct UnknownReason(pub u64);

impl fmt::Display for UnknownReason {
    fn fmt(&self, f: &mut fmt::Formatter<'_>) -> fmt::Result {
        write!(f, "{} is no refusal that this crate knows", self.0)
    }
}

impl Error for UnknownReason {}

/// A call that was refused: which number, of which operand, at which place.
///
/// [`Refusal::reason`] has the number by name. `docs/RECORD.md` of the repository says when exactly each is given.
///
/// ```
/// use fermion::{check, Reason, Record};
/// let refusal = check(b"no record").unwrap_err();
/// assert_eq!((refusal.number, refusal.operand, refusal.place), (1, 1, 0));
/// assert_eq!(refusal.reason(), Some(Reason::Malformed));
/// let refusal = Record::build(2, [(1, 0, 1), (4, 0, 1)]).unwrap_err();
/// assert_eq!(
///     refusal.to_string(),
///     "refused 2 (operand 1, place 1): a word of a term, or a mode of a line, is outside the modes"
/// );
/// ```
#[derive(Clone, Copy, Debug, PartialEq, Eq, Hash)]
pub struct Refusal {
    /// Which of the refusals, 1 or more.
    pub number: u64,
    /// 1 the first record, the list of terms or the text, 2 the second record, 3 the bra or the basis, 4 the ket, 0 none of
    /// them.
    pub operand: u64,
    /// The index of the term, the basis word or the line, from 0; 0 where the number has no place.
    pub place: u64,
}

impl Refusal {
    pub(crate) fn new(number: impl Into<u64>, operand: u64, place: u64) -> Refusal {
        Refusal { number: number.into(), operand, place }
    }

    /// The number by name; none if this crate has no name for it, as a library newer than the crate may give.
    pub fn reason(&self) -> Option<Reason> {
        Reason::try_from(self.number).ok()
    }

    /// The number in words.
    pub fn sentence(&self) -> &'static str {
        self.reason().map_or("a refusal that this crate has no words for", Reason::sentence)
    }
}

impl fmt::Display for Refusal {
    fn fmt(&self, f: &mut fmt::Formatter<'_>) -> fmt::Result {
        write!(f, "refused {} (operand {}, place {}): {}", self.number, self.operand, self.place, self.sentence())
    }
}

impl Error for Refusal {}
