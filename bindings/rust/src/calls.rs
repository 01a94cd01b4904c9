use std::fmt;

use crate::face::{self, List, Multiplies, Reads, Sums};
use crate::record::HEADER;
use crate::{Counted, Reason, Record, Refusal, Rows, Term, HALF, MAX_BYTES, MAX_MODES, MAX_TERMS, REPORT, ROW};

/// The most words that a basis may have.
pub const MAX_BASIS: usize = 8;
/// The most bytes, 2^24, that a call takes by itself for work or rows, unless the caller names another ceiling.
///
/// The records decide how much a product needs, and records of 56 bytes can ask for more than any machine has. What needs
/// more than the ceiling is refused with 7.
pub const WORK_CEILING: usize = 1 << 24;

/// The most ladders that a line of text may have, where it is imported.
pub const MAX_LADDERS: usize = 12;
/// Bytes of text: no record is exported as more.
pub const MAX_TEXT: usize = 1 << 20;

/// Bytes of work for each part of a line, of which it has 2 to the number of its ladders.
const PART: usize = 48;
/// The parts of a line of 4 ladders, as those of two-body terms are.
const USUAL: usize = 1 << 4;
/// Bytes of a line: a minus, 19 digits, both words with all 64 modes, and a line feed.
const LINE: usize = 513;

/// What a term does to an occupation word.
#[derive(Clone, Copy, Debug, PartialEq, Eq, Hash)]
pub enum Outcome {
    /// It takes it to another.
    Applied {
        /// The new word.
        word: u64,
        /// 1 or -1.
        sign: i64,
    },
    /// It gives nothing, because of this.
    Zero(Blocked),
}

/// What blocks a term that gives nothing on an occupation word. It prints as a sentence.
///
/// ```
/// use fermion::{apply, word, Blocked, Outcome};
/// let Outcome::Zero(blocked) = apply(0, word(&[3, 5]), word(&[5])) else { panic!() };
/// assert_eq!((blocked, blocked.mode()), (Blocked::Missing { mode: 3 }, 3));
/// assert_eq!(blocked.to_string(), "mode 3 is not occupied and cannot be annihilated");
/// assert_eq!(Blocked::Occupied { mode: 0 }.to_string(), "mode 0 is still occupied and cannot be created");
/// ```
#[derive(Clone, Copy, Debug, PartialEq, Eq, Hash)]
pub enum Blocked {
    /// An annihilated mode is missing from the word.
    Missing {
        /// The lowest such mode.
        mode: u32,
    },
    /// No annihilated mode is missing, and a created mode is still occupied once the annihilated ones are removed.
    Occupied {
        /// The lowest such mode.
        mode: u32,
    },
}

impl Blocked {
    /// The mode that blocks the term, from 0 to 63.
    pub const fn mode(self) -> u32 {
        match self {
            Blocked::Missing { mode } | Blocked::Occupied { mode } => mode,
        }
    }
}

impl fmt::Display for Blocked {
    fn fmt(&self, f: &mut fmt::Formatter<'_>) -> fmt::Result {
        match self {
            Blocked::Missing { mode } => write!(f, "mode {mode} is not occupied and cannot be annihilated"),
            Blocked::Occupied { mode } => write!(f, "mode {mode} is still occupied and cannot be created"),
        }
    }
}

/// What the check of a record found.
#[derive(Clone, Copy, Debug, PartialEq, Eq, Hash)]
pub struct Checked {
    /// The mode count m.
    pub modes: u64,
    /// The number of terms.
    pub terms: u64,
    /// The sum of the coefficients' magnitudes.
    pub weight: u64,
}

/// The record of a product, and how many branches it took. It is taken wherever a record is.
///
/// ```
/// use fermion::{commutator, word, Record};
/// let [a, b, c] = [(1, 2), (2, 4), (4, 1)].map(|(cre, ann)| Record::build(3, [(cre, ann, 1)]).unwrap());
/// let answer = commutator(&commutator(&a, &b)?, &c)?; // [{0|2}, {2|0}]
/// assert_eq!(answer.record.to_string(), "1 {0|0} - 1 {2|2}");
/// assert_eq!(fermion::element(&answer, word(&[2]), word(&[2]))?, -1);
/// # Ok::<(), fermion::Refusal>(())
/// ```
#[derive(Clone, Debug, PartialEq, Eq, Hash)]
pub struct Product<'a> {
    /// The record.
    pub record: Record<'a>,
    /// The branches: a work of 24 bytes for each is enough.
    pub branches: u64,
}

impl AsRef<[u8]> for Product<'_> {
    fn as_ref(&self) -> &[u8] {
        self.record.as_bytes()
    }
}

/// How many branches the products of two records have, in both orders.
#[derive(Clone, Copy, Debug, PartialEq, Eq, Hash)]
pub struct Branches {
    /// Those of a b: a work of [`ROW`] bytes for each is enough for [`mul_into`].
    pub forward: u64,
    /// Those of b a.
    pub backward: u64,
}

impl Branches {
    /// The sum: a work of [`ROW`] bytes for each is enough for [`commutator_into`] and [`anticommutator_into`].
    pub const fn both(self) -> u64 {
        self.forward + self.backward
    }
}

/// Whether two records are equal.
#[derive(Clone, Copy, Debug, PartialEq, Eq, Hash)]
pub enum Comparison {
    /// They are, in all elements and in all bytes.
    Equal,
    /// They are not: their elements at this bra and ket differ.
    Different {
        /// The bra.
        bra: u64,
        /// The ket.
        ket: u64,
    },
}

/// The term {cre|ann} on an occupation word.
///
/// ```
/// use fermion::{apply, word, Blocked, Outcome};
/// assert_eq!(apply(word(&[2]), word(&[0]), word(&[0, 1])), Outcome::Applied { word: 6, sign: -1 });
/// assert_eq!(apply(word(&[0]), 0, word(&[0])), Outcome::Zero(Blocked::Occupied { mode: 0 }));
/// ```
pub fn apply(cre: u64, ann: u64, ket: u64) -> Outcome {
    match face::apply(cre, ann, ket) {
        [.., 0, 1, mode] => Outcome::Zero(Blocked::Missing { mode: mode as u32 }),
        [.., 0, _, mode] => Outcome::Zero(Blocked::Occupied { mode: mode as u32 }),
        [.., word, minus] => Outcome::Applied { word, sign: if minus == 0 { 1 } else { -1 } },
    }
}

/// The terms of the product of two terms, each given as (creation word, annihilation word).
///
/// There are 2^b of them for b modes that branch. Refusal 7: their rows, 24 bytes each, are more than [`WORK_CEILING`]
/// bytes, 2^24; then no memory is taken for them. The terms handed back take as much again.
///
/// ```
/// let terms = fermion::mul_cmpnts((0, 1), (1, 0))?;
/// assert_eq!(terms, [(0, 0, 1).into(), (1, 1, -1).into()]);
/// # Ok::<(), fermion::Refusal>(())
/// ```
pub fn mul_cmpnts(left: (u64, u64), right: (u64, u64)) -> Result<Vec<Term>, Refusal> {
    mul_cmpnts_within(left, right, WORK_CEILING)
}

/// [`mul_cmpnts`] with a ceiling of the caller's, in bytes, for its rows, in place of [`WORK_CEILING`].
///
/// Where the system does not give the memory for the rows, or for the terms, it is refused with 7 as well.
pub fn mul_cmpnts_within(left: (u64, u64), right: (u64, u64), ceiling: usize) -> Result<Vec<Term>, Refusal> {
    let rows = match branches(&alone(left)?, &alone(right)?) {
        Ok(counts) => fitting(counts.forward, ceiling),
        // 59 modes or more branch in one of the two orders. No mode branches in both, so at most 5 do in the other.
        Err(_) => (1 << 5).min(ceiling / ROW),
    };
    let (mut out, mut terms) = (zeros(ROW * rows), Vec::new());
    if terms.try_reserve_exact(rows).is_err() {
        out.clear(); // no room for the terms: then none for the rows either, and the library says 7
    }
    terms.extend(mul_cmpnts_into(left, right, &mut out)?);
    Ok(terms)
}

/// [`mul_cmpnts`] with rows in memory of the caller's, which is zero past them. Refusal 7: it is too short.
///
/// ```
/// let mut out = [255; 50];
/// let rows = fermion::mul_cmpnts_into((0, 1), (1, 0), &mut out)?;
/// assert_eq!(rows.len(), 2);
/// assert_eq!(out[48..], [0, 0]);
/// assert_eq!(fermion::mul_cmpnts_into((0, 1), (1, 0), &mut out[..47]).unwrap_err().number, 7);
/// # Ok::<(), fermion::Refusal>(())
/// ```
pub fn mul_cmpnts_into(left: (u64, u64), right: (u64, u64), out: &mut [u8]) -> Result<Rows<'_>, Refusal> {
    let length = face::mul_cmpnts(left, right, out)?[3] as usize;
    Ok(Rows::new(&out[..length]))
}

/// The modes, the number of terms and the weight of a record. Refusals: 1 to 5.
///
/// ```
/// use fermion::{check, Checked, Record};
/// let record = Record::build(3, [(1, 1, 4), (2, 1, -6)])?;
/// assert_eq!(check(&record)?, Checked { modes: 3, terms: 2, weight: 10 });
/// # Ok::<(), fermion::Refusal>(())
/// ```
pub fn check(a: &(impl AsRef<[u8]> + ?Sized)) -> Result<Checked, Refusal> {
    let [.., modes, terms, weight] = face::CHECK.call(a.as_ref())?;
    Ok(Checked { modes, terms, weight })
}

/// The sum of two records. Refusals: 1 to 6, 10, 9.
///
/// ```
/// use fermion::{add, Record};
/// let sum = add(&Record::build(2, [(1, 1, 4)])?, &Record::build(2, [(1, 1, 1), (2, 2, 1)])?)?;
/// assert_eq!(sum.to_string(), "5 {0|0} + 1 {1|1}");
/// # Ok::<(), fermion::Refusal>(())
/// ```
pub fn add(a: &(impl AsRef<[u8]> + ?Sized), b: &(impl AsRef<[u8]> + ?Sized)) -> Result<Record<'static>, Refusal> {
    summed(face::ADD, a.as_ref(), b.as_ref())
}

/// [`add`] with an output of the caller's, which is zero past the record, or everywhere after a refusal. Refusals: also 11.
///
/// ```
/// use fermion::{add_into, Record};
/// let (a, mut out) = (Record::build(2, [(1, 1, 4)])?, [255; 60]);
/// assert_eq!(add_into(&a, &a, &mut out)?.weight(), 8);
/// assert_eq!(out[56..], [0; 4]);
/// assert_eq!(add_into(&a, &a, &mut out[..55]).unwrap_err().number, 11);
/// # Ok::<(), fermion::Refusal>(())
/// ```
pub fn add_into<'o>(
    a: &(impl AsRef<[u8]> + ?Sized),
    b: &(impl AsRef<[u8]> + ?Sized),
    out: &'o mut [u8],
) -> Result<Record<'o>, Refusal> {
    summed_into(face::ADD, a.as_ref(), b.as_ref(), out)
}

/// The first record less the second. Refusals: 1 to 6, 10, 9.
///
/// ```
/// let a = fermion::Record::build(2, [(1, 1, 4)])?;
/// assert!(fermion::sub(&a, &a)?.is_empty());
/// # Ok::<(), fermion::Refusal>(())
/// ```
pub fn sub(a: &(impl AsRef<[u8]> + ?Sized), b: &(impl AsRef<[u8]> + ?Sized)) -> Result<Record<'static>, Refusal> {
    summed(face::SUB, a.as_ref(), b.as_ref())
}

/// [`sub`] with an output of the caller's, as [`add_into`].
pub fn sub_into<'o>(
    a: &(impl AsRef<[u8]> + ?Sized),
    b: &(impl AsRef<[u8]> + ?Sized),
    out: &'o mut [u8],
) -> Result<Record<'o>, Refusal> {
    summed_into(face::SUB, a.as_ref(), b.as_ref(), out)
}

/// The branches of the products a b and b a, exactly: how much work they need. It takes no memory.
///
/// Refusals: 1 to 6, and 7 where 24 bytes for each branch of both are more than 2^63.
///
/// ```
/// use fermion::{branches, mul_into, Branches, Record, ROW};
/// let (a, b) = (Record::build(1, [(0, 1, 1)])?, Record::build(1, [(1, 0, 1)])?);
/// let counts = branches(&a, &b)?;
/// assert_eq!(counts, Branches { forward: 2, backward: 1 });
/// assert_eq!(counts.both(), 3);
///
/// let (mut work, mut out) = (vec![0; ROW * counts.forward as usize], [0; 80]);
/// assert_eq!(mul_into(&a, &b, &mut work, &mut out)?.record.to_string(), "1 {|} - 1 {0|0}");
/// # Ok::<(), fermion::Refusal>(())
/// ```
pub fn branches(a: &(impl AsRef<[u8]> + ?Sized), b: &(impl AsRef<[u8]> + ?Sized)) -> Result<Branches, Refusal> {
    let [.., forward, backward, _, _] = face::BRANCHES.call(a.as_ref(), b.as_ref())?;
    Ok(Branches { forward, backward })
}

/// The product a b. Refusals: 1 to 6, 8, 7, 10, 9.
///
/// It takes the work that it needs, 24 bytes for each branch, up to [`WORK_CEILING`], 2^24 bytes. Where it needs more it is
/// refused with 7: [`mul_within`] has a ceiling of the caller's, [`mul_into`] memory of the caller's.
///
/// ```
/// use fermion::{mul, Record};
/// let product = mul(&Record::build(1, [(0, 1, 1)])?, &Record::build(1, [(1, 0, 1)])?)?;
/// assert_eq!(product.record.to_string(), "1 {|} - 1 {0|0}");
/// assert_eq!(product.branches, 2);
/// # Ok::<(), fermion::Refusal>(())
/// ```
pub fn mul(a: &(impl AsRef<[u8]> + ?Sized), b: &(impl AsRef<[u8]> + ?Sized)) -> Result<Product<'static>, Refusal> {
    mul_within(a, b, WORK_CEILING)
}

/// [`mul`] with a ceiling of the caller's, in bytes, for the work, in place of [`WORK_CEILING`].
///
/// It takes exactly the work that it needs, or none if that is above the ceiling. Only where [`branches`] is refused with 7,
/// which may be for b a alone, it does not know what it needs: then it tries with [`WORK_CEILING`], or the ceiling if that
/// is less, and while that is too little with four times as much, at last with the ceiling itself. A product a b that has
/// too many branches itself is then refused only after the last try.
///
/// Where the system does not give the memory, it is refused with 7 (or 8, which comes first), as for one above the ceiling.
/// Some systems promise more than they have, and end the process when it is used: a ceiling below what there is prevents it.
///
/// ```
/// use fermion::{branches, mul_within, Reason, Record};
/// let all = (1 << 11) - 1;
/// let (a, b) = (Record::build(11, [(0, all, 1)])?, Record::build(11, [(all, 0, 1)])?);
/// assert_eq!(branches(&a, &b)?.forward, 2048);
/// assert_eq!(mul_within(&a, &b, 24 * 2048)?.record.len(), 2048);
/// assert_eq!(mul_within(&a, &b, 24 * 2048 - 1).unwrap_err().reason(), Some(Reason::RowsDoNotFit));
/// # Ok::<(), fermion::Refusal>(())
/// ```
pub fn mul_within(
    a: &(impl AsRef<[u8]> + ?Sized),
    b: &(impl AsRef<[u8]> + ?Sized),
    ceiling: usize,
) -> Result<Product<'static>, Refusal> {
    multiplied(face::MUL, Orders::Forward, a.as_ref(), b.as_ref(), ceiling)
}

/// [`mul`] with work and output of the caller's. The work is all zero afterwards, and the output is zero past the record, or
/// everywhere after a refusal. Refusals: also 11.
///
/// ```
/// use fermion::{mul_into, Record};
/// let (a, mut work, mut out) = (Record::build(2, [(1, 1, 4)])?, [255; 24], [255; 56]);
/// assert_eq!(mul_into(&a, &a, &mut work, &mut out)?.record.weight(), 16);
/// assert_eq!(work, [0; 24]);
/// # Ok::<(), fermion::Refusal>(())
/// ```
pub fn mul_into<'o>(
    a: &(impl AsRef<[u8]> + ?Sized),
    b: &(impl AsRef<[u8]> + ?Sized),
    work: &mut [u8],
    out: &'o mut [u8],
) -> Result<Product<'o>, Refusal> {
    multiplied_into(face::MUL, a.as_ref(), b.as_ref(), work, out)
}

/// The commutator a b - b a. Refusals: as [`mul`].
///
/// It takes the work that it needs, 24 bytes for each branch of both products, up to [`WORK_CEILING`], 2^24 bytes. Where it
/// needs more it takes none, and is refused with 7: [`commutator_within`] has a ceiling of the caller's.
///
/// ```
/// use fermion::{commutator, Record};
/// let answer = commutator(&Record::build(2, [(1, 2, 1)])?, &Record::build(2, [(2, 1, 1)])?)?;
/// assert_eq!(answer.record.to_string(), "1 {0|0} - 1 {1|1}");
/// # Ok::<(), fermion::Refusal>(())
/// ```
pub fn commutator(
    a: &(impl AsRef<[u8]> + ?Sized),
    b: &(impl AsRef<[u8]> + ?Sized),
) -> Result<Product<'static>, Refusal> {
    commutator_within(a, b, WORK_CEILING)
}

/// [`commutator`] with a ceiling of the caller's, in bytes, for the work, in place of [`WORK_CEILING`].
///
/// Where the system does not give the memory, it is refused as [`mul_within`] is.
pub fn commutator_within(
    a: &(impl AsRef<[u8]> + ?Sized),
    b: &(impl AsRef<[u8]> + ?Sized),
    ceiling: usize,
) -> Result<Product<'static>, Refusal> {
    multiplied(face::COMMUTATOR, Orders::Both, a.as_ref(), b.as_ref(), ceiling)
}

/// [`commutator`] with work and output of the caller's, as [`mul_into`].
pub fn commutator_into<'o>(
    a: &(impl AsRef<[u8]> + ?Sized),
    b: &(impl AsRef<[u8]> + ?Sized),
    work: &mut [u8],
    out: &'o mut [u8],
) -> Result<Product<'o>, Refusal> {
    multiplied_into(face::COMMUTATOR, a.as_ref(), b.as_ref(), work, out)
}

/// The anticommutator a b + b a. Refusals: as [`mul`].
///
/// It takes work up to [`WORK_CEILING`], 2^24 bytes, as [`commutator`] does; [`anticommutator_within`] has a ceiling of the
/// caller's.
///
/// ```
/// use fermion::{anticommutator, Record};
/// let answer = anticommutator(&Record::build(1, [(0, 1, 1)])?, &Record::build(1, [(1, 0, 1)])?)?;
/// assert_eq!(answer.record.to_string(), "1 {|}");
/// # Ok::<(), fermion::Refusal>(())
/// ```
pub fn anticommutator(
    a: &(impl AsRef<[u8]> + ?Sized),
    b: &(impl AsRef<[u8]> + ?Sized),
) -> Result<Product<'static>, Refusal> {
    anticommutator_within(a, b, WORK_CEILING)
}

/// [`anticommutator`] with a ceiling of the caller's, in bytes, for the work, in place of [`WORK_CEILING`].
///
/// Where the system does not give the memory, it is refused as [`mul_within`] is.
pub fn anticommutator_within(
    a: &(impl AsRef<[u8]> + ?Sized),
    b: &(impl AsRef<[u8]> + ?Sized),
    ceiling: usize,
) -> Result<Product<'static>, Refusal> {
    multiplied(face::ANTICOMMUTATOR, Orders::Both, a.as_ref(), b.as_ref(), ceiling)
}

/// [`anticommutator`] with work and output of the caller's, as [`mul_into`].
pub fn anticommutator_into<'o>(
    a: &(impl AsRef<[u8]> + ?Sized),
    b: &(impl AsRef<[u8]> + ?Sized),
    work: &mut [u8],
    out: &'o mut [u8],
) -> Result<Product<'o>, Refusal> {
    multiplied_into(face::ANTICOMMUTATOR, a.as_ref(), b.as_ref(), work, out)
}

/// The adjoint. Refusals: 1 to 5.
///
/// ```
/// use fermion::{adjoint, word, Record};
/// let a = Record::build(2, [(word(&[0, 1]), 0, 1)])?;
/// assert_eq!(adjoint(&a)?.to_string(), "-1 {|0,1}");
/// # Ok::<(), fermion::Refusal>(())
/// ```
pub fn adjoint(a: &(impl AsRef<[u8]> + ?Sized)) -> Result<Record<'static>, Refusal> {
    let a = a.as_ref();
    let mut out = vec![0; a.len().min(MAX_BYTES)];
    let length = face::adjoint(a, &mut out)?[3];
    Ok(record_in(out, length))
}

/// [`adjoint`] with an output of the caller's, as [`add_into`].
pub fn adjoint_into<'o>(a: &(impl AsRef<[u8]> + ?Sized), out: &'o mut [u8]) -> Result<Record<'o>, Refusal> {
    let length = face::adjoint(a.as_ref(), out)?[3];
    Ok(Record::written(&out[..length as usize]))
}

/// Whether the record is its own adjoint. Refusals: 1 to 5.
///
/// ```
/// assert!(fermion::is_hermitian(&fermion::Record::build(2, [(1, 2, 3), (2, 1, 3)])?)?);
/// # Ok::<(), fermion::Refusal>(())
/// ```
pub fn is_hermitian(a: &(impl AsRef<[u8]> + ?Sized)) -> Result<bool, Refusal> {
    Ok(told(face::IS_HERMITIAN, a.as_ref())? == 1)
}

/// Whether every term has as many creations as annihilations. Refusals: 1 to 5.
///
/// ```
/// assert!(!fermion::conserves_particle_number(&fermion::Record::build(2, [(3, 0, 1), (0, 3, 1)])?)?);
/// # Ok::<(), fermion::Refusal>(())
/// ```
pub fn conserves_particle_number(a: &(impl AsRef<[u8]> + ?Sized)) -> Result<bool, Refusal> {
    Ok(told(face::CONSERVES, a.as_ref())? == 1)
}

/// The largest rank of a term, 0 for no terms. The rank is the larger of its creation and annihilation counts. Refusals: 1
/// to 5.
///
/// ```
/// assert_eq!(fermion::max_n_body(&fermion::Record::build(4, [(3, 12, 1), (1, 1, 1)])?)?, 2);
/// assert_eq!(fermion::max_n_body(&fermion::Record::build(1, [(1, 0, 1)])?)?, 1);
/// # Ok::<(), fermion::Refusal>(())
/// ```
pub fn max_n_body(a: &(impl AsRef<[u8]> + ?Sized)) -> Result<u64, Refusal> {
    told(face::MAX_N_BODY, a.as_ref())
}

/// The word of all modes that occur in a term. Refusals: 1 to 5.
///
/// ```
/// assert_eq!(fermion::active_modes(&fermion::Record::build(4, [(1, 8, 1), (2, 0, 1)])?)?, 11);
/// # Ok::<(), fermion::Refusal>(())
/// ```
pub fn active_modes(a: &(impl AsRef<[u8]> + ?Sized)) -> Result<u64, Refusal> {
    told(face::ACTIVE_MODES, a.as_ref())
}

/// One record counted into a report: numbers that are all zero at first, and that are handed on from call to call.
///
/// A record that is refused is no refusal of the call: it adds one to the refused records, and the answer has its refusal.
/// Refusal: 15, for a report that counts 1,024 records, and for one with a number above its limit; the record is then not
/// looked at, and the report is left as it was. [`crate::Report`] has the numbers by name.
///
/// ```
/// use fermion::{report_add, Counted, Record, Report, REPORT};
/// let mut numbers = [0; REPORT];
/// assert_eq!(report_add(&Record::build(2, [(1, 1, 4), (2, 2, -6)])?, &mut numbers)?, Counted::Accepted);
/// assert!(!report_add(b"no record", &mut numbers)?.is_accepted());
/// assert_eq!(numbers[..6], [1, 1, 2, 0, 10, 10]);
/// assert_eq!(Report::from_numbers(numbers).weight(), 10);
/// # Ok::<(), fermion::Refusal>(())
/// ```
pub fn report_add(a: &(impl AsRef<[u8]> + ?Sized), report: &mut [u64; REPORT]) -> Result<Counted, Refusal> {
    Ok(match face::report_add(a.as_ref(), report)? {
        [.., 1, _, _] => Counted::Accepted,
        [.., number, place] => Counted::Refused(Refusal::new(number, 1, place)),
    })
}

/// The record of an operator on so many modes that is written as ladder text: the sum of all lines, each multiplied out.
///
/// A line is a whole number, then ladders such as `3^`, which creates mode 3, and `0_`, which annihilates mode 0, each after
/// one space, and a line feed; `docs/RECORD.md` of the repository has the grammar. Refusals: 1 for the mode count; for each
/// line in turn, the place being the line, 16, 2, 17; then 8, 7, 10.
///
/// The work is 48 bytes times 2 to the number of ladders, for each line. It is taken up to [`WORK_CEILING`], 2^24 bytes. Where
/// more is needed it is refused with 7: [`import_within`] has a ceiling of the caller's, [`import_into`] memory of the caller's.
///
/// ```
/// use fermion::{import, Reason};
/// assert_eq!(import(2, "1 0^ 0_\n-1 1^ 1_\n")?.to_string(), "1 {0|0} - 1 {1|1}");
/// assert_eq!(import(2, b"1 0^ 0_\n5 0^ 2_\n").unwrap_err().reason(), Some(Reason::WordOutside));
/// # Ok::<(), fermion::Refusal>(())
/// ```
pub fn import(modes: u64, text: &(impl AsRef<[u8]> + ?Sized)) -> Result<Record<'static>, Refusal> {
    import_within(modes, text, WORK_CEILING)
}

/// [`import`] with a ceiling of the caller's, in bytes, for the work, in place of [`WORK_CEILING`].
///
/// How much it needs the library alone can tell: it tries with as much as lines of 4 ladders need, or the ceiling if that is
/// less, and while that is too little with four times as much, at last with the ceiling itself. Where the system does not
/// give the memory, it is refused as [`mul_within`] is.
///
/// ```
/// use fermion::{import_within, Reason};
/// assert_eq!(import_within(1, "5\n7\n", 2 * 48)?.to_string(), "12 {|}");
/// assert_eq!(import_within(1, "5\n7\n", 2 * 48 - 1).unwrap_err().reason(), Some(Reason::RowsDoNotFit));
/// # Ok::<(), fermion::Refusal>(())
/// ```
pub fn import_within(
    modes: u64,
    text: &(impl AsRef<[u8]> + ?Sized),
    ceiling: usize,
) -> Result<Record<'static>, Refusal> {
    let text = text.as_ref();
    let lines = text.iter().filter(|&&byte| byte == b'\n').count().max(1);
    by_trying(lines.saturating_mul(PART * USUAL), ceiling, |bytes| {
        // No result has more terms than parts.
        let (mut work, mut out) = (zeros(bytes), vec![0; HEADER + ROW * (bytes / PART).min(MAX_TERMS)]);
        let length = face::import(modes, text, &mut work, &mut out)?[3];
        Ok(record_in(out, length))
    })
}

/// [`import`] with work and output of the caller's. The work is all zero afterwards, and the output is zero past the record,
/// or everywhere after a refusal. Refusals: also 11.
///
/// ```
/// use fermion::import_into;
/// let (mut work, mut out) = ([255; 96], [255; 60]);
/// assert_eq!(import_into(4, "-7 3^\n", &mut work, &mut out)?.to_string(), "-7 {3|}");
/// assert_eq!((work, &out[56..]), ([0; 96], &[0; 4][..]));
/// assert_eq!(import_into(4, "-7 3^\n", &mut work, &mut out[..55]).unwrap_err().number, 11);
/// # Ok::<(), fermion::Refusal>(())
/// ```
pub fn import_into<'o>(
    modes: u64,
    text: &(impl AsRef<[u8]> + ?Sized),
    work: &mut [u8],
    out: &'o mut [u8],
) -> Result<Record<'o>, Refusal> {
    let length = face::import(modes, text.as_ref(), work, out)?[3];
    Ok(Record::written(&out[..length as usize]))
}

/// A record as ladder text: one line a term in the record's order, creations and then annihilations, each ascending.
///
/// [`import`] gives back the record from it, on as many modes, where that is not refused: a line of more than 12 ladders is.
/// Refusals: 1 to 5. It takes at most [`MAX_TEXT`] bytes, 2^20.
///
/// ```
/// use fermion::{export, Record};
/// assert_eq!(export(&Record::build(4, [(8, 3, -2), (0, 0, 7)])?)?, "7\n-2 3^ 0_ 1_\n");
/// assert_eq!(export(&Record::parse(4, "")?)?, "");
/// # Ok::<(), fermion::Refusal>(())
/// ```
pub fn export(a: &(impl AsRef<[u8]> + ?Sized)) -> Result<String, Refusal> {
    let a = a.as_ref();
    let mut out = vec![0; (a.len() / ROW).saturating_mul(LINE).min(MAX_TEXT)];
    let length = face::export(a, &mut out)?[3];
    out.truncate(length as usize);
    out.shrink_to_fit();
    Ok(String::from_utf8(out).expect(ASCII))
}

/// [`export`] with an output of the caller's, which is zero past the text, or everywhere after a refusal. Refusals: also 11.
///
/// ```
/// use fermion::{export_into, Record};
/// let (a, mut out) = (Record::build(4, [(8, 1, -2)])?, [255; 10]);
/// assert_eq!(export_into(&a, &mut out)?, "-2 3^ 0_\n");
/// assert_eq!(out[9], 0);
/// assert_eq!(export_into(&a, &mut out[..8]).unwrap_err().number, 11);
/// # Ok::<(), fermion::Refusal>(())
/// ```
pub fn export_into<'o>(a: &(impl AsRef<[u8]> + ?Sized), out: &'o mut [u8]) -> Result<&'o str, Refusal> {
    let length = face::export(a.as_ref(), out)?[3];
    Ok(std::str::from_utf8(&out[..length as usize]).expect(ASCII))
}

const ASCII: &str = "the library writes digits, signs, spaces and line feeds";

/// Zeros in all of a shelf, or of whatever other memory is lent, of any length. Never refused. [`crate::Shelf`] has these calls
/// as methods, and says what they are for.
///
/// ```
/// let mut shelf = *b"left by an earlier job";
/// fermion::shelf_clear(&mut shelf);
/// assert_eq!(shelf, [0; 22]);
/// ```
pub fn shelf_clear(shelf: &mut [u8]) {
    face::shelf_clear(shelf);
}

/// A record copied to a shelf, memory of 65,536 bytes that is read and changed; the slot that it has there.
///
/// Refusals: 18 for the party, 19 for its half, 1 to 5 for the record, 20, 21; the shelf is then left as it was.
///
/// ```
/// use fermion::{shelf_put, Record, HALF, SHELF};
/// let mut shelf = vec![0; SHELF];
/// assert_eq!(shelf_put(&mut shelf, 1, &Record::parse(2, "")?)?, 0);
/// assert_eq!(shelf_put(&mut shelf, 1, &Record::parse(3, "")?)?, 1);
/// assert_eq!(shelf[HALF..][..8], [0, 2, 0, 0, 32, 0, 0, 0]); // where the first begins, and its length
/// assert_eq!(shelf[HALF + 32..][..8], [32, 2, 0, 0, 32, 0, 0, 0]);
/// # Ok::<(), fermion::Refusal>(())
/// ```
pub fn shelf_put(shelf: &mut [u8], party: u64, a: &(impl AsRef<[u8]> + ?Sized)) -> Result<u64, Refusal> {
    Ok(face::shelf_put(shelf, party, a.as_ref())?[5])
}

/// A copy of what stands in a party's slot, which nobody has looked at since it was put there: [`Record::new`] does.
///
/// Refusals: 18, 19, 22. It takes [`HALF`] bytes, which no record on a shelf is longer than.
///
/// ```
/// use fermion::{shelf_get, shelf_put, Record, SHELF};
/// let mut shelf = vec![0; SHELF];
/// let slot = shelf_put(&mut shelf, 0, &Record::build(2, [(1, 2, 5)])?)?;
/// assert_eq!(Record::new(shelf_get(&shelf, 0, slot)?)?.to_string(), "5 {0|1}");
/// # Ok::<(), fermion::Refusal>(())
/// ```
pub fn shelf_get(shelf: &[u8], party: u64, slot: u64) -> Result<Vec<u8>, Refusal> {
    let mut out = vec![0; HALF];
    let length = shelf_get_into(shelf, party, slot, &mut out)?.len();
    out.truncate(length);
    out.shrink_to_fit();
    Ok(out)
}

/// [`shelf_get`] with an output of the caller's, which is zero past the copy, or everywhere after a refusal. Refusals: also 11.
/// One of [`HALF`] bytes is never too short.
///
/// ```
/// use fermion::{shelf_get_into, shelf_put, Record, SHELF};
/// let (record, mut shelf, mut out) = (Record::build(2, [(1, 2, 5)])?, vec![0; SHELF], [255; 60]);
/// let slot = shelf_put(&mut shelf, 1, &record)?;
/// assert_eq!(shelf_get_into(&shelf, 1, slot, &mut out)?, record.as_bytes());
/// assert_eq!(out[56..], [0; 4]);
/// assert_eq!(shelf_get_into(&shelf, 1, slot, &mut out[..55]).unwrap_err().number, 11);
/// # Ok::<(), fermion::Refusal>(())
/// ```
pub fn shelf_get_into<'o>(shelf: &[u8], party: u64, slot: u64, out: &'o mut [u8]) -> Result<&'o [u8], Refusal> {
    let length = face::shelf_get(shelf, party, slot, out)?[3];
    Ok(&out[..length as usize])
}

/// Zeros in place of what stood in a party's slot, and in its entry. Refusals: 18, 19, 22; the shelf is then left as it was.
///
/// ```
/// use fermion::{shelf_drop, shelf_put, Record, SHELF};
/// let mut shelf = vec![0; SHELF];
/// let slot = shelf_put(&mut shelf, 0, &Record::build(2, [(1, 2, 5)])?)?;
/// shelf_drop(&mut shelf, 0, slot)?;
/// assert_eq!(shelf, [0; SHELF]);
/// # Ok::<(), fermion::Refusal>(())
/// ```
pub fn shelf_drop(shelf: &mut [u8], party: u64, slot: u64) -> Result<(), Refusal> {
    face::shelf_drop(shelf, party, slot).map(|_| ())
}

/// The creation words of the terms with one annihilation word, as a part of the caller's own bytes.
///
/// The part is empty where there is no such term, and for bytes that are not a record. [`Record::creations`] reads it.
///
/// ```
/// let record = fermion::Record::build(2, [(1, 2, 5), (2, 2, 7), (0, 1, 1)])?;
/// assert_eq!(fermion::block(&record, 2), [1, 0, 0, 0, 0, 0, 0, 0, 2, 0, 0, 0, 0, 0, 0, 0]);
/// assert!(fermion::block(b"no record", 2).is_empty());
/// # Ok::<(), fermion::Refusal>(())
/// ```
pub fn block(a: &(impl AsRef<[u8]> + ?Sized), ann: u64) -> &[u8] {
    let a = a.as_ref();
    let [.., start, length, _] = face::block(a, ann);
    &a[start as usize..][..length as usize]
}

/// The exact element between two occupation words. Refusals: 1 to 5, 12.
///
/// ```
/// use fermion::{element, word, Record};
/// let a = Record::build(2, [(word(&[1]), 0, 7)])?;
/// assert_eq!(element(&a, word(&[0, 1]), word(&[0]))?, -7);
/// # Ok::<(), fermion::Refusal>(())
/// ```
pub fn element(a: &(impl AsRef<[u8]> + ?Sized), bra: u64, ket: u64) -> Result<i64, Refusal> {
    Ok(face::element(a.as_ref(), bra, ket)?[5] as i64)
}

/// The exact elements between up to 8 different words: row the bra, column the ket, 0 past the basis.
///
/// Refusals: 1 to 5, 14, 12.
///
/// ```
/// use fermion::{mat_ortho_projected, word, Record};
/// let a = Record::build(2, [(1, 2, 3), (2, 2, 5)])?;
/// let matrix = mat_ortho_projected(&a, &[word(&[0]), word(&[1])])?;
/// assert_eq!((&matrix[0][..2], &matrix[1][..2]), (&[0, 3][..], &[0, 5][..]));
/// # Ok::<(), fermion::Refusal>(())
/// ```
pub fn mat_ortho_projected(
    a: &(impl AsRef<[u8]> + ?Sized),
    basis: &[u64],
) -> Result<[[i64; MAX_BASIS]; MAX_BASIS], Refusal> {
    let mut entries = [0; MAX_BASIS * MAX_BASIS];
    face::mat_ortho_projected(a.as_ref(), basis, &mut entries)?;
    let mut matrix = [[0; MAX_BASIS]; MAX_BASIS];
    for (row, from) in matrix.iter_mut().zip(entries.chunks_exact(MAX_BASIS)) {
        row.copy_from_slice(from);
    }
    Ok(matrix)
}

/// Whether two records are equal; if not, a bra and a ket at which their elements differ. Refusals: 1 to 6.
///
/// ```
/// use fermion::{compare, Comparison, Record};
/// let (a, b) = (Record::build(2, [(1, 2, 3)])?, Record::build(2, [(1, 2, 4)])?);
/// assert_eq!(compare(&a, &b)?, Comparison::Different { bra: 1, ket: 2 });
/// assert_eq!(compare(&a, &a)?, Comparison::Equal);
/// # Ok::<(), fermion::Refusal>(())
/// ```
pub fn compare(a: &(impl AsRef<[u8]> + ?Sized), b: &(impl AsRef<[u8]> + ?Sized)) -> Result<Comparison, Refusal> {
    Ok(match face::COMPARE.call(a.as_ref(), b.as_ref())? {
        [.., 1, _, _] => Comparison::Equal,
        [.., bra, ket] => Comparison::Different { bra, ket },
    })
}

/// The element of terms with float coefficients, added in the order given, one rounding for each that joins.
///
/// Entry i of every list belongs to term i. Refusals: 1, 2, 13, 12.
///
/// ```
/// assert_eq!(fermion::mat_elem_real(2, &[1, 0], &[1, 0], &[0.5, 0.25], 1, 1)?, 0.75);
/// # Ok::<(), fermion::Refusal>(())
/// ```
pub fn mat_elem_real(m: u64, cre: &[u64], ann: &[u64], coeff: &[f64], bra: u64, ket: u64) -> Result<f64, Refusal> {
    face::mat_elem_real(List { m, cre, ann }, coeff, bra, ket)
}

/// The element of terms with complex coefficients, as re and im: as [`mat_elem_real`], each part by itself.
///
/// ```
/// let value = fermion::mat_elem_complex(2, &[1, 0], &[1, 0], &[0.0, 0.25], &[0.5, 0.0], 1, 1)?;
/// assert_eq!(value, (0.25, 0.5));
/// # Ok::<(), fermion::Refusal>(())
/// ```
pub fn mat_elem_complex(
    m: u64,
    cre: &[u64],
    ann: &[u64],
    re: &[f64],
    im: &[f64],
    bra: u64,
    ket: u64,
) -> Result<(f64, f64), Refusal> {
    face::mat_elem_complex(List { m, cre, ann }, re, im, bra, ket)
}

fn told(call: Reads, a: &[u8]) -> Result<u64, Refusal> {
    Ok(call.call(a)?[5])
}

fn record_in(mut out: Vec<u8>, length: u64) -> Record<'static> {
    out.truncate(length as usize);
    out.shrink_to_fit();
    Record::written(out)
}

fn summed(call: Sums, a: &[u8], b: &[u8]) -> Result<Record<'static>, Refusal> {
    // No result has more terms than both records together, and none that is not refused more than MAX_TERMS.
    let mut out = vec![0; a.len().saturating_add(b.len()).min(MAX_BYTES)];
    let length = call.call(a, b, &mut out)?[3];
    Ok(record_in(out, length))
}

fn summed_into<'o>(call: Sums, a: &[u8], b: &[u8], out: &'o mut [u8]) -> Result<Record<'o>, Refusal> {
    let length = call.call(a, b, out)?[3];
    Ok(Record::written(&out[..length as usize]))
}

/// Which products a call makes rows of: a b, or b a as well.
#[derive(Clone, Copy)]
enum Orders {
    Forward,
    Both,
}

fn multiplied(
    call: Multiplies,
    orders: Orders,
    a: &[u8],
    b: &[u8],
    ceiling: usize,
) -> Result<Product<'static>, Refusal> {
    match (branches(a, b), orders) {
        (Ok(counts), Orders::Forward) => multiplied_with(call, a, b, fitting(counts.forward, ceiling)),
        (Ok(counts), Orders::Both) => multiplied_with(call, a, b, fitting(counts.both(), ceiling)),
        (Err(refusal), _) if refusal.reason() != Some(Reason::RowsDoNotFit) => Err(refusal),
        // b a may be what has too many: a b, of which the count is not told, may still fit.
        (Err(_), Orders::Forward) => by_trying(WORK_CEILING, ceiling, |bytes| multiplied_with(call, a, b, bytes / ROW)),
        (Err(_), Orders::Both) => multiplied_with(call, a, b, 0),
    }
}

/// With more and more work up to the ceiling, so that what needs little does not take all that it may.
fn by_trying<T>(least: usize, ceiling: usize, attempt: impl Fn(usize) -> Result<T, Refusal>) -> Result<T, Refusal> {
    let mut bytes = ceiling.min(least);
    loop {
        match attempt(bytes) {
            Err(refusal) if refusal.reason() == Some(Reason::RowsDoNotFit) && bytes < ceiling => {
                bytes = bytes.saturating_mul(4).min(ceiling);
            }
            answer => return answer,
        }
    }
}

/// With work for as many rows. Where they are 0, or there is no memory for them, the library says 8 or 7, in its order.
fn multiplied_with(call: Multiplies, a: &[u8], b: &[u8], rows: usize) -> Result<Product<'static>, Refusal> {
    // No result has more terms than rows.
    let (mut work, mut out) = (zeros(ROW * rows), vec![0; HEADER + ROW * rows.min(MAX_TERMS)]);
    let answer = call.call(a, b, &mut work, &mut out)?;
    Ok(Product { record: record_in(out, answer[3]), branches: answer[4] })
}

/// As many bytes, or none where the system does not give them: `vec![0; length]` would end the process.
fn zeros(length: usize) -> Vec<u8> {
    const BLOCK: [u8; 4096] = [0; 4096];
    let mut bytes = Vec::new();
    if bytes.try_reserve_exact(length).is_ok() {
        // By blocks, because `resize` goes byte by byte in a build without optimisation: 1 s for 200 MB, and not 0.06 s.
        while bytes.len() < length {
            bytes.extend_from_slice(&BLOCK[..BLOCK.len().min(length - bytes.len())]);
        }
    }
    bytes
}

/// As many rows if they fit under the ceiling, else none.
fn fitting(rows: u64, ceiling: usize) -> usize {
    usize::try_from(rows).ok().filter(|&rows| rows <= ceiling / ROW).unwrap_or(0)
}

/// One term, with the coefficient 1, on as many modes as there may be.
fn alone((cre, ann): (u64, u64)) -> Result<Record<'static>, Refusal> {
    Record::build(MAX_MODES, [(cre, ann, 1)])
}

fn multiplied_into<'o>(
    call: Multiplies,
    a: &[u8],
    b: &[u8],
    work: &mut [u8],
    out: &'o mut [u8],
) -> Result<Product<'o>, Refusal> {
    let answer = call.call(a, b, work, out)?;
    Ok(Product { record: Record::written(&out[..answer[3] as usize]), branches: answer[4] })
}
