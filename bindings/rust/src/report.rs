use std::fmt;

use crate::{report_add, Refusal, MAX_MODES};

/// How many numbers a report has.
pub const REPORT: usize = 201;
/// The most records that a report counts, refused ones among them.
pub const MAX_REPORTED: u64 = 1024;

/// What became of a record that was counted into a report.
#[derive(Clone, Copy, Debug, PartialEq, Eq, Hash)]
pub enum Counted {
    /// It is accepted, and its figures are in the report.
    Accepted,
    /// It is refused, as [`crate::check`] refuses it: the report has one refused record more, and is otherwise as it was.
    Refused(Refusal),
}

impl Counted {
    /// Whether the record is accepted.
    pub const fn is_accepted(self) -> bool {
        matches!(self, Counted::Accepted)
    }

    /// The record's own refusal, none if it is accepted.
    pub const fn refusal(self) -> Option<Refusal> {
        match self {
            Counted::Accepted => None,
            Counted::Refused(refusal) => Some(refusal),
        }
    }
}

/// How many of a report's terms have one rank, and their weight.
#[derive(Clone, Copy, Debug, Default, PartialEq, Eq, Hash)]
pub struct Share {
    /// The terms.
    pub terms: u64,
    /// The sum of their coefficients' magnitudes.
    pub weight: u128,
}

/// The figures of up to [`MAX_REPORTED`] records, counted one after the other. In which order does not matter.
///
/// ```
/// use fermion::{Reason, Record, Report, Share};
/// let mut report = Report::new();
/// assert!(report.add(&Record::build(2, [(1, 1, 4), (2, 2, -6)])?)?.is_accepted());
/// let refusal = report.add(b"no record")?.refusal().unwrap();
/// assert_eq!(refusal.reason(), Some(Reason::Malformed));
///
/// assert_eq!((report.accepted(), report.refused(), report.terms()), (1, 1, 2));
/// assert_eq!((report.weight(), report.largest()), (10, 10));
/// assert_eq!(report.rank(1), Share { terms: 2, weight: 10 });
///
/// let stored = *report.numbers();
/// assert_eq!(Report::from_numbers(stored), report);
/// # Ok::<(), fermion::Refusal>(())
/// ```
#[derive(Clone, PartialEq, Eq, Hash)]
pub struct Report {
    numbers: [u64; REPORT],
}

impl Report {
    /// A report that has counted nothing.
    pub const fn new() -> Report {
        Report::from_numbers([0; REPORT])
    }

    /// The report with these numbers, in the order of `include/fermion.h` of the repository, as [`Report::numbers`] gives
    /// them. They are not looked at before the next record is counted, which is refused with 15 where one is above its limit.
    pub const fn from_numbers(numbers: [u64; REPORT]) -> Report {
        Report { numbers }
    }

    /// The numbers, to be stored.
    pub const fn numbers(&self) -> &[u64; REPORT] {
        &self.numbers
    }

    /// Counts one record, or any other bytes.
    ///
    /// What is not a record is no refusal of the call: it is counted as refused, and the answer has its refusal. Refusal: 15
    /// for a 1,025th record, refused ones counted, and where a number of the report is above its limit; the report is then
    /// left as it was.
    ///
    /// ```
    /// use fermion::{Reason, Report};
    /// let mut report = Report::new();
    /// for _ in 0..fermion::MAX_REPORTED {
    ///     report.add(b"no record")?;
    /// }
    /// assert_eq!(report.add(b"no record").unwrap_err().reason(), Some(Reason::BadReport));
    /// assert_eq!(report.refused(), 1024);
    /// # Ok::<(), fermion::Refusal>(())
    /// ```
    pub fn add(&mut self, record: &(impl AsRef<[u8]> + ?Sized)) -> Result<Counted, Refusal> {
        report_add(record, &mut self.numbers)
    }

    /// How many records were accepted.
    pub const fn accepted(&self) -> u64 {
        self.numbers[0]
    }

    /// How many records were refused. They are in no other figure.
    pub const fn refused(&self) -> u64 {
        self.numbers[1]
    }

    /// The terms of all records.
    pub const fn terms(&self) -> u64 {
        self.share(2).terms
    }

    /// The weight of all records, exactly: it may reach 2^70.
    pub const fn weight(&self) -> u128 {
        self.share(2).weight
    }

    /// The largest weight of one record.
    pub const fn largest(&self) -> u64 {
        self.numbers[5]
    }

    /// The terms of one rank and their weight. The rank of a term is the larger of its creation and annihilation counts, as in
    /// [`crate::max_n_body`]. Above 64 there are none.
    ///
    /// ```
    /// use fermion::{Record, Report, Share};
    /// let mut report = Report::new();
    /// report.add(&Record::build(4, [(1, 1, 2), (3, 12, -5)])?)?;
    /// assert_eq!([0, 1, 2].map(|rank| report.rank(rank).weight), [0, 2, 5]);
    /// assert_eq!(report.rank(65), Share::default());
    /// # Ok::<(), fermion::Refusal>(())
    /// ```
    pub const fn rank(&self, rank: u64) -> Share {
        if rank > MAX_MODES {
            Share { terms: 0, weight: 0 }
        } else {
            self.share(6 + 3 * rank as usize)
        }
    }

    /// Terms, and the high and the low of their weight, from one place on.
    const fn share(&self, at: usize) -> Share {
        let [terms, high, low] = [self.numbers[at], self.numbers[at + 1], self.numbers[at + 2]];
        Share { terms, weight: ((high as u128) << 60) + low as u128 }
    }

    /// The ranks that have terms, or a weight.
    fn ranks(&self) -> impl Iterator<Item = (u64, Share)> + '_ {
        (0..=MAX_MODES).map(|rank| (rank, self.rank(rank))).filter(|&(_, share)| share != Share::default())
    }
}

impl Default for Report {
    fn default() -> Report {
        Report::new()
    }
}

impl fmt::Display for Report {
    fn fmt(&self, f: &mut fmt::Formatter<'_>) -> fmt::Result {
        let many = |count, what| format!("{count} {what}{}", if count == 1 { "" } else { "s" });
        writeln!(f, "{} accepted, {} refused", many(self.accepted(), "record"), self.refused())?;
        let (terms, weight, largest) = (many(self.terms(), "term"), self.weight(), self.largest());
        write!(f, "{terms} of weight {weight}, the most in one record {largest}")?;
        for (rank, Share { terms, weight }) in self.ranks() {
            write!(f, "\nrank {rank}: {} of weight {weight}", many(terms, "term"))?;
        }
        Ok(())
    }
}

impl fmt::Debug for Report {
    fn fmt(&self, f: &mut fmt::Formatter<'_>) -> fmt::Result {
        f.debug_struct("Report")
            .field("accepted", &self.accepted())
            .field("refused", &self.refused())
            .field("terms", &self.terms())
            .field("weight", &self.weight())
            .field("largest", &self.largest())
            .field("ranks", &self.ranks().collect::<Vec<_>>())
            .finish()
    }
}
