use std::fmt;

use crate::{shelf_clear, shelf_drop, shelf_get, shelf_get_into, shelf_put, Refusal};

/// Bytes of a shelf.
pub const SHELF: usize = 65_536;
/// Bytes of the half that a party has of it. No record on a shelf is longer.
pub const HALF: usize = 32_768;
/// The most records that a party has on a shelf.
pub const SLOTS: u64 = 16;

/// Memory of 65,536 bytes in which two parties, 0 and 1, keep up to 16 operators each: its own memory, or the caller's.
///
/// ```
/// use fermion::{Reason, Record, Shelf};
/// let (hop, pair) = (Record::parse(2, "1 0^ 1_\n1 1^ 0_\n")?, Record::parse(2, "7 0^ 1^\n")?);
/// let mut shelf = Shelf::new();
/// assert_eq!((shelf.put(0, &hop)?, shelf.put(0, &pair)?), (0, 1));
/// assert_eq!(shelf.put(1, &pair)?, 0); // a slot is the party's own
/// assert_eq!(Record::new(shelf.get(0, 0)?)?, hop);
/// shelf.drop_slot(0, 0)?;
/// assert_eq!(shelf.get(0, 0).unwrap_err().reason(), Some(Reason::NoSuchSlot));
/// # Ok::<(), fermion::Refusal>(())
/// ```
///
/// The two halves never touch: what one party puts, gets and drops, or is refused, changes no slot, no byte and no refusal of
/// the other's. A number is all that tells the parties apart, so it is the worker that says which party a call is for, and
/// never a tenant. [`Shelf::clear`] is neither party's.
///
/// It is printed without its bytes, which are the tenants'.
pub struct Shelf<'a> {
    memory: Memory<'a>,
}

enum Memory<'a> {
    Own(Box<[u8]>),
    Lent(&'a mut [u8]),
}

impl Shelf<'static> {
    /// A shelf on which nothing stands, with memory of its own.
    pub fn new() -> Shelf<'static> {
        Shelf::from_bytes(vec![0; SHELF])
    }

    /// A shelf that goes on with bytes that [`Shelf::as_bytes`] gave, as memory of its own.
    ///
    /// They are taken as they stand. Nothing is asked of their number or content before a call, which refuses with 19 what is
    /// not a shelf.
    ///
    /// ```
    /// use fermion::{Record, Shelf};
    /// let (record, mut shelf) = (Record::build(2, [(1, 2, 5)])?, Shelf::new());
    /// shelf.put(1, &record)?;
    /// let later = Shelf::from_bytes(shelf.as_bytes().to_vec());
    /// assert_eq!(later.get(1, 0)?, record.as_bytes());
    /// # Ok::<(), fermion::Refusal>(())
    /// ```
    pub fn from_bytes(bytes: impl Into<Box<[u8]>>) -> Shelf<'static> {
        Shelf { memory: Memory::Own(bytes.into()) }
    }
}

impl<'a> Shelf<'a> {
    /// A shelf on memory of the caller's, which is taken as it stands: nothing is copied or cleared, and every call changes it
    /// in place. Nothing is asked of its length or content before a call, which refuses with 19 what is not a shelf.
    ///
    /// ```
    /// use fermion::{Record, Shelf, HALF, SHELF};
    /// let (record, mut memory) = (Record::build(2, [(1, 2, 5)])?, vec![0; SHELF]);
    /// Shelf::on(&mut memory).put(1, &record)?;
    /// assert_eq!(memory[HALF + 512..][..56], *record.as_bytes());
    /// # Ok::<(), fermion::Refusal>(())
    /// ```
    pub fn on(memory: &'a mut [u8]) -> Shelf<'a> {
        Shelf { memory: Memory::Lent(memory) }
    }

    /// Keeps a record, or any other bytes that are one, for a party, and tells the slot: the party's lowest free one.
    ///
    /// The record is copied to the start of the lowest gap of the party's half that is long enough. Refusals: 18 for a party
    /// that is not 0 or 1; 19 where its half is damaged; 1 to 5 for what is not a record; 20 where all 16 slots are used; 21
    /// where no gap is long enough. The shelf is then left as it was.
    ///
    /// ```
    /// use fermion::{Reason, Record, Shelf, SLOTS};
    /// let (record, mut shelf) = (Record::build(2, [(1, 2, 5)])?, Shelf::new());
    /// for slot in 0..SLOTS {
    ///     assert_eq!(shelf.put(0, &record)?, slot);
    /// }
    /// assert_eq!(shelf.put(0, &record).unwrap_err().reason(), Some(Reason::NoFreeSlot));
    /// assert_eq!(shelf.put(1, &record)?, 0);
    /// # Ok::<(), fermion::Refusal>(())
    /// ```
    pub fn put(&mut self, party: u64, record: &(impl AsRef<[u8]> + ?Sized)) -> Result<u64, Refusal> {
        shelf_put(self.memory(), party, record)
    }

    /// A copy of what stands in a party's slot. It stays there.
    ///
    /// A record was looked at when it was put, and is not looked at again: memory of the caller's may hold anything. So these
    /// are bytes, and [`crate::Record::new`] makes a record of them, if they are one. Refusals: 18, 19; 22 for a slot that is
    /// empty or not below 16.
    pub fn get(&self, party: u64, slot: u64) -> Result<Vec<u8>, Refusal> {
        shelf_get(self.as_bytes(), party, slot)
    }

    /// [`Shelf::get`] with an output of the caller's, which is zero past the copy, or everywhere after a refusal. Refusals:
    /// also 11. One of [`HALF`] bytes is never too short.
    ///
    /// ```
    /// use fermion::{Record, Shelf};
    /// let (record, mut shelf, mut out) = (Record::build(2, [(1, 2, 5)])?, Shelf::new(), [255; 60]);
    /// let slot = shelf.put(1, &record)?;
    /// assert_eq!(Record::new(shelf.get_into(1, slot, &mut out)?)?, record);
    /// assert_eq!(out[56..], [0; 4]);
    /// assert_eq!(shelf.get_into(0, slot, &mut out).unwrap_err().number, 22);
    /// assert_eq!(out, [0; 60]);
    /// # Ok::<(), fermion::Refusal>(())
    /// ```
    pub fn get_into<'o>(&self, party: u64, slot: u64, out: &'o mut [u8]) -> Result<&'o [u8], Refusal> {
        shelf_get_into(self.as_bytes(), party, slot, out)
    }

    /// Takes a record off the shelf: zeros stand in its place, and slot and room are free. Refusals: 18, 19, 22; the shelf is
    /// then left as it was.
    ///
    /// It is not called `drop`, because `Drop` has that name: behind a `MutexGuard` or a `Box` the compiler would find theirs.
    ///
    /// ```
    /// use fermion::{Record, Shelf, SHELF};
    /// let mut shelf = Box::new(Shelf::new());
    /// let slot = shelf.put(0, &Record::build(2, [(1, 2, 5)])?)?;
    /// shelf.drop_slot(0, slot)?;
    /// assert_eq!(shelf.as_bytes(), [0; SHELF]);
    /// # Ok::<(), fermion::Refusal>(())
    /// ```
    pub fn drop_slot(&mut self, party: u64, slot: u64) -> Result<(), Refusal> {
        shelf_drop(self.memory(), party, slot)
    }

    /// Zeros in all of the memory, whatever its length: both parties' records are gone. Never refused.
    pub fn clear(&mut self) {
        shelf_clear(self.memory());
    }

    /// All bytes, of both halves, to be stored.
    pub fn as_bytes(&self) -> &[u8] {
        match &self.memory {
            Memory::Own(bytes) => bytes,
            Memory::Lent(bytes) => bytes,
        }
    }

    fn memory(&mut self) -> &mut [u8] {
        match &mut self.memory {
            Memory::Own(bytes) => bytes,
            Memory::Lent(bytes) => bytes,
        }
    }
}

impl Default for Shelf<'static> {
    fn default() -> Shelf<'static> {
        Shelf::new()
    }
}

impl fmt::Debug for Shelf<'_> {
    fn fmt(&self, f: &mut fmt::Formatter<'_>) -> fmt::Result {
        write!(f, "Shelf of {} bytes", self.as_bytes().len())
    }
}
