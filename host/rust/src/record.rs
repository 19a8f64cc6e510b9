//! Block records: made by the engine's writer, read by accessors.

use std::fmt;

use crate::calls::stack;
use crate::memory::word_at;
use crate::{AuthorityIndex, Committee, Locator, Reference, Refusal, RoundNumber, Stake, calls, fresh_store, fresh_table};

/// Where the includes begin, in a record without a time.
const HEADER: usize = 56;

/// A well-formed block record.
///
/// ```
/// use lomkhvide::{AuthorityIndex, Record, RoundNumber, Statement};
///
/// let first = Record::builder(RoundNumber(0), AuthorityIndex(0), [1; 32]).finish()?;
/// let second = Record::builder(RoundNumber(1), AuthorityIndex(0), [2; 32]).include(first.reference()).share(b"gain").finish()?;
/// assert_eq!(second.includes().collect::<Vec<_>>(), [first.reference()]);
/// assert_eq!(second.statements().next(), Some(Statement::Share(b"gain")));
/// # Ok::<(), lomkhvide::Refusal>(())
/// ```
#[derive(Clone, PartialEq, Eq, Hash)]
pub struct Record {
    bytes: Vec<u8>,
}

/// A statement of a record. Its index among all of them is the offset of a share.
///
/// ```
/// use lomkhvide::{AuthorityIndex, Record, Reference, RoundNumber, Statement};
///
/// let block = Reference::new(RoundNumber(1), AuthorityIndex(0), [2; 32]);
/// let record = Record::builder(RoundNumber(2), AuthorityIndex(1), [3; 32]).accept(block.at(4)).accept(block.at(5)).finish()?;
/// let joined = Statement::Range { first: block.at(4), end: 6 };
/// assert_eq!(record.statements().collect::<Vec<_>>(), [joined]);
/// # Ok::<(), lomkhvide::Refusal>(())
/// ```
#[derive(Clone, Copy, Debug, PartialEq, Eq)]
pub enum Statement<'a> {
    /// A change, with its payload.
    Share(&'a [u8]),
    /// A vote for one locator.
    Accept(Locator),
    /// A reject of the first locator; it may name a second one.
    Reject(Locator, Option<Locator>),
    /// A vote for every offset from the first locator's to an end (excluded).
    Range {
        /// The first locator.
        first: Locator,
        /// The offset after the last one.
        end: u64,
    },
}

impl Record {
    /// Begins a record of our own.
    ///
    /// ```
    /// use lomkhvide::{AuthorityIndex, Record, RoundNumber};
    ///
    /// let record = Record::builder(RoundNumber(0), AuthorityIndex(3), [1; 32]).finish()?;
    /// assert_eq!((record.round(), record.author(), record.digest()), (RoundNumber(0), AuthorityIndex(3), [1; 32]));
    /// # Ok::<(), lomkhvide::Refusal>(())
    /// ```
    pub fn builder(round: RoundNumber, author: AuthorityIndex, digest: [u8; 32]) -> RecordBuilder {
        let block = Reference { round, author, digest };
        RecordBuilder { block, marked: false, time: None, includes: Vec::new(), statements: Vec::new() }
    }

    /// Reads a record, or refuses it as malformed: the engine is asked. What else it thinks of the record, feeding tells.
    #[doc = stack!(feed)]
    ///
    /// ```
    /// use lomkhvide::{AuthorityIndex, Record, Refusal, RoundNumber};
    ///
    /// let record = Record::builder(RoundNumber(0), AuthorityIndex(3), [1; 32]).finish()?;
    /// assert_eq!(Record::read(record.as_bytes()), Ok(record.clone()));
    /// assert_eq!(Record::read(&record.as_bytes()[1..]), Err(Refusal::Malformed));
    /// # Ok::<(), lomkhvide::Refusal>(())
    /// ```
    pub fn read(bytes: &[u8]) -> Result<Record, Refusal> {
        // A fresh store of 16 bytes has no room, so nothing is taken; and 20 is the first number that a record can bring there.
        match Committee::new(&[Stake(1)])?.feed(&mut fresh_store(16), &mut fresh_table(), bytes) {
            Err(Refusal::Malformed) => Err(Refusal::Malformed),
            _ => Ok(Record { bytes: bytes.to_vec() }),
        }
    }

    /// Reads a record that comes with a slip, within the stack of a station, which [`Record::read`] is not. Refused with 52 where the reader
    /// of slips refuses it under that committee: it is malformed, or breaks a rule that needs no store (20 to 22, 24 to 29).
    #[doc = stack!(read_slip)]
    ///
    /// ```
    /// # use lomkhvide::*;
    /// // One owner, who has shared a change in round 1.
    /// let Sample { committee, record, .. } = sample();
    /// assert_eq!(Record::read_under(&committee, record.as_bytes()), Ok(record.clone()));
    /// assert_eq!(Record::read_under(&committee, &record.as_bytes()[1..]), Err(Refusal::SlipNotHeld));
    /// ```
    pub fn read_under(committee: &Committee, bytes: &[u8]) -> Result<Record, Refusal> {
        // A slip that names one block, which is not this one: with a record of the right form that block is missing.
        let mut slip = [0; 57 + 2 + 48 + 1];
        slip[57] = 1;
        let length = bytes.len().min(48);
        slip[59..59 + length].copy_from_slice(&bytes[..length]);
        slip[59 + 47] ^= 1;
        match committee.read_slip(&slip, &[bytes]) {
            Err(Refusal::SlipRecordMissing) => Ok(Record { bytes: bytes.to_vec() }),
            Err(refusal) => Err(refusal),
            Ok(_) => Err(Refusal::SlipNotHeld),
        }
    }

    /// A record that the engine has taken before.
    pub(crate) fn known(bytes: &[u8]) -> Record {
        Record { bytes: bytes.to_vec() }
    }

    /// Its bytes.
    ///
    /// ```
    /// use lomkhvide::{AuthorityIndex, Record, RoundNumber};
    ///
    /// assert_eq!(Record::builder(RoundNumber(0), AuthorityIndex(3), [1; 32]).finish()?.as_bytes().len(), 56);
    /// # Ok::<(), lomkhvide::Refusal>(())
    /// ```
    pub fn as_bytes(&self) -> &[u8] {
        &self.bytes
    }

    /// The reference of its block.
    ///
    /// ```
    /// use lomkhvide::{AuthorityIndex, Record, Reference, RoundNumber};
    ///
    /// let record = Record::builder(RoundNumber(0), AuthorityIndex(3), [1; 32]).finish()?;
    /// assert_eq!(record.reference(), Reference::new(RoundNumber(0), AuthorityIndex(3), [1; 32]));
    /// # Ok::<(), lomkhvide::Refusal>(())
    /// ```
    pub fn reference(&self) -> Reference {
        reference_at(&self.bytes, 0)
    }

    /// The owner who made the block.
    ///
    /// ```
    /// # use lomkhvide::{AuthorityIndex, Record, RoundNumber};
    /// assert_eq!(Record::builder(RoundNumber(0), AuthorityIndex(3), [1; 32]).finish()?.author(), AuthorityIndex(3));
    /// # Ok::<(), lomkhvide::Refusal>(())
    /// ```
    pub fn author(&self) -> AuthorityIndex {
        self.reference().author
    }

    /// Its round.
    ///
    /// ```
    /// # use lomkhvide::{AuthorityIndex, Record, RoundNumber};
    /// assert_eq!(Record::builder(RoundNumber(7), AuthorityIndex(3), [1; 32]).finish()?.round(), RoundNumber(7));
    /// # Ok::<(), lomkhvide::Refusal>(())
    /// ```
    pub fn round(&self) -> RoundNumber {
        self.reference().round
    }

    /// Its digest, as given.
    ///
    /// ```
    /// # use lomkhvide::{AuthorityIndex, Record, RoundNumber};
    /// assert_eq!(Record::builder(RoundNumber(0), AuthorityIndex(3), [1; 32]).finish()?.digest(), [1; 32]);
    /// # Ok::<(), lomkhvide::Refusal>(())
    /// ```
    pub fn digest(&self) -> [u8; 32] {
        self.reference().digest
    }

    /// Whether it has an epoch mark: such a block passes votes on, and does not certify.
    ///
    /// ```
    /// # use lomkhvide::{AuthorityIndex, Record, RoundNumber};
    /// assert!(Record::builder(RoundNumber(0), AuthorityIndex(3), [1; 32]).marked().finish()?.is_marked());
    /// # Ok::<(), lomkhvide::Refusal>(())
    /// ```
    pub fn is_marked(&self) -> bool {
        self.bytes[48] == 1
    }

    /// The time of its creation in nanoseconds, where it has one.
    ///
    /// ```
    /// # use lomkhvide::{AuthorityIndex, Record, RoundNumber};
    /// assert_eq!(Record::builder(RoundNumber(0), AuthorityIndex(3), [1; 32]).finish()?.time(), None);
    /// assert_eq!(Record::builder(RoundNumber(0), AuthorityIndex(3), [1; 32]).time(5).finish()?.time(), Some(5));
    /// # Ok::<(), lomkhvide::Refusal>(())
    /// ```
    pub fn time(&self) -> Option<u64> {
        self.is_timed().then(|| word_at(&self.bytes, HEADER))
    }

    /// Edition 2 has a time after the header.
    fn is_timed(&self) -> bool {
        self.bytes[53] == 2
    }

    fn count_at(&self, at: usize) -> usize {
        u16::from_le_bytes([self.bytes[at], self.bytes[at + 1]]) as usize
    }

    fn includes_start(&self) -> usize {
        HEADER + if self.is_timed() { 16 } else { 0 }
    }

    /// The blocks that it includes, in their order.
    ///
    /// ```
    /// # use lomkhvide::{AuthorityIndex, Record, Reference, RoundNumber};
    /// let block = Reference::new(RoundNumber(0), AuthorityIndex(2), [2; 32]);
    /// let record = Record::builder(RoundNumber(1), AuthorityIndex(3), [1; 32]).include(block).finish()?;
    /// assert_eq!(record.includes().collect::<Vec<_>>(), [block]);
    /// # Ok::<(), lomkhvide::Refusal>(())
    /// ```
    pub fn includes(&self) -> impl ExactSizeIterator<Item = Reference> {
        let start = self.includes_start();
        (0..self.count_at(49)).map(move |i| reference_at(&self.bytes, start + 48 * i))
    }

    /// Its statements, in their order.
    ///
    /// ```
    /// # use lomkhvide::{AuthorityIndex, Record, RoundNumber, Statement};
    /// let record = Record::builder(RoundNumber(1), AuthorityIndex(3), [1; 32]).share(b"a").share(b"").finish()?;
    /// assert_eq!(record.statements().collect::<Vec<_>>(), [Statement::Share(b"a"), Statement::Share(b"")]);
    /// # Ok::<(), lomkhvide::Refusal>(())
    /// ```
    pub fn statements(&self) -> Statements<'_> {
        Statements::of(&self.bytes)
    }

    /// The locators of its shares, with their payloads.
    ///
    /// ```
    /// # use lomkhvide::{AuthorityIndex, Record, Reference, RoundNumber};
    /// let other = Reference::new(RoundNumber(0), AuthorityIndex(2), [2; 32]);
    /// let record = Record::builder(RoundNumber(1), AuthorityIndex(3), [1; 32]).share(b"a").accept(other.at(0)).share(b"b").finish()?;
    /// let offsets: Vec<u64> = record.shares().map(|(locator, _)| locator.offset()).collect();
    /// assert_eq!(offsets, [0, 2], "a share's offset is its index among all statements");
    /// # Ok::<(), lomkhvide::Refusal>(())
    /// ```
    pub fn shares(&self) -> impl Iterator<Item = (Locator, &[u8])> {
        let block = self.reference();
        self.statements().enumerate().filter_map(move |(i, statement)| match statement {
            Statement::Share(payload) => Some((block.at(i as u64), payload)),
            _ => None,
        })
    }
}

impl AsRef<[u8]> for Record {
    fn as_ref(&self) -> &[u8] {
        &self.bytes
    }
}

impl fmt::Debug for Record {
    fn fmt(&self, f: &mut fmt::Formatter) -> fmt::Result {
        write!(f, "Record({:#}, {} bytes)", self.reference(), self.bytes.len())
    }
}

fn reference_at(bytes: &[u8], at: usize) -> Reference {
    let mut reference = [0; 48];
    reference.copy_from_slice(&bytes[at..at + 48]);
    Reference::from_bytes(&reference)
}

/// The statements of a record, one after the other.
///
/// ```
/// # use lomkhvide::{AuthorityIndex, Record, RoundNumber};
/// assert_eq!(Record::builder(RoundNumber(1), AuthorityIndex(3), [1; 32]).share(b"a").finish()?.statements().len(), 1);
/// # Ok::<(), lomkhvide::Refusal>(())
/// ```
#[derive(Clone, Debug)]
pub struct Statements<'a> {
    rest: &'a [u8],
    left: usize,
}

impl<'a> Statements<'a> {
    /// The statements of bytes that may be no record; they end where a byte is missing.
    pub(crate) fn of(bytes: &'a [u8]) -> Statements<'a> {
        let none = Statements { rest: &[], left: 0 };
        let Some(header) = bytes.first_chunk::<HEADER>() else { return none };
        let count = |at: usize| u16::from_le_bytes([header[at], header[at + 1]]) as usize;
        let start = HEADER + if header[53] == 2 { 16 } else { 0 } + 48 * count(49);
        bytes.get(start..).map_or(none, |rest| Statements { rest, left: count(51) })
    }

    fn take<const N: usize>(&mut self) -> Option<&'a [u8; N]> {
        let (taken, rest) = self.rest.split_first_chunk()?;
        self.rest = rest;
        Some(taken)
    }

    fn locator(&mut self) -> Option<Locator> {
        self.take().map(Locator::from_bytes)
    }

    fn payload(&mut self) -> Option<&'a [u8]> {
        let length = u16::from_le_bytes(*self.take()?);
        let (payload, rest) = self.rest.split_at_checked(length as usize)?;
        self.rest = rest;
        Some(payload)
    }
}

impl<'a> Iterator for Statements<'a> {
    type Item = Statement<'a>;

    fn next(&mut self) -> Option<Statement<'a>> {
        self.left = self.left.checked_sub(1)?;
        Some(match self.take()? {
            [0] => Statement::Share(self.payload()?),
            [1] => Statement::Accept(self.locator()?),
            [2] => {
                let first = self.locator()?;
                let other = match self.take()? {
                    [1] => Some(self.locator()?),
                    _ => None,
                };
                Statement::Reject(first, other)
            }
            _ => Statement::Range { first: self.locator()?, end: u64::from_le_bytes(*self.take()?) },
        })
    }

    fn size_hint(&self) -> (usize, Option<usize>) {
        (self.left, Some(self.left))
    }
}

impl ExactSizeIterator for Statements<'_> {}

/// A record of our own, before the engine writes it.
///
/// ```
/// use lomkhvide::{AuthorityIndex, Record, RoundNumber};
///
/// let record = Record::builder(RoundNumber(0), AuthorityIndex(0), [1; 32]).marked().time(1_700_000_000_000_000_000).finish()?;
/// assert!(record.is_marked());
/// # Ok::<(), lomkhvide::Refusal>(())
/// ```
#[derive(Clone, Debug)]
pub struct RecordBuilder {
    block: Reference,
    marked: bool,
    time: Option<u64>,
    /// As they cross: references of 48 bytes, and statements as in a record, but for a share's length of 4 bytes.
    includes: Vec<u8>,
    statements: Vec<u8>,
}

impl RecordBuilder {
    /// Gives it an epoch mark.
    ///
    /// ```
    /// # use lomkhvide::{AuthorityIndex, Record, RoundNumber};
    /// assert!(Record::builder(RoundNumber(0), AuthorityIndex(0), [1; 32]).marked().finish()?.is_marked());
    /// # Ok::<(), lomkhvide::Refusal>(())
    /// ```
    pub fn marked(mut self) -> RecordBuilder {
        self.marked = true;
        self
    }

    /// Gives it a time of creation, in nanoseconds.
    ///
    /// ```
    /// # use lomkhvide::{AuthorityIndex, Record, RoundNumber};
    /// assert_eq!(Record::builder(RoundNumber(0), AuthorityIndex(0), [1; 32]).time(7).finish()?.time(), Some(7));
    /// # Ok::<(), lomkhvide::Refusal>(())
    /// ```
    pub fn time(mut self, nanoseconds: u64) -> RecordBuilder {
        self.time = Some(nanoseconds);
        self
    }

    /// Includes a block.
    ///
    /// ```
    /// # use lomkhvide::{AuthorityIndex, Record, Reference, RoundNumber};
    /// let block = Reference::new(RoundNumber(0), AuthorityIndex(2), [2; 32]);
    /// assert_eq!(Record::builder(RoundNumber(1), AuthorityIndex(0), [1; 32]).include(block).include(block).finish()?.includes().len(), 2);
    /// # Ok::<(), lomkhvide::Refusal>(())
    /// ```
    pub fn include(mut self, block: Reference) -> RecordBuilder {
        self.includes.extend(block.to_bytes());
        self
    }

    /// Shares a change.
    ///
    /// ```
    /// # use lomkhvide::{AuthorityIndex, Record, RoundNumber};
    /// assert_eq!(Record::builder(RoundNumber(1), AuthorityIndex(0), [1; 32]).share(b"gain").finish()?.shares().count(), 1);
    /// # Ok::<(), lomkhvide::Refusal>(())
    /// ```
    pub fn share(mut self, payload: &[u8]) -> RecordBuilder {
        // A length that 4 bytes do not hold is too long anyway: the writer answers 51 to the largest that they do.
        let length = u32::try_from(payload.len()).unwrap_or(u32::MAX);
        self.statements.push(0);
        self.statements.extend(length.to_le_bytes());
        self.statements.extend(payload);
        self
    }

    /// Votes for a locator. Accepts that follow each other, each offset one above the last, are written as a range.
    ///
    /// ```
    /// # use lomkhvide::{AuthorityIndex, Record, Reference, RoundNumber, Statement};
    /// let locator = Reference::new(RoundNumber(0), AuthorityIndex(2), [2; 32]).at(3);
    /// let record = Record::builder(RoundNumber(1), AuthorityIndex(0), [1; 32]).accept(locator).finish()?;
    /// assert_eq!(record.statements().next(), Some(Statement::Accept(locator)));
    /// # Ok::<(), lomkhvide::Refusal>(())
    /// ```
    pub fn accept(mut self, locator: Locator) -> RecordBuilder {
        self.statements.push(1);
        self.statements.extend(locator.to_bytes());
        self
    }

    /// Rejects a locator; a second one may be named.
    ///
    /// ```
    /// # use lomkhvide::{AuthorityIndex, Record, Reference, RoundNumber, Statement};
    /// let locator = Reference::new(RoundNumber(0), AuthorityIndex(2), [2; 32]).at(3);
    /// let record = Record::builder(RoundNumber(1), AuthorityIndex(0), [1; 32]).reject(locator, None).finish()?;
    /// assert_eq!(record.statements().next(), Some(Statement::Reject(locator, None)));
    /// # Ok::<(), lomkhvide::Refusal>(())
    /// ```
    pub fn reject(mut self, locator: Locator, other: Option<Locator>) -> RecordBuilder {
        self.statements.push(2);
        self.statements.extend(locator.to_bytes());
        self.statements.push(other.is_some() as u8);
        other.iter().for_each(|other| self.statements.extend(other.to_bytes()));
        self
    }

    /// Votes for every offset from the locator's to an end (excluded).
    ///
    /// ```
    /// # use lomkhvide::{AuthorityIndex, Record, Reference, RoundNumber, Statement};
    /// let first = Reference::new(RoundNumber(0), AuthorityIndex(2), [2; 32]).at(3);
    /// let record = Record::builder(RoundNumber(1), AuthorityIndex(0), [1; 32]).range(first, 9).finish()?;
    /// assert_eq!(record.statements().next(), Some(Statement::Range { first, end: 9 }));
    /// # Ok::<(), lomkhvide::Refusal>(())
    /// ```
    pub fn range(mut self, first: Locator, end: u64) -> RecordBuilder {
        self.statements.push(3);
        self.statements.extend(first.to_bytes());
        self.statements.extend(end.to_le_bytes());
        self
    }

    /// Has the engine write it; refused as not writable (51) where no record has that form: over 256 includes, a payload over 65,535
    /// bytes, over 1,024 statements after joining.
    #[doc = stack!(write_timed_record)]
    ///
    /// ```
    /// use lomkhvide::{AuthorityIndex, Record, Refusal, RoundNumber};
    ///
    /// let long = Record::builder(RoundNumber(1), AuthorityIndex(0), [1; 32]).share(&[0; 65_536]);
    /// assert_eq!(long.finish(), Err(Refusal::NotWritable));
    /// ```
    pub fn finish(&self) -> Result<Record, Refusal> {
        // No statement is longer in the record than here.
        let mut bytes = vec![0; HEADER + 16 + self.includes.len() + self.statements.len()];
        let length = self.write(&mut bytes)?;
        bytes.truncate(length);
        Ok(Record { bytes })
    }

    /// Has the engine write it to the front of `out`, and gives its length; the bytes after it keep their content. Or 51, 50.
    #[doc = stack!(write_timed_record)]
    ///
    /// ```
    /// use lomkhvide::{AuthorityIndex, Record, Refusal, RoundNumber};
    ///
    /// let record = Record::builder(RoundNumber(0), AuthorityIndex(0), [1; 32]);
    /// assert_eq!(record.write(&mut [0; 55]), Err(Refusal::TooShortToWrite));
    /// assert_eq!(record.write(&mut [0; 56]), Ok(56));
    /// ```
    pub fn write(&self, out: &mut [u8]) -> Result<usize, Refusal> {
        let (author, round, mark) = (self.block.author.0, self.block.round.0, self.marked as u64);
        let (digest, includes, statements) = (&self.block.digest, &self.includes, &self.statements);
        let length = match self.time {
            None => calls::write_record(author, round, digest, mark, includes, statements, out)?,
            Some(time) => calls::write_timed_record(author, round, digest, mark, time, includes, statements, out)?,
        };
        Ok(length as usize)
    }
}

impl Committee {
    /// The time of a stored block's creation in nanoseconds, by its reference; none where its record has none, or no such block is stored.
    /// Or 5, 10.
    #[doc = stack!(creation_time)]
    ///
    /// ```
    /// # use lomkhvide::*;
    /// // One owner, who has shared a change in round 1.
    /// let Sample { committee, store, share, .. } = sample();
    /// assert_eq!(committee.creation_time(&store, &share.reference())?, None, "its record has no time");
    /// # Ok::<(), Refusal>(())
    /// ```
    pub fn creation_time(&self, store: &[u8], block: &Reference) -> Result<Option<u64>, Refusal> {
        let mut found = [0; 8];
        let is_found = calls::creation_time(self.stakes(), store, &block.to_bytes(), &mut found)? == 1;
        Ok(is_found.then(|| u64::from_le_bytes(found)))
    }
}

#[cfg(test)]
mod tests {
    use super::*;

    fn block(round: u64) -> Reference {
        Reference::new(RoundNumber(round), AuthorityIndex(2), [3; 32])
    }

    /// All that is given is read back, in both editions.
    #[test]
    fn written_and_read() {
        for time in [None, Some(0), Some(u64::MAX)] {
            let mut builder = Record::builder(RoundNumber(9), AuthorityIndex(1), [4; 32]).include(block(0)).include(block(8));
            if let Some(time) = time {
                builder = builder.time(time);
            }
            let (one, two) = (block(3).at(1), block(4).at(u64::MAX));
            let record = builder.share(b"gain").accept(one).reject(one, Some(two)).reject(two, None).range(one, 7).share(b"");
            let record = record.finish().unwrap();
            assert_eq!(record.reference(), Reference::new(RoundNumber(9), AuthorityIndex(1), [4; 32]));
            assert_eq!((record.time(), record.is_marked()), (time, false));
            assert_eq!(record.includes().collect::<Vec<_>>(), [block(0), block(8)]);
            let statements = [
                Statement::Share(b"gain"),
                Statement::Accept(one),
                Statement::Reject(one, Some(two)),
                Statement::Reject(two, None),
                Statement::Range { first: one, end: 7 },
                Statement::Share(b""),
            ];
            assert_eq!(record.statements().collect::<Vec<_>>(), statements);
            assert_eq!(record.shares().map(|(locator, _)| locator.offset()).collect::<Vec<_>>(), [0, 5]);
            assert_eq!(Record::read(record.as_bytes()), Ok(record.clone()));
            for length in 0..record.as_bytes().len() {
                assert_eq!(Record::read(&record.as_bytes()[..length]), Err(Refusal::Malformed), "{length} bytes");
            }
        }
    }

    /// Whatever the engine takes as well formed can be read to its end.
    #[test]
    fn every_byte_changed() {
        let record = Record::builder(RoundNumber(9), AuthorityIndex(1), [4; 32])
            .include(block(8))
            .share(b"gain")
            .reject(block(3).at(1), None)
            .range(block(1).at(2), 3);
        let record = record.time(5).finish().unwrap();
        for place in 0..record.as_bytes().len() {
            for value in [0, 1, 2, 3, 255] {
                let mut bytes = record.as_bytes().to_vec();
                bytes[place] = value;
                if let Ok(record) = Record::read(&bytes) {
                    let mut statements = record.statements();
                    statements.by_ref().for_each(drop);
                    assert!(statements.rest.is_empty(), "byte {place} as {value}");
                    record.includes().for_each(drop);
                }
            }
        }
    }
}
