//! Feeding records, over memory that the caller lends.

use crate::calls::stack;
use crate::memory::words_of;
use crate::{Committee, Locator, Refusal, Statement, Statements, calls};

/// The words that a feed is lent for events.
const EVENT_WORDS: usize = 8192;

/// The most words that a call for many records is lent for events.
const MOST_WORDS: usize = 1 << 17;

/// What became of an offset that a statement of the record votes on.
///
/// ```
/// # use lomkhvide::*;
/// # fn shown(event: Event) {
/// if event.outcome == Outcome::Processed {
///     println!("the votes for {} hold quorum", event.locator);
/// }
/// # }
/// ```
#[derive(Clone, Copy, Debug, PartialEq, Eq)]
pub enum Outcome {
    /// Its votes hold quorum with this one: it is pending no more.
    Processed,
    /// It names a stored share that is pending no more.
    Late,
    /// It names no stored share.
    Unknown,
}

/// An event of a feed.
///
/// ```
/// use lomkhvide::{Event, Outcome};
///
/// let event = Event { outcome: Outcome::Late, statement: 2, locator: "1/0/00000005/0".parse()? };
/// assert_eq!(event.locator.offset(), 0);
/// # Ok::<(), lomkhvide::NotALocator>(())
/// ```
#[derive(Clone, Copy, Debug, PartialEq, Eq)]
pub struct Event {
    /// What became of it.
    pub outcome: Outcome,
    /// The index of the statement that votes for it, in the record that was fed.
    pub statement: u64,
    /// What the vote is for.
    pub locator: Locator,
}

/// What became of a record that was fed with others: its events, or why it was refused.
///
/// ```
/// # use lomkhvide::*;
/// let mut engine = Engine::new(Committee::new(&[Stake(1)])?, 4096);
/// let fed: Vec<Fed> = engine.feed_all([b"noise"])?;
/// assert_eq!(fed, [Err(Refusal::Malformed)]);
/// # Ok::<(), Refusal>(())
/// ```
pub type Fed = Result<Vec<Event>, Refusal>;

/// The events that feeding this record wrote, three words each: kind, statement, offset.
fn events_of(words: &[u64], record: &[u8]) -> Vec<Event> {
    if words.is_empty() {
        return Vec::new();
    }
    let named: Vec<Option<Locator>> = Statements::of(record).map(voted).collect();
    let event = |words: &[u64]| {
        let first = named[words[1] as usize].expect("an event is of an accept or a range");
        let outcome = match words[0] {
            1 => Outcome::Processed,
            2 => Outcome::Late,
            _ => Outcome::Unknown,
        };
        Event { outcome, statement: words[1], locator: first.reference().at(words[2]) }
    };
    words.chunks_exact(3).map(event).collect()
}

/// The first locator that a statement votes for.
fn voted(statement: Statement) -> Option<Locator> {
    match statement {
        Statement::Accept(locator) | Statement::Range { first: locator, .. } => Some(locator),
        Statement::Share(_) | Statement::Reject(..) => None,
    }
}

/// The words that the events of a record can take; of bytes that are no record the number does not matter, since they are malformed.
fn event_words(record: &[u8]) -> usize {
    let votes = Statements::of(record).map(|statement| match statement {
        Statement::Accept(_) => 1,
        Statement::Range { first, end } => end.saturating_sub(first.offset()),
        Statement::Share(_) | Statement::Reject(..) => 0,
    });
    let words = votes.fold(0u64, u64::saturating_add).saturating_mul(3);
    usize::try_from(words).unwrap_or(usize::MAX)
}

/// Records that one call is lent, and the words for their events.
#[derive(Default)]
struct Batch<'a> {
    records: Vec<&'a [u8]>,
    words: usize,
}

/// Cuts records into batches, one at least. The room for events in each is what its records can take, so that none is short of it because of
/// another; one that can take more than [`Committee::feed`] lends has that, alone. So every record becomes what it would become there.
fn batches<'a>(records: &[&'a [u8]]) -> Vec<Batch<'a>> {
    let mut done = Vec::new();
    let mut batch = Batch::default();
    for record in records {
        let words = event_words(record);
        if words > EVENT_WORDS || batch.words + words > MOST_WORDS {
            done.push(std::mem::take(&mut batch));
        }
        batch.records.push(record);
        batch.words += words.min(EVENT_WORDS);
        if words > EVENT_WORDS {
            done.push(std::mem::take(&mut batch));
        }
    }
    done.push(batch);
    if done.iter().any(|batch| !batch.records.is_empty()) {
        done.retain(|batch| !batch.records.is_empty());
    }
    done
}

/// Records each after its length. One whose length 4 bytes do not hold is no record, and stands there as one of no bytes: both are malformed.
pub(crate) fn framed(records: &[&[u8]]) -> Vec<u8> {
    let mut bytes = Vec::new();
    for record in records {
        let length = u32::try_from(record.len()).unwrap_or(0);
        bytes.extend(length.to_le_bytes());
        bytes.extend(&record[..length as usize]);
    }
    bytes
}

impl Batch<'_> {
    /// What became of its records, by the words of their outcomes and events.
    fn told(&self, outcomes: &[u64], mut events: &[u64]) -> Vec<Fed> {
        let fed = self.records.iter().zip(outcomes).map(|(record, word)| {
            let (own, rest) = events.split_at(3 * calls::answer(*word)? as usize);
            events = rest;
            Ok(events_of(own, record))
        });
        fed.collect()
    }
}

impl Committee {
    /// Feeds a block record: its events; or 5, 10, 11, 20 to 30, 15, 13, 14, and store and table are as they were.
    #[doc = stack!(feed)]
    ///
    /// ```
    /// use lomkhvide::{Committee, Refusal, Stake, fresh_store, fresh_table};
    ///
    /// let committee = Committee::new(&[Stake(1)])?;
    /// let (mut store, mut table) = (fresh_store(4096), fresh_table());
    /// assert_eq!(committee.feed(&mut store, &mut table, b"noise"), Err(Refusal::Malformed));
    /// # Ok::<(), Refusal>(())
    /// ```
    pub fn feed(&self, store: &mut [u8], table: &mut [u8], record: &[u8]) -> Result<Vec<Event>, Refusal> {
        let mut events = vec![0; 8 * EVENT_WORDS];
        let count = calls::feed(self.stakes(), store, table, &mut events, record)? as usize;
        Ok(events_of(&words_of(&events[..24 * count]), record))
    }

    /// The same with the index beside the store, to which the block's part is appended: 54 after 11, and 55 last; a refusal leaves the index too.
    #[doc = stack!(feed_indexed)]
    ///
    /// ```
    /// use lomkhvide::{Committee, Refusal, Stake, fresh_index, fresh_store, fresh_table};
    ///
    /// let committee = Committee::new(&[Stake(1)])?;
    /// let (mut store, mut table, mut index) = (fresh_store(4096), fresh_table(), fresh_index(64));
    /// assert_eq!(committee.feed_indexed(&mut store, &mut table, &mut index, b"noise"), Err(Refusal::Malformed));
    /// # Ok::<(), Refusal>(())
    /// ```
    pub fn feed_indexed(
        &self,
        store: &mut [u8],
        table: &mut [u8],
        index: &mut [u64],
        record: &[u8],
    ) -> Result<Vec<Event>, Refusal> {
        let mut events = vec![0; 8 * EVENT_WORDS];
        let count = calls::feed_indexed(self.stakes(), store, table, index, &mut events, record)? as usize;
        Ok(events_of(&words_of(&events[..24 * count]), record))
    }

    /// Feeds records one after the other, with the memory checked once: what became of each, as [`Committee::feed`] would tell it; a record that
    /// is refused does not keep the others from being fed. Or 5, 10, 11, and nothing is fed.
    #[doc = stack!(feed_records)]
    ///
    /// ```
    /// # use lomkhvide::*;
    /// let committee = Committee::new(&[Stake(1)])?;
    /// let first = Record::builder(RoundNumber(0), AuthorityIndex(0), [1; 32]).finish()?;
    /// let fed = committee.feed_records(&mut fresh_store(4096), &mut fresh_table(), &[b"noise", first.as_bytes()])?;
    /// assert_eq!(fed, [Err(Refusal::Malformed), Ok(vec![])]);
    /// # Ok::<(), Refusal>(())
    /// ```
    pub fn feed_records(&self, store: &mut [u8], table: &mut [u8], records: &[&[u8]]) -> Result<Vec<Fed>, Refusal> {
        let mut fed = Vec::with_capacity(records.len());
        for batch in batches(records) {
            let (mut events, mut outcomes) = (vec![0; batch.words], vec![0; batch.records.len()]);
            calls::feed_records(self.stakes(), store, table, &mut events, &mut outcomes, &framed(&batch.records))?;
            fed.extend(batch.told(&outcomes, &events));
        }
        Ok(fed)
    }

    /// The same with the index beside the store: 54 after 11. A record for whose part the index is too short is refused with 55, and the others are
    /// fed all the same.
    #[doc = stack!(feed_records_indexed)]
    ///
    /// ```
    /// # use lomkhvide::*;
    /// let committee = Committee::new(&[Stake(1)])?;
    /// let first = Record::builder(RoundNumber(0), AuthorityIndex(0), [1; 32]).finish()?;
    /// let (mut store, mut table, mut index) = (fresh_store(4096), fresh_table(), fresh_index(1));
    /// let fed = committee.feed_records_indexed(&mut store, &mut table, &mut index, &[first.as_bytes()])?;
    /// assert_eq!(fed, [Err(Refusal::IndexTooShort)]);
    /// # Ok::<(), Refusal>(())
    /// ```
    pub fn feed_records_indexed(
        &self,
        store: &mut [u8],
        table: &mut [u8],
        index: &mut [u64],
        records: &[&[u8]],
    ) -> Result<Vec<Fed>, Refusal> {
        let mut fed = Vec::with_capacity(records.len());
        for batch in batches(records) {
            let (mut events, mut outcomes) = (vec![0; batch.words], vec![0; batch.records.len()]);
            let framed = framed(&batch.records);
            calls::feed_records_indexed(self.stakes(), store, table, index, &mut events, &mut outcomes, &framed)?;
            fed.extend(batch.told(&outcomes, &events));
        }
        Ok(fed)
    }
}

#[cfg(test)]
mod tests {
    use super::*;
    use crate::{AuthorityIndex, Record, RoundNumber};

    /// A record whose ranges and accepts are that many votes.
    fn voting(votes: u64) -> Record {
        let block: Locator = "0/0/00000001/0".parse().unwrap();
        let begun = Record::builder(RoundNumber(1), AuthorityIndex(0), [2; 32]).share(b"gain").reject(block, None);
        begun.accept(block.reference().at(7)).range(block, votes - 1).finish().unwrap()
    }

    /// Every record is in one batch, in order; a batch has room for all of its own and no more than is allowed.
    #[test]
    fn cut_into_batches() {
        let most = EVENT_WORDS as u64 / 3;
        let votes = [vec![most; 40], vec![most + 1, 1, 1, most + 1, 1_048_575], vec![1; 5]].concat();
        let records: Vec<Record> = votes.iter().map(|votes| voting(*votes)).collect();
        let lent: Vec<&[u8]> = records.iter().map(Record::as_bytes).collect();
        let cut = batches(&lent);
        assert_eq!(cut.iter().flat_map(|batch| batch.records.clone()).collect::<Vec<_>>(), lent);
        let sizes: Vec<(usize, usize)> = cut.iter().map(|batch| (batch.records.len(), batch.words)).collect();
        let full = (16, 16 * 3 * most as usize);
        let over = (1, EVENT_WORDS);
        assert_eq!(sizes, [full, full, (8, 8 * 3 * most as usize), over, (2, 6), over, over, (5, 15)]);
        assert!(sizes.iter().all(|(_, words)| *words <= MOST_WORDS));
    }

    /// Without records there is one call, which checks the memory.
    #[test]
    fn no_records() {
        assert_eq!(batches(&[]).len(), 1);
        assert!(framed(&[]).is_empty());
    }

    /// Bytes that are no record are counted without a panic.
    #[test]
    fn no_record() {
        let record = voting(9);
        for length in 0..=record.as_bytes().len() {
            event_words(&record.as_bytes()[..length]);
        }
        assert_eq!(event_words(record.as_bytes()), 27);
        assert_eq!(event_words(&[255; 200]), 0);
    }
}
