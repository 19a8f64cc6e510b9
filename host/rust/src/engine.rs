//! An engine that owns its memory: store, pending table and, where it is wanted, the index of voters.

mod questions;
mod slip_records;

use std::panic::resume_unwind;
use std::{fmt, io, thread};

use crate::calls::stack;
use crate::memory::word_at;
use crate::{Committee, Event, Fed, Record, Refusal, calls, fresh_index, fresh_store, fresh_table};
pub use questions::{Finals, PendingItem};

/// The words of an item of the pending table: entry position, start, end, votes low and high, stake.
const ITEM_WORDS: usize = 6;

/// The bytes in front of a store's entries, and in front of the record in each entry.
const STORE_HEADER: usize = 16;
const ENTRY_HEADER: usize = 8;

/// The stack of [`Engine::with_stack`] beside that of a call.
const OWN_STACK: usize = 524_288;

/// The words of a fresh index, before it grows.
const FIRST_INDEX: usize = 1024;

/// The engine with the memory that it is lent: the stored records, the pending table, and with [`Engine::with_index`] the voters of each
/// stored block. Each method is one call, or as few as it takes.
///
/// Made by [`Engine::new`], [`Engine::with_index`] or [`Engine::open`] and changed by [`Engine::feed`] and [`Engine::feed_all`] alone, its memory is in order: 5, 10, 11
/// and 54 never come.
///
/// Nothing is kept outside of it, so threads may ask one engine at once. Each method says how much stack its call needs; on a small thread,
/// [`Engine::with_stack`] runs it.
///
/// ```
/// use lomkhvide::{AuthorityIndex, Committee, Engine, Reading, Record, Refusal, RoundNumber, Stake};
///
/// // One owner, who shares a change: it is final at once.
/// let mut engine = Engine::new(Committee::new(&[Stake(1)])?, 65_536);
/// let owner = AuthorityIndex(0);
/// let first = Record::builder(RoundNumber(0), owner, [1; 32]).finish()?;
/// let second = Record::builder(RoundNumber(1), owner, [2; 32]).include(first.reference()).share(b"gain").finish()?;
/// engine.feed(&first)?;
/// engine.feed(&second)?;
///
/// let change = second.reference().at(0);
/// assert!(engine.finality(&change, Reading::Old)?.is_final);
/// assert_eq!(engine.payload(&change)?, b"gain");
/// # Ok::<(), Refusal>(())
/// ```
#[derive(Clone, PartialEq, Eq)]
pub struct Engine {
    committee: Committee,
    store: Vec<u8>,
    table: Vec<u8>,
    index: Option<Vec<u64>>,
}

/// What is to be kept of an engine while it is not running: the parts of its memory that are in use.
///
/// ```
/// # use lomkhvide::*;
/// // One owner, who has shared a change in round 1.
/// let Sample { committee, engine, .. } = sample();
/// let kept = engine.parts();
/// assert_eq!(Engine::open(committee, 4096, kept)?.parts(), kept);
/// # Ok::<(), Refusal>(())
/// ```
#[derive(Clone, Copy, Debug, PartialEq, Eq)]
pub struct Parts<'a> {
    /// The used part of the store.
    pub store: &'a [u8],
    /// The pending table without the zeros after its items.
    pub table: &'a [u8],
    /// The used words of the index, where there is one.
    pub index: Option<&'a [u64]>,
}

impl Engine {
    /// A fresh engine under a committee, with a store of that many bytes: at least 16, and below 2^32.
    ///
    /// ```
    /// use lomkhvide::{Committee, Engine, Refusal, Stake};
    ///
    /// let engine = Engine::new(Committee::new(&[5, 3, 3].map(Stake))?, 65_536);
    /// assert_eq!(engine.records().count(), 0);
    /// # Ok::<(), Refusal>(())
    /// ```
    pub fn new(committee: Committee, room: usize) -> Engine {
        Engine { committee, store: fresh_store(room.min(u32::MAX as usize)), table: fresh_table(), index: None }
    }

    /// The same with an index of voters, which grows with the store: feeding takes longer, and asking for many locators is quick.
    ///
    /// ```
    /// use lomkhvide::{Committee, Engine, Refusal, Stake};
    ///
    /// let engine = Engine::with_index(Committee::new(&[5, 3, 3].map(Stake))?, 65_536);
    /// assert_eq!(engine.parts().index, Some(&[1][..]), "nothing is stored yet");
    /// # Ok::<(), Refusal>(())
    /// ```
    pub fn with_index(committee: Committee, room: usize) -> Engine {
        Engine { index: Some(fresh_index(FIRST_INDEX)), ..Engine::new(committee, room) }
    }

    /// An engine over parts that were kept, with room for a store of that many bytes. Refused where they are not in order under the
    /// committee: 10, 11, 54.
    #[doc = stack!(feed_indexed)]
    ///
    /// ```
    /// use lomkhvide::{Committee, Engine, Parts, Refusal, Stake};
    ///
    /// let broken = Parts { store: &[1; 16], table: &[], index: None };
    /// assert_eq!(Engine::open(Committee::new(&[Stake(1)])?, 65_536, broken), Err(Refusal::StoreNotInOrder));
    /// # Ok::<(), Refusal>(())
    /// ```
    pub fn open(committee: Committee, room: usize, parts: Parts) -> Result<Engine, Refusal> {
        let mut engine = Engine::new(committee, room.max(parts.store.len()));
        if parts.store.len() < STORE_HEADER || parts.store.len() > engine.store.len() {
            return Err(Refusal::StoreNotInOrder);
        }
        if parts.table.len() > engine.table.len() {
            return Err(Refusal::TableNotInOrder);
        }
        engine.store[..parts.store.len()].copy_from_slice(parts.store);
        engine.table[..parts.table.len()].copy_from_slice(parts.table);
        engine.index = parts.index.map(<[u64]>::to_vec);
        // Without records all that is lent is checked, and nothing is fed.
        engine.feed_at_once(&[])?;
        Ok(engine)
    }

    /// What is to be kept: see [`Parts`].
    ///
    /// ```
    /// use lomkhvide::{Committee, Engine, Refusal, Stake};
    ///
    /// let engine = Engine::new(Committee::new(&[Stake(1)])?, 65_536);
    /// assert_eq!(engine.parts().store.len(), 16, "nothing is stored yet");
    /// # Ok::<(), Refusal>(())
    /// ```
    pub fn parts(&self) -> Parts<'_> {
        let items = word_at(&self.table, 0) as usize;
        let index = self.index.as_ref().map(|index| &index[..index[0] as usize]);
        Parts { store: &self.store[..self.used()], table: &self.table[..8 * (1 + ITEM_WORDS * items)], index }
    }

    /// The committee.
    ///
    /// ```
    /// use lomkhvide::{Committee, Engine, Refusal, Stake};
    ///
    /// let engine = Engine::new(Committee::new(&[5, 3, 3].map(Stake))?, 65_536);
    /// assert_eq!(engine.committee().total_stake(), Stake(11));
    /// # Ok::<(), Refusal>(())
    /// ```
    pub fn committee(&self) -> &Committee {
        &self.committee
    }

    /// The whole store, for a call that is not here.
    ///
    /// ```
    /// # use lomkhvide::*;
    /// // One owner, who has shared a change in round 1.
    /// let Sample { engine, share, .. } = sample();
    /// assert_eq!(engine.committee().payload(engine.store(), &share)?, b"gain");
    /// # Ok::<(), Refusal>(())
    /// ```
    pub fn store(&self) -> &[u8] {
        &self.store
    }

    /// Feeds a record: it is stored and counted, and its events come back; the index grows where it is too short. Refused with 20 to 30 where
    /// it breaks a rule, 15, 13 or 14 where memory is short.
    #[doc = stack!(feed_indexed)]
    ///
    /// ```
    /// use lomkhvide::{AuthorityIndex, Committee, Engine, Record, Refusal, RoundNumber, Stake};
    ///
    /// let mut engine = Engine::new(Committee::new(&[Stake(1)])?, 65_536);
    /// let record = Record::builder(RoundNumber(0), AuthorityIndex(0), [1; 32]).finish()?;
    /// assert_eq!(engine.feed(&record), Ok(vec![]));
    /// assert_eq!(engine.feed(&record), Err(Refusal::StoredAlready));
    /// assert_eq!(engine.feed(b"noise"), Err(Refusal::Malformed));
    /// # Ok::<(), Refusal>(())
    /// ```
    pub fn feed(&mut self, record: impl AsRef<[u8]>) -> Result<Vec<Event>, Refusal> {
        let record = record.as_ref();
        let Some(index) = &mut self.index else {
            return self.committee.feed(&mut self.store, &mut self.table, record);
        };
        loop {
            match self.committee.feed_indexed(&mut self.store, &mut self.table, index, record) {
                Err(Refusal::IndexTooShort) => index.resize(2 * index.len() + 1, 0),
                told => return told,
            }
        }
    }

    /// Feeds records one after the other, as few calls as it takes: what became of each is what [`Engine::feed`] would tell, and so is the memory
    /// afterwards. A record that is refused does not keep the others from being fed.
    #[doc = stack!(feed_records_indexed)]
    ///
    /// ```
    /// # use lomkhvide::*;
    /// let mut engine = Engine::new(Committee::new(&[Stake(1)])?, 65_536);
    /// let first = Record::builder(RoundNumber(0), AuthorityIndex(0), [1; 32]).finish()?;
    /// let second = Record::builder(RoundNumber(1), AuthorityIndex(0), [2; 32]).include(first.reference()).finish()?;
    /// let fed = engine.feed_all([&second, &first, &second])?;
    /// assert_eq!(fed, [Err(Refusal::IncludeNotStored), Ok(vec![]), Ok(vec![])]);
    /// # Ok::<(), Refusal>(())
    /// ```
    pub fn feed_all<R: AsRef<[u8]>>(&mut self, records: impl IntoIterator<Item = R>) -> Result<Vec<Fed>, Refusal> {
        let records: Vec<R> = records.into_iter().collect();
        let records: Vec<&[u8]> = records.iter().map(AsRef::as_ref).collect();
        // Where the index was too short for one record, those after it were fed without it: all is put back, and fed anew with a longer one.
        let before = self.index.is_some().then(|| self.before(&records));
        loop {
            let fed = self.feed_at_once(&records)?;
            let Some((index, before)) = self.index.as_mut().zip(before.as_ref()) else { return Ok(fed) };
            if !fed.contains(&Err(Refusal::IndexTooShort)) {
                return Ok(fed);
            }
            self.store[..before.store.len()].copy_from_slice(&before.store);
            self.table.copy_from_slice(&before.table);
            index[0] = before.used_index;
            index.resize(2 * index.len() + 1, 0);
        }
    }

    fn feed_at_once(&mut self, records: &[&[u8]]) -> Result<Vec<Fed>, Refusal> {
        match &mut self.index {
            Some(index) => self.committee.feed_records_indexed(&mut self.store, &mut self.table, index, records),
            None => self.committee.feed_records(&mut self.store, &mut self.table, records),
        }
    }

    /// The memory that feeding these records can change.
    fn before(&self, records: &[&[u8]]) -> Before {
        let most: usize = records.iter().map(|record| ENTRY_HEADER + record.len()).sum();
        let touched = self.used().saturating_add(most).min(self.store.len());
        let used_index = self.index.as_ref().map_or(0, |index| index[0]);
        Before { store: self.store[..touched].to_vec(), table: self.table.clone(), used_index }
    }

    /// Runs something on a thread of its own that has stack enough for every call, and waits for it: for a host whose threads are small. It may
    /// borrow; its panic is the caller's. Fails where no thread can be made.
    ///
    /// ```
    /// # use lomkhvide::*;
    /// // One owner, who has shared a change in round 1; and a thread on which a list has no room.
    /// let Sample { engine, .. } = sample();
    /// let small = std::thread::Builder::new().stack_size(65_536);
    /// let list = small.spawn(move || Engine::with_stack(|| engine.finals(Listed::Ordinary, Reading::Old).count()))?;
    /// assert_eq!(list.join().unwrap()?, 1);
    /// # Ok::<(), std::io::Error>(())
    /// ```
    pub fn with_stack<T: Send>(run: impl FnOnce() -> T + Send) -> io::Result<T> {
        thread::scope(|scope| {
            let thread = thread::Builder::new().stack_size(calls::STACK + OWN_STACK).spawn_scoped(scope, run)?;
            Ok(thread.join().unwrap_or_else(|panic| resume_unwind(panic)))
        })
    }

    /// The stored records, in order of arrival, each with the position that the engine's answers name it by.
    ///
    /// ```
    /// # use lomkhvide::*;
    /// // One owner, who has shared a change in round 1.
    /// let Sample { engine, record, .. } = sample();
    /// assert_eq!(engine.records().last(), Some((80, record)));
    /// ```
    pub fn records(&self) -> impl Iterator<Item = (u64, Record)> {
        let mut at = STORE_HEADER;
        std::iter::from_fn(move || {
            let bytes = self.entry(at)?;
            let position = at as u64;
            at += ENTRY_HEADER + bytes.len();
            Some((position, Record::known(bytes)))
        })
    }

    /// The stored record at a position of an answer.
    ///
    /// ```
    /// # use lomkhvide::*;
    /// // One owner, who has shared a change in round 1.
    /// let Sample { engine, record, .. } = sample();
    /// assert_eq!(engine.record_at(80), Some(record));
    /// assert_eq!(engine.record_at(81), None);
    /// ```
    pub fn record_at(&self, position: u64) -> Option<Record> {
        let mut at = STORE_HEADER;
        while let Some(bytes) = self.entry(at) {
            if at as u64 == position {
                return Some(Record::known(bytes));
            }
            at += ENTRY_HEADER + bytes.len();
        }
        None
    }

    /// The used length, which the store's header holds.
    fn used(&self) -> usize {
        number_at(&self.store, 4)
    }

    /// The record of the entry that begins there.
    fn entry(&self, at: usize) -> Option<&[u8]> {
        let used = &self.store[..self.used()];
        let start = at + ENTRY_HEADER;
        (start <= used.len()).then(|| &used[start..start + number_at(used, at + 4)])
    }
}

/// What feeding can change, before it: of the index only its first word, since what is appended comes after the used part.
struct Before {
    store: Vec<u8>,
    table: Vec<u8>,
    used_index: u64,
}

/// How much it holds: its bytes would fill many screens.
impl fmt::Debug for Engine {
    fn fmt(&self, f: &mut fmt::Formatter) -> fmt::Result {
        let (members, records) = (self.committee.members(), self.records().count());
        let index = self.parts().index.map_or("no index".into(), |index| format!("an index of {} words", index.len()));
        write!(f, "Engine({members} members, {records} records, {} of {} bytes, {index})", self.used(), self.store.len())
    }
}

/// The number of the four bytes from a place on, lowest first.
fn number_at(bytes: &[u8], at: usize) -> usize {
    u32::from_le_bytes([bytes[at], bytes[at + 1], bytes[at + 2], bytes[at + 3]]) as usize
}
