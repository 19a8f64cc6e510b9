//! What an engine is asked.

use std::collections::HashMap;

use super::{Engine, ITEM_WORDS};
use crate::calls::stack;
use crate::memory::word_at;
use crate::{Finality, Listed, Locator, Owners, Pending, Reading, Reference, Refusal, Reply, Ring, Slip, Stake, Stretch};

/// The words of a run of the index: author, round, four of the digest, first offset, end, voters low and high.
const RUN_WORDS: usize = 10;

/// The stretches that a list is first asked for, and the most at a time: 80 KB and 20 MB.
const FIRST_STRETCHES: usize = 1024;
const MOST_STRETCHES: usize = 1 << 18;

/// An item of the pending table: neighbouring shares of a block that have the same votes so far.
///
/// ```
/// # use lomkhvide::*;
/// // One owner, who has shared a change in round 1.
/// let Sample { engine, share, .. } = sample();
/// let item = PendingItem { first: share, end: 1, voters: Owners(1), stake: Stake(1) };
/// assert_eq!(engine.pending_items().collect::<Vec<_>>(), [item]);
/// ```
#[derive(Clone, Copy, Debug, PartialEq, Eq)]
pub struct PendingItem {
    /// The first of the shares.
    pub first: Locator,
    /// The offset after the last one.
    pub end: u64,
    /// The owners whose votes are counted.
    pub voters: Owners,
    /// Their stake.
    pub stake: Stake,
}

impl Engine {
    /// Whether a locator is final, and the positions of the blocks that certify it: see [`Engine::record_at`].
    #[doc = stack!(finality_withdrawing)]
    ///
    /// ```
    /// # use lomkhvide::*;
    /// // One owner, who has shared a change in round 1.
    /// let Sample { engine, share, .. } = sample();
    /// assert!(engine.finality(&share, Reading::Old)?.is_final);
    /// let nobody = share.reference().at(1);
    /// assert_eq!(engine.finality(&nobody, Reading::Old)?, Finality { is_final: false, certifying: vec![] });
    /// # Ok::<(), Refusal>(())
    /// ```
    pub fn finality(&self, locator: &Locator, reading: Reading) -> Result<Finality, Refusal> {
        self.committee.finality(&self.store, locator, reading)
    }

    /// A list of final locators, ascending, in stretches of neighbouring ones, in the old reading with the index where it has one. The engine is
    /// asked for 1,024 stretches first, and for ever more where more follow.
    #[doc = stack!(wide_stretches_withdrawing)]
    ///
    /// ```
    /// use lomkhvide::{AuthorityIndex, Committee, Engine, Listed, Reading, Record, Refusal, RoundNumber, Stake};
    ///
    /// // The sole owner shares two changes, rejects the first in the same block, and votes for one that nobody has sent.
    /// let mut engine = Engine::new(Committee::new(&[Stake(1)])?, 65_536);
    /// let first = Record::builder(RoundNumber(0), AuthorityIndex(0), [1; 32]).finish()?;
    /// let mut digest = [0; 32];
    /// digest[3] = 2;
    /// let second = Record::builder(RoundNumber(1), AuthorityIndex(0), digest).include(first.reference());
    /// let second = second.share(b"a").share(b"b").reject("1/0/00000002/0".parse()?, None).accept("1/0/00000007/0".parse()?);
    /// engine.feed(&first)?;
    /// engine.feed(second.finish()?)?;
    ///
    /// let listed = |listed, reading| -> Result<Vec<String>, Refusal> {
    ///     let list = engine.finals(listed, reading);
    ///     list.map(|stretch| stretch.map(|stretch| format!("{}..{}", stretch.first, stretch.end))).collect()
    /// };
    /// assert_eq!(listed(Listed::Ordinary, Reading::Old)?, ["1/0/00000002/0..2"]);
    /// assert_eq!(listed(Listed::Wide, Reading::Old)?, ["1/0/00000002/0..2", "1/0/00000007/0..1"]);
    /// assert_eq!(listed(Listed::Ordinary, Reading::Withdrawing)?, ["1/0/00000002/1..2"]);
    /// # Ok::<(), Box<dyn std::error::Error>>(())
    /// ```
    pub fn finals(&self, listed: Listed, reading: Reading) -> Finals<'_> {
        let room = FIRST_STRETCHES;
        Finals { engine: self, listed, reading, room, ready: Vec::new().into_iter(), after: None, more: true }
    }

    /// The least locator of a list after a given one, or from the start.
    #[doc = stack!(next_wide_withdrawing)]
    ///
    /// ```
    /// # use lomkhvide::*;
    /// // One owner, who has shared a change in round 1.
    /// let Sample { engine, share, .. } = sample();
    /// assert_eq!(engine.next(Listed::Ordinary, Reading::Old, None)?, Some(share));
    /// assert_eq!(engine.next(Listed::Ordinary, Reading::Old, Some(&share))?, None);
    /// # Ok::<(), Refusal>(())
    /// ```
    pub fn next(&self, listed: Listed, reading: Reading, after: Option<&Locator>) -> Result<Option<Locator>, Refusal> {
        self.committee.next(&self.store, listed, reading, after)
    }

    /// Whether each of these locators is final, and the owners of its certifying blocks, in one pass over the index. Refused with 62
    /// where they do not ascend (equal ones may follow each other), and with 54 of an engine without an index.
    #[doc = stack!(answer_sorted)]
    ///
    /// ```
    /// # use lomkhvide::*;
    /// // One owner, who has shared a change in round 1.
    /// let Sample { engine, share, .. } = sample();
    /// let (yes, no) = (Reply { is_final: true, authors: Owners(1) }, Reply { is_final: false, authors: Owners(0) });
    /// assert_eq!(engine.replies(&[share, share.reference().at(1)])?, [yes, no]);
    /// # Ok::<(), Refusal>(())
    /// ```
    pub fn replies(&self, locators: &[Locator]) -> Result<Vec<Reply>, Refusal> {
        self.committee.answer_sorted(&self.store, self.index.as_deref().unwrap_or(&[]), locators)
    }

    /// The voters for a locator at or below each stored block that has any, as the index keeps them, with the block's position; none of an
    /// engine without an index. The index speaks of the old reading.
    ///
    /// ```
    /// # use lomkhvide::*;
    /// // One owner, who has shared a change in round 1, with the index.
    /// let Sample { engine, share, .. } = sample();
    /// assert_eq!(engine.voters(&share), Some(vec![(80, Owners(1))]));
    /// assert_eq!(Engine::new(engine.committee().clone(), 4096).voters(&share), None);
    /// ```
    pub fn voters(&self, locator: &Locator) -> Option<Vec<(u64, Owners)>> {
        let bytes = locator.to_bytes();
        let named: Vec<u64> = (0..6).map(|i| word_at(&bytes, 8 * i)).collect();
        let mut parts = &self.index.as_deref()?[1..];
        let mut voters = Vec::new();
        for (position, _) in self.records() {
            let Some((runs, rest)) = parts.split_first() else { break };
            let (part, rest) = rest.split_at(RUN_WORDS * *runs as usize);
            let run =
                part.chunks_exact(RUN_WORDS).find(|run| run[..6] == named && (run[6]..run[7]).contains(&locator.offset()));
            voters.extend(run.map(|run| (position, Owners::from_words(run[8], run[9]))));
            parts = rest;
        }
        Some(voters)
    }

    /// The stake and the number of the voters of a pending locator; 42 where it is not pending.
    #[doc = stack!(pending_stake)]
    ///
    /// ```
    /// # use lomkhvide::*;
    /// // One owner, who has shared a change in round 1.
    /// let Sample { engine, share, .. } = sample();
    /// assert_eq!(engine.pending(&share)?.stake, Stake(1));
    /// assert_eq!(engine.pending(&share.reference().at(1)), Err(Refusal::NotPending));
    /// # Ok::<(), Refusal>(())
    /// ```
    pub fn pending(&self, locator: &Locator) -> Result<Pending, Refusal> {
        self.committee.pending(&self.store, &self.table, locator)
    }

    /// The items of the pending table, as the engine keeps them.
    ///
    /// ```
    /// # use lomkhvide::*;
    /// // One owner, who has shared a change in round 1.
    /// let Sample { engine, share, .. } = sample();
    /// assert_eq!(engine.pending_items().next().map(|item| item.first), Some(share));
    /// ```
    pub fn pending_items(&self) -> impl Iterator<Item = PendingItem> {
        let words = &self.parts().table[8..];
        words.chunks_exact(8 * ITEM_WORDS).filter_map(|item| {
            let word = |i: usize| word_at(item, 8 * i);
            let first = self.record_at(word(0))?.reference().at(word(1));
            let voters = Owners::from_words(word(3), word(4));
            Some(PendingItem { first, end: word(2), voters, stake: Stake(word(5)) })
        })
    }

    /// The fewest owners, of those who can be reached, whose votes bring a pending locator to quorum; 42 where it is not pending, 60
    /// where even all of them are too few.
    #[doc = stack!(whom_to_ring)]
    ///
    /// ```
    /// use lomkhvide::{AuthorityIndex, Committee, Engine, Owners, Record, Refusal, RoundNumber, Stake};
    ///
    /// // Owner 1 has shared a change, and holds 3 of 11.
    /// let mut engine = Engine::new(Committee::new(&[5, 3, 3].map(Stake))?, 65_536);
    /// let mut second = Record::builder(RoundNumber(1), AuthorityIndex(1), [2; 32]);
    /// for owner in engine.committee().authorities() {
    ///     let first = Record::builder(RoundNumber(0), owner, [1; 32]).finish()?;
    ///     engine.feed(&first)?;
    ///     second = second.include(first.reference());
    /// }
    /// let second = second.share(b"gain").finish()?;
    /// engine.feed(&second)?;
    ///
    /// let ring = engine.ring(&second.reference().at(0), Owners::ALL)?;
    /// assert_eq!((ring.owners.to_string().as_str(), ring.stake), ("0", Stake(5)));
    /// let only_two = [AuthorityIndex(2)].into_iter().collect();
    /// assert_eq!(engine.ring(&second.reference().at(0), only_two), Err(Refusal::QuorumOutOfReach));
    /// # Ok::<(), Refusal>(())
    /// ```
    pub fn ring(&self, locator: &Locator, reachable: Owners) -> Result<Ring, Refusal> {
        self.committee.whom_to_ring(&self.store, &self.table, reachable, locator)
    }

    /// A stored share's payload; 41 where no such share is stored.
    #[doc = stack!(payload_start)]
    ///
    /// ```
    /// # use lomkhvide::*;
    /// // One owner, who has shared a change in round 1.
    /// let Sample { engine, share, .. } = sample();
    /// assert_eq!(engine.payload(&share)?, b"gain");
    /// assert_eq!(engine.payload(&share.reference().at(1)), Err(Refusal::NoSuchShare));
    /// # Ok::<(), Refusal>(())
    /// ```
    pub fn payload(&self, locator: &Locator) -> Result<&[u8], Refusal> {
        self.committee.payload(&self.store, locator)
    }

    /// Whether a station may load a change: a stored share that is final in a reading and whose needed change, if any, may be loaded too.
    #[doc = stack!(is_loadable_withdrawing)]
    ///
    /// ```
    /// # use lomkhvide::*;
    /// // One owner, who has shared a change in round 1.
    /// let Sample { engine, share, .. } = sample();
    /// assert!(engine.is_loadable(&share, Reading::Old)?);
    /// # Ok::<(), Refusal>(())
    /// ```
    pub fn is_loadable(&self, locator: &Locator, reading: Reading) -> Result<bool, Refusal> {
        self.committee.is_loadable(&self.store, locator, reading)
    }

    /// All changes that a station may load in a reading, ascending: what one needs stands before it.
    #[doc = stack!(loadable_withdrawing)]
    ///
    /// ```
    /// # use lomkhvide::*;
    /// // One owner, who has shared a program in round 1.
    /// let Sample { mut engine, share, .. } = sample();
    /// // A gain table for it: the byte 1, the program's locator, the table.
    /// let needs = [&[1], &share.to_bytes()[..], b"gain"].concat();
    /// let table = Record::builder(RoundNumber(2), AuthorityIndex(0), [3; 32]).include(share.reference()).share(&needs);
    /// let table = table.finish()?;
    /// engine.feed(&table)?;
    /// assert_eq!(engine.loadable(Reading::Old)?, [share, table.reference().at(0)]);
    /// # Ok::<(), Refusal>(())
    /// ```
    pub fn loadable(&self, reading: Reading) -> Result<Vec<Locator>, Refusal> {
        let mut blocks = HashMap::new();
        let mut shares = 0;
        for (position, record) in self.records() {
            shares += record.shares().count();
            blocks.insert(position, record.reference());
        }
        let mut places = vec![0; 2 * shares];
        let count = self.committee.loadable(&self.store, reading, &mut places)?;
        Ok(places[..2 * count].chunks_exact(2).filter_map(|place| Some(blocks.get(&place[0])?.at(place[1]))).collect())
    }

    /// The finality slip of a final locator, for a station; 52 where it is not final. In the reading in which an owner may withdraw, a station
    /// reads it with every block of each certifier's ancestry.
    #[doc = stack!(write_slip_withdrawing)]
    ///
    /// ```
    /// # use lomkhvide::*;
    /// // One owner, who has shared a change in round 1.
    /// let Sample { engine, share, .. } = sample();
    /// let slip = engine.slip(&share, Reading::Old)?;
    /// assert_eq!(slip.certifiers()[0].block, share.reference());
    /// assert_eq!(engine.slip(&share.reference().at(1), Reading::Old), Err(Refusal::SlipNotHeld));
    /// # Ok::<(), Refusal>(())
    /// ```
    pub fn slip(&self, locator: &Locator, reading: Reading) -> Result<Slip, Refusal> {
        let mut out = vec![0; 4096];
        loop {
            match self.committee.write_slip(&self.store, locator, reading, &mut out) {
                Err(Refusal::TooShortToWrite) => out.resize(4 * out.len(), 0),
                answer => {
                    out.truncate(answer?);
                    return Ok(Slip::written(out));
                }
            }
        }
    }

    /// The time of a stored block's creation in nanoseconds, where its record has one.
    #[doc = stack!(creation_time)]
    ///
    /// ```
    /// # use lomkhvide::*;
    /// // One owner, who has shared a change in round 1.
    /// let Sample { mut engine, share, .. } = sample();
    /// let timed = Record::builder(RoundNumber(2), AuthorityIndex(0), [3; 32]).include(share.reference()).time(7).finish()?;
    /// engine.feed(&timed)?;
    /// assert_eq!(engine.creation_time(&timed.reference())?, Some(7));
    /// assert_eq!(engine.creation_time(&share.reference())?, None);
    /// # Ok::<(), Refusal>(())
    /// ```
    pub fn creation_time(&self, block: &Reference) -> Result<Option<u64>, Refusal> {
        self.committee.creation_time(&self.store, block)
    }
}

/// A final list of an engine, stretch by stretch: see [`Engine::finals`].
///
/// ```
/// # use lomkhvide::*;
/// // One owner, who has shared a change in round 1.
/// let Sample { engine, .. } = sample();
/// for stretch in engine.finals(Listed::Ordinary, Reading::Old) {
///     let stretch = stretch?;
///     println!("{} to {}: {} blocks certify", stretch.first, stretch.end, stretch.blocks);
/// }
/// # Ok::<(), Refusal>(())
/// ```
#[derive(Clone, Debug)]
pub struct Finals<'a> {
    engine: &'a Engine,
    listed: Listed,
    reading: Reading,
    /// How many stretches the next call has room for.
    room: usize,
    ready: std::vec::IntoIter<Stretch>,
    after: Option<Locator>,
    more: bool,
}

impl Finals<'_> {
    /// Asks for the next part.
    fn fill(&mut self) -> Result<(), Refusal> {
        let Engine { committee, store, index, .. } = self.engine;
        let after = self.after.as_ref();
        let part = match (self.reading, index) {
            (Reading::Old, Some(index)) => committee.stretches_indexed(store, index, self.listed, after, self.room)?,
            _ => committee.stretches(store, self.listed, self.reading, after, self.room)?,
        };
        self.room = (4 * self.room).min(MOST_STRETCHES);
        self.after = part.stretches.last().map(|last| last.first.reference().at(last.end - 1));
        self.more = part.more;
        self.ready = part.stretches.into_iter();
        Ok(())
    }
}

impl Iterator for Finals<'_> {
    type Item = Result<Stretch, Refusal>;

    fn next(&mut self) -> Option<Result<Stretch, Refusal>> {
        if self.ready.len() == 0
            && self.more
            && let Err(refusal) = self.fill()
        {
            self.more = false;
            return Some(Err(refusal));
        }
        self.ready.next().map(Ok)
    }
}
