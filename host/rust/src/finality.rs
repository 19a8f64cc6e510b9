//! What is final: of one locator, as lists, and of many locators at once, over memory that the caller lends.

use crate::calls::stack;
use crate::memory::words_of;
use crate::{Committee, Locator, Owners, Refusal, Stake, calls};

/// How votes are read.
///
/// ```
/// # use lomkhvide::*;
/// // One owner, who has shared a change in round 1 and withdrawn nothing.
/// let Sample { engine, share, .. } = sample();
/// assert_eq!(engine.finality(&share, Reading::Old), engine.finality(&share, Reading::Withdrawing));
/// ```
#[derive(Clone, Copy, Debug, Default, PartialEq, Eq, Hash)]
pub enum Reading {
    /// A vote stands: rejects do nothing.
    #[default]
    Old,
    /// An owner may withdraw: in the ancestry of a block, an owner's reject of a locator cancels the owner's share, accepts and ranges for it,
    /// for that block.
    Withdrawing,
}

/// What a list of final locators has.
///
/// ```
/// # use lomkhvide::*;
/// // One owner, who has shared a change in round 1.
/// let Sample { engine, .. } = sample();
/// assert!(engine.finals(Listed::Ordinary, Reading::Old).eq(engine.finals(Listed::Wide, Reading::Old)));
/// ```
#[derive(Clone, Copy, Debug, Default, PartialEq, Eq, Hash)]
pub enum Listed {
    /// The final locators that name a stored share.
    #[default]
    Ordinary,
    /// Every final locator, also one that a mistyped vote names and for which there is no payload.
    Wide,
}

/// Whether a locator is final, and the positions in the store of the blocks that certify it, in ascending order of reference.
///
/// ```
/// # use lomkhvide::*;
/// // One owner, who has shared a change in round 1.
/// let Sample { engine, share, .. } = sample();
/// assert_eq!(engine.finality(&share, Reading::Old)?, Finality { is_final: true, certifying: vec![80] });
/// # Ok::<(), Refusal>(())
/// ```
#[derive(Clone, Debug, PartialEq, Eq)]
pub struct Finality {
    /// Whether the authors of the certifying blocks hold quorum.
    pub is_final: bool,
    /// Where the certifying blocks stand: see [`Engine::record_at`](crate::Engine::record_at).
    pub certifying: Vec<u64>,
}

/// Neighbouring final locators of one block, from the first to an end offset (excluded), that have the same certifying blocks.
///
/// ```
/// # use lomkhvide::*;
/// // One owner, who has shared a change in round 1.
/// let Sample { committee, store, share, .. } = sample();
/// let list = committee.stretches(&store, Listed::Ordinary, Reading::Old, None, 128)?;
/// assert_eq!(list.stretches[0], Stretch { first: share, end: 1, blocks: 1, stake: Stake(1) });
/// # Ok::<(), Refusal>(())
/// ```
#[derive(Clone, Copy, Debug, PartialEq, Eq)]
pub struct Stretch {
    /// The first of them.
    pub first: Locator,
    /// The offset after the last one.
    pub end: u64,
    /// How many blocks certify each.
    pub blocks: u64,
    /// The stake of these blocks' authors, each once.
    pub stake: Stake,
}

impl Stretch {
    /// Each of its locators, ascending.
    ///
    /// ```
    /// use lomkhvide::{Locator, NotALocator, Stake, Stretch};
    ///
    /// let stretch = Stretch { first: "1/0/00000005/2".parse()?, end: 4, blocks: 1, stake: Stake(1) };
    /// let locators: Vec<String> = stretch.locators().map(|locator| locator.to_string()).collect();
    /// assert_eq!(locators, ["1/0/00000005/2", "1/0/00000005/3"]);
    /// # Ok::<(), NotALocator>(())
    /// ```
    pub fn locators(&self) -> impl Iterator<Item = Locator> + use<> {
        let block = self.first.reference();
        (self.first.offset()..self.end).map(move |offset| block.at(offset))
    }
}

/// A part of a final list, and whether more follows.
///
/// ```
/// # use lomkhvide::*;
/// // One owner, who has shared a change in round 1.
/// let Sample { committee, store, .. } = sample();
/// let list = committee.stretches(&store, Listed::Ordinary, Reading::Old, None, 128)?;
/// assert!(list.stretches.len() == 1 && !list.more);
/// # Ok::<(), Refusal>(())
/// ```
#[derive(Clone, Debug, PartialEq, Eq)]
pub struct Stretches {
    /// The stretches, ascending.
    pub stretches: Vec<Stretch>,
    /// Whether locators of the list follow: ask on after the last one here.
    pub more: bool,
}

/// What is answered about a locator of a sorted list.
///
/// ```
/// use lomkhvide::{AuthorityIndex, Owners, Reply};
///
/// let reply = Reply { is_final: true, authors: Owners(0b111) };
/// assert!(reply.authors.contains(AuthorityIndex(2)));
/// ```
#[derive(Clone, Copy, Debug, PartialEq, Eq)]
pub struct Reply {
    /// Whether it is final.
    pub is_final: bool,
    /// The authors of its certifying blocks.
    pub authors: Owners,
}

/// The words that a question is lent for positions.
const POSITIONS: usize = 1024;

/// The bytes of a stretch: its first locator, and words for end, number of certifying blocks and their authors' stake.
const STRETCH_LEN: usize = 80;

/// The stretches that a call has written, by its answer: each its first locator, then three words.
fn stretches_in(number: u64, bytes: &[u8]) -> Stretches {
    let stretch = |bytes: &[u8; STRETCH_LEN]| {
        let (first, words) = bytes.split_first_chunk().expect("a stretch begins with a locator");
        let words = words_of(words);
        Stretch { first: Locator::from_bytes(first), end: words[0], blocks: words[1], stake: Stake(words[2]) }
    };
    let stretches = bytes.as_chunks().0.iter().take((number / 2) as usize).map(stretch).collect();
    Stretches { stretches, more: number % 2 == 1 }
}

/// A locator to go on after, or none, as it crosses.
fn bytes_after(after: Option<&Locator>) -> Vec<u8> {
    after.map_or(Vec::new(), |locator| locator.to_bytes().to_vec())
}

impl Committee {
    /// Whether a locator is final; or 5, 10.
    #[doc = stack!(finality_withdrawing)]
    ///
    /// ```
    /// # use lomkhvide::*;
    /// // One owner, who has shared a change in round 1.
    /// let Sample { committee, store, share, .. } = sample();
    /// assert!(committee.finality(&store, &share, Reading::Old)?.is_final);
    /// # Ok::<(), Refusal>(())
    /// ```
    pub fn finality(&self, store: &[u8], locator: &Locator, reading: Reading) -> Result<Finality, Refusal> {
        let call = match reading {
            Reading::Old => calls::finality,
            Reading::Withdrawing => calls::finality_withdrawing,
        };
        let mut positions = vec![0; 8 * POSITIONS];
        let number = call(self.stakes(), store, &mut positions, &locator.to_bytes())?;
        Ok(Finality { is_final: number % 2 == 1, certifying: words_of(&positions[..8 * (number / 2) as usize]) })
    }

    /// The least locator of a list after a given one, or from the start; or 5, 10.
    #[doc = stack!(next_wide_withdrawing)]
    ///
    /// ```
    /// # use lomkhvide::*;
    /// // One owner, who has shared a change in round 1.
    /// let Sample { committee, store, share, .. } = sample();
    /// assert_eq!(committee.next(&store, Listed::Ordinary, Reading::Old, None)?, Some(share));
    /// assert_eq!(committee.next(&store, Listed::Ordinary, Reading::Old, Some(&share))?, None);
    /// # Ok::<(), Refusal>(())
    /// ```
    pub fn next(
        &self,
        store: &[u8],
        listed: Listed,
        reading: Reading,
        after: Option<&Locator>,
    ) -> Result<Option<Locator>, Refusal> {
        let call = match (listed, reading) {
            (Listed::Ordinary, Reading::Old) => calls::next_final,
            (Listed::Wide, Reading::Old) => calls::next_wide,
            (Listed::Ordinary, Reading::Withdrawing) => calls::next_final_withdrawing,
            (Listed::Wide, Reading::Withdrawing) => calls::next_wide_withdrawing,
        };
        let mut found = [0; 56];
        let is_found = call(self.stakes(), store, &bytes_after(after), &mut found)? == 1;
        Ok(is_found.then(|| Locator::from_bytes(&found)))
    }

    /// A list after a given locator, or from the start, up to that many stretches of it, one at least; or 5, 10.
    #[doc = stack!(wide_stretches_withdrawing)]
    ///
    /// ```
    /// # use lomkhvide::*;
    /// // One owner, who has shared a change in round 1.
    /// let Sample { committee, store, share, .. } = sample();
    /// let list = |after| committee.stretches(&store, Listed::Ordinary, Reading::Old, after, 128);
    /// assert_eq!(list(None)?.stretches[0].first, share);
    /// assert!(list(Some(&share))?.stretches.is_empty());
    /// # Ok::<(), Refusal>(())
    /// ```
    pub fn stretches(
        &self,
        store: &[u8],
        listed: Listed,
        reading: Reading,
        after: Option<&Locator>,
        most: usize,
    ) -> Result<Stretches, Refusal> {
        let call = match (listed, reading) {
            (Listed::Ordinary, Reading::Old) => calls::final_stretches,
            (Listed::Wide, Reading::Old) => calls::wide_stretches,
            (Listed::Ordinary, Reading::Withdrawing) => calls::final_stretches_withdrawing,
            (Listed::Wide, Reading::Withdrawing) => calls::wide_stretches_withdrawing,
        };
        let mut stretches = vec![0; STRETCH_LEN * most.max(1)];
        let number = call(self.stakes(), store, &bytes_after(after), &mut stretches)?;
        Ok(stretches_in(number, &stretches))
    }

    /// The same with the index, which goes from feed to feed with the store and speaks of the old reading; or 5, 10, 54 an index that
    /// disagrees with the store.
    #[doc = stack!(wide_stretches_indexed)]
    ///
    /// ```
    /// # use lomkhvide::*;
    /// let committee = Committee::new(&[Stake(1)])?;
    /// let list = |index: &[u64]| committee.stretches_indexed(&fresh_store(16), index, Listed::Ordinary, None, 1);
    /// assert!(list(&fresh_index(1))?.stretches.is_empty());
    /// assert_eq!(list(&[]), Err(Refusal::IndexDisagrees));
    /// # Ok::<(), Refusal>(())
    /// ```
    pub fn stretches_indexed(
        &self,
        store: &[u8],
        index: &[u64],
        listed: Listed,
        after: Option<&Locator>,
        most: usize,
    ) -> Result<Stretches, Refusal> {
        let call = match listed {
            Listed::Ordinary => calls::final_stretches_indexed,
            Listed::Wide => calls::wide_stretches_indexed,
        };
        let mut stretches = vec![0; STRETCH_LEN * most.max(1)];
        let number = call(self.stakes(), store, index, &bytes_after(after), &mut stretches)?;
        Ok(stretches_in(number, &stretches))
    }

    /// The replies to locators in ascending order, equal ones included, with the index that was kept beside the store; or 5, 10, 54, 62.
    #[doc = stack!(answer_sorted)]
    ///
    /// ```
    /// # use lomkhvide::*;
    /// let committee = Committee::new(&[Stake(1)])?;
    /// assert_eq!(committee.answer_sorted(&fresh_store(16), &fresh_index(1), &[])?, []);
    /// # Ok::<(), Refusal>(())
    /// ```
    pub fn answer_sorted(&self, store: &[u8], index: &[u64], locators: &[Locator]) -> Result<Vec<Reply>, Refusal> {
        let bytes: Vec<u8> = locators.iter().flat_map(Locator::to_bytes).collect();
        let mut replies = vec![0; 3 * locators.len()];
        calls::answer_sorted(self.stakes(), store, index, &bytes, &mut replies)?;
        let reply = |words: &[u64]| Reply { is_final: words[0] == 1, authors: Owners::from_words(words[1], words[2]) };
        Ok(replies.chunks_exact(3).map(reply).collect())
    }
}
