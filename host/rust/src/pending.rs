//! What is pending, and whom to ring, over memory that the caller lends.

use crate::calls::stack;
use crate::memory::words_of;
use crate::{Committee, Locator, Owners, Refusal, Stake, calls};

/// The stake and the number of the voters of a pending locator.
///
/// ```
/// # use lomkhvide::*;
/// // One owner, who has shared a change in round 1.
/// let Sample { engine, share, .. } = sample();
/// assert_eq!(engine.pending(&share)?, Pending { stake: Stake(1), voters: 1 });
/// # Ok::<(), Refusal>(())
/// ```
#[derive(Clone, Copy, Debug, PartialEq, Eq)]
pub struct Pending {
    /// What the voters hold together.
    pub stake: Stake,
    /// How many they are.
    pub voters: u64,
}

/// The fewest owners whose votes bring a locator to quorum.
///
/// ```
/// use lomkhvide::{Owners, Ring, Stake};
///
/// let ring = Ring { owners: Owners(5), stake: Stake(8) };
/// assert_eq!(ring.owners.to_string(), "0, 2");
/// ```
#[derive(Clone, Copy, Debug, PartialEq, Eq)]
pub struct Ring {
    /// Whom to ring.
    pub owners: Owners,
    /// The stake that they hold together.
    pub stake: Stake,
}

impl Ring {
    /// From the three words that a call has written.
    fn of(found: &[u8]) -> Ring {
        let words = words_of(found);
        Ring { owners: Owners::from_words(words[0], words[1]), stake: Stake(words[2]) }
    }
}

impl Committee {
    /// The stake and the number of voters of a pending locator; or 5, 10, 11, 42.
    #[doc = stack!(pending_stake)]
    ///
    /// ```
    /// # use lomkhvide::*;
    /// // One owner, who has shared a change in round 1.
    /// let Sample { committee, store, table, share, .. } = sample();
    /// assert_eq!(committee.pending(&store, &table, &share)?.voters, 1);
    /// # Ok::<(), Refusal>(())
    /// ```
    pub fn pending(&self, store: &[u8], table: &[u8], locator: &Locator) -> Result<Pending, Refusal> {
        let locator = locator.to_bytes();
        let stake = Stake(calls::pending_stake(self.stakes(), store, table, &locator)?);
        Ok(Pending { stake, voters: calls::pending_voters(self.stakes(), store, table, &locator)? })
    }

    /// Whom to ring so that a pending locator gets its quorum, of the owners who can be reached; or 5, 10, 11, 42, 60.
    #[doc = stack!(whom_to_ring)]
    ///
    /// ```
    /// # use lomkhvide::*;
    /// // One owner, who has shared a change in round 1.
    /// let Sample { committee, store, table, share, .. } = sample();
    /// let ring = committee.whom_to_ring(&store, &table, Owners::ALL, &share)?;
    /// assert!(ring.owners.is_empty(), "its owner has voted, and is quorum");
    /// # Ok::<(), Refusal>(())
    /// ```
    pub fn whom_to_ring(&self, store: &[u8], table: &[u8], reachable: Owners, locator: &Locator) -> Result<Ring, Refusal> {
        let [low, high] = reachable.to_words();
        let mut found = [0; 24];
        calls::whom_to_ring(self.stakes(), store, table, low, high, &locator.to_bytes(), &mut found)?;
        Ok(Ring::of(&found))
    }

    /// The same for any set of voters, without a store: the fewest of the owners who can be reached whose stake with the voters' is quorum; nobody
    /// where the voters hold it. Unknown numbers are ignored in both sets. Or 60.
    #[doc = stack!(fewest_owners)]
    ///
    /// ```
    /// use lomkhvide::{Committee, Owners, Refusal, Ring, Stake};
    ///
    /// let committee = Committee::new(&[5, 3, 3, 2, 2, 1, 1].map(Stake))?;
    /// // Owners 2 and 3 have voted; 7 more are needed for 12 of 17.
    /// let ring = committee.fewest_owners(Owners(0b1100), Owners::ALL)?;
    /// assert_eq!(ring, Ring { owners: Owners(0b11), stake: Stake(8) });
    /// assert_eq!(committee.fewest_owners(Owners(0b1100), Owners(0b1)), Err(Refusal::QuorumOutOfReach));
    /// # Ok::<(), Refusal>(())
    /// ```
    pub fn fewest_owners(&self, voters: Owners, reachable: Owners) -> Result<Ring, Refusal> {
        let ([voters_low, voters_high], [low, high]) = (voters.to_words(), reachable.to_words());
        let mut found = [0; 24];
        calls::fewest_owners(self.stakes(), voters_low, voters_high, low, high, &mut found)?;
        Ok(Ring::of(&found))
    }
}
