//! Committees, and the counting of votes.

use std::fmt;

use crate::calls::stack;
use crate::memory::{bytes_of, word_at, words_of};
use crate::{AuthorityIndex, Owners, Refusal, Stake, calls};

/// The most members of a committee.
const MOST_MEMBERS: usize = 128;

/// A committee that the engine has taken: its stakes, as every other call is lent them. The calls that are lent a store are its methods.
///
/// ```
/// use lomkhvide::{Committee, Refusal, Stake};
///
/// let committee = Committee::new(&[5, 3, 3, 2, 2, 1, 1].map(Stake))?;
/// assert_eq!(committee.total_stake(), Stake(17));
/// # Ok::<(), Refusal>(())
/// ```
#[derive(Clone, Debug, PartialEq, Eq)]
pub struct Committee {
    stakes: Vec<u8>,
    total: Stake,
}

impl Committee {
    /// Sets a committee, or 1 to 4.
    #[doc = stack!(new_committee)]
    ///
    /// ```
    /// use lomkhvide::{Committee, Refusal, Stake};
    ///
    /// assert_eq!(Committee::new(&[Stake(5), Stake(0)]), Err(Refusal::ZeroStake));
    /// ```
    pub fn new(stakes: &[Stake]) -> Result<Committee, Refusal> {
        Committee::from_bytes(stakes.iter().flat_map(|stake| stake.0.to_le_bytes()).collect())
    }

    /// The same of stakes as they cross, or 5 where they are not whole words.
    #[doc = stack!(new_committee)]
    ///
    /// ```
    /// use lomkhvide::{Committee, Refusal};
    ///
    /// assert_eq!(Committee::from_bytes(vec![1; 7]), Err(Refusal::BrokenCommittee));
    /// ```
    pub fn from_bytes(stakes: Vec<u8>) -> Result<Committee, Refusal> {
        let total = Stake(calls::new_committee(&stakes)?);
        Ok(Committee { stakes, total })
    }

    /// Loads a network's own stakes from the bytes of its file `stakes`; no bytes are the course committee. Or 56, 57, 1 to 4.
    #[doc = stack!(load_stakes)]
    ///
    /// ```
    /// use lomkhvide::{Committee, Refusal, Stake};
    ///
    /// assert_eq!(Committee::load(&[])?.total_stake(), Stake(17), "the course committee");
    /// # Ok::<(), Refusal>(())
    /// ```
    pub fn load(file: &[u8]) -> Result<Committee, Refusal> {
        let mut stakes = vec![0; 8 * MOST_MEMBERS];
        let members = calls::load_stakes(file, &mut stakes)? as usize;
        stakes.truncate(8 * members);
        Committee::from_bytes(stakes)
    }

    /// The stake of all members.
    ///
    /// ```
    /// use lomkhvide::{Committee, Refusal, Stake};
    ///
    /// assert_eq!(Committee::new(&[5, 3].map(Stake))?.total_stake(), Stake(8));
    /// # Ok::<(), Refusal>(())
    /// ```
    pub fn total_stake(&self) -> Stake {
        self.total
    }

    /// The stakes, as every other call is lent them.
    ///
    /// ```
    /// use lomkhvide::{Committee, Refusal, Stake};
    ///
    /// assert_eq!(Committee::new(&[5, 3].map(Stake))?.stakes().len(), 16);
    /// # Ok::<(), Refusal>(())
    /// ```
    pub fn stakes(&self) -> &[u8] {
        &self.stakes
    }

    /// How many members it has.
    ///
    /// ```
    /// use lomkhvide::{Committee, Refusal, Stake};
    ///
    /// assert_eq!(Committee::new(&[5, 3, 3].map(Stake))?.members(), 3);
    /// # Ok::<(), Refusal>(())
    /// ```
    pub fn members(&self) -> usize {
        self.stakes.len() / 8
    }

    /// Its members, ascending.
    ///
    /// ```
    /// use lomkhvide::{AuthorityIndex, Committee, Refusal, Stake};
    ///
    /// assert!(Committee::new(&[5, 3].map(Stake))?.authorities().eq([0, 1].map(AuthorityIndex)));
    /// # Ok::<(), Refusal>(())
    /// ```
    pub fn authorities(&self) -> impl Iterator<Item = AuthorityIndex> + use<> {
        (0..self.members() as u64).map(AuthorityIndex)
    }

    /// The stake of a member; none of a number that is none.
    ///
    /// ```
    /// use lomkhvide::{AuthorityIndex, Committee, Refusal, Stake};
    ///
    /// let committee = Committee::new(&[5, 3, 3].map(Stake))?;
    /// assert_eq!(committee.stake(AuthorityIndex(0)), Some(Stake(5)));
    /// assert_eq!(committee.stake(AuthorityIndex(3)), None);
    /// # Ok::<(), Refusal>(())
    /// ```
    pub fn stake(&self, owner: AuthorityIndex) -> Option<Stake> {
        let owner = usize::try_from(owner.0).ok().filter(|owner| *owner < self.members())?;
        Some(Stake(word_at(&self.stakes, 8 * owner)))
    }

    /// Whether an amount of stake is quorum.
    ///
    /// ```
    /// use lomkhvide::{Committee, Refusal, Stake};
    ///
    /// let committee = Committee::new(&[1; 4].map(Stake))?;
    /// assert!(committee.is_quorum(Stake(3)) && !committee.is_quorum(Stake(2)));
    /// # Ok::<(), Refusal>(())
    /// ```
    pub fn is_quorum(&self, amount: Stake) -> bool {
        is_quorum(self.total, amount)
    }

    /// The least stake that is quorum: the engine is asked, by halving.
    #[doc = stack!(is_quorum)]
    ///
    /// ```
    /// use lomkhvide::{Committee, Refusal, Stake};
    ///
    /// assert_eq!(Committee::new(&[5, 3, 3, 2, 2, 1, 1].map(Stake))?.quorum(), Stake(12));
    /// # Ok::<(), Refusal>(())
    /// ```
    pub fn quorum(&self) -> Stake {
        let (mut below, mut quorum) = (0, self.total.0);
        while quorum - below > 1 {
            let middle = below + (quorum - below) / 2;
            if self.is_quorum(Stake(middle)) {
                quorum = middle;
            } else {
                below = middle;
            }
        }
        Stake(quorum)
    }

    /// Puts a voter into the aggregator: what the vote did; or 6, 21, and the aggregator is as it was.
    #[doc = stack!(add)]
    ///
    /// ```
    /// use lomkhvide::{Aggregator, AuthorityIndex, Committee, Refusal, Stake, Vote};
    ///
    /// let committee = Committee::new(&[5, 3, 3].map(Stake))?;
    /// let mut aggregator = Aggregator::default();
    /// assert_eq!(committee.add(&mut aggregator, AuthorityIndex(0))?, Vote::NewBelowQuorum);
    /// assert_eq!(committee.add(&mut aggregator, AuthorityIndex(1))?, Vote::NewWithQuorum { crossed: true });
    /// # Ok::<(), Refusal>(())
    /// ```
    pub fn add(&self, aggregator: &mut Aggregator, voter: AuthorityIndex) -> Result<Vote, Refusal> {
        let [low, high] = aggregator.voters.to_words();
        let mut held = bytes_of(&[low, high, aggregator.stake.0]);
        let vote = Vote::of(calls::add(&self.stakes, &mut held, voter.0)?);
        let words = words_of(&held);
        *aggregator = Aggregator { voters: Owners::from_words(words[0], words[1]), stake: Stake(words[2]) };
        Ok(vote)
    }
}

/// Whether an amount of stake is quorum of a total.
///
/// ```
/// use lomkhvide::{Stake, is_quorum};
///
/// assert!(is_quorum(Stake(17), Stake(12)) && !is_quorum(Stake(17), Stake(11)));
/// ```
pub fn is_quorum(total: Stake, amount: Stake) -> bool {
    calls::is_quorum(total.0, amount.0) == Ok(1)
}

/// Whether it is valid.
///
/// ```
/// use lomkhvide::{Stake, is_valid};
///
/// assert!(is_valid(Stake(17), Stake(6)) && !is_valid(Stake(17), Stake(5)));
/// ```
pub fn is_valid(total: Stake, amount: Stake) -> bool {
    calls::is_valid(total.0, amount.0) == Ok(1)
}

/// Voters, and the stake that they hold together.
///
/// ```
/// use lomkhvide::{Aggregator, Stake};
///
/// assert_eq!(Aggregator::default().stake, Stake(0));
/// ```
#[derive(Clone, Copy, Debug, Default, PartialEq, Eq)]
pub struct Aggregator {
    /// Who has voted.
    pub voters: Owners,
    /// The sum of their stakes.
    pub stake: Stake,
}

/// What adding a vote tells: whether the voter had voted or is new, and whether quorum holds now.
///
/// ```
/// use lomkhvide::Vote;
///
/// assert_eq!(Vote::NewWithQuorum { crossed: true }.to_string(), "new, completes the quorum");
/// ```
#[derive(Clone, Copy, Debug, PartialEq, Eq)]
pub enum Vote {
    /// The voter had voted, and quorum does not hold.
    RepeatedBelowQuorum,
    /// The voter had voted, and quorum holds.
    RepeatedWithQuorum,
    /// A new vote, and quorum does not hold.
    NewBelowQuorum,
    /// A new vote, and quorum holds.
    NewWithQuorum {
        /// Quorum did not hold before this vote.
        crossed: bool,
    },
}

impl Vote {
    fn of(number: u64) -> Vote {
        match number {
            0 => Vote::RepeatedBelowQuorum,
            1 => Vote::RepeatedWithQuorum,
            2 => Vote::NewBelowQuorum,
            _ => Vote::NewWithQuorum { crossed: number == 4 },
        }
    }

    /// Whether quorum holds now.
    ///
    /// ```
    /// assert!(lomkhvide::Vote::RepeatedWithQuorum.has_quorum());
    /// ```
    pub fn has_quorum(self) -> bool {
        matches!(self, Vote::RepeatedWithQuorum | Vote::NewWithQuorum { .. })
    }
}

impl fmt::Display for Vote {
    fn fmt(&self, f: &mut fmt::Formatter) -> fmt::Result {
        f.write_str(match self {
            Vote::RepeatedBelowQuorum => "repeated, below quorum",
            Vote::RepeatedWithQuorum => "repeated, with quorum",
            Vote::NewBelowQuorum => "new, below quorum",
            Vote::NewWithQuorum { crossed: false } => "new, with quorum",
            Vote::NewWithQuorum { crossed: true } => "new, completes the quorum",
        })
    }
}
