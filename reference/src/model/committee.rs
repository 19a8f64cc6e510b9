//! 01, "Committee and aggregator of stake".

use super::mistake::Mistake;
use super::record::number;

pub const MOST_STAKE: u64 = u64::MAX / 2;

/// The stakes of a committee, and their sum T.
#[derive(Clone, Debug)]
pub struct Committee {
    pub stakes: Vec<u64>,
    pub total: u64,
    /// For the course page alone: a mistake in counting.
    mistake: Option<Mistake>,
}

/// The voters of something and their stake. Authorities are the bits of a vote set.
#[derive(Clone, Copy, PartialEq, Eq, Debug, Default)]
pub struct Votes {
    pub voters: u128,
    pub stake: u64,
}

impl Committee {
    /// Setting a committee: 1 to 4, ascending.
    pub fn new(stakes: &[u64]) -> Result<Committee, u64> {
        let sum: u128 = stakes.iter().map(|stake| *stake as u128).sum();
        match () {
            _ if stakes.is_empty() => Err(1),
            _ if stakes.contains(&0) => Err(2),
            _ if stakes.len() > 128 => Err(3),
            _ if sum > MOST_STAKE as u128 => Err(4),
            _ => Ok(Committee { stakes: stakes.to_vec(), total: sum as u64, mistake: None }),
        }
    }

    /// Setting one from bytes: 5 where these are not whole words.
    pub fn set_from_bytes(bytes: &[u8]) -> Result<Committee, u64> {
        if bytes.len() % 8 != 0 {
            return Err(5);
        }
        Committee::new(&bytes.chunks(8).map(number).collect::<Vec<_>>())
    }

    /// The committee that a call is lent: 5 where it is broken.
    pub fn lent(bytes: &[u8]) -> Result<Committee, u64> {
        Committee::set_from_bytes(bytes).map_err(|_| 5)
    }

    /// The same committee, counting with this mistake.
    pub fn mistaken(self, mistake: Option<Mistake>) -> Committee {
        match mistake {
            Some(Mistake::HeadsForStake) => {
                Committee { total: self.stakes.len() as u64, stakes: vec![1; self.stakes.len()], mistake }
            }
            _ => Committee { mistake, ..self },
        }
    }

    pub fn makes(&self, mistake: Mistake) -> bool {
        self.mistake == Some(mistake)
    }

    pub fn knows(&self, authority: u64) -> bool {
        authority < self.stakes.len() as u64
    }

    pub fn is_quorum(&self, stake: u64) -> bool {
        is_quorum(self.total, stake)
    }

    /// The stake of a set of known voters, each once.
    pub fn stake_of(&self, voters: u128) -> u64 {
        (0..self.stakes.len()).filter(|i| voters >> i & 1 == 1).map(|i| self.stakes[i]).sum()
    }

    /// Whether the set holds known voters only.
    pub fn knows_all(&self, voters: u128) -> bool {
        self.stakes.len() == 128 || voters >> self.stakes.len() == 0
    }

    /// Adds a known voter: stake grows only for a new one. Whether quorum holds now.
    pub fn vote(&self, votes: &mut Votes, voter: u64) -> bool {
        let is_new = votes.voters >> voter & 1 == 0;
        if is_new || self.makes(Mistake::OwnerTwice) {
            votes.voters |= 1 << voter;
            votes.stake += self.stakes[voter as usize];
        }
        self.is_quorum(votes.stake)
    }

    /// `add`, called directly: 6, then 21; else one of the four.
    pub fn add(&self, votes: &mut Votes, voter: u64) -> Result<Told, u64> {
        if !self.knows_all(votes.voters) || votes.stake != self.stake_of(votes.voters) {
            return Err(6);
        }
        if !self.knows(voter) {
            return Err(21);
        }
        let repeated = votes.voters >> voter & 1 == 1;
        let before = self.is_quorum(votes.stake);
        let now = self.vote(votes, voter);
        Ok(match (repeated, now) {
            (true, false) => Told::RepeatedBelow,
            (true, true) => Told::RepeatedWith,
            (false, false) => Told::NewBelow,
            (false, true) => Told::NewWith { crossed: !before },
        })
    }
}

/// What `add` answers: "repeated below quorum, repeated with quorum, new below quorum, new with quorum, the last also saying
/// whether this vote crossed it".
pub enum Told {
    RepeatedBelow,
    RepeatedWith,
    NewBelow,
    NewWith { crossed: bool },
}

impl Told {
    /// The number that a host is sent.
    pub fn number(&self) -> u64 {
        match self {
            Told::RepeatedBelow => 0,
            Told::RepeatedWith => 1,
            Told::NewBelow => 2,
            Told::NewWith { crossed: false } => 3,
            Told::NewWith { crossed: true } => 4,
        }
    }
}

/// 3s > 2T.
pub fn is_quorum(total: u64, stake: u64) -> bool {
    3 * stake as u128 > 2 * total as u128
}

/// 3s > T.
pub fn is_valid(total: u64, stake: u64) -> bool {
    3 * stake as u128 > total as u128
}

/// The course committee: T = 17.
pub const COURSE: [u64; 7] = [5, 3, 3, 2, 2, 1, 1];
