//! The three sorts of number that must not be taken for each other, and sets of owners.

use std::fmt;
use std::iter::Sum;
use std::num::ParseIntError;
use std::ops::{Add, Sub};
use std::str::FromStr;

/// An owner, by the place of its stake in the committee, from 0 on.
///
/// ```
/// use lomkhvide::AuthorityIndex;
///
/// assert_eq!(AuthorityIndex(3).to_string(), "3");
/// assert_eq!("3".parse(), Ok(AuthorityIndex(3)));
/// ```
#[derive(Clone, Copy, Debug, Default, PartialEq, Eq, PartialOrd, Ord, Hash)]
pub struct AuthorityIndex(pub u64);

/// The round of a block, from 0 on.
///
/// ```
/// use lomkhvide::RoundNumber;
///
/// assert!(RoundNumber(2) < RoundNumber(10));
/// ```
#[derive(Clone, Copy, Debug, Default, PartialEq, Eq, PartialOrd, Ord, Hash)]
pub struct RoundNumber(pub u64);

/// An amount of stake. Whether it is quorum, the engine says: [`Committee::is_quorum`](crate::Committee::is_quorum).
///
/// ```
/// use lomkhvide::Stake;
///
/// assert_eq!(Stake(5) + Stake(3), Stake(8));
/// assert_eq!([5, 3, 3].map(Stake).into_iter().sum::<Stake>(), Stake(11));
/// ```
#[derive(Clone, Copy, Debug, Default, PartialEq, Eq, PartialOrd, Ord, Hash)]
pub struct Stake(pub u64);

/// Printed and read as the number alone.
macro_rules! number {
    ($($name:ident)*) => {$(
        impl fmt::Display for $name {
            fn fmt(&self, f: &mut fmt::Formatter) -> fmt::Result {
                self.0.fmt(f)
            }
        }

        impl FromStr for $name {
            type Err = ParseIntError;

            fn from_str(text: &str) -> Result<$name, ParseIntError> {
                text.parse().map($name)
            }
        }
    )*};
}

number!(AuthorityIndex RoundNumber Stake);

impl Add for Stake {
    type Output = Stake;

    fn add(self, other: Stake) -> Stake {
        Stake(self.0 + other.0)
    }
}

impl Sub for Stake {
    type Output = Stake;

    fn sub(self, other: Stake) -> Stake {
        Stake(self.0 - other.0)
    }
}

impl Sum for Stake {
    fn sum<I: Iterator<Item = Stake>>(stakes: I) -> Stake {
        stakes.fold(Stake(0), Add::add)
    }
}

/// A set of owners: owner i is bit i. The numbers of owners are below 128.
///
/// ```
/// use lomkhvide::{AuthorityIndex, Owners};
///
/// let owners: Owners = [5, 0].map(AuthorityIndex).into_iter().collect();
/// assert_eq!(owners.iter().collect::<Vec<_>>(), [0, 5].map(AuthorityIndex));
/// assert_eq!(owners.to_string(), "0, 5");
/// ```
#[derive(Clone, Copy, Debug, Default, PartialEq, Eq, Hash)]
pub struct Owners(pub u128);

impl Owners {
    /// Every number that an owner can have.
    ///
    /// ```
    /// assert_eq!(lomkhvide::Owners::ALL.len(), 128);
    /// ```
    pub const ALL: Owners = Owners(u128::MAX);

    /// From a set in two words, as it crosses.
    ///
    /// ```
    /// assert_eq!(lomkhvide::Owners::from_words(1, 2).to_string(), "0, 65");
    /// ```
    pub fn from_words(low: u64, high: u64) -> Owners {
        Owners(low as u128 | (high as u128) << 64)
    }

    /// The two words as which it crosses, low and high.
    ///
    /// ```
    /// assert_eq!(lomkhvide::Owners::from_words(1, 2).to_words(), [1, 2]);
    /// ```
    pub fn to_words(self) -> [u64; 2] {
        [self.0 as u64, (self.0 >> 64) as u64]
    }

    /// Whether an owner is in it.
    ///
    /// ```
    /// use lomkhvide::{AuthorityIndex, Owners};
    ///
    /// assert!(Owners(4).contains(AuthorityIndex(2)) && !Owners(4).contains(AuthorityIndex(200)));
    /// ```
    pub fn contains(self, owner: AuthorityIndex) -> bool {
        owner.0 < 128 && self.0 >> owner.0 & 1 == 1
    }

    /// Its members, ascending.
    ///
    /// ```
    /// use lomkhvide::{AuthorityIndex, Owners};
    ///
    /// assert_eq!(Owners(6).iter().collect::<Vec<_>>(), [1, 2].map(AuthorityIndex));
    /// ```
    pub fn iter(self) -> impl Iterator<Item = AuthorityIndex> {
        (0..128).map(AuthorityIndex).filter(move |owner| self.contains(*owner))
    }

    /// How many there are.
    ///
    /// ```
    /// assert_eq!(lomkhvide::Owners(6).len(), 2);
    /// ```
    pub fn len(self) -> usize {
        self.0.count_ones() as usize
    }

    /// Whether there are none.
    ///
    /// ```
    /// assert!(lomkhvide::Owners::default().is_empty());
    /// ```
    pub fn is_empty(self) -> bool {
        self.0 == 0
    }
}

/// Numbers from 128 on belong to nobody and are left out.
impl FromIterator<AuthorityIndex> for Owners {
    fn from_iter<I: IntoIterator<Item = AuthorityIndex>>(owners: I) -> Owners {
        Owners(owners.into_iter().filter(|owner| owner.0 < 128).fold(0, |set, owner| set | 1 << owner.0))
    }
}

/// The numbers, with commas between them.
impl fmt::Display for Owners {
    fn fmt(&self, f: &mut fmt::Formatter) -> fmt::Result {
        for (i, owner) in self.iter().enumerate() {
            write!(f, "{}{owner}", if i == 0 { "" } else { ", " })?;
        }
        Ok(())
    }
}
