//! Finality slips, taken apart.

use crate::calls::stack;
use crate::feeding::framed;
use crate::memory::word_at;
use crate::{AuthorityIndex, Committee, Locator, Reading, Record, Reference, Refusal, calls};

/// A finality slip: which blocks certify a locator, and where the votes of their voters stand.
///
/// A node has its engine write one ([`Engine::slip`](crate::Engine::slip)); a station reads it with the records that come with it
/// ([`Slip::read`]) and needs no store.
///
/// ```
/// # use lomkhvide::*;
/// // One owner, who has shared a change in round 1.
/// let Sample { engine, record, share, .. } = sample();
/// let slip = engine.slip(&share, Reading::Old)?;
///
/// // At the station:
/// let read = Slip::read(engine.committee(), slip.as_bytes(), &[record], Reading::Old)?;
/// assert_eq!(read.certifiers()[0].voters[0].author, AuthorityIndex(0));
/// # Ok::<(), Refusal>(())
/// ```
#[derive(Clone, Debug, PartialEq, Eq)]
pub struct Slip {
    bytes: Vec<u8>,
    certifiers: Vec<Certifier>,
}

/// A certifying block, with its voters.
///
/// ```
/// use lomkhvide::{Certifier, NotAReference};
///
/// assert!(Certifier { block: "3/0/00000001".parse()?, voters: vec![] }.voters.is_empty());
/// # Ok::<(), NotAReference>(())
/// ```
#[derive(Clone, Debug, PartialEq, Eq)]
pub struct Certifier {
    /// The block.
    pub block: Reference,
    /// The owners whose votes it stands above, ascending.
    pub voters: Vec<Voter>,
}

/// A voter of a certifying block, and the path from that block to the vote: in each block on the way the place of the include to go to.
///
/// ```
/// use lomkhvide::{AuthorityIndex, Voter};
///
/// let voter = Voter { author: AuthorityIndex(2), path: vec![0, 1] };
/// assert_eq!(voter.path.len(), 2);
/// ```
#[derive(Clone, Debug, PartialEq, Eq)]
pub struct Voter {
    /// The owner who votes.
    pub author: AuthorityIndex,
    /// The places of the includes to go by.
    pub path: Vec<u8>,
}

impl Slip {
    /// Reads a slip of the reading that is wanted with the records that come with it, as a station does; more records than it names are
    /// welcome. Refused with 61 where its first byte names another reading or none, 52 where it does not hold, 53 where a record that it names
    /// is missing; a slip of the reading in which an owner may withdraw needs every record below its certifying blocks.
    #[doc = stack!(read_slip)]
    ///
    /// ```
    /// # use lomkhvide::*;
    /// // One owner, who has shared a change in round 1.
    /// let Sample { engine, record, share, .. } = sample();
    /// let slip = engine.slip(&share, Reading::Old)?;
    /// let read = |slip, wanted| Slip::read(engine.committee(), slip, &[record.clone()], wanted);
    /// assert_eq!(read(slip.as_bytes(), Reading::Old), Ok(slip.clone()));
    /// assert_eq!(read(slip.as_bytes(), Reading::Withdrawing), Err(Refusal::SlipReadingUnknown));
    /// assert_eq!(read(b"noise", Reading::Old), Err(Refusal::SlipReadingUnknown));
    /// assert_eq!(read(b"\0", Reading::Old), Err(Refusal::SlipNotHeld));
    /// # Ok::<(), Refusal>(())
    /// ```
    pub fn read(committee: &Committee, slip: &[u8], records: &[Record], wanted: Reading) -> Result<Slip, Refusal> {
        if slip.first() != Some(&first_byte(wanted)) {
            return Err(Refusal::SlipReadingUnknown);
        }
        let records: Vec<&[u8]> = records.iter().map(Record::as_bytes).collect();
        committee.read_slip(slip, &records)?;
        Ok(Slip::written(slip.to_vec()))
    }

    /// A slip that the engine has written or accepted.
    pub(crate) fn written(bytes: Vec<u8>) -> Slip {
        let mut rest = &bytes[57..];
        let blocks = u16::from_le_bytes([rest[0], rest[1]]);
        rest = &rest[2..];
        let certifiers = (0..blocks).map(|_| certifier(&mut rest)).collect();
        Slip { bytes, certifiers }
    }

    /// Its bytes, for the station.
    ///
    /// ```
    /// # use lomkhvide::*;
    /// # fn shown(slip: &Slip) {
    /// assert_eq!(slip.as_bytes()[1..57], slip.locator().to_bytes());
    /// # }
    /// ```
    pub fn as_bytes(&self) -> &[u8] {
        &self.bytes
    }

    /// The locator that it is about.
    ///
    /// ```
    /// # use lomkhvide::*;
    /// // One owner, who has shared a change in round 1.
    /// let Sample { engine, share, .. } = sample();
    /// assert_eq!(engine.slip(&share, Reading::Old)?.locator(), share);
    /// # Ok::<(), Refusal>(())
    /// ```
    pub fn locator(&self) -> Locator {
        let mut locator = [0; 56];
        locator.copy_from_slice(&self.bytes[1..57]);
        Locator::from_bytes(&locator)
    }

    /// The reading in which it holds.
    ///
    /// ```
    /// # use lomkhvide::*;
    /// // One owner, who has shared a change in round 1.
    /// let Sample { engine, share, .. } = sample();
    /// assert_eq!(engine.slip(&share, Reading::Withdrawing)?.reading(), Reading::Withdrawing);
    /// # Ok::<(), Refusal>(())
    /// ```
    pub fn reading(&self) -> Reading {
        if self.bytes[0] == first_byte(Reading::Old) { Reading::Old } else { Reading::Withdrawing }
    }

    /// Its certifying blocks, in ascending order of reference.
    ///
    /// ```
    /// # use lomkhvide::*;
    /// # fn shown(slip: &Slip) {
    /// for certifier in slip.certifiers() {
    ///     println!("{} by {} voters", certifier.block, certifier.voters.len());
    /// }
    /// # }
    /// ```
    pub fn certifiers(&self) -> &[Certifier] {
        &self.certifiers
    }
}

/// The byte that names a reading.
fn first_byte(reading: Reading) -> u8 {
    match reading {
        Reading::Old => 0,
        Reading::Withdrawing => 1,
    }
}

fn take<'a>(rest: &mut &'a [u8], length: usize) -> &'a [u8] {
    let (taken, after) = rest.split_at(length);
    *rest = after;
    taken
}

fn certifier(rest: &mut &[u8]) -> Certifier {
    let mut block = [0; 48];
    block.copy_from_slice(take(rest, 48));
    let voters = take(rest, 1)[0];
    let voter = |_| {
        let author = AuthorityIndex(word_at(take(rest, 8), 0));
        let length = take(rest, 2);
        Voter { author, path: take(rest, u16::from_le_bytes([length[0], length[1]]) as usize).to_vec() }
    };
    Certifier { block: Reference::from_bytes(&block), voters: (0..voters).map(voter).collect() }
}

impl Committee {
    /// Reads a finality slip of either reading with the records that come with it: the number of its certifying blocks; or 5, 61, 52, 53.
    #[doc = stack!(read_slip)]
    ///
    /// ```
    /// # use lomkhvide::*;
    /// // One owner, who has shared a change in round 1.
    /// let Sample { committee, store, record, share, .. } = sample();
    /// let mut slip = [0; 200];
    /// let written = committee.write_slip(&store, &share, Reading::Old, &mut slip)?;
    /// assert_eq!(committee.read_slip(&slip[..written], &[record.as_bytes()])?, 1);
    /// # Ok::<(), Refusal>(())
    /// ```
    pub fn read_slip(&self, slip: &[u8], records: &[&[u8]]) -> Result<u64, Refusal> {
        calls::read_slip(self.stakes(), slip, &framed(records))
    }

    /// Writes the finality slip of a final locator to the front of `out`: its length; or 5, 10, 52, 50, and nothing is written.
    #[doc = stack!(write_slip_withdrawing)]
    ///
    /// ```
    /// # use lomkhvide::*;
    /// // One owner, who has shared a change in round 1.
    /// let Sample { committee, store, share, .. } = sample();
    /// assert_eq!(committee.write_slip(&store, &share, Reading::Old, &mut [0; 200])?, 118);
    /// assert_eq!(committee.write_slip(&store, &share, Reading::Old, &mut [0; 100]), Err(Refusal::TooShortToWrite));
    /// # Ok::<(), Refusal>(())
    /// ```
    pub fn write_slip(&self, store: &[u8], locator: &Locator, reading: Reading, out: &mut [u8]) -> Result<usize, Refusal> {
        let call = match reading {
            Reading::Old => calls::write_slip,
            Reading::Withdrawing => calls::write_slip_withdrawing,
        };
        Ok(call(self.stakes(), store, &locator.to_bytes(), out)? as usize)
    }
}
