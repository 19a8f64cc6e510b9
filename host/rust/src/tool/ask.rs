//! The questions to the engine, in the reading that was asked for.

use std::collections::BTreeSet;

use lomkhvide::{Finality, Listed, Locator, Owners, Refusal, Slip, Stake, Stretch};

use super::Fault;
use super::members::Members;
use super::run::Run;

/// A refusal of a question that the engine cannot refuse over its own memory.
pub fn refused(refusal: Refusal) -> Fault {
    Fault::Unreadable(format!("the engine refused a question: {refusal}"))
}

/// The fewest owners who bring voters to quorum, and their stake; none where all who can be reached and have not spoken are too few.
pub type Fewest = Option<(Owners, Stake)>;

/// The fewest of those who can be reached whose votes bring voters to quorum.
pub fn fewest(members: &Members, voters: Owners, reachable: Owners) -> Result<Fewest, Fault> {
    match members.committee.fewest_owners(voters, reachable) {
        Ok(ring) => Ok(Some((ring.owners, ring.stake))),
        Err(Refusal::QuorumOutOfReach) => Ok(None),
        Err(refusal) => Err(refused(refusal)),
    }
}

impl Run<'_> {
    /// Whether a locator is final, and by which blocks.
    pub fn finality(&self, locator: &Locator) -> Result<(bool, Vec<usize>), Fault> {
        let Finality { is_final, certifying } = self.engine.finality(locator, self.reading).map_err(refused)?;
        Ok((is_final, certifying.iter().filter_map(|position| self.at_position(*position)).collect()))
    }

    /// The slip of a final locator.
    pub fn slip(&self, locator: &Locator) -> Result<Option<Slip>, Fault> {
        match self.engine.slip(locator, self.reading) {
            Ok(slip) => Ok(Some(slip)),
            Err(Refusal::SlipNotHeld) => Ok(None),
            Err(refusal) => Err(refused(refusal)),
        }
    }

    /// Whether a station may load a change.
    pub fn loadable(&self, locator: &Locator) -> Result<bool, Fault> {
        self.engine.is_loadable(locator, self.reading).map_err(refused)
    }

    /// All changes that a station may load.
    pub fn loadable_list(&self) -> Result<BTreeSet<Locator>, Fault> {
        Ok(self.engine.loadable(self.reading).map_err(refused)?.into_iter().collect())
    }

    /// Every final locator, also where nobody sent its block.
    pub fn finals_wide(&self) -> Result<Vec<Stretch>, Fault> {
        self.engine.finals(Listed::Wide, self.reading).collect::<Result<_, _>>().map_err(refused)
    }
}
