//! What the engine says of a locator, and what it lacks.

use lomkhvide::{Locator, Owners, PendingItem, Stake};

use super::Fault;
use super::ask::{Fewest, fewest};
use super::json::{Json, object};
use super::members::Tally;
use super::run::{Run, Voice};

pub struct Account {
    pub locator: Locator,
    pub is_final: bool,
    /// The certifying blocks, in ascending order of reference, and their owners.
    pub certifying: Vec<usize>,
    pub certified: Tally,
    /// The stored blocks that speak of it, in order of arrival.
    pub voices: Vec<(usize, Voice)>,
    /// The owners whose votes stand: where an owner may withdraw, without those who reject.
    pub voted: Tally,
    /// Who reject it, where an owner may withdraw: they are not rung.
    rejecting: Owners,
    /// Whether it names a stored share.
    pub is_share: bool,
    /// Its item of the pending table, where it is pending.
    pub pending: Option<PendingItem>,
    /// The record that brought its votes to quorum.
    pub processed_by: Option<usize>,
}

/// How far a locator has come.
#[derive(Clone, Copy, Debug, PartialEq, Eq)]
pub enum Stage {
    Final,
    /// Its votes hold quorum, and its certificates do not.
    Certificates,
    /// Its votes do not hold quorum.
    Votes,
    /// No stored block speaks of it.
    Nothing,
}

impl Account {
    pub fn new(run: &Run, locator: &Locator) -> Result<Account, Fault> {
        let (is_final, certifying) = run.finality(locator)?;
        let voices = run.voices(locator);
        let owner = |block: usize| run.blocks[block].owner;
        let rejecting: Owners = match run.withdrawing() {
            true => voices.iter().filter(|(_, voice)| voice.rejects).map(|(block, _)| owner(*block)).collect(),
            false => Owners::default(),
        };
        let votes = voices.iter().filter(|(_, voice)| voice.vote.is_some()).map(|(block, _)| owner(*block));
        let votes: Owners = votes.collect();
        Ok(Account {
            locator: *locator,
            is_final,
            certified: run.members.tally(certifying.iter().map(|block| owner(*block))),
            certifying,
            voted: run.members.tally(votes.iter().filter(|owner| !rejecting.contains(*owner))),
            rejecting,
            voices,
            is_share: run.is_share(locator),
            pending: run.pending_item(locator),
            processed_by: run.processed_by(locator),
        })
    }

    pub fn stage(&self) -> Stage {
        match self {
            _ if self.is_final => Stage::Final,
            _ if !self.certifying.is_empty() || self.voted.quorum => Stage::Certificates,
            _ if self.voices.is_empty() => Stage::Nothing,
            _ => Stage::Votes,
        }
    }

    /// Whom to ring of those who can be reached and have not withdrawn: for votes the fewest who have not voted, for certificates the fewest
    /// whose blocks do not certify.
    pub fn fewest(&self, run: &Run, reachable: Owners) -> Result<Fewest, Fault> {
        let reachable = Owners(reachable.0 & !self.rejecting.0);
        match self.stage() {
            Stage::Final | Stage::Nothing => Ok(Some((Owners::default(), Stake::default()))),
            Stage::Certificates => fewest(run.members, self.certified.owners, reachable),
            Stage::Votes => fewest(run.members, self.voted.owners, reachable),
        }
    }

    /// Votes that the pending table does not count, since they stand before the share was stored.
    pub fn uncounted(&self) -> Owners {
        Owners(self.pending.map_or(0, |item| self.voted.owners.0 & !item.voters.0))
    }

    /// Final or not, and in which reading where it is not the old one.
    pub fn verdict(&self, run: &Run) -> &'static str {
        match (self.is_final, run.withdrawing()) {
            (true, false) => "final",
            (false, false) => "not final",
            (true, true) => "final, where owners may withdraw",
            (false, true) => "not final, where owners may withdraw",
        }
    }

    /// "share 0 of record 5", or "offset 0 of a block that is not stored".
    pub fn name(&self, run: &Run) -> String {
        name(run, &self.locator)
    }

    /// The facts, in the names of a script.
    pub fn json(&self, run: &Run, reachable: Owners) -> Result<Json, Fault> {
        let owners = |owners: Owners| owners.iter().collect::<Json>();
        let tally = |tally: &Tally| {
            object([("owners", owners(tally.owners)), ("stake", tally.stake.into()), ("quorum", tally.quorum.into())])
        };
        let number = |block: &usize| run.blocks[*block].number;
        let voice = |(block, voice): &(usize, Voice)| {
            object([
                ("record", number(block).into()),
                ("owner", run.blocks[*block].owner.into()),
                ("says", voice.verb().into()),
            ])
        };
        let ring = match self.fewest(run, reachable)? {
            Some((found, stake)) => object([("owners", owners(found)), ("stake", stake.into())]),
            None => "out of reach".into(),
        };
        let loadable = Json::Bool(self.is_final && run.loadable(&self.locator)?);
        let stage = match self.stage() {
            Stage::Final => "final",
            Stage::Certificates => "certificates missing",
            Stage::Votes => "votes missing",
            Stage::Nothing => "nobody speaks of it",
        };
        Ok(object([
            ("locator", self.locator.to_string().into()),
            ("record", run.place(&self.locator.reference()).map(|place| run.blocks[place].number).into()),
            ("offset", self.locator.offset().into()),
            ("isStoredShare", self.is_share.into()),
            ("refused", run.refused_record(&self.locator.reference()).map(|trouble| trouble.json(run)).into()),
            ("final", self.is_final.into()),
            ("stage", stage.into()),
            ("certifying", self.certifying.iter().map(number).collect()),
            ("certified", tally(&self.certified)),
            ("voices", self.voices.iter().map(voice).collect()),
            ("voted", tally(&self.voted)),
            (
                "pending",
                self.pending.map(|item| object([("owners", owners(item.voters)), ("stake", item.stake.into())])).into(),
            ),
            ("processedBy", self.processed_by.into()),
            ("loadable", loadable),
            ("ring", ring),
        ]))
    }
}

/// "share 0 of record 5", or "offset 0 of a block that is not stored".
pub fn name(run: &Run, locator: &Locator) -> String {
    let offset = locator.offset();
    match run.place(&locator.reference()) {
        Some(place) if run.is_share(locator) => format!("share {offset} of record {}", run.blocks[place].number),
        Some(place) => format!("offset {offset} of record {}, which is no share", run.blocks[place].number),
        None => format!("offset {offset} of a block that is not stored"),
    }
}

/// "1 block certifies", "2 blocks certify".
pub fn blocks_certify(count: usize) -> String {
    match count {
        0 => "no block certifies".into(),
        1 => "1 block certifies".into(),
        _ => format!("{count} blocks certify"),
    }
}
