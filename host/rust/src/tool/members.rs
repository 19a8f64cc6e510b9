//! The committee that is used: its owners, their names where they are known, and where it comes from.

use lomkhvide::{Aggregator, AuthorityIndex, Committee, Owners, Stake};

use super::Fault;
use super::json::{Json, object};

pub struct Members {
    pub committee: Committee,
    /// The owners' names, where a file of stakes gives them.
    names: Vec<String>,
    source: Source,
}

#[derive(Clone, Debug, PartialEq, Eq)]
pub enum Source {
    /// The stakes stand at the front of the input.
    Input,
    /// A file of stakes.
    File(String),
    /// The course committee, since there is no such file, or since it is empty.
    CourseForAbsent(String),
    CourseForEmpty(String),
}

/// Owners, counted by the engine's aggregator: each once, with their stake, and whether it is quorum.
#[derive(Clone, Copy, Debug, Default, PartialEq, Eq)]
pub struct Tally {
    pub owners: Owners,
    pub stake: Stake,
    pub quorum: bool,
}

impl Members {
    pub fn new(committee: Committee, names: Vec<String>, source: Source) -> Members {
        Members { committee, names, source }
    }

    pub fn count(&self) -> usize {
        self.committee.members()
    }

    pub fn total(&self) -> Stake {
        self.committee.total_stake()
    }

    pub fn quorum(&self) -> Stake {
        self.committee.quorum()
    }

    pub fn stake(&self, owner: AuthorityIndex) -> Stake {
        self.committee.stake(owner).unwrap_or_default()
    }

    pub fn name(&self, owner: AuthorityIndex) -> Option<&str> {
        self.names.get(usize::try_from(owner.0).ok()?).map(String::as_str)
    }

    /// "3", or with the name "3 (karst)".
    pub fn short(&self, owner: AuthorityIndex) -> String {
        match self.name(owner) {
            Some(name) => format!("{owner} ({name})"),
            None => owner.to_string(),
        }
    }

    /// "owner 3", or with the name "owner 3 (karst)".
    pub fn owner(&self, owner: AuthorityIndex) -> String {
        format!("owner {}", self.short(owner))
    }

    /// "owner 3", "owners 0, 2", "nobody".
    pub fn owners(&self, owners: Owners) -> String {
        let each: Vec<String> = owners.iter().map(|owner| self.short(owner)).collect();
        match each.len() {
            0 => "nobody".into(),
            1 => format!("owner {}", each[0]),
            _ => format!("owners {}", each.join(", ")),
        }
    }

    /// "owner 3 holds", "owners 0, 2 hold".
    pub fn hold(&self, owners: Owners) -> String {
        let verb = if owners.len() > 1 { "hold" } else { "holds" };
        format!("{} {verb}", self.owners(owners))
    }

    /// Counts owners.
    pub fn tally(&self, owners: impl Iterator<Item = AuthorityIndex>) -> Tally {
        let mut counting = Counting::default();
        owners.for_each(|owner| counting.add(self, owner));
        counting.tally()
    }

    /// A sum of stake against quorum.
    pub fn sum(&self, tally: &Tally) -> String {
        let (total, quorum) = (self.total(), self.quorum());
        let against = match tally.quorum {
            true => format!("quorum begins at {quorum}"),
            false => format!("quorum begins at {quorum}, {} more", quorum - tally.stake),
        };
        format!("{} stake {} of {total}, {against}", self.hold(tally.owners), tally.stake)
    }

    fn source(&self) -> String {
        match &self.source {
            Source::Input => "in the file".into(),
            Source::File(name) => format!("from the file of stakes {name}"),
            Source::CourseForAbsent(name) => format!("the course committee, since no file {name} is here"),
            Source::CourseForEmpty(name) => format!("the course committee, since the file {name} is empty"),
        }
    }

    /// The line of every answer that names the committee.
    pub fn line(&self) -> String {
        let owners = if self.count() == 1 { "1 owner".into() } else { format!("{} owners", self.count()) };
        format!("Committee: {owners}, stake {} in all, quorum from {}; {}.", self.total(), self.quorum(), self.source())
    }

    pub fn json(&self) -> Json {
        let source = match &self.source {
            Source::Input => "file",
            Source::File(_) => "stakes",
            Source::CourseForAbsent(_) | Source::CourseForEmpty(_) => "course",
        };
        let member = |owner: AuthorityIndex| {
            object([("owner", owner.into()), ("name", self.name(owner).into()), ("stake", self.stake(owner).into())])
        };
        object([
            ("source", source.into()),
            ("from", self.source().into()),
            ("total", self.total().into()),
            ("quorum", self.quorum().into()),
            ("members", self.committee.authorities().map(member).collect()),
        ])
    }

    /// The owners of `--reach`, by number or name, with commas between them; and the numbers that nobody has.
    pub fn reach(&self, text: &str) -> Result<(Owners, Vec<u64>), Fault> {
        let mut owners = Vec::new();
        let mut nobody = Vec::new();
        for part in text.split(',').map(str::trim) {
            let named = self.committee.authorities().find(|owner| self.name(*owner) == Some(part));
            match (part.parse::<u64>().ok(), named) {
                (Some(number), _) if (number as u128) < self.count() as u128 => owners.push(AuthorityIndex(number)),
                (_, Some(owner)) => owners.push(owner),
                (Some(number), None) => nobody.push(number),
                (None, None) if self.names.is_empty() => {
                    return Err(Fault::Usage(format!("--reach: '{part}' is no owner: they have numbers here, as 0,1,2")));
                }
                (None, None) => {
                    return Err(Fault::Usage(format!(
                        "--reach: '{part}' is no owner: {}",
                        self.owners(self.committee.authorities().collect())
                    )));
                }
            }
        }
        Ok((owners.into_iter().collect(), nobody))
    }
}

/// The engine's aggregator, vote by vote.
#[derive(Default)]
pub struct Counting {
    aggregator: Aggregator,
    quorum: bool,
}

impl Counting {
    pub fn add(&mut self, members: &Members, owner: AuthorityIndex) {
        self.quorum = members.committee.add(&mut self.aggregator, owner).is_ok_and(|vote| vote.has_quorum());
    }

    pub fn tally(&self) -> Tally {
        Tally { owners: self.aggregator.voters, stake: self.aggregator.stake, quorum: self.quorum }
    }
}
