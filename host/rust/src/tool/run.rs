//! An input fed to the engine: the graph of the records that it took, and those that it refused.

use std::collections::{BTreeSet, HashMap};

use lomkhvide::{
    AuthorityIndex, Engine, Event, Locator, Outcome, PendingItem, Reading, Record, Reference, RoundNumber, Statement,
};

use super::Fault;
use super::ask::refused;
use super::asked::Asked;
use super::input::Input;
use super::members::Members;
use super::trouble::Trouble;

pub struct Run<'a> {
    pub members: &'a Members,
    pub engine: Engine,
    pub reading: Reading,
    /// How many records there are, refused ones among them.
    pub count: usize,
    /// The stored blocks, in order of arrival.
    pub blocks: Vec<Block>,
    pub refused: Vec<Trouble<'a>>,
    places: HashMap<Reference, usize>,
    positions: HashMap<u64, usize>,
    /// The record whose vote brought a share to quorum.
    processed: HashMap<Locator, usize>,
    /// The blocks that share, vote on or reject offsets of a block, ascending.
    speaking: HashMap<Reference, BTreeSet<usize>>,
    pub pending: Vec<PendingItem>,
}

pub struct Block {
    /// The record's number in the file, from 1.
    pub number: usize,
    pub owner: AuthorityIndex,
    pub round: RoundNumber,
    pub record: Record,
    /// The included blocks, by their index here.
    pub includes: Vec<usize>,
    pub events: Vec<Event>,
}

/// How a block speaks of a locator.
#[derive(Clone, Copy, Debug, PartialEq, Eq)]
pub struct Voice {
    pub vote: Option<Vote>,
    pub rejects: bool,
}

#[derive(Clone, Copy, Debug, PartialEq, Eq)]
pub enum Vote {
    Shares,
    Accepts,
    /// A range covers it.
    Covers,
}

impl Voice {
    pub fn verb(self) -> &'static str {
        match (self.vote, self.rejects) {
            (Some(Vote::Shares), false) => "shares it",
            (Some(Vote::Shares), true) => "shares and rejects it",
            (Some(Vote::Accepts), false) => "accepts it",
            (Some(Vote::Accepts), true) => "accepts and rejects it",
            (Some(Vote::Covers), false) => "accepts it by a range",
            (Some(Vote::Covers), true) => "accepts it by a range and rejects it",
            (None, _) => "rejects it",
        }
    }
}

impl<'a> Run<'a> {
    pub fn new(input: &'a Input<'a>, asked: &Asked) -> Result<Run<'a>, Fault> {
        let mut engine = Engine::new(input.members.committee.clone(), input.store(asked));
        let told = engine.feed_all(input.records.iter().map(|record| record.bytes)).map_err(refused)?;
        let mut run = Run {
            members: &input.members,
            pending: Vec::new(),
            engine,
            reading: if asked.withdrawing { Reading::Withdrawing } else { Reading::Old },
            count: input.count(),
            blocks: Vec::new(),
            refused: Vec::new(),
            places: HashMap::new(),
            positions: HashMap::new(),
            processed: HashMap::new(),
            speaking: HashMap::new(),
        };
        let stored: Vec<(u64, Record)> = run.engine.records().collect();
        let mut stored = stored.into_iter();
        for ((number, framed), told) in (1..).zip(&input.records).zip(told) {
            match told {
                Ok(events) => {
                    if let Some((position, record)) = stored.next() {
                        run.positions.insert(position, run.blocks.len());
                        run.take(number, record, events);
                    }
                }
                Err(refusal) => run.refused.push(Trouble::refused(number, *framed, refusal)),
            }
        }
        if let Some(broken) = &input.broken {
            run.refused.push(Trouble::broken(input.count(), broken));
        }
        run.pending = run.engine.pending_items().collect();
        Ok(run)
    }

    /// A record that the engine has stored.
    fn take(&mut self, number: usize, record: Record, events: Vec<Event>) {
        let reference = record.reference();
        let i = self.blocks.len();
        self.places.insert(reference, i);
        for statement in record.statements() {
            self.speaking.entry(about(&statement).unwrap_or(reference)).or_default().insert(i);
        }
        for event in events.iter().filter(|event| event.outcome == Outcome::Processed) {
            self.processed.insert(event.locator, number);
        }
        let includes = record.includes().filter_map(|block| self.place(&block)).collect();
        let (owner, round) = (record.author(), record.round());
        self.blocks.push(Block { number, owner, round, record, includes, events });
    }

    /// Whether an owner may withdraw.
    pub fn withdrawing(&self) -> bool {
        self.reading == Reading::Withdrawing
    }

    /// The index of a stored block.
    pub fn place(&self, block: &Reference) -> Option<usize> {
        self.places.get(block).copied()
    }

    /// The index of the block at a position of an answer.
    pub fn at_position(&self, position: u64) -> Option<usize> {
        self.positions.get(&position).copied()
    }

    /// The record that brought a locator's votes to quorum.
    pub fn processed_by(&self, locator: &Locator) -> Option<usize> {
        self.processed.get(locator).copied()
    }

    /// The blocks that share a locator, vote for it or reject it, in order of arrival.
    pub fn voices(&self, locator: &Locator) -> Vec<(usize, Voice)> {
        let speaking = self.speaking.get(&locator.reference()).into_iter().flatten();
        speaking.filter_map(|i| Some((*i, voice(&self.blocks[*i].record, locator)?))).collect()
    }

    /// The blocks that are stored, spoken of or refused.
    pub fn known(&self) -> BTreeSet<Reference> {
        let refused = self.refused.iter().filter_map(|trouble| trouble.reference());
        self.places.keys().chain(self.speaking.keys()).copied().chain(refused).collect()
    }

    /// The blocks that statements speak of.
    pub fn spoken_of(&self) -> BTreeSet<Reference> {
        self.speaking.keys().copied().collect()
    }

    /// The blocks whose statements speak of offsets of a block, in order of arrival.
    pub fn speaking_of(&self, block: &Reference) -> impl Iterator<Item = usize> {
        self.speaking.get(block).into_iter().flatten().copied()
    }

    /// The first refused record of a block that is not stored.
    pub fn refused_record(&self, block: &Reference) -> Option<&Trouble<'a>> {
        if self.place(block).is_some() {
            return None;
        }
        self.refused.iter().find(|trouble| trouble.reference() == Some(*block))
    }

    /// The item of a pending locator.
    pub fn pending_item(&self, locator: &Locator) -> Option<PendingItem> {
        let holds = |item: &&PendingItem| {
            item.first.reference() == locator.reference() && (item.first.offset()..item.end).contains(&locator.offset())
        };
        self.pending.iter().find(holds).copied()
    }

    /// Whether a locator names a share of a stored block.
    pub fn is_share(&self, locator: &Locator) -> bool {
        let block = self.place(&locator.reference()).map(|place| &self.blocks[place].record);
        let statement = block.and_then(|record| record.statements().nth(usize::try_from(locator.offset()).ok()?));
        matches!(statement, Some(Statement::Share(_)))
    }

    /// The blocks that a path of include places leads through, the first one among them.
    pub fn walk(&self, from: usize, path: &[u8]) -> Vec<usize> {
        let mut walked = vec![from];
        let mut at = from;
        for place in path {
            let Some(next) = self.blocks[at].includes.get(*place as usize) else { break };
            at = *next;
            walked.push(at);
        }
        walked
    }

    /// "record 11 (round 3, owner 0, stake 1)".
    pub fn block_name(&self, block: usize) -> String {
        let Block { number, owner, round, .. } = self.blocks[block];
        format!("record {number} (round {round}, {}, stake {})", self.members.owner(owner), self.members.stake(owner))
    }

    /// The line with which an answer begins where records were refused: how many, why the first, and that `check` tells more.
    pub fn refused_line(&self) -> Option<String> {
        Some(format!("{} 'lomkhvide check' tells more.", self.refused_first()?))
    }

    /// How many records were refused, and why the first.
    pub fn refused_first(&self) -> Option<String> {
        let first = self.refused.first()?;
        let (count, all) = (self.refused.len(), self.count);
        let records = if all == 1 { "record" } else { "records" };
        let were = if count == 1 { "was" } else { "were" };
        let first_of = if count == 1 { "" } else { "the first, " };
        let (number, at, reason) = (first.number, first.at, first.reason());
        Some(format!(
            "{count} of {all} {records} {were} refused and not counted; {first_of}record {number}, byte {at}: {reason}."
        ))
    }
}

/// How a record speaks of a locator: by its first vote, and by rejects.
pub fn voice(record: &Record, locator: &Locator) -> Option<Voice> {
    let (reference, offset) = (locator.reference(), locator.offset());
    let own = record.reference() == reference;
    let mut voice = Voice { vote: None, rejects: false };
    for (i, statement) in (0..).zip(record.statements()) {
        let vote = match statement {
            Statement::Share(_) if own && i == offset => Some(Vote::Shares),
            Statement::Accept(accepted) if accepted == *locator => Some(Vote::Accepts),
            Statement::Range { first, end } if first.reference() == reference && (first.offset()..end).contains(&offset) => {
                Some(Vote::Covers)
            }
            Statement::Reject(rejected, _) => {
                voice.rejects |= rejected == *locator;
                None
            }
            _ => None,
        };
        voice.vote = voice.vote.or(vote);
    }
    (voice.vote.is_some() || voice.rejects).then_some(voice)
}

/// The block that a vote or a reject is about.
pub fn about(statement: &Statement) -> Option<Reference> {
    match statement {
        Statement::Share(_) => None,
        Statement::Accept(locator) | Statement::Reject(locator, _) => Some(locator.reference()),
        Statement::Range { first, .. } => Some(first.reference()),
    }
}
