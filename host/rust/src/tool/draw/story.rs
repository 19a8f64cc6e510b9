//! The records of a file one after the other: what each does to pending stake, events, certificates and finality.
//!
//! The engine is asked after each record for its events and its pending table. For certificates it is asked once, at the end, which blocks
//! certify a locator: a block's voters depend on its ancestry alone and no certificate is lost, as `trust` in `crates/` proves (`stays_final`),
//! so after k records those of them certify that have come. Whether their owners hold quorum the engine's aggregator says, owner by owner.

use std::collections::{BTreeMap, BTreeSet, HashMap};

use lomkhvide::{Engine, Locator, Outcome, Owners, Stake, words_of};

use super::super::Fault;
use super::super::account::{Stage, name};
use super::super::ask::{Fewest, fewest};
use super::super::asked::Asked;
use super::super::input::Input;
use super::super::json::{Json, object};
use super::super::members::{Counting, Tally};
use super::super::records::{includes, said};
use super::super::run::{Block, Run, Voice};
use super::{MOST_WITH_WAYS, spans};

/// The most things of a sort that are told of a record.
const MOST_TOLD: usize = 4;

/// The most answers about whom to ring that a page holds; in a larger graph it has those after the last record alone.
const MOST_RINGS: usize = 30_000;

/// The words of an item of the pending table: entry position, start, end, votes low and high, stake.
const ITEM_WORDS: usize = 6;

pub struct Story {
    /// What each record did, by its number from 1; the first entry is for none.
    pub steps: Vec<Step>,
    /// In the order of the menu.
    pub changes: Vec<Change>,
    /// Whether whom to ring is known for the last step alone.
    pub last_rings_only: bool,
}

#[derive(Default)]
pub struct Step {
    pub block: Option<usize>,
    pub says: Vec<String>,
}

pub struct Change {
    pub locator: Locator,
    pub name: String,
    pub is_pending: bool,
    pub voices: Vec<(usize, Voice)>,
    /// The owners whose votes stand.
    votes: Vec<Moment>,
    /// Those whom the pending table counts, and the record that took it out of the table.
    counted: Vec<Moment>,
    left: Option<usize>,
    /// The certifying blocks in order of arrival, and their owners.
    pub certifying: Vec<usize>,
    certified: Vec<Moment>,
    /// The record with which it became final.
    pub final_from: Option<usize>,
    rings: Vec<(usize, Stage, Fewest)>,
    /// For each certifying block the ways to its votes, through blocks.
    ways: Vec<(usize, Vec<Vec<usize>>)>,
}

/// A record's owner joins a set, or leaves it; and what the set holds then.
struct Moment {
    step: usize,
    leaves: bool,
    stake: Stake,
    quorum: bool,
}

/// A set of owners that grows and shrinks record by record.
#[derive(Default)]
struct Growing {
    moments: Vec<Moment>,
    counting: Counting,
    tally: Tally,
}

impl Growing {
    fn set(&mut self, run: &Run, step: usize, owners: Owners) {
        if owners != self.tally.owners {
            let before = self.tally.owners;
            let leaves = before.0 & !owners.0 != 0;
            if leaves {
                self.counting = Counting::default();
            }
            let new = owners.iter().filter(|owner| leaves || !before.contains(*owner));
            new.for_each(|owner| self.counting.add(run.members, owner));
            self.tally = self.counting.tally();
            self.moments.push(Moment { step, leaves, stake: self.tally.stake, quorum: self.tally.quorum });
        }
    }
}

impl Story {
    pub fn new(run: &Run, input: &Input, asked: &Asked, locators: &[Locator]) -> Result<Story, Fault> {
        let mut steps: Vec<Step> = (0..=run.count).map(|_| Step::default()).collect();
        for trouble in &run.refused {
            steps[trouble.number].says.push(format!("{}.", trouble.line(run).replacen("record", "Record", 1)));
        }
        for (i, block) in run.blocks.iter().enumerate() {
            steps[block.number] = Step { block: Some(i), says: introduced(run, i) };
        }
        let mut counts = counted(run, input, asked, locators, &mut steps);
        let mut changes = Vec::new();
        for locator in locators {
            changes.push(Change::new(run, locator, counts.remove(locator).unwrap_or_default())?);
        }
        told_certificates(run, &changes, &mut steps);
        // The menu has the final ones first, then those that are pending.
        changes.sort_by_key(|change| (change.final_from.is_none(), !change.is_pending));
        let moments: usize = changes.iter().map(|change| change.votes.len() + change.certified.len()).sum();
        let last_rings_only = moments > MOST_RINGS;
        for change in &mut changes {
            change.ring(run, last_rings_only)?;
        }
        Ok(Story { steps, changes, last_rings_only })
    }

    pub fn json(&self, run: &Run) -> Json {
        let step = |step: &Step| Json::List(vec![step.block.into(), step.says.iter().map(String::as_str).collect()]);
        object([
            ("steps", self.steps.iter().map(step).collect()),
            ("lastRingsOnly", self.last_rings_only.into()),
            ("changes", self.changes.iter().map(|change| change.json(run)).collect()),
        ])
    }
}

/// Who made a record, and what it says.
fn introduced(run: &Run, i: usize) -> Vec<String> {
    let block = &run.blocks[i];
    let (number, round, owner) = (block.number, block.round, run.members.owner(block.owner));
    let mark = if block.record.is_marked() { ", with an epoch mark" } else { "" };
    let includes = includes(run, &block.record, 8).map_or(String::new(), |includes| format!(", {includes}"));
    let stake = run.members.stake(block.owner);
    let mut says = vec![format!("Record {number}: round {round}, {owner} with stake {stake}{mark}{includes}.")];
    let statements: Vec<String> = block.record.statements().take(MOST_TOLD).map(|statement| said(run, &statement)).collect();
    if !statements.is_empty() {
        let more = block.record.statements().len() - statements.len();
        let more = if more > 0 { format!("; and {more} more") } else { String::new() };
        says.push(format!("It {}{more}.", statements.join("; it ")));
    }
    says
}

/// So many of the names, and how many more there are.
fn some(names: impl ExactSizeIterator<Item = String>) -> String {
    let count = names.len();
    let shown: Vec<String> = names.take(MOST_TOLD).collect();
    match count - shown.len() {
        0 => shown.join(", "),
        more => format!("{} and {more} more", shown.join(", ")),
    }
}

/// The owners whom the pending table counts, and when it left.
#[derive(Default)]
struct Counted {
    owners: Growing,
    left: Option<usize>,
}

/// The items of the pending table, as their words.
type Items = BTreeSet<[u64; ITEM_WORDS]>;

/// Feeds the records to a fresh engine, and looks at its pending table after each.
fn counted(run: &Run, input: &Input, asked: &Asked, locators: &[Locator], steps: &mut [Step]) -> HashMap<Locator, Counted> {
    let chosen: BTreeSet<Locator> = locators.iter().copied().collect();
    let mut engine = Engine::new(run.members.committee.clone(), input.store(asked));
    let mut items = Items::new();
    let mut counts: HashMap<Locator, Counted> = HashMap::new();
    for (step, framed) in (1..).zip(&input.records) {
        let Ok(events) = engine.feed(framed.bytes) else { continue };
        let now = items_of(&engine);
        let mut says = Vec::new();
        for [position, start, end, low, high, stake] in now.difference(&items) {
            let Some(block) = run.at_position(*position) else { continue };
            let block = run.blocks[block].record.reference();
            // An item that was cut and got no vote says nothing new.
            let before = items.range(..=[*position, *start, u64::MAX, 0, 0, 0]).next_back();
            if before.is_none_or(|item| item[0] != *position || item[2] <= *start || item[3..5] != [*low, *high]) {
                says.push(counts_now(run, &block.at(*start), *end, Stake(*stake)));
            }
            for locator in chosen.range(block.at(*start)..block.at(*end)) {
                counts.entry(*locator).or_default().owners.set(run, step, Owners::from_words(*low, *high));
            }
        }
        for event in events.iter().filter(|event| event.outcome == Outcome::Processed) {
            if let Some(count) = counts.get_mut(&event.locator) {
                count.left = Some(step);
            }
        }
        tell(&mut steps[step].says, says);
        tell(&mut steps[step].says, events.iter().map(|event| event_words(run, event)).collect());
        items = now;
    }
    counts
}

/// The first few sentences of a sort.
fn tell(says: &mut Vec<String>, mut sentences: Vec<String>) {
    let more = sentences.len().saturating_sub(MOST_TOLD);
    sentences.truncate(MOST_TOLD);
    says.append(&mut sentences);
    if more > 0 {
        says.push(format!("And {more} more of the sort."));
    }
}

fn items_of(engine: &Engine) -> Items {
    let words = words_of(&engine.parts().table[8..]);
    words.as_chunks().0.iter().copied().collect()
}

/// "Share 0 of record 5: counted votes of stake 2 of 4.".
fn counts_now(run: &Run, first: &Locator, end: u64, stake: Stake) -> String {
    let mut name = match end - first.offset() {
        1 => name(run, first),
        _ => {
            let number = run.place(&first.reference()).map_or(0, |place| run.blocks[place].number);
            format!("shares {} to {} of record {number}", first.offset(), end - 1)
        }
    };
    name[..1].make_ascii_uppercase();
    format!("{name}: counted votes of stake {stake} of {}, pending.", run.members.total())
}

fn event_words(run: &Run, event: &lomkhvide::Event) -> String {
    let mut name = name(run, &event.locator);
    name[..1].make_ascii_uppercase();
    match event.outcome {
        Outcome::Processed => format!("{name}: its counted votes reach quorum, and it is pending no longer (processed)."),
        Outcome::Late => format!("{name}: it had reached quorum before (late)."),
        Outcome::Unknown => format!("{name}: no such share is stored yet, so nothing is counted (unknown)."),
    }
}

/// What each record certifies, and what becomes final with it.
fn told_certificates(run: &Run, changes: &[Change], steps: &mut [Step]) {
    let mut certifies: BTreeMap<usize, Vec<usize>> = BTreeMap::new();
    for (i, change) in changes.iter().enumerate() {
        for block in &change.certifying {
            certifies.entry(run.blocks[*block].number).or_default().push(i);
        }
    }
    for (step, certified) in certifies {
        let names = some(certified.iter().map(|i| changes[*i].name.clone()));
        let count = if certified.len() == 1 { String::new() } else { format!("{} changes: ", certified.len()) };
        steps[step].says.push(format!("It certifies {count}{names}."));
        let finals: Vec<usize> = certified.iter().filter(|i| changes[**i].final_from == Some(step)).copied().collect();
        if !finals.is_empty() {
            let are = if finals.len() == 1 { "is" } else { "are" };
            let mut names = some(finals.iter().map(|i| changes[*i].name.clone()));
            names[..1].make_ascii_uppercase();
            steps[step].says.push(format!("{names} {are} final now."));
        }
    }
}

impl Change {
    fn new(run: &Run, locator: &Locator, counted: Counted) -> Result<Change, Fault> {
        let (is_final, mut certifying) = run.finality(locator)?;
        certifying.sort_unstable();
        let mut certified = Growing::default();
        for block in &certifying {
            let Block { owner, number, .. } = run.blocks[*block];
            certified.set(run, number, Owners(certified.tally.owners.0 | 1 << owner.0));
        }
        let final_from = certified.moments.iter().find(|moment| moment.quorum).map(|moment| moment.step);
        if final_from.is_some() != is_final {
            return Err(Fault::Unreadable("the engine's aggregator and its finality question disagree".into()));
        }
        let voices = run.voices(locator);
        let votes = standing(run, &voices);
        Ok(Change {
            locator: *locator,
            name: name(run, locator),
            is_pending: run.pending_item(locator).is_some(),
            voices,
            votes: votes.moments,
            counted: counted.owners.moments,
            left: counted.left,
            certifying,
            certified: certified.moments,
            final_from,
            rings: Vec::new(),
            ways: ways(run, locator, is_final)?,
        })
    }

    pub fn has_ways(&self) -> bool {
        !self.ways.is_empty()
    }

    /// Whom to ring after each record that changes it, or after the last one alone.
    fn ring(&mut self, run: &Run, last_only: bool) -> Result<(), Fault> {
        let mut steps: Vec<usize> = self.votes.iter().chain(&self.certified).map(|moment| moment.step).collect();
        steps.extend(self.voices.iter().map(|(block, _)| run.blocks[*block].number));
        steps.sort_unstable();
        steps.dedup();
        let until = self.final_from.unwrap_or(usize::MAX);
        steps.retain(|step| *step < until);
        if last_only {
            steps = if self.final_from.is_none() { steps.pop().into_iter().collect() } else { Vec::new() };
        }
        for step in steps {
            let (stage, answer) = self.fewest(run, step)?;
            self.rings.push((step, stage, answer));
        }
        Ok(())
    }

    fn fewest(&self, run: &Run, step: usize) -> Result<(Stage, Fewest), Fault> {
        let (votes, certified) = (owners_at(run, &self.votes, step), owners_at(run, &self.certified, step));
        let quorum = self.votes.iter().rfind(|moment| moment.step <= step).is_some_and(|moment| moment.quorum);
        let rejecting =
            self.voices.iter().filter(|(block, voice)| voice.rejects && run.withdrawing() && run.blocks[*block].number <= step);
        let rejecting: Owners = rejecting.map(|(block, _)| run.blocks[*block].owner).collect();
        let (stage, voters) = match !certified.is_empty() || quorum {
            true => (Stage::Certificates, certified),
            false => (Stage::Votes, votes),
        };
        Ok((stage, fewest(run.members, voters, Owners(!rejecting.0))?))
    }

    fn json(&self, run: &Run) -> Json {
        let moments = |moments: &[Moment]| moments.iter().map(moment).collect::<Json>();
        let mut says: BTreeMap<&'static str, Vec<usize>> = BTreeMap::new();
        for (block, voice) in &self.voices {
            says.entry(voice.verb()).or_default().push(*block);
        }
        let voices = says.into_iter().map(|(verb, blocks)| Json::List(vec![verb.into(), spans(&blocks)]));
        let ring = |(step, stage, answer): &(usize, Stage, Fewest)| {
            let for_blocks = Json::from((*stage == Stage::Certificates) as usize);
            let answer = match answer {
                Some((owners, stake)) => {
                    vec![spans(&owners.iter().map(|owner| owner.0 as usize).collect::<Vec<_>>()), number(*stake)]
                }
                None => vec!["out".into()],
            };
            Json::List([vec![(*step).into(), for_blocks], answer].concat())
        };
        let way = |(block, ways): &(usize, Vec<Vec<usize>>)| {
            Json::List(vec![(*block).into(), ways.iter().map(|way| way.iter().copied().collect::<Json>()).collect()])
        };
        object([
            ("id", self.locator.to_string().into()),
            ("name", self.name.as_str().into()),
            ("home", run.place(&self.locator.reference()).into()),
            ("finalFrom", self.final_from.into()),
            ("voices", voices.collect()),
            ("votes", moments(&self.votes)),
            ("counted", moments(&self.counted)),
            ("left", self.left.into()),
            ("certifying", spans(&self.certifying)),
            ("certified", moments(&self.certified)),
            ("rings", self.rings.iter().map(ring).collect()),
            ("ways", self.ways.iter().map(way).collect()),
        ])
    }
}

/// Step and stake; after these 1 where it is quorum, and 1 where the record's owner leaves.
fn moment(moment: &Moment) -> Json {
    let mut parts = vec![moment.step.into(), number(moment.stake)];
    if moment.quorum || moment.leaves {
        parts.push((moment.quorum as usize).into());
    }
    if moment.leaves {
        parts.push(1usize.into());
    }
    Json::List(parts)
}

/// A stake that a script shows and does not count with: as a text where its numbers are too short for it.
pub fn number(stake: Stake) -> Json {
    if stake.0 < 1 << 53 { Json::from(stake) } else { Json::Text(stake.to_string()) }
}

/// The owners whose votes stand: where an owner may withdraw, without those who reject.
fn standing(run: &Run, voices: &[(usize, Voice)]) -> Growing {
    let (mut votes, mut rejecting) = (Owners::default(), Owners::default());
    let mut growing = Growing::default();
    for (block, voice) in voices {
        let owner: Owners = [run.blocks[*block].owner].into_iter().collect();
        if voice.vote.is_some() {
            votes = Owners(votes.0 | owner.0);
        }
        if voice.rejects && run.withdrawing() {
            rejecting = Owners(rejecting.0 | owner.0);
        }
        growing.set(run, run.blocks[*block].number, Owners(votes.0 & !rejecting.0));
    }
    growing
}

/// The owners of a set after a record.
fn owners_at(run: &Run, moments: &[Moment], step: usize) -> Owners {
    let mut owners = 0;
    for moment in moments.iter().filter(|moment| moment.step <= step) {
        let Ok(place) = run.blocks.binary_search_by_key(&moment.step, |block| block.number) else { continue };
        let owner = 1 << run.blocks[place].owner.0;
        owners = if moment.leaves { owners & !owner } else { owners | owner };
    }
    Owners(owners)
}

/// The ways that a slip names, for each certifying block.
fn ways(run: &Run, locator: &Locator, is_final: bool) -> Result<Vec<(usize, Vec<Vec<usize>>)>, Fault> {
    if !is_final || run.blocks.len() > MOST_WITH_WAYS {
        return Ok(Vec::new());
    }
    let mut ways = Vec::new();
    if let Some(slip) = run.slip(locator)? {
        for certifier in slip.certifiers() {
            let Some(from) = run.place(&certifier.block) else { continue };
            ways.push((from, certifier.voters.iter().map(|voter| run.walk(from, &voter.path)).collect()));
        }
    }
    Ok(ways)
}
