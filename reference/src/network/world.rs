//! All nodes with the records that were made, and the steps of a script.

use std::collections::{BTreeMap, BTreeSet};

use lomkhvide::Stake;

use super::checks::{self, Lists};
use super::node::Node;
use crate::compare::Outcome;
use crate::model::committee::Committee;
use crate::model::feed::{Event, Kind};
use crate::model::mistake::Mistake;
use crate::model::record::{Block, Locator, Reference};
use crate::rng::Rng;

/// A step: nodes and records by their numbers.
#[derive(Clone, Copy, Debug)]
pub enum Step {
    Deliver {
        to: usize,
        record: usize,
    },
    Keep(usize),
    Kill(usize),
    /// All that a node can be asked, held to the model, to what it said before and to the other nodes.
    Look(usize),
    /// A slip of something final at a node, and slips made of it, at a station.
    Slip {
        node: usize,
        seed: u64,
    },
}

#[derive(Clone)]
pub struct Script {
    pub stakes: Vec<u64>,
    pub records: Vec<Vec<u8>>,
    pub steps: Vec<Step>,
}

pub struct World {
    pub committee: Committee,
    pub host: lomkhvide::Committee,
    pub nodes: Vec<Node>,
    pub records: Vec<Vec<u8>>,
    pub by_reference: BTreeMap<Reference, usize>,
    /// What nodes listed, by the blocks that they had.
    pub lists: BTreeMap<Vec<Reference>, Lists>,
    /// The payload of every share that any node stored.
    pub payloads: BTreeMap<Locator, Vec<u8>>,
    pub tally: Tally,
}

/// Takes the steps of a script one by one: what differs at the first that fails.
pub fn replay(script: &Script, mistake: Option<Mistake>) -> Outcome {
    let mut world = World::new(&script.stakes, mistake);
    for record in &script.records {
        world.add(record.clone());
    }
    script.steps.iter().try_for_each(|step| world.apply(step))
}

/// The digest of a record: of all its bytes but the digest's own.
pub fn digest_of(record: &[u8]) -> [u8; 32] {
    let mut content = record.to_vec();
    content.iter_mut().skip(16).take(32).for_each(|byte| *byte = 0);
    let mut words = Rng::of(&content);
    let mut digest = [0; 32];
    digest.chunks_mut(8).for_each(|part| part.copy_from_slice(&words.word().to_le_bytes()));
    digest
}

/// The record with the digest of its content.
pub fn digested(mut record: Vec<u8>) -> Vec<u8> {
    let digest = digest_of(&record);
    if let Some(place) = record.get_mut(16..48) {
        place.copy_from_slice(&digest);
    }
    record
}

impl World {
    pub fn new(stakes: &[u64], mistake: Option<Mistake>) -> World {
        let committee = Committee::new(stakes).expect("a committee");
        let host = lomkhvide::Committee::new(&stakes.iter().copied().map(Stake).collect::<Vec<_>>()).expect("a committee");
        World {
            nodes: (0..stakes.len()).map(|number| Node::new(&host, number)).collect(),
            committee: committee.mistaken(mistake),
            host,
            records: vec![],
            by_reference: BTreeMap::new(),
            lists: BTreeMap::new(),
            payloads: BTreeMap::new(),
            tally: Tally::default(),
        }
    }

    /// A record that was made: its number.
    pub fn add(&mut self, record: Vec<u8>) -> usize {
        if let Some(block) = Block::decode(&record).filter(|block| block.reference.digest == digest_of(&record)) {
            self.by_reference.entry(block.reference).or_insert(self.records.len());
        }
        self.records.push(record);
        self.records.len() - 1
    }

    /// Whether a node has stored the block of a record.
    pub fn has(&self, node: usize, record: usize) -> bool {
        Block::decode(&self.records[record]).is_some_and(|block| self.nodes[node].stores(&block.reference))
    }

    /// The records that a node can ask for: what its waiting ones include and it has not.
    pub fn lacking(&self, node: usize) -> BTreeSet<usize> {
        let node = &self.nodes[node];
        let waiting = node.waiting.iter().filter_map(|record| Block::decode(&self.records[*record]));
        let lacking = waiting.flat_map(|block| block.includes).filter(|include| !node.stores(include));
        lacking.filter_map(|include| self.by_reference.get(&include).copied()).collect()
    }

    pub fn apply(&mut self, step: &Step) -> Outcome {
        match step {
            Step::Deliver { to, record } => self.deliver(*to, *record),
            Step::Keep(node) => {
                self.tally.kept += 1;
                self.nodes[*node].keep()
            }
            Step::Kill(node) => {
                self.tally.kills += 1;
                self.nodes[*node].kill(&self.host, *node)
            }
            Step::Look(node) => checks::look(self, *node),
            Step::Slip { node, seed } => checks::slips(self, *node, &mut Rng::new(*seed)),
        }
    }

    /// A record comes to a node, which checks its digest and feeds it, and then those that waited and have all their includes now.
    fn deliver(&mut self, to: usize, record: usize) -> Outcome {
        self.tally.messages += 1;
        let bytes = &self.records[record];
        if bytes.get(16..48) != Some(&digest_of(bytes)[..]) {
            self.tally.damaged += 1;
            return Ok(());
        }
        let mut ahead = vec![record];
        while let Some(record) = ahead.pop() {
            let node = &mut self.nodes[to];
            match node.feed(&self.committee, &self.records[record])? {
                Ok(events) => {
                    self.tally.stored(&events);
                    ahead.extend(self.freed(to));
                }
                Err(30) => drop(node.waiting.insert(record)),
                Err(number) => *self.tally.refused.entry(number).or_insert(0) += 1,
            }
        }
        Ok(())
    }

    /// Takes out those that wait and have all their includes.
    fn freed(&mut self, node: usize) -> BTreeSet<usize> {
        let Node { waiting, state, .. } = &mut self.nodes[node];
        let has_all = |record: &usize| {
            let block = Block::decode(&self.records[*record]);
            block.is_some_and(|block| block.includes.iter().all(|include| state.stores.get(include).is_some()))
        };
        let free: BTreeSet<usize> = waiting.iter().copied().filter(has_all).collect();
        waiting.retain(|record| !free.contains(record));
        free
    }

    /// At the end all nodes have the same records.
    pub fn same_records(&self) -> Outcome {
        let first: Vec<&Reference> = self.nodes[0].state.stores.index.keys().collect();
        for (i, node) in self.nodes.iter().enumerate() {
            if node.state.stores.index.keys().ne(first.iter().copied()) {
                return Err(format!("all records came to all nodes, and node {i} has others than node 0"));
            }
        }
        Ok(())
    }
}

impl Script {
    /// In words and in hex, for a reader of a failure.
    pub fn describe(&self) -> String {
        let mut out = format!("stakes {:?}\n", self.stakes);
        for (i, record) in self.records.iter().enumerate() {
            out += &format!("record {i}: {}\n", crate::list::hex(record));
            match Block::decode(record) {
                Some(block) => out += &format!("  {block:?}\n"),
                None => out += "  malformed\n",
            }
        }
        self.steps.iter().for_each(|step| out += &format!("{step:?}\n"));
        out
    }
}

/// What runs held.
#[derive(Default)]
pub struct Tally {
    pub runs: u64,
    pub messages: u64,
    pub damaged: u64,
    pub stored: u64,
    pub processed: u64,
    pub refused: BTreeMap<u64, u64>,
    pub kept: u64,
    pub kills: u64,
    pub looks: u64,
    /// Nodes that had the same records as another at some time.
    pub alike: u64,
    /// Final locators on the wide lists looked at, of the old and the new reading.
    pub finals: [u64; 2],
    pub loadable: u64,
    /// Final locators at a node that has the records of another's slip.
    pub elsewhere: u64,
    pub slips: u64,
    /// Slips that were made up, and those of them that were accepted.
    pub made_up: [u64; 2],
}

impl Tally {
    fn stored(&mut self, events: &[Event]) {
        self.stored += 1;
        self.processed += events.iter().filter(|event| event.kind == Kind::Processed).count() as u64;
    }

    pub fn add(&mut self, other: &Tally) {
        let Tally { runs, messages, damaged, stored, processed, refused, kept, kills, looks, alike, finals, loadable, .. } =
            other;
        let sums = [
            (&mut self.runs, runs),
            (&mut self.messages, messages),
            (&mut self.damaged, damaged),
            (&mut self.stored, stored),
            (&mut self.processed, processed),
            (&mut self.kept, kept),
            (&mut self.kills, kills),
            (&mut self.looks, looks),
            (&mut self.alike, alike),
            (&mut self.loadable, loadable),
            (&mut self.elsewhere, &other.elsewhere),
            (&mut self.slips, &other.slips),
        ];
        sums.into_iter().for_each(|(sum, more)| *sum += more);
        for i in 0..2 {
            self.finals[i] += finals[i];
            self.made_up[i] += other.made_up[i];
        }
        refused.iter().for_each(|(number, times)| *self.refused.entry(*number).or_insert(0) += times);
    }

    pub fn describe(&self) -> String {
        let Tally { runs, messages, damaged, stored, processed, refused, kept, kills, looks, alike, finals, loadable, .. } =
            self;
        let refused: Vec<String> = refused.iter().map(|(number, times)| format!("{number}: {times}")).collect();
        format!(
            "{runs} runs: {messages} messages, {damaged} of them damaged; {stored} blocks stored, {processed} offsets processed; refused {}\n\
             {kept} times kept, {kills} kills; {looks} looks, {alike} of them at records that another node had too; final {} and {}, loadable {loadable}\n\
             {} times final at another node with the slip's records; {} slips, {} made up, {} of these accepted",
            refused.join(", "),
            finals[0],
            finals[1],
            self.elsewhere,
            self.slips,
            self.made_up[0],
            self.made_up[1]
        )
    }
}
