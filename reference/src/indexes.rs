//! The voters beside the store: lists fed with an index, on the engine and on the model; indexes damaged, too short by a word, with no word.

use crate::compare::{same, set, Memory, Outcome};
use crate::engine;
use crate::generate;
use crate::graphs;
use crate::list::List;
use crate::model::index;
use crate::model::lent;
use crate::model::record::{number, Block, Locator, Reference, Statement};
use crate::model::store::Stores;
use crate::rng::Rng;

/// What the lists of a run held.
#[derive(Default)]
pub struct Indexed {
    pub feeds: u64,
    pub accepted: u64,
    /// Feeds that 54 and 55 refused.
    pub disagreeing: u64,
    pub short: u64,
    /// Lists asked for with the index.
    pub lists: u64,
    /// The longest index, in words.
    pub longest: usize,
}

/// The memory of a list, with the index.
#[derive(Clone)]
struct Lent {
    memory: Memory,
    index: Vec<u64>,
}

impl Lent {
    /// The word that stands past the used ones at first.
    const PAST: u64 = 0xa5a5_5a5a_c3c3_3c3c;

    fn feed_model(&mut self, record: &[u8]) -> engine::Answer {
        let Memory { stakes, store, table, events } = &mut self.memory;
        index::feed_indexed(stakes, store, table, &mut self.index, events, record)
    }

    fn feed_engine(&mut self, record: &[u8]) -> engine::Answer {
        let Memory { stakes, store, table, events } = &mut self.memory;
        engine::feed_indexed(stakes, store, table, &mut self.index, events, record)
    }
}

/// List n.
pub fn compare(seed: u64, n: u64, indexed: &mut Indexed) -> Outcome {
    let mut rng = Rng::new(seed.wrapping_mul(0x9e3779b97f4a7c15) ^ n);
    let list = generate::timed_list(seed, n);
    let Some(sides) = set(&list)? else { return Ok(()) };
    if list.store < 16 {
        return Ok(());
    }
    let mut lent = Lent { memory: sides.right, index: vec![Lent::PAST; rng.within(1, 4000) as usize] };
    lent.index[0] = 1;
    for (i, record) in list.records.iter().enumerate() {
        let text = |text| format!("record {}: {text}", i + 1);
        if rng.once_in(4) {
            let mut other = lent.clone();
            damage(&mut other, &mut rng);
            feed(&mut other, record, indexed).map(drop).map_err(text)?;
        }
        let before = lent.clone();
        let fed = feed(&mut lent, record, indexed).map_err(text)?;
        lists(&lent, &mut rng, indexed).map_err(text)?;
        if fed.is_ok() {
            // As many words as the new part needs do, and one fewer do not.
            let needed = lent.index[0] as usize;
            for (length, right) in [(needed, fed), (needed - 1, Err(55))] {
                let mut other = before.clone();
                other.index.resize(length, Lent::PAST);
                let told = feed(&mut other, record, indexed).map_err(text)?;
                same(&format!("an index of {length} words"), "model", told, right).map_err(text)?;
            }
        }
    }
    let stores = Stores::read(&sides.committee, &lent.memory.store).expect("a store in order");
    let afresh = index::afresh(&stores);
    indexed.longest = indexed.longest.max(afresh.len());
    same("the index worked out afresh", "engine", &lent.index[..afresh.len()], &afresh[..])?;
    let past = lent.index[afresh.len()..].iter().all(|word| *word == Lent::PAST);
    same("the words past the index stay", "engine", past, true)
}

/// What stands apart in a graph of many owners.
#[derive(Clone, Copy, Debug)]
pub enum Apart {
    /// Nothing.
    Nothing,
    /// Each block of the first owner votes for a further offset of its first one, which nobody else votes for.
    OldVote,
    /// The last owner's block that a block includes is that of the round before the last one, and lacks what the others have.
    OldInclude,
}

/// The blocks of `graphs::scattered`, with something apart in each of them.
fn many(owners: u64, rounds: u64, votes: u64, apart: Apart) -> Vec<Block> {
    let mut blocks = graphs::scattered(owners, rounds, votes);
    let references: Vec<Reference> = blocks.iter().map(|block| block.reference).collect();
    for (n, block) in blocks.iter_mut().enumerate().skip(2 * owners as usize) {
        match apart {
            Apart::OldVote if block.reference.author == 0 => {
                block.statements.push(Statement::Accept(Locator::new(references[0], 1_000_000 + n as u64)))
            }
            Apart::OldInclude => {
                let last = block.includes.len() - 1;
                block.includes[last] = references[(block.reference.round as usize - 2) * owners as usize + last];
            }
            _ => {}
        }
    }
    blocks
}

/// Many owners, or records of many scattered votes: the engine's index after all feeds is the model's worked out afresh, and with any one of its words
/// changed a further feed is refused by 54.
pub fn compare_many(owners: u64, rounds: u64, votes: u64, apart: Apart, indexed: &mut Indexed) -> Outcome {
    let blocks = many(owners, rounds, votes, apart);
    let list = List::roomy(vec![1; owners as usize], blocks.iter().map(Block::encode).collect());
    let Some(sides) = set(&list)? else { return Err("a committee that is refused".into()) };
    let mut lent = Lent { memory: sides.right, index: vec![Lent::PAST; 1 << 22] };
    lent.index[0] = 1;
    for (i, record) in list.records.iter().enumerate() {
        let told = lent.feed_engine(record);
        same(&format!("record {} with the index", i + 1), "engine", told.is_ok(), true)?;
        indexed.feeds += 1;
        indexed.accepted += 1;
    }
    let stores = Stores::read(&sides.committee, &lent.memory.store).expect("a store in order");
    let afresh = index::afresh(&stores);
    indexed.longest = indexed.longest.max(afresh.len());
    same("the index worked out afresh", "engine", &lent.index[..afresh.len()], &afresh[..])?;
    let mut rng = Rng::new(owners ^ votes << 8);
    for _ in 0..20 {
        let at = rng.below(afresh.len() as u64) as usize;
        let right = lent.index[at];
        lent.index[at] = right ^ 1 << rng.below(64);
        let told = lent.feed_engine(&list.records[0]);
        same(&format!("with another word {at}"), "engine", told, Err(54))?;
        lent.index[at] = right;
        indexed.feeds += 1;
        indexed.disagreeing += 1;
    }
    Ok(())
}

/// Feeds a record on both sides, and holds the engine's answer and every byte and word to the model's.
fn feed(lent: &mut Lent, record: &[u8], indexed: &mut Indexed) -> Result<engine::Answer, String> {
    let mut got = lent.clone();
    let right = lent.feed_model(record);
    same("feed_indexed", "engine", got.feed_engine(record), right)?;
    got.memory.same("after feeding with the index", &lent.memory)?;
    same("the index", "engine", &got.index, &lent.index)?;
    indexed.feeds += 1;
    indexed.accepted += right.is_ok() as u64;
    indexed.disagreeing += (right == Err(54)) as u64;
    indexed.short += (right == Err(55)) as u64;
    Ok(right)
}

/// Holds both lists with the index to the model's without it: from the start, and after a locator that a stretch begins with, or any.
fn lists(lent: &Lent, rng: &mut Rng, indexed: &mut Indexed) -> Outcome {
    let Memory { stakes, store, .. } = &lent.memory;
    let mut after = Vec::new();
    for _ in 0..2 {
        let room = 80 * (1 + rng.below(200) as usize);
        let mut right = vec![7; room];
        let mut got = right.clone();
        let told = engine::wide_stretches_indexed(stakes, store, &lent.index, &after, &mut got);
        same("wide_stretches_indexed", "engine", told, lent::wide_stretches(stakes, store, &after, &mut right))?;
        same("the wide list with the index", "engine", &got, &right)?;
        let (mut ordinary, mut shares) = (vec![7; room], vec![7; room]);
        let told = engine::final_stretches_indexed(stakes, store, &lent.index, &after, &mut shares);
        same("final_stretches_indexed", "engine", told, lent::final_stretches(stakes, store, &after, &mut ordinary))?;
        same("the ordinary list with the index", "engine", &shares, &ordinary)?;
        indexed.lists += 2;
        let mut offset = number(&right[48..56]).wrapping_add(rng.below(3)).wrapping_sub(1);
        if rng.once_in(8) {
            offset = u64::MAX;
        }
        after = right[..48].to_vec();
        after.extend(offset.to_le_bytes());
    }
    Ok(())
}

/// Changes one thing: mostly a word of the index or its length, else a byte of the other slices or their length.
fn damage(lent: &mut Lent, rng: &mut Rng) {
    let used = (lent.index[0] as usize).min(lent.index.len());
    let at = rng.below(used as u64) as usize;
    let word = &mut lent.index[at];
    match rng.below(12) {
        0 => *word = word.wrapping_add(1),
        1 => *word = word.wrapping_sub(1),
        2 => *word ^= 1 << rng.below(64),
        3 => *word = word.swap_bytes(),
        4 => *word &= word.wrapping_sub(1), // one vote fewer, where it is a word of votes
        5 => lent.index[0] = *rng.pick(&[0, 1, used as u64 - 1, used as u64 + 1, u64::MAX]),
        6 => lent.index.truncate(at),
        7 => lent.index.clear(),
        8 if used > 21 => {
            // Two runs, or what stands beside them, the other way round.
            let at = 2 + at % (used - 21);
            let (one, other) = lent.index[at..].split_at_mut(10);
            one.swap_with_slice(&mut other[..10]);
        }
        9 => lent.memory.table.truncate(rng.below(lent.memory.table.len() as u64) as usize),
        10 => lent.memory.events.truncate(rng.below(lent.memory.events.len() as u64) as usize),
        _ => {
            let used = number(&lent.memory.store[4..8]);
            lent.memory.store[rng.below(used) as usize] ^= 1 << rng.below(8);
        }
    }
}
