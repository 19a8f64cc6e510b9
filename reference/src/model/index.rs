//! 02, "Three": the voters beside the store, worked out afresh. For each block: the stretches of locators between the ends of the votes in its
//! ancestry, each with the authors in that ancestry who vote there.

use std::collections::{BTreeMap, BTreeSet};

use super::committee::Committee;
use super::feed::State;
use super::finality::votes_for;
use super::lent::{framed, write_back, Answer};
use super::record::{number, Block, Locator, Reference, Statement};
use super::store::Stores;

/// A stretch of offsets of one block with the same voters.
#[derive(Clone, Copy, PartialEq, Eq, Debug)]
pub struct Run {
    pub reference: Reference,
    pub start: u64,
    pub end: u64,
    pub voters: u128,
}

impl Run {
    /// Author, round, digest (4 words, little-endian), start, end, votes low, votes high.
    fn words(&self) -> [u64; 10] {
        let Run { reference, start, end, voters } = self;
        let digest = |i: usize| number(&reference.digest[8 * i..8 * i + 8]);
        let [low, high] = [*voters as u64, (*voters >> 64) as u64];
        [reference.author, reference.round, digest(0), digest(1), digest(2), digest(3), *start, *end, low, high]
    }
}

/// The index of a store: words used, then for each stored block in order of arrival a run count and its runs.
pub fn afresh(stores: &Stores) -> Vec<u64> {
    let mut words = vec![1];
    for stored in &stores.blocks {
        words.extend(part(stores, &stored.block));
    }
    words[0] = words.len() as u64;
    words
}

/// The words of a stored block's part.
pub fn part(stores: &Stores, block: &Block) -> Vec<u64> {
    let runs = runs(stores, block);
    let mut words = vec![runs.len() as u64];
    words.extend(runs.iter().flat_map(Run::words));
    words
}

/// Its runs, ascending, each the longest stretch with the same voters, at least one.
pub fn runs(stores: &Stores, block: &Block) -> Vec<Run> {
    let ancestry = ancestry(stores, block);
    let mut ends: BTreeMap<Reference, BTreeSet<u64>> = BTreeMap::new();
    for (reference, start, end) in ancestry.iter().flat_map(|block| votes(block)) {
        ends.entry(reference).or_default().extend([start, end]);
    }
    let mut runs: Vec<Run> = Vec::new();
    for (reference, ends) in ends {
        let ends: Vec<u64> = ends.into_iter().collect();
        for stretch in ends.windows(2) {
            let (start, end) = (stretch[0], stretch[1]);
            let voting = ancestry.iter().filter(|block| votes_for(block, &Locator::new(reference, start)));
            let voters = voting.fold(0u128, |voters, block| voters | 1 << block.reference.author);
            let run = Run { reference, start, end, voters };
            match runs.last_mut() {
                _ if voters == 0 => {}
                Some(last) if last.reference == reference && last.end == start && last.voters == voters => last.end = end,
                _ => runs.push(run),
            }
        }
    }
    runs
}

/// A block with its includes, theirs and so on.
fn ancestry<'a>(stores: &'a Stores, block: &'a Block) -> Vec<&'a Block> {
    let mut seen = BTreeSet::from([block.reference]);
    let mut found = vec![block];
    let mut next = 0;
    while next < found.len() {
        for include in &found[next].includes {
            if seen.insert(*include) {
                found.push(&stores.get(include).expect("a stored include").block);
            }
        }
        next += 1;
    }
    found
}

/// The locators that a block's shares, accepts and ranges are votes for.
fn votes(block: &Block) -> Vec<(Reference, u64, u64)> {
    let of = |(offset, statement): (usize, &Statement)| match statement {
        Statement::Share(_) => Some((block.reference, offset as u64, offset as u64 + 1)),
        Statement::Accept(locator) => Some((locator.block, locator.offset, locator.offset + 1)),
        Statement::Range(reference, start, end) if start < end => Some((*reference, *start, *end)),
        _ => None,
    };
    block.statements.iter().enumerate().filter_map(of).collect()
}

/// Whether the used words of a lent index are those of the store; else 54.
pub fn agrees(stores: &Stores, index: &[u64]) -> bool {
    index.starts_with(&afresh(stores))
}

/// Feeding with the index: 5, 10, 11, 54, then as feeding, then 55.
pub fn feed_indexed(
    stakes: &[u8],
    store: &mut [u8],
    table: &mut [u8],
    index: &mut [u64],
    events: &mut [u8],
    record: &[u8],
) -> Answer {
    let committee = Committee::lent(stakes)?;
    let mut state = State::read(&committee, store, table)?;
    if !agrees(&state.stores, index) {
        return Err(54);
    }
    let told = state.feed(&committee, store.len(), events.len(), record)?;
    let new = &state.stores.blocks.last().expect("the block that was fed").block;
    append(index, &part(&state.stores, new))?;
    write_back(&state, &told, store, table, events);
    Ok(told.len() as u64)
}

/// Records fed one after the other with the index: 5, 10, 11, 54, 64; 55 is an outcome, and leaves everything as it was.
pub fn feed_records_indexed(
    stakes: &[u8],
    store: &mut [u8],
    table: &mut [u8],
    index: &mut [u64],
    events: &mut [u64],
    outcomes: &mut [u64],
    records: &[u8],
) -> Answer {
    let committee = Committee::lent(stakes)?;
    let mut state = State::read(&committee, store, table)?;
    if !agrees(&state.stores, index) {
        return Err(54);
    }
    let records = framed(records);
    if outcomes.len() < records.len() {
        return Err(64);
    }
    let mut used = 0;
    for (outcome, record) in outcomes.iter_mut().zip(&records) {
        let mut next = state.clone();
        let told = next.feed_with(&committee, store.len(), Some(events.len() - used), record).and_then(|told| {
            let new = &next.stores.blocks.last().expect("the block that was fed").block;
            append(index, &part(&next.stores, new)).map(|()| told)
        });
        *outcome = match told {
            Ok(told) => {
                state = next;
                for event in &told {
                    events[used..used + 3].copy_from_slice(&[event.kind as u64, event.statement, event.offset]);
                    used += 3;
                }
                told.len() as u64
            }
            Err(number) => (1 << 63) + number,
        };
    }
    write_back(&state, &[], store, table, &mut []);
    Ok(records.len() as u64)
}

/// A part behind the used words, or 55.
fn append(index: &mut [u64], part: &[u64]) -> Result<(), u64> {
    let used = index[0] as usize;
    index.get_mut(used..used + part.len()).ok_or(55u64)?.copy_from_slice(part);
    index[0] += part.len() as u64;
    Ok(())
}
