//! The host's calls over lent bytes, as 01 has them: the answer or the refusal, and what is written. Every length is allowed.

use super::committee::{Committee, Votes};
use super::feed::{Event, State};
use super::finality::{Finality, Graph, Listed, Reading};
use super::record::{locator_of, number, reference_of, Locator};
use super::ring;
use super::stakes_file;
use super::store::Stores;
use super::table::Table;

pub type Answer = Result<u64, u64>;

pub const POSITION_BYTES: usize = 8 * 1024;
pub const STRETCH_BYTES: usize = 80;

pub fn new_committee(stakes: &[u8]) -> Answer {
    Ok(Committee::set_from_bytes(stakes)?.total)
}

pub const STAKES_BYTES: usize = 8 * 128;

/// The members of a file of stakes, written to the front; 40 comes last.
pub fn load_stakes(file: &[u8], stakes: &mut [u8]) -> Answer {
    let committee = stakes_file::load(file)?;
    if stakes.len() != STAKES_BYTES {
        return Err(40);
    }
    put_words(stakes, &committee.stakes);
    Ok(committee.stakes.len() as u64)
}

pub fn add(stakes: &[u8], aggregator: &mut [u8], voter: u64) -> Answer {
    let committee = Committee::lent(stakes)?;
    if aggregator.len() != 24 {
        return Err(6);
    }
    let word = |i: usize| number(&aggregator[8 * i..8 * i + 8]);
    let mut votes = Votes { voters: word(0) as u128 | (word(1) as u128) << 64, stake: word(2) };
    let told = committee.add(&mut votes, voter)?;
    put_words(aggregator, &[votes.voters as u64, (votes.voters >> 64) as u64, votes.stake]);
    Ok(told.number())
}

pub fn feed(stakes: &[u8], store: &mut [u8], table: &mut [u8], events: &mut [u8], record: &[u8]) -> Answer {
    let committee = Committee::lent(stakes)?;
    let mut state = State::read(&committee, store, table)?;
    let told = state.feed(&committee, store.len(), events.len(), record)?;
    write_back(&state, &told, store, table, events);
    Ok(told.len() as u64)
}

/// Many records in one call, each after its length in four bytes: 5, 10, 11, then 64 for fewer outcomes than records. A length past the end, or one
/// to three bytes left over, is one last record of no bytes.
pub fn feed_records(
    stakes: &[u8],
    store: &mut [u8],
    table: &mut [u8],
    events: &mut [u64],
    outcomes: &mut [u64],
    records: &[u8],
) -> Answer {
    let committee = Committee::lent(stakes)?;
    let mut state = State::read(&committee, store, table)?;
    let records = framed(records);
    if outcomes.len() < records.len() {
        return Err(64);
    }
    let mut used = 0;
    for (outcome, record) in outcomes.iter_mut().zip(&records) {
        *outcome = match state.feed_with(&committee, store.len(), Some(events.len() - used), record) {
            Ok(told) => {
                for event in &told {
                    events[used..used + 3].copy_from_slice(&[event.kind as u64, event.statement, event.offset]);
                    used += 3;
                }
                told.len() as u64
            }
            Err(number) => (1 << 63) + number,
        };
    }
    write_back(&state, &[], store, table, &mut []);
    Ok(records.len() as u64)
}

/// Records each after a length of four bytes.
pub fn framed(mut bytes: &[u8]) -> Vec<&[u8]> {
    let mut records = Vec::new();
    while !bytes.is_empty() {
        let rest = bytes.get(4..);
        let size = || u32::from_le_bytes(bytes[..4].try_into().unwrap()) as usize;
        match rest.filter(|rest| size() <= rest.len()) {
            Some(rest) => {
                let (record, others) = rest.split_at(size());
                records.push(record);
                bytes = others;
            }
            None => {
                records.push(&[]);
                bytes = &[];
            }
        }
    }
    records
}

/// The fewest owners for any set of voters: 5, 40 for an answer not of 24 bytes, 60.
pub fn fewest_owners(stakes: &[u8], voters: u128, reachable: u128, found: &mut [u8]) -> Answer {
    let committee = Committee::lent(stakes)?;
    if found.len() != 24 {
        return Err(40);
    }
    write_ring(&committee, voters, reachable, found)
}

/// The number of owners to ring beside these voters, their set and stake written; or 60.
pub fn write_ring(committee: &Committee, voters: u128, reachable: u128, found: &mut [u8]) -> Answer {
    let (owners, stake) = ring::whom_to_ring(committee, voters, reachable)?;
    put_words(found, &[owners as u64, (owners >> 64) as u64, stake]);
    Ok(owners.count_ones() as u64)
}

/// The bytes that feeding leaves: those past the used part of the store and past the events keep their content.
pub fn write_back(state: &State, told: &[Event], store: &mut [u8], table: &mut [u8], events: &mut [u8]) {
    let used = state.stores.layout();
    store[..used.len()].copy_from_slice(&used);
    table.copy_from_slice(&state.table.bytes());
    for (i, event) in told.iter().enumerate() {
        put_words(&mut events[24 * i..], &[event.kind as u64, event.statement, event.offset]);
    }
}

/// The votes of a pending locator: 5, 10, 11, 20 for a locator not of 56 bytes, 42.
pub fn pending(stakes: &[u8], store: &[u8], table: &[u8], locator: &[u8]) -> Result<Votes, u64> {
    let committee = Committee::lent(stakes)?;
    let stores = Stores::read(&committee, store)?;
    let table = Table::read(&committee, &stores, table)?;
    let locator = locator_of(locator).ok_or(20u64)?;
    let stored = stores.get(&locator.block).ok_or(42u64)?;
    let item = table.find(stored.position, locator.offset).ok_or(42u64)?;
    Ok(table.items[item].votes)
}

/// Whom to ring: the number of owners, and three words, their set and their stake. 40 stands between the pending question's 20 and 42.
pub fn whom_to_ring(stakes: &[u8], store: &[u8], table: &[u8], reachable: u128, locator: &[u8], found: &mut [u8]) -> Answer {
    let votes = match pending(stakes, store, table, locator) {
        Err(number) if number != 42 => return Err(number),
        _ if found.len() != 24 => return Err(40),
        votes => votes?,
    };
    write_ring(&Committee::lent(stakes)?, votes.voters, reachable, found)
}

/// Where a payload stands, and its length: 5, 10, 20, 41.
pub fn payload(stakes: &[u8], store: &[u8], locator: &[u8]) -> Result<(u64, u64), u64> {
    let committee = Committee::lent(stakes)?;
    let stores = Stores::read(&committee, store)?;
    stores.payload(&locator_of(locator).ok_or(20u64)?).ok_or(41)
}

/// The time of a stored block, or none: 5, 10, 20 for a reference not of 48 bytes, 40 for an answer not of 8.
pub fn creation_time(stakes: &[u8], store: &[u8], reference: &[u8], found: &mut [u8]) -> Answer {
    let committee = Committee::lent(stakes)?;
    let stores = Stores::read(&committee, store)?;
    let reference = reference_of(reference).ok_or(20u64)?;
    if found.len() != 8 {
        return Err(40);
    }
    let time = stores.get(&reference).and_then(|stored| stored.block.time);
    time.iter().for_each(|time| put_words(found, &[*time]));
    Ok(time.is_some() as u64)
}

/// 5, 10, 20, 40.
pub fn finality(stakes: &[u8], store: &[u8], positions: &mut [u8], locator: &[u8]) -> Answer {
    finality_in(Reading::Old, stakes, store, positions, locator)
}

pub fn finality_in(reading: Reading, stakes: &[u8], store: &[u8], positions: &mut [u8], locator: &[u8]) -> Answer {
    let committee = Committee::lent(stakes)?;
    let stores = Stores::read(&committee, store)?;
    let locator = locator_of(locator).ok_or(20u64)?;
    if positions.len() != POSITION_BYTES {
        return Err(40);
    }
    let finality = Graph::new(&committee, &stores).finality_in(reading, &locator);
    Ok(write_finality(&stores, &finality, positions))
}

/// The answer of the finality question, its positions written.
pub fn write_finality(stores: &Stores, finality: &Finality, positions: &mut [u8]) -> u64 {
    let places: Vec<u64> = finality.certifying.iter().map(|block| stores.get(block).unwrap().position).collect();
    put_words(positions, &places);
    2 * places.len() as u64 + finality.is_final as u64
}

/// A locator to go on from: none where there are no bytes.
fn after_of(bytes: &[u8]) -> Result<Option<Locator>, u64> {
    match bytes.len() {
        0 => Ok(None),
        _ => locator_of(bytes).map(Some).ok_or(20),
    }
}

/// The least final stored share after a given locator, or from the start.
pub fn next_final(stakes: &[u8], store: &[u8], after: &[u8], out: &mut [u8]) -> Answer {
    next_listed(Reading::Old, Listed::Ordinary, stakes, store, after, out)
}

/// The least final locator likewise.
pub fn next_wide(stakes: &[u8], store: &[u8], after: &[u8], out: &mut [u8]) -> Answer {
    next_listed(Reading::Old, Listed::Wide, stakes, store, after, out)
}

/// The same of a list in a reading of a reject: 5, 10, 20, 40 for an answer not of 56 bytes.
pub fn next_listed(reading: Reading, list: Listed, stakes: &[u8], store: &[u8], after: &[u8], out: &mut [u8]) -> Answer {
    let committee = Committee::lent(stakes)?;
    let stores = Stores::read(&committee, store)?;
    let after = after_of(after)?;
    if out.len() != 56 {
        return Err(40);
    }
    let list = Graph::new(&committee, &stores).listed_in(reading, list);
    match list.iter().find(|(locator, _)| Some(*locator) > after) {
        Some((locator, _)) => {
            out.copy_from_slice(&locator.bytes());
            Ok(1)
        }
        None => Ok(0),
    }
}

/// The ordinary list in bulk.
pub fn final_stretches(stakes: &[u8], store: &[u8], after: &[u8], out: &mut [u8]) -> Answer {
    list_stretches(Reading::Old, Listed::Ordinary, stakes, store, after, out)
}

/// The wide list in bulk.
pub fn wide_stretches(stakes: &[u8], store: &[u8], after: &[u8], out: &mut [u8]) -> Answer {
    list_stretches(Reading::Old, Listed::Wide, stakes, store, after, out)
}

/// The same of a list in a reading of a reject: 5, 10, 20, 40 for a slice that is no whole number of stretches, at least one.
pub fn list_stretches(reading: Reading, list: Listed, stakes: &[u8], store: &[u8], after: &[u8], out: &mut [u8]) -> Answer {
    let committee = Committee::lent(stakes)?;
    let stores = Stores::read(&committee, store)?;
    let after = after_of(after)?;
    if out.is_empty() || out.len() % STRETCH_BYTES != 0 {
        return Err(40);
    }
    Ok(write_stretches(&stretches(&Graph::new(&committee, &stores).listed_in(reading, list), after), out))
}

/// Writes as many stretches as fit: twice their number, and 1 more where more follow.
pub fn write_stretches(stretches: &[Stretch], out: &mut [u8]) -> u64 {
    let fit = stretches.len().min(out.len() / STRETCH_BYTES);
    for (i, stretch) in stretches[..fit].iter().enumerate() {
        let bytes = &mut out[STRETCH_BYTES * i..STRETCH_BYTES * (i + 1)];
        bytes[..56].copy_from_slice(&stretch.first.bytes());
        put_words(&mut bytes[56..], &[stretch.end, stretch.blocks, stretch.stake]);
    }
    2 * fit as u64 + (fit < stretches.len()) as u64
}

/// Neighbouring final locators with the same certifying blocks, as many as there are.
#[derive(Clone, Copy, PartialEq, Eq, Debug)]
pub struct Stretch {
    pub first: Locator,
    pub end: u64,
    pub blocks: u64,
    pub stake: u64,
}

impl Stretch {
    pub fn last(&self) -> Locator {
        Locator { offset: self.end - 1, ..self.first }
    }
}

/// A list after a locator, in stretches.
pub fn stretches(list: &[(Locator, Finality)], after: Option<Locator>) -> Vec<Stretch> {
    let mut stretches: Vec<Stretch> = Vec::new();
    let mut certifying = &vec![];
    for (locator, finality) in list.iter().filter(|(locator, _)| Some(*locator) > after) {
        let alike = *certifying == finality.certifying;
        match stretches.last_mut() {
            Some(last) if last.first.block == locator.block && last.end == locator.offset && alike => last.end += 1,
            _ => stretches.push(Stretch {
                first: *locator,
                end: locator.offset + 1,
                blocks: finality.certifying.len() as u64,
                stake: finality.stake,
            }),
        }
        certifying = &finality.certifying;
    }
    stretches
}

pub fn put_words(out: &mut [u8], words: &[u64]) {
    for (i, word) in words.iter().enumerate() {
        out[8 * i..8 * i + 8].copy_from_slice(&word.to_le_bytes());
    }
}
