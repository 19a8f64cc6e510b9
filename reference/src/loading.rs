//! A gain table after its program: graphs in which shares need others, each question about loadable shares on the engine and on the model.

use crate::compare::{same, set, Outcome, Sides};
use crate::damage::damaged;
use crate::engine;
use crate::generate;
use crate::list::List;
use crate::model::finality::{Graph, Reading};
use crate::model::loading;
use crate::model::record::{Block, Locator};
use crate::model::store::Stores;
use crate::questions;
use crate::rng::Rng;
use crate::tally::Tally;

/// What the lists of a run held.
#[derive(Default)]
pub struct Loaded {
    pub shares: u64,
    pub loadable: u64,
    /// Of these, those that need another.
    pub following: u64,
    /// Shares that are loadable in the old reading alone.
    pub withdrawn: u64,
    pub damaged: u64,
}

/// Both readings of a reject.
const READINGS: [Reading; 2] = [Reading::Old, Reading::Withdrawing];

/// The engine's yes or no in a reading.
fn is_loadable(reading: Reading, stakes: &[u8], store: &[u8], locator: &[u8]) -> Result<u64, u64> {
    match reading {
        Reading::Old => engine::is_loadable(stakes, store, locator),
        Reading::Withdrawing => engine::is_loadable_withdrawing(stakes, store, locator),
    }
}

/// The engine's list in a reading.
fn loadable(reading: Reading, stakes: &[u8], store: &[u8], places: &mut [u64]) -> Result<u64, u64> {
    match reading {
        Reading::Old => engine::loadable(stakes, store, places),
        Reading::Withdrawing => engine::loadable_withdrawing(stakes, store, places),
    }
}

/// List n: questions after some of its records, after all of them, after another order of arrival, and over damaged stores.
pub fn compare(seed: u64, n: u64, loaded: &mut Loaded) -> Outcome {
    let mut rng = Rng::new(seed.wrapping_mul(0x9e3779b97f4a7c15) ^ n);
    let list = generate::loading(&mut rng);
    let Some(mut sides) = set(&list)? else { return Ok(()) };
    let asked = rng.below(list.records.len() as u64 + 1) as usize;
    for (i, record) in list.records.iter().enumerate() {
        if i == asked {
            ask_both(&sides, &mut rng, loaded).map_err(|text| format!("after {i} records: {text}"))?;
        }
        sides.feed(record, &mut Tally::default()).map_err(|text| format!("record {}: {text}", i + 1))?;
    }
    let found = ask_both(&sides, &mut rng, loaded).map_err(|text| format!("at the end: {text}"))?;
    for (reading, found) in READINGS.into_iter().zip(found) {
        let told = ascending(reading, &list.stakes, &sides.state.stores)?;
        same(format_args!("in another order of arrival, {reading:?}"), "engine", told, found)?;
    }
    let lent = &sides.engine;
    for _ in 0..3 {
        let store = damaged(&lent.store, &mut rng);
        let locator = questions::some_locator(&sides, &mut rng).bytes();
        loaded.damaged += 1;
        both(&lent.stakes, &store, &locator, rng.below(40) as usize)?;
    }
    both(&damaged(&lent.stakes, &mut rng), &lent.store, &[0; 55], 4)
}

/// The questions in both readings. Answers both lists; what is loadable where owners may withdraw is loadable where they cannot.
fn ask_both(sides: &Sides, rng: &mut Rng, loaded: &mut Loaded) -> Result<[Vec<Locator>; 2], String> {
    let old = ask(Reading::Old, sides, rng, loaded)?;
    let new = ask(Reading::Withdrawing, sides, rng, loaded)?;
    same("loadable in both readings", "engine", new.iter().all(|share| old.contains(share)), true)?;
    loaded.withdrawn += (old.len() - new.len()) as u64;
    Ok([old, new])
}

/// Every stored share and some other locators; the list with places around as many as it needs. Answers the list.
fn ask(reading: Reading, sides: &Sides, rng: &mut Rng, loaded: &mut Loaded) -> Result<Vec<Locator>, String> {
    let stores = &sides.state.stores;
    let graph = Graph::new(&sides.committee, stores);
    let lent = &sides.engine;
    let shares = loading::stored_shares(stores);
    let found = loading::loadable(reading, &graph, stores);
    loaded.shares += shares.len() as u64;
    loaded.loadable += found.len() as u64;
    let others: Vec<Locator> = (0..6).map(|_| questions::some_locator(sides, rng)).collect();
    for locator in shares.iter().chain(&others) {
        let right = loading::is_loadable(reading, &graph, stores, locator);
        same("the list has it", "model", found.contains(locator), right)?;
        let told = is_loadable(reading, &lent.stakes, &lent.store, &locator.bytes());
        same(format_args!("is_loadable of {locator:?}, {reading:?}"), "engine", told, Ok(right as u64))?;
    }
    for (i, share) in found.iter().enumerate() {
        let (start, length) = stores.payload(share).expect("a stored share");
        let payload = &lent.store[start as usize..(start + length) as usize];
        if let Some(change) = loading::needed(payload) {
            loaded.following += 1;
            same(format_args!("what {share:?} needs, before it"), "model", found[..i].contains(&change), true)?;
        }
    }
    let words = 2 * shares.len();
    for length in [words, words + 1, words + 7, words.saturating_sub(1), words.saturating_sub(2), 0] {
        list(reading, &lent.stakes, &lent.store, length)?;
    }
    Ok(found)
}

/// Both questions over any bytes, in both readings.
fn both(stakes: &[u8], store: &[u8], locator: &[u8], length: usize) -> Outcome {
    READINGS.into_iter().try_for_each(|reading| {
        let right = loading::is_loadable_call(reading, stakes, store, locator);
        same("is_loadable over damaged memory", "engine", is_loadable(reading, stakes, store, locator), right)?;
        list(reading, stakes, store, length)
    })
}

/// The list with so many words, between words that have to stay.
fn list(reading: Reading, stakes: &[u8], store: &[u8], length: usize) -> Outcome {
    const STAYS: u64 = 0x3c3c_3c3c_3c3c_3c3c;
    let (mut got, mut right) = (vec![STAYS; length + 8], vec![STAYS; length + 8]);
    let told = loadable(reading, stakes, store, &mut got[4..length + 4]);
    let answer = loading::loadable_call(reading, stakes, store, &mut right[4..length + 4]);
    same(format_args!("loadable with {length} words, {reading:?}"), "engine", told, answer)?;
    same(format_args!("places of loadable with {length} words, {reading:?}"), "engine", got, right)
}

/// The engine's list, as locators, where the same records arrive in ascending order of reference.
fn ascending(reading: Reading, stakes: &[u64], stores: &Stores) -> Result<Vec<Locator>, String> {
    let blocks: Vec<&Block> = stores.index.values().map(|i| &stores.blocks[*i].block).collect();
    let again = List::roomy(stakes.to_vec(), blocks.iter().map(|block| block.encode()).collect());
    let mut sides = set(&again)?.expect("the same committee");
    again.records.iter().try_for_each(|record| sides.feed(record, &mut Tally::default()).map(drop))?;
    let mut places = vec![0; 2 * loading::stored_shares(stores).len()];
    let count = loadable(reading, &sides.engine.stakes, &sides.engine.store, &mut places)
        .map_err(|number| format!("refused with {number} in another order"))?;
    let named = |place: &[u64]| Locator::new(sides.state.stores.at(place[0]).expect("an entry").block.reference, place[1]);
    Ok(places.chunks_exact(2).take(count as usize).map(named).collect())
}
