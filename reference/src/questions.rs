//! The questions over a store and a table: payloads, pending locators, finality, the final list one by one and in bulk.

use std::collections::BTreeSet;

use crate::compare::{same, same_bytes, Outcome, Sides};
use crate::engine::{self, Answer};
use crate::model::committee::Votes;
use crate::model::finality::{Finality, Graph, Listed};
use crate::model::lent::{stretches, write_finality, write_ring, write_stretches, POSITION_BYTES, STRETCH_BYTES};
use crate::model::record::{number, Locator, Reference};
use crate::rng::Rng;
use crate::tally::Tally;

/// Most locators asked about one by one: every question checks the whole store, so there are fewer over a long one.
fn most_asked(sides: &Sides) -> usize {
    (40_000 / sides.state.stores.used() as usize).clamp(1, 8)
}

pub fn ask(sides: &Sides, rng: &mut Rng, tally: &mut Tally) -> Outcome {
    let graph = Graph::new(&sides.committee, &sides.state.stores);
    let list = graph.final_list();
    tally.finals += list.len() as u64;
    tally.pending += sides.state.table.items.len() as u64;
    if let Some(rust) = &sides.rust {
        let right = list.iter().map(|(locator, finality)| (*locator, finality.certifying.clone())).collect();
        same("the wide list with its certifying blocks", "Rust", rust.final_list(), Ok(right))?;
    }
    let asked = locators(sides, &graph, rng);
    for locator in &asked {
        let finality = graph.finality(locator);
        tally.not_finals += !finality.is_final as u64;
        tally.questions += 7;
        let votes = pending(sides, locator);
        one(sides, locator, &finality, votes)?;
        tally.rings(&rung(sides, locator, votes, u128::MAX)?);
        tally.rings(&rung(sides, locator, votes, rng.word() as u128 | (rng.word() as u128) << 64)?);
    }
    times(sides, rng, tally)?;
    asked_on(sides, &(engine::next_wide, "next_wide"), &list, rng)?;
    in_bulk(sides, &(engine::wide_stretches, "wide_stretches"), &list, rng)?;
    let shares = graph.listed(Listed::Ordinary);
    tally.shares += shares.len() as u64;
    asked_on(sides, &(engine::next_final, "next_final"), &shares, rng)?;
    in_bulk(sides, &(engine::final_stretches, "final_stretches"), &shares, rng)
}

/// A call about a list: stakes, store, after what, and what it writes.
pub type ListCall = fn(&[u8], &[u8], &[u8], &mut [u8]) -> Answer;

/// The times of some stored blocks, as the Rust's blocks have them, and of one that is not stored.
fn times(sides: &Sides, rng: &mut Rng, tally: &mut Tally) -> Outcome {
    let blocks = &sides.state.stores.blocks;
    for _ in 0..if blocks.is_empty() { 0 } else { most_asked(sides) } {
        let stored = &rng.pick(blocks).block;
        let right = stored.time;
        time(sides, &stored.reference, right)?;
        if let Some(rust) = &sides.rust {
            let told = rust.creation_time(&stored.reference);
            same("meta_creation_time_ns", "Rust", told, Some(right.unwrap_or(0) as u128))?;
        }
        tally.times[right.is_some() as usize] += 1;
        let mut other = stored.reference;
        other.digest[rng.below(32) as usize] ^= 1 << rng.below(8);
        time(sides, &other, sides.state.stores.get(&other).and_then(|stored| stored.block.time))?;
    }
    Ok(())
}

fn time(sides: &Sides, reference: &Reference, right: Option<u64>) -> Outcome {
    let mut found = [0x3c; 8];
    let got = engine::creation_time(&sides.engine.stakes, &sides.engine.store, &reference.bytes(), &mut found);
    same(format_args!("creation_time of {reference:?}"), "engine", got, Ok(right.is_some() as u64))?;
    same_bytes("the time", &found, &right.map_or([0x3c; 8], u64::to_le_bytes))
}

/// Some of the locators that have votes, and some beside them.
fn locators(sides: &Sides, graph: &Graph, rng: &mut Rng) -> BTreeSet<Locator> {
    let voted: Vec<Locator> = graph.voted().into_iter().collect();
    let mut asked = BTreeSet::new();
    let most = most_asked(sides);
    if voted.len() <= most {
        asked.extend(&voted);
    } else {
        asked.extend((0..most).map(|_| *rng.pick(&voted)));
    }
    if !voted.is_empty() && (most > 1 || rng.once_in(4)) {
        let beside = *rng.pick(&voted);
        asked.insert(Locator { offset: beside.offset.saturating_add(1), ..beside });
        asked.insert(Locator { offset: beside.offset.saturating_sub(1), ..beside });
        asked.insert(Locator { offset: u64::MAX, ..beside });
        let mut digest = beside.block.digest;
        digest[rng.below(32) as usize] ^= 1;
        asked.insert(Locator { block: Reference { digest, ..beside.block }, ..beside });
    }
    if !sides.state.stores.blocks.is_empty() {
        let stored = rng.pick(&sides.state.stores.blocks);
        asked.insert(Locator::new(stored.block.reference, rng.below(4)));
    }
    asked
}

/// A locator of a stored block, if there is one.
pub fn some_locator(sides: &Sides, rng: &mut Rng) -> Locator {
    let blocks = &sides.state.stores.blocks;
    if blocks.is_empty() {
        return Locator::new(Reference { author: 0, round: 0, digest: [0; 32] }, 0);
    }
    Locator::new(rng.pick(blocks).block.reference, rng.below(3))
}

/// The votes of a pending locator, by the model's table; else 42.
fn pending(sides: &Sides, locator: &Locator) -> Result<Votes, u64> {
    let table = &sides.state.table;
    let item = sides.state.stores.get(&locator.block).and_then(|stored| table.find(stored.position, locator.offset));
    item.map(|item| table.items[item].votes).ok_or(42)
}

/// Every question about one locator.
fn one(sides: &Sides, locator: &Locator, finality: &Finality, votes: Result<Votes, u64>) -> Outcome {
    let (lent, bytes) = (&sides.engine, locator.bytes());
    let stores = &sides.state.stores;
    let mut positions = vec![0x3c; POSITION_BYTES];
    let got = engine::finality(&lent.stakes, &lent.store, &mut positions, &bytes);
    let mut right = vec![0x3c; POSITION_BYTES];
    let answer = write_finality(stores, finality, &mut right);
    same(format_args!("finality of {locator:?}"), "engine", got, Ok(answer))?;
    same_bytes(format_args!("positions of {locator:?}"), &positions, &right)?;
    let payload = stores.payload(locator).ok_or(41);
    let got = engine::payload_length(&lent.stakes, &lent.store, &bytes);
    same(format_args!("payload_length of {locator:?}"), "engine", got, payload.map(|payload| payload.1))?;
    let got = engine::payload_start(&lent.stakes, &lent.store, &bytes);
    same(format_args!("payload_start of {locator:?}"), "engine", got, payload.map(|payload| payload.0))?;
    let got = engine::pending_stake(&lent.stakes, &lent.store, &lent.table, &bytes);
    same(format_args!("pending_stake of {locator:?}"), "engine", got, votes.map(|votes| votes.stake))?;
    let got = engine::pending_voters(&lent.stakes, &lent.store, &lent.table, &bytes);
    let right = votes.map(|votes| votes.voters.count_ones() as u64);
    same(format_args!("pending_voters of {locator:?}"), "engine", got, right)?;
    Ok(())
}

/// Whom to ring for a locator with these votes.
fn rung(sides: &Sides, locator: &Locator, votes: Result<Votes, u64>, reachable: u128) -> Result<Answer, String> {
    let (lent, bytes) = (&sides.engine, locator.bytes());
    let (mut got, mut right) = ([0x3c; 24], [0x3c; 24]);
    let told = engine::whom_to_ring(&lent.stakes, &lent.store, &lent.table, reachable, &bytes, &mut got);
    let answer = votes.and_then(|votes| write_ring(&sides.committee, votes.voters, reachable, &mut right));
    same(format_args!("whom to ring for {locator:?}, reachable {reachable:x}"), "engine", told, answer)?;
    same_bytes(format_args!("the set and stake to ring for {locator:?}, reachable {reachable:x}"), &got, &right)?;
    Ok(told)
}

/// The next locator of a list, asked on until none (or a few times, from a random place, where the list is long).
pub fn asked_on(sides: &Sides, call: &(ListCall, &str), list: &[(Locator, Finality)], rng: &mut Rng) -> Outcome {
    let (next, name) = *call;
    let lent = &sides.engine;
    let most = if list.len() > 100 { 1 } else { most_asked(sides) };
    let long = list.len() > 3 * most;
    let first = if long { rng.below(list.len() as u64) as usize } else { 0 };
    let mut after = if first == 0 { Vec::new() } else { list[first - 1].0.bytes().to_vec() };
    for right in
        list.iter().map(|(locator, _)| Some(locator)).chain([None]).skip(first).take(if long { most } else { 3 * most + 1 })
    {
        let mut out = vec![0x77; 56];
        let got = next(&lent.stakes, &lent.store, &after, &mut out);
        same(name, "engine", got, Ok(right.is_some() as u64))?;
        same_bytes(format_args!("{name}'s locator"), &out, &right.map_or([0x77; 56], |locator| locator.bytes()))?;
        after = out;
    }
    Ok(())
}

/// A list in bulk, from the start and asked on until no more follow; and once from the middle of a stretch.
pub fn in_bulk(sides: &Sides, call: &(ListCall, &str), list: &[(Locator, Finality)], rng: &mut Rng) -> Outcome {
    let (bulk, name) = *call;
    let lent = &sides.engine;
    let all = stretches(list, None);
    let mut after = None;
    let mut middle = all.iter().rfind(|stretch| stretch.end - stretch.first.offset > 1).filter(|_| rng.once_in(4));
    loop {
        let rest = if after.is_none() { all.clone() } else { stretches(list, after) };
        let room = 1 + rng.below(200) as usize;
        let (mut right, mut out) = (vec![0x19; STRETCH_BYTES * room], vec![0x19; STRETCH_BYTES * room]);
        let after_bytes = after.map_or(Vec::new(), |locator: Locator| locator.bytes().to_vec());
        let got = bulk(&lent.stakes, &lent.store, &after_bytes, &mut out);
        same(name, "engine", got, Ok(write_stretches(&rest, &mut right)))?;
        if out != right {
            let words =
                |bytes: &[u8]| bytes.chunks_exact(80).map(|c| c.chunks(8).map(number).collect()).collect::<Vec<Vec<_>>>();
            same("stretches", "engine", words(&out), words(&right))?;
        }
        after = match (rest.get(room), middle.take()) {
            (Some(_), _) => Some(rest[room - 1].last()),
            (None, Some(stretch)) => Some(stretch.first),
            (None, None) => return Ok(()),
        };
    }
}
