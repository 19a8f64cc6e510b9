//! What is checked all along: each node beside the model, beside what it said before, and beside the other nodes; and slips at stations.

use std::collections::BTreeSet;

use lomkhvide::{Locator as HostLocator, Record, Refusal};

use super::world::World;
use crate::compare::{same, Outcome};
use crate::model::finality::{Graph, Listed, Reading};
use crate::model::lent::{stretches, Stretch};
use crate::model::loading::{loadable, stored_shares};
use crate::model::record::{Block, Locator, Reference, Statement};
use crate::model::slip::{blocks_of, named, slip_for, Slip};
use crate::rng::Rng;

const READINGS: [Reading; 2] = [Reading::Old, Reading::Withdrawing];

fn host_reading(reading: Reading) -> lomkhvide::Reading {
    match reading {
        Reading::Old => lomkhvide::Reading::Old,
        Reading::Withdrawing => lomkhvide::Reading::Withdrawing,
    }
}

fn host(locator: &Locator) -> HostLocator {
    HostLocator::from_bytes(&locator.bytes())
}

fn bytes(locators: &[Locator]) -> Vec<[u8; 56]> {
    locators.iter().map(Locator::bytes).collect()
}

/// What does not depend on the order in which records came.
#[derive(Clone, PartialEq, Eq, Debug)]
pub struct Lists {
    /// The wide list and the ordinary one, in the old reading and in the new one.
    lists: Vec<Vec<Stretch>>,
    /// What may be loaded, in either reading.
    loadable: Vec<Vec<Locator>>,
}

/// A stretch that an engine lists, as the model has it.
type Words = ([u8; 56], u64, u64, u64);

fn listed(engine: &lomkhvide::Engine, list: Listed, reading: Reading) -> Result<Vec<Words>, String> {
    let list = match list {
        Listed::Ordinary => lomkhvide::Listed::Ordinary,
        Listed::Wide => lomkhvide::Listed::Wide,
    };
    let words = |stretch: lomkhvide::Stretch| (stretch.first.to_bytes(), stretch.end, stretch.blocks, stretch.stake.0);
    let stretches = engine.finals(list, host_reading(reading)).map(|stretch| stretch.map(words));
    stretches.collect::<Result<_, Refusal>>().map_err(|refusal| format!("a list is refused: {refusal}"))
}

/// A node is asked for everything.
pub fn look(world: &mut World, n: usize) -> Outcome {
    world.tally.looks += 1;
    let node = &world.nodes[n];
    node.same_memory()?;
    let (stores, graph) = (&node.state.stores, Graph::new(&world.committee, &node.state.stores));
    let mut lists = Vec::new();
    let mut finals: [BTreeSet<Locator>; 2] = Default::default();
    for (i, reading) in READINGS.into_iter().enumerate() {
        let wide = graph.final_list_in(reading);
        finals[i] = wide.iter().map(|(locator, _)| *locator).collect();
        let is_share = |locator: &Locator| stores.get(&locator.block).is_some_and(|stored| stored.block.shares(locator.offset));
        let ordinary: Vec<_> = wide.iter().filter(|(locator, _)| is_share(locator)).cloned().collect();
        for (list, right) in [(Listed::Wide, wide), (Listed::Ordinary, ordinary)] {
            let right = stretches(&right, None);
            let words: Vec<Words> = right.iter().map(|one| (one.first.bytes(), one.end, one.blocks, one.stake)).collect();
            let what = format!("node {n}, {list:?} list, {reading:?} reading");
            for (side, engine) in node.engines() {
                same(&what, side, &listed(engine, list, reading)?, &words)?;
            }
            lists.push(right);
        }
    }
    let mut loads = Vec::new();
    for (reading, host) in [(Reading::Old, lomkhvide::Reading::Old), (Reading::Withdrawing, lomkhvide::Reading::Withdrawing)] {
        let right = loadable(reading, &graph, stores);
        let got =
            node.plain.loadable(host).map(|list| list.iter().map(HostLocator::to_bytes).collect()).map_err(Refusal::number);
        same(format_args!("node {n}, loadable, {reading:?} reading"), "engine", got, Ok(bytes(&right)))?;
        loads.push(right);
    }
    let blocks: Vec<Reference> = stores.index.keys().copied().collect();
    shares(world, n)?;
    stays_final(world, n, finals)?;
    alike(world, n, blocks, Lists { lists, loadable: loads })
}

/// A node's shares: pending or not as the model has it, and their payloads the same wherever they are stored.
fn shares(world: &mut World, n: usize) -> Outcome {
    let node = &world.nodes[n];
    for (i, share) in stored_shares(&node.state.stores).iter().enumerate() {
        let stored = node.state.stores.get(&share.block).unwrap();
        let Statement::Share(payload) = &stored.block.statements[share.offset as usize] else { continue };
        let known = world.payloads.entry(*share).or_insert_with(|| payload.clone());
        same(format_args!("node {n}, payload of {share:?}"), "stored", payload, known)?;
        // The table was compared as a whole: the questions are tried on some.
        if i % 5 == 0 {
            let votes = node.state.table.find(stored.position, share.offset).map(|item| node.state.table.items[item].votes);
            let right = votes.map(|votes| (votes.stake, votes.voters.count_ones() as u64)).ok_or(42);
            let got = node.plain.pending(&host(share)).map(|told| (told.stake.0, told.voters)).map_err(Refusal::number);
            same(format_args!("node {n}, pending {share:?}"), "engine", got, right)?;
            same(format_args!("node {n}, payload of {share:?}"), "engine", node.plain.payload(&host(share)), Ok(&payload[..]))?;
        }
    }
    Ok(())
}

/// What was final is final.
fn stays_final(world: &mut World, n: usize, finals: [BTreeSet<Locator>; 2]) -> Outcome {
    for (i, now) in finals.into_iter().enumerate() {
        world.tally.finals[i] += now.len() as u64;
        if let Some(gone) = world.nodes[n].finals[i].difference(&now).next() {
            return Err(format!("node {n}: {gone:?} was final in the {:?} reading and is not any more", READINGS[i]));
        }
        world.nodes[n].finals[i] = now;
    }
    Ok(())
}

/// Nodes with the same records give the same lists.
fn alike(world: &mut World, n: usize, blocks: Vec<Reference>, lists: Lists) -> Outcome {
    world.tally.loadable += lists.loadable[0].len() as u64;
    if let Some(before) = world.lists.get(&blocks) {
        world.tally.alike += 1;
        return same(format_args!("node {n}, beside a node with the same records"), "this one", &lists, before);
    }
    world.lists.insert(blocks, lists);
    Ok(())
}

/// A slip of a final locator: the model's, accepted by a station with the records that travel, refused without any of them, and not of the other
/// reading; where another node has them the locator is final there. Slips made of it are accepted for nothing that is not final.
pub fn slips(world: &mut World, n: usize, rng: &mut Rng) -> Outcome {
    for reading in READINGS {
        let node = &world.nodes[n];
        let finals: Vec<Locator> =
            Graph::new(&world.committee, &node.state.stores).final_list_in(reading).into_iter().map(|one| one.0).collect();
        if finals.is_empty() {
            continue;
        }
        let locator = *rng.pick(&finals);
        let blocks = blocks_of(&node.state.stores);
        let right = slip_for(reading, &world.committee, &blocks, &locator).ok_or("a final locator has no slip")?;
        let told = |refusal: Refusal| format!("node {n}, slip of {locator:?}: {refusal}");
        let slip = node.plain.slip(&host(&locator), host_reading(reading)).map_err(told)?;
        same(format_args!("node {n}, slip of {locator:?}"), "engine", slip.as_bytes(), &right.encode()[..])?;
        let records = node.plain.slip_records(&slip).map_err(told)?;
        let names = named(&blocks, &right).ok_or("a slip names what its node has not")?;
        let got: BTreeSet<[u8; 48]> = records.iter().map(|record| record.reference().to_bytes()).collect();
        same("the records that travel", "engine", got, names.iter().map(Reference::bytes).collect())?;
        station(world, &slip, &records, rng)?;
        elsewhere(world, reading, &locator, &names)?;
        made_up(world, n, reading, &right, &finals, rng)?;
        world.tally.slips += 1;
    }
    Ok(())
}

/// A station of the committee, which wants the reading of the slip.
fn station(world: &World, slip: &lomkhvide::Slip, records: &[Record], rng: &mut Rng) -> Outcome {
    let read = |records: &[Record], wanted| lomkhvide::Slip::read(&world.host, slip.as_bytes(), records, wanted).map(drop);
    let mut records = records.to_vec();
    rng.shuffle(&mut records);
    same("a slip at a station", "engine", read(&records, slip.reading()), Ok(()))?;
    let other = match slip.reading() {
        lomkhvide::Reading::Old => lomkhvide::Reading::Withdrawing,
        lomkhvide::Reading::Withdrawing => lomkhvide::Reading::Old,
    };
    same("at one of the other reading", "engine", read(&records, other), Err(Refusal::SlipReadingUnknown))?;
    records.pop();
    same("without one record", "engine", read(&records, slip.reading()), Err(Refusal::SlipRecordMissing))
}

/// What is final at one node is final at each that has the records that its slip names.
fn elsewhere(world: &mut World, reading: Reading, locator: &Locator, names: &BTreeSet<Reference>) -> Outcome {
    for (n, node) in world.nodes.iter().enumerate() {
        if names.iter().all(|block| node.stores(block)) {
            world.tally.elsewhere += 1;
            let told = node.plain.finality(&host(locator), host_reading(reading)).map(|finality| finality.is_final);
            same(format_args!("node {n} has the records: {locator:?} is final there"), "engine", told, Ok(true))?;
        }
    }
    Ok(())
}

/// Slips that nobody wrote, with all that a node has: one that is accepted is of something that is final there.
fn made_up(world: &mut World, n: usize, reading: Reading, slip: &Slip, finals: &[Locator], rng: &mut Rng) -> Outcome {
    let node = &world.nodes[n];
    let records: Vec<Record> = node.plain.records().map(|(_, record)| record).collect();
    let blocks: Vec<&Block> = node.state.stores.blocks.iter().map(|stored| &stored.block).collect();
    let shares = stored_shares(&node.state.stores);
    for _ in 0..4 {
        let mut slip = slip.clone();
        match rng.below(5) {
            0 if !shares.is_empty() => slip.locator = *rng.pick(&shares),
            1 => slip.locator.offset ^= 1,
            2 => drop(slip.certifiers.pop()),
            3 => slip.certifiers.iter_mut().for_each(|certifier| drop(certifier.voters.pop())),
            _ => {
                let block = rng.pick(&blocks);
                slip.certifiers.iter_mut().take(1).for_each(|certifier| certifier.reference = block.reference);
                slip.certifiers.sort_by_key(|certifier| certifier.reference);
            }
        }
        world.tally.made_up[0] += 1;
        let read = lomkhvide::Slip::read(&world.host, &slip.encode(), &records, host_reading(reading));
        if read.is_ok() {
            world.tally.made_up[1] += 1;
            if !finals.contains(&slip.locator) {
                return Err(format!("a station accepts a slip of {:?}, which is not final at node {n}", slip.locator));
            }
        }
    }
    Ok(())
}
