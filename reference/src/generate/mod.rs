//! Random lists, each of a kind that comes near some boundary.

mod graph;
mod loading;
mod special;
mod stakes;
pub mod stakes_file;

use crate::damage::damaged;
use crate::list::List;
use crate::model::record::{Block, Locator, Statement};
use crate::rng::Rng;
use graph::{finish, Shape};
pub use loading::loading;
use special::{blocks, counts, events, items};
use stakes::{committee_only, stakes};

/// A list by its number and the seed of the run.
pub fn list(seed: u64, n: u64) -> List {
    let mut rng = Rng::new(seed.wrapping_mul(0x2545f4914f6cdd1d) ^ n);
    match n % 400 {
        // Rare, since they are long.
        33 => items(&mut rng),
        133 => events(&mut rng),
        233 if rng.once_in(20) => blocks(&mut rng),
        333 => counts(&mut rng),
        77 => every_byte(&mut rng),
        _ => match rng.below(20) {
            0 => committee_only(&mut rng),
            1 => {
                // Lists of many members are long, so most of them have some twenty.
                let most = if rng.once_in(12) { 128 } else { 24 };
                wide(&mut rng, most)
            }
            2..=4 => runs(&mut rng),
            5 => full(&mut rng),
            6..=8 => broken(&mut rng),
            _ => small(&mut rng),
        },
    }
}

/// The same with the time of its creation in half of its records, and as much more room for them.
pub fn timed_list(seed: u64, n: u64) -> List {
    let mut list = list(seed, n);
    let mut rng = Rng::new(seed ^ n.wrapping_mul(0xd1342543de82ef95));
    for record in &mut list.records {
        let Some(block) = Block::decode(record) else { continue };
        if block.time.is_none() && rng.once_in(2) {
            *record = Block { time: Some(time(&mut rng)), ..block }.encode();
            list.store += if list.store < 16 { 0 } else { 16 };
        }
    }
    list
}

/// Times near both ends, and any.
fn time(rng: &mut Rng) -> u64 {
    match rng.below(4) {
        0 => rng.below(3),
        1 => u64::MAX - rng.below(3),
        _ => rng.word() >> rng.below(64),
    }
}

fn small(rng: &mut Rng) -> List {
    let stakes = stakes(rng, 7);
    let shape = Shape { rounds: rng.within(1, 5), statements: rng.within(1, 5), run: 3, wrong: 12 };
    finish(rng, stakes, shape)
}

/// Graphs in which owners withdraw: rejects of what is voted for, above the votes, below them and beside.
pub fn rejecting(rng: &mut Rng) -> List {
    let stakes = stakes(rng, 6);
    let shape = Shape { rounds: rng.within(2, 5), statements: 3, run: 4, wrong: 1000 };
    let list = finish(rng, stakes, shape);
    let mut blocks: Vec<Block> = list.records.iter().filter_map(|record| Block::decode(record)).collect();
    let mut voted: Vec<Locator> = Vec::new();
    for block in &blocks {
        for (offset, statement) in block.statements.iter().enumerate() {
            match statement {
                Statement::Share(_) => voted.push(Locator::new(block.reference, offset as u64)),
                Statement::Accept(locator) => voted.push(*locator),
                Statement::Range(reference, start, end) if start < end => {
                    voted.push(Locator::new(*reference, rng.within(*start, *end - 1)));
                    voted.push(Locator::new(*reference, *end));
                }
                _ => {}
            }
        }
    }
    if voted.is_empty() {
        return list;
    }
    // Few locators, so that some are rejected by many and most by nobody.
    let few: Vec<Locator> = (0..rng.within(1, 4)).map(|_| *rng.pick(&voted)).collect();
    let often = rng.within(2, 6);
    for block in blocks.iter_mut().filter(|block| block.reference.round > 0) {
        while rng.once_in(often) {
            let pool = if rng.once_in(4) { &voted } else { &few };
            let mut rejected = *rng.pick(pool);
            if rng.once_in(12) {
                rejected.offset = *rng.pick(&[rejected.offset.wrapping_add(1), rejected.offset.wrapping_sub(1), u64::MAX]);
            }
            let second = rng.once_in(3).then_some(*rng.pick(pool));
            let at =
                if rng.once_in(4) { rng.below(block.statements.len() as u64 + 1) as usize } else { block.statements.len() };
            block.statements.insert(at, Statement::Reject(rejected, second));
        }
    }
    List::roomy(list.stakes, blocks.iter().map(Block::encode).collect())
}

/// Many members, few rounds.
fn wide(rng: &mut Rng, most: u64) -> List {
    let stakes = stakes(rng, most);
    let shape = Shape { rounds: rng.within(1, 2), statements: 2, run: 2, wrong: 20 };
    finish(rng, stakes, shape)
}

/// Long runs of shares and ranges that cut them.
fn runs(rng: &mut Rng) -> List {
    let stakes = stakes(rng, 5);
    let shape = Shape { rounds: rng.within(2, 3), statements: 8, run: 10, wrong: 30 };
    finish(rng, stakes, shape)
}

/// Many broken records among the good ones.
fn broken(rng: &mut Rng) -> List {
    let stakes = stakes(rng, 4);
    let shape = Shape { rounds: rng.within(1, 3), statements: 4, run: 3, wrong: 3 };
    let mut list = finish(rng, stakes, shape);
    let good = std::mem::take(&mut list.records);
    for record in good {
        for _ in 0..rng.below(4) {
            list.records.push(damaged(&record, rng));
        }
        list.records.push(record);
    }
    list
}

/// A record with a time, with each of its bytes changed in turn, and cut and extended to each length, before the record itself. Some of
/// these copies keep the rules (another digest, time or payload) and are stored.
fn every_byte(rng: &mut Rng) -> List {
    let stakes = stakes(rng, 3);
    let shape = Shape { rounds: 2, statements: 3, run: 2, wrong: 1000 };
    let mut list = finish(rng, stakes, shape);
    let Some(block) = list.records.pop().and_then(|record| Block::decode(&record)) else { return list };
    let record = Block { time: Some(time(rng)), ..block }.encode();
    for at in 0..record.len() {
        let byte = record[at];
        let others = [byte ^ 1, byte ^ 0x80, byte.wrapping_add(3), 0, 0xff];
        let mut copy = record.clone();
        copy[at] = *rng.pick(&others);
        list.records.push(copy);
        list.records.push(record[..at].to_vec());
    }
    for more in 1..20 {
        let mut copy = record.clone();
        copy.resize(record.len() + more, rng.word() as u8);
        list.records.push(copy);
    }
    list.records.push(record);
    List::roomy(list.stakes, list.records)
}

/// A store of about the length that the records need (13), and now and then one that is too short at all (10).
fn full(rng: &mut Rng) -> List {
    let mut list = small(rng);
    let needed = list.needed();
    list.store = match rng.below(6) {
        0 => rng.below(40) as usize,
        1 => needed,
        2 => needed - 1,
        _ => rng.within(16, needed as u64) as usize,
    };
    list
}
