//! Graphs in which changes need others: chains, and what no chain can be.

use super::graph::{finish, Shape};
use super::stakes::stakes;
use crate::graphs;
use crate::list::List;
use crate::model::record::{Block, Locator, Reference, Statement};
use crate::rng::Rng;

/// Random graphs with few members, or the benchmark's, in which nearly everything is final; shares of either need others.
pub fn loading(rng: &mut Rng) -> List {
    let (stakes, mut blocks) = if rng.once_in(2) {
        let stakes = stakes(rng, 5);
        let shape = Shape { rounds: rng.within(2, 6), statements: 4, run: 4, wrong: 1000 };
        let list = finish(rng, stakes, shape);
        (list.stakes, list.records.iter().filter_map(|record| Block::decode(record)).collect())
    } else {
        (vec![1; 4], graphs::generated(rng.within(16, 60) as usize))
    };
    let shares: Vec<Locator> = blocks.iter().flat_map(shares_of).collect();
    let wrong = rng.within(2, 12);
    for block in &mut blocks {
        let reference = block.reference;
        for (offset, statement) in block.statements.iter_mut().enumerate() {
            if let Statement::Share(payload) = statement {
                if !rng.once_in(4) {
                    *payload = needing(rng, &Locator::new(reference, offset as u64), &shares, wrong);
                }
            }
        }
    }
    if rng.once_in(2) {
        withdraw(rng, &mut blocks);
    }
    List::roomy(stakes, blocks.iter().map(Block::encode).collect())
}

/// Some blocks reject, after their other statements, what they or others vote for.
fn withdraw(rng: &mut Rng, blocks: &mut [Block]) {
    let shares: Vec<Locator> = blocks.iter().flat_map(shares_of).collect();
    let often = rng.within(2, 8);
    for block in blocks {
        let earlier: Vec<Locator> = shares.iter().filter(|share| share.block.round <= block.reference.round).copied().collect();
        if !earlier.is_empty() && rng.once_in(often) {
            block.statements.push(Statement::Reject(*rng.pick(&earlier), None));
        }
    }
}

fn shares_of(block: &Block) -> Vec<Locator> {
    let offsets = (0..block.statements.len() as u64).filter(|offset| block.shares(*offset));
    offsets.map(|offset| Locator::new(block.reference, offset)).collect()
}

/// A payload that needs a share of a lower round, best the round before; one in so many is wrong in some way.
fn needing(rng: &mut Rng, share: &Locator, shares: &[Locator], wrong: u64) -> Vec<u8> {
    let round = share.block.round;
    let lower: Vec<Locator> = shares.iter().filter(|other| other.block.round < round).copied().collect();
    let before: Vec<Locator> = lower.iter().filter(|other| other.block.round + 1 == round).copied().collect();
    let pool = if before.is_empty() || rng.once_in(5) { &lower } else { &before };
    let mut change = if pool.is_empty() { *share } else { *rng.pick(pool) };
    if rng.once_in(wrong) {
        change = match rng.below(6) {
            0 => *share,                                          // itself
            1 => *rng.pick(shares),                               // of any round, also a higher one
            2 => Locator { offset: change.offset + 1, ..change }, // an accept, or nothing
            3 => Locator { offset: rng.word(), ..change },
            4 => Locator { block: Reference { digest: [9; 32], ..change.block }, ..change }, // a block that is not stored
            _ => Locator { block: Reference { round, ..change.block }, ..change },
        };
    }
    let mut payload = vec![1];
    payload.extend(change.bytes());
    if rng.once_in(wrong) {
        match rng.below(4) {
            0 => payload[0] = *rng.pick(&[0, 2, 255]),
            1 => payload.truncate(56),
            2 => payload.truncate(rng.below(57) as usize),
            _ => payload.insert(0, 0),
        }
    }
    payload.extend((0..rng.below(3)).map(|_| rng.word() as u8));
    payload
}
