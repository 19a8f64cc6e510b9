//! Long lists at the limits of table, events, blocks and counts.

use super::graph::digest;
use crate::list::List;
use crate::model::record::{Block, Locator, Reference, Statement, MAX_INCLUDES, MAX_STATEMENTS};
use crate::rng::Rng;

/// A committee of one, whose blocks follow each other: rounds without a clock in the way.
struct Chain {
    blocks: Vec<Block>,
}

impl Chain {
    fn new() -> Chain {
        let reference = Reference { author: 0, round: 0, digest: [1; 32] };
        Chain { blocks: vec![Block { reference, marked: false, includes: vec![], statements: vec![], time: None }] }
    }

    fn next(&mut self, statements: Vec<Statement>) -> Reference {
        let before = self.blocks.last().unwrap().reference;
        let reference = Reference { round: before.round + 1, ..before };
        self.blocks.push(Block { reference, marked: false, includes: vec![before], statements, time: None });
        reference
    }

    fn list(self, stakes: Vec<u64>) -> List {
        List::roomy(stakes, self.blocks.iter().map(Block::encode).collect())
    }
}

/// Member 0 has quorum alone: the blocks of a chain need no other.
fn chain_stakes(rng: &mut Rng) -> Vec<u64> {
    if rng.once_in(2) {
        vec![1]
    } else {
        vec![3, 1]
    }
}

/// About 1,024 items (14): 610 of single shares and a long run, then ranges that cut it and registrations that may not fit.
pub fn items(rng: &mut Rng) -> List {
    let mut chain = Chain::new();
    let filler = Statement::Reject(Locator::new(chain.blocks[0].reference, 0), None);
    let apart = |n: u64| (0..2 * n).map(|i| if i % 2 == 0 { Statement::Share(vec![]) } else { filler.clone() }).collect();
    let long = chain.next((0..100).map(|_| Statement::Share(vec![])).collect());
    chain.next(apart(510));
    let near = rng.within(508, 512);
    let last = chain.next(apart(near));
    // Each of these stands on the same block, so that one that is refused takes no other with it.
    for n in 0..rng.within(1, 5) {
        let (a, b) = (rng.below(100), rng.below(101));
        let statement = match rng.below(4) {
            0 => Statement::Share(vec![]),
            1 => Statement::Accept(Locator::new(long, a)),
            2 => Statement::Accept(Locator::new(last, 2 * rng.below(near))),
            _ => Statement::Range(long, a.min(b), a.max(b)),
        };
        let reference = Reference { author: 0, round: last.round + 1, digest: digest(rng, n) };
        chain.blocks.push(Block { reference, marked: false, includes: vec![last], statements: vec![statement], time: None });
    }
    chain.list(if rng.once_in(2) { vec![1] } else { vec![9, 1, 1] })
}

/// About 8,192 words of events: 2,730 fit, 2,731 do not (15).
pub fn events(rng: &mut Rng) -> List {
    let mut chain = Chain::new();
    let first = chain.next((0..20).map(|_| Statement::Share(vec![])).collect());
    let most = rng.within(2728, 2732);
    let start = rng.below(30);
    let cut = rng.below(most);
    let mut statements = vec![Statement::Range(first, start, start + cut), Statement::Range(first, 0, most - cut)];
    if rng.once_in(2) {
        statements[1] = Statement::Range(first, 0, most - cut - (most - cut).min(1));
        statements.push(Statement::Accept(Locator::new(first, 3)));
    }
    rng.shuffle(&mut statements);
    chain.next(statements);
    chain.list(chain_stakes(rng))
}

/// 1,024 blocks fit, no more (13).
pub fn blocks(rng: &mut Rng) -> List {
    let mut chain = Chain::new();
    for i in 0..1025 {
        let before = chain.blocks.last().unwrap().reference;
        chain.next(if i % 100 == 7 { vec![Statement::Accept(Locator::new(before, 0))] } else { vec![] });
    }
    let mut list = chain.list(vec![1]);
    let again = list.records[rng.below(1024) as usize].clone();
    list.records.push(again);
    list
}

/// The most includes and statements: 256 and 1,024 are taken, 257 and 1,025 are not (20).
pub fn counts(rng: &mut Rng) -> List {
    let mut chain = Chain::new();
    let mut block = chain.blocks[0].clone();
    block.reference.round = 1;
    block.includes = vec![chain.blocks[0].reference; MAX_INCLUDES + rng.below(2) as usize];
    let statements = MAX_STATEMENTS + rng.below(2) as usize;
    block.statements =
        (0..statements)
            .map(|i| {
                if i % 3 < 2 {
                    Statement::Share(vec![])
                } else {
                    Statement::Accept(Locator::new(block.reference, i as u64 - 1))
                }
            })
            .collect();
    chain.blocks.push(block);
    chain.list(chain_stakes(rng))
}
