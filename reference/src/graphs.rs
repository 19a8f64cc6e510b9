//! Fixed graphs, for the benchmark and for runs over long stores.

use crate::model::record::{Block, Locator, Reference, Statement};
use crate::model::store::Stores;

/// The course run of 01: four stakes of 1.
pub fn course_run() -> Vec<Block> {
    let reference = |k: u64, author: u64, round: u64| Reference { author, round, digest: digest(k) };
    let mut blocks: Vec<Block> = (0..4).map(|author| bare(reference(author + 1, author, 0), &[])).collect();
    let mut before: Vec<Reference> = blocks[..3].iter().map(|block| block.reference).collect();
    for round in 1..4 {
        let these: Vec<Block> = (0..3).map(|author| bare(reference(2 + 3 * round + author, author, round), &before)).collect();
        before = these.iter().map(|block| block.reference).collect();
        blocks.extend(these);
    }
    let shared = Locator::new(blocks[4].reference, 0);
    blocks[4].statements = vec![Statement::Share(vec![])];
    blocks[8].statements = vec![Statement::Accept(shared)];
    blocks[9].statements = vec![Statement::Accept(shared)];
    blocks
}

/// Four owners, each block above round 0 with the four blocks of the round before, a share, and three accepts of shares of that
/// round.
pub fn generated(count: usize) -> Vec<Block> {
    let reference = |n: usize| Reference { author: n as u64 % 4, round: n as u64 / 4, digest: digest(n as u64 + 1) };
    let block = |n: usize| {
        let first = (n / 4).saturating_sub(1) * 4;
        let before: Vec<Reference> = if n < 4 { vec![] } else { (first..first + 4).map(reference).collect() };
        let mut block = bare(reference(n), &before);
        if n >= 4 {
            block.statements.push(Statement::Share(vec![1, 2, 3]));
        }
        if n >= 8 {
            let others = before.iter().filter(|other| other.author != n as u64 % 4);
            block.statements.extend(others.map(|other| Statement::Accept(Locator::new(*other, 0))));
        }
        block
    };
    (0..count).map(block).collect()
}

/// Four owners as above, but each block accepts the other three's shares of the last rounds, up to ten.
pub fn voting(count: usize) -> Vec<Block> {
    let mut blocks = generated(count);
    for n in 8..count {
        let author = blocks[n].reference.author;
        let before = (4..n / 4 * 4).rev().map(|k| blocks[k].reference).filter(|other| other.author != author);
        let accepted: Vec<Statement> = before.take(10).map(|other| Statement::Accept(Locator::new(other, 0))).collect();
        blocks[n].statements.truncate(1);
        blocks[n].statements.extend(accepted);
    }
    blocks
}

/// Four owners as above, but each block above round 0 has 100 shares, and above round 1 three ranges that accept the other three's: at the
/// end, or among the shares, of which two then stand alone. The first share needs the one that its owner's block before begins with.
pub fn shared(count: usize, among: bool) -> Vec<Block> {
    let mut blocks = generated(count);
    for block in blocks.iter_mut().skip(4) {
        let (author, round) = (block.reference.author, block.reference.round);
        let own = block.includes.iter().find(|include| include.author == author).expect("all four");
        let needing = [&[1], &Locator::new(*own, 0).bytes()[..]].concat();
        let mut statements: Vec<Statement> = (0..100).map(|_| Statement::Share(vec![1, 2, 3])).collect();
        statements[0] = Statement::Share(if round > 1 { needing } else { vec![] });
        if round > 1 {
            let others = block.includes.iter().filter(|include| include.author != author);
            for (other, place) in others.zip([49, 51, 101]) {
                let end = if round > 2 { 103 } else { 100 };
                statements.insert(if among { place } else { statements.len() }, Statement::Range(*other, 0, end));
            }
        }
        block.statements = statements;
    }
    blocks
}

/// So many owners and rounds, each block above round 0 with all blocks of the round before, and no statements.
pub fn rounds(owners: u64, rounds: u64) -> Vec<Block> {
    let reference = |n: u64| Reference { author: n % owners, round: n / owners, digest: digest(n + 1) };
    let block = |n: u64| {
        let first = (n / owners).saturating_sub(1) * owners;
        let before: Vec<Reference> = if n < owners { vec![] } else { (first..first + owners).map(reference).collect() };
        bare(reference(n), &before)
    };
    (0..owners * rounds).map(block).collect()
}

/// So many owners and rounds, each block above round 0 with a share, and above round 1 with so many accepts of
/// offsets that no other block accepts, scattered over the blocks of round 0, and one of the first of these, which everybody accepts.
pub fn scattered(owners: u64, count: u64, votes: u64) -> Vec<Block> {
    let mut blocks = rounds(owners, count);
    let first: Vec<Reference> = blocks[..owners as usize].iter().map(|block| block.reference).collect();
    for (n, block) in blocks.iter_mut().enumerate().skip(owners as usize) {
        let n = n as u64;
        block.statements.push(Statement::Share(vec![1]));
        if n >= 2 * owners {
            let offset = |k: u64| 10 + 2 * (k * owners * count + n);
            let of = |k: u64| first[((k * 7919 + n) % owners) as usize];
            block.statements.extend((0..votes).map(|k| Statement::Accept(Locator::new(of(k), offset(k * 31 % votes)))));
            block.statements.push(Statement::Accept(Locator::new(first[0], 3)));
        }
    }
    blocks
}

/// The benchmark's graph with so many owners and rounds: above round 0 a share each, above round 1 an accept of each other owner's share before.
pub fn owners(owners: u64, count: u64) -> Vec<Block> {
    let mut blocks = rounds(owners, count);
    for block in blocks.iter_mut().filter(|block| block.reference.round > 0) {
        block.statements.push(Statement::Share(vec![1, 2, 3]));
        if block.reference.round > 1 {
            let others = block.includes.iter().filter(|other| other.author != block.reference.author);
            block.statements.extend(others.map(|other| Statement::Accept(Locator::new(*other, 0))));
        }
    }
    blocks
}

/// Four owners, each block above round 0 with 500 accepts that nobody else makes, this many in all (a multiple of 2,000): of offsets of the first
/// four blocks, those of all blocks one after the other.
pub fn lone_votes(votes: u64) -> Vec<Block> {
    let mut blocks = rounds(4, 1 + votes / 2000);
    let count = blocks.len() as u64;
    let first: Vec<Reference> = blocks[..4].iter().map(|block| block.reference).collect();
    for (n, block) in blocks.iter_mut().enumerate().skip(4) {
        let accepted = |k: u64| Locator::new(first[(n + k as usize) % 4], 2 * (k * count + n as u64));
        block.statements = (0..500).map(|k| Statement::Accept(accepted(k * 31 % 500))).collect();
    }
    blocks
}

/// Four owners and 84 blocks, the four of each round above 0 with accepts of the same 400 locators: every other offset of a block before.
pub fn same_votes() -> Vec<Block> {
    let mut blocks = rounds(4, 21);
    for block in blocks.iter_mut().skip(4) {
        let accepted = |k: u64| Locator::new(block.includes[0], 2 * k);
        block.statements = (0..400).map(|k| Statement::Accept(accepted(k))).collect();
    }
    blocks
}

/// Four owners and 204 blocks, above round 0 each with 100 shares that stand alone, between empty ranges, and above round 1 with ranges that accept
/// the other three's.
pub fn lone_shares() -> Vec<Block> {
    let mut blocks = rounds(4, 51);
    for block in blocks.iter_mut().skip(4) {
        let nothing = Statement::Range(block.includes[0], 0, 0);
        block.statements = (0..100).flat_map(|_| [Statement::Share(vec![1, 2, 3]), nothing.clone()]).collect();
        if block.reference.round > 1 {
            let others = block.includes.iter().filter(|other| other.author != block.reference.author);
            block.statements.extend(others.map(|other| Statement::Range(*other, 0, 200)));
        }
    }
    blocks
}

/// The benchmark's 1,000 blocks, each above round 0 with 30 rejects of offsets that nobody votes for.
pub fn needless_rejects() -> Vec<Block> {
    let mut blocks = generated(1000);
    for block in blocks.iter_mut().skip(4) {
        let rejected = |k: u64| Locator::new(block.includes[0], 10 + 2 * (30 * block.reference.author + k));
        block.statements.extend((0..30).map(|k| Statement::Reject(rejected(k), None)));
    }
    blocks
}

/// The benchmark's 1,000 blocks; one owner alone votes in each of its blocks for something early in the order, of the first block.
pub fn early_votes() -> Vec<Block> {
    let mut blocks = generated(1000);
    let first = blocks[0].reference;
    for block in blocks.iter_mut().filter(|block| block.reference.author == 3 && block.reference.round > 0) {
        let early = Locator::new(first, 10 + 2 * block.reference.round);
        block.statements.push(Statement::Accept(early));
    }
    blocks
}

/// The benchmark's 1,000 blocks; each above round 2 includes one more, of round 1, whose ancestry has next to none of what the others share.
pub fn include_apart() -> Vec<Block> {
    let mut blocks = generated(1000);
    let apart = blocks[4].reference;
    blocks.iter_mut().filter(|block| block.reference.round > 2).for_each(|block| block.includes.push(apart));
    blocks
}

/// A store that holds these blocks, in this order of arrival.
pub fn stored(blocks: &[Block]) -> Stores {
    let mut stores = Stores::default();
    blocks.iter().for_each(|block| stores.accept(block.clone(), &block.encode()));
    stores
}

/// One owner, whose blocks each vote for 2,730 further offsets of one block: as many final locators as `listing` can hold.
pub fn longest() -> Vec<Block> {
    let reference = |n: u64| Reference { author: 0, round: n, digest: digest(n) };
    let mut blocks = vec![bare(reference(0), &[])];
    let mut used = 16 + 64;
    for n in 1.. {
        let mut block = bare(reference(n), &[reference(n - 1)]);
        let start = (n - 1) * 2730 % 1_045_000;
        block.statements.push(Statement::Range(reference(1 + (n - 1) * 2730 / 1_045_000), start, start + 2730));
        used += 8 + block.encode().len();
        if used > crate::model::listing::STORE_BYTES {
            return blocks;
        }
        blocks.push(block);
    }
    unreachable!("the store ends")
}

fn bare(reference: Reference, includes: &[Reference]) -> Block {
    Block { reference, marked: false, includes: includes.to_vec(), statements: vec![], time: None }
}

/// The bytes 0, 0 and the number's two lowest, highest first; then 28 zeros.
fn digest(k: u64) -> [u8; 32] {
    let mut digest = [0; 32];
    digest[2..4].copy_from_slice(&(k as u16).to_be_bytes());
    digest
}
