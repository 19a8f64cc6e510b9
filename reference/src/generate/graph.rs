//! Graphs of blocks with their statements, and what can be wrong about them.

use crate::list::List;
use crate::model::committee::is_quorum;
use crate::model::record::{Block, Locator, Reference, Statement, MAX_INCLUDES};
use crate::rng::Rng;

/// What a graph is made like.
pub struct Shape {
    pub rounds: u64,
    /// Most statements of a block.
    pub statements: u64,
    /// Most shares in a row.
    pub run: u64,
    /// One block in so many breaks a rule.
    pub wrong: u64,
}

/// A list of blocks of this shape, with some wrong ones among them, in the order of their arrival.
pub fn finish(rng: &mut Rng, stakes: Vec<u64>, shape: Shape) -> List {
    let mut blocks = graph(rng, &stakes, &shape);
    fill(rng, &mut blocks, &shape);
    for i in 0..blocks.len() {
        if rng.once_in(shape.wrong) {
            let mut wrong = blocks[i].clone();
            break_rule(rng, &mut wrong, stakes.len() as u64);
            blocks.insert(i, wrong);
        }
    }
    let mut records: Vec<Vec<u8>> = blocks.iter().map(Block::encode).collect();
    arrive(rng, &mut records);
    List::roomy(stakes, records)
}

/// Another order of arrival: a record comes late, or again.
fn arrive(rng: &mut Rng, records: &mut Vec<Vec<u8>>) {
    while rng.once_in(3) {
        let from = rng.below(records.len() as u64) as usize;
        let record = if rng.once_in(3) { records[from].clone() } else { records.remove(from) };
        let to = (from + rng.below(6) as usize).min(records.len());
        records.insert(to, record);
    }
}

/// Blocks without statements: each includes a quorum of the round before, most of the time.
fn graph(rng: &mut Rng, stakes: &[u64], shape: &Shape) -> Vec<Block> {
    let total: u64 = stakes.iter().sum();
    let mut blocks: Vec<Block> = Vec::new();
    let mut before: Vec<Reference> = Vec::new();
    for round in 0..=shape.rounds {
        let mut authors: Vec<u64> = (0..stakes.len() as u64).collect();
        rng.shuffle(&mut authors);
        // Enough authors for the next round, some more, and now and then an author twice.
        let more = rng.below(3) as usize;
        let (mut count, mut stake) = (0, 0);
        while count < authors.len() && !is_quorum(total, stake) {
            stake += stakes[authors[count] as usize];
            count += 1;
        }
        authors.truncate(count + more);
        if rng.once_in(3) {
            authors.push(*rng.pick(&authors.clone()));
        }
        let mut these = Vec::new();
        for author in authors {
            let reference = Reference { author, round, digest: digest(rng, blocks.len() as u64) };
            let includes = if round == 0 { vec![] } else { includes(rng, stakes, &before, &blocks) };
            blocks.push(Block { reference, marked: rng.once_in(5), includes, statements: vec![], time: None });
            these.push(reference);
        }
        before = these;
    }
    blocks
}

/// Digests differ early or late, so that their order is tried at every byte.
pub fn digest(rng: &mut Rng, n: u64) -> [u8; 32] {
    let mut digest = [0; 32];
    match rng.below(4) {
        0 => digest = [0; 32].map(|_: u8| rng.word() as u8),
        1 => digest[31] = 255 - n as u8,
        2 => digest[rng.below(32) as usize] = rng.word() as u8,
        _ => {}
    }
    digest[2..4].copy_from_slice(&(n as u16).to_be_bytes());
    if rng.once_in(3) {
        digest.rotate_right(rng.below(32) as usize);
    }
    digest
}

/// A quorum of the round before in a random order, sometimes one too few; then perhaps more, older ones, and one again.
fn includes(rng: &mut Rng, stakes: &[u64], before: &[Reference], blocks: &[Block]) -> Vec<Reference> {
    let total: u64 = stakes.iter().sum();
    let mut pool = before.to_vec();
    rng.shuffle(&mut pool);
    let (mut includes, mut voters, mut stake) = (Vec::new(), 0u128, 0);
    for reference in &pool {
        if is_quorum(total, stake) && !rng.once_in(3) {
            continue;
        }
        if voters >> reference.author & 1 == 0 {
            stake += stakes[reference.author as usize];
        }
        voters |= 1 << reference.author;
        includes.push(*reference);
    }
    if rng.once_in(25) {
        includes.pop();
    }
    while rng.once_in(4) {
        includes.push(rng.pick(blocks).reference);
    }
    if rng.once_in(8) {
        includes.extend(includes.last().copied());
    }
    // An older one may stand at the block's own round, which is wrong: it is dropped most of the time.
    let round = before[0].round + 1;
    if !rng.once_in(20) {
        includes.retain(|include| include.round < round);
    }
    if rng.once_in(3) {
        rng.shuffle(&mut includes);
    }
    includes.truncate(MAX_INCLUDES);
    includes
}

/// Statements: first the shares are placed, then votes on shares of any block, earlier or later.
fn fill(rng: &mut Rng, blocks: &mut [Block], shape: &Shape) {
    let quiet = rng.below(3);
    for block in blocks.iter_mut().filter(|block| block.reference.round > 0) {
        for _ in 0..rng.below(shape.statements + 1) {
            let statement = Statement::Share(payload(rng));
            if rng.below(3) < quiet {
                // Keeps a place for a vote.
                block.statements.push(Statement::Reject(Locator::new(block.reference, 0), None));
            } else {
                let run = rng.within(1, shape.run);
                block.statements.extend((0..run).map(|_| statement.clone()));
            }
        }
    }
    let sharers: Vec<(Reference, u64)> =
        blocks.iter().map(|block| (block.reference, block.statements.len() as u64)).filter(|(_, count)| *count > 0).collect();
    let favourite = if sharers.is_empty() { None } else { Some(*rng.pick(&sharers)) };
    let rejects = rng.once_in(5);
    for block in blocks.iter_mut().filter(|block| block.reference.round > 0) {
        for statement in &mut block.statements {
            if matches!(statement, Statement::Reject(..)) {
                *statement = vote(rng, &sharers, favourite, rejects);
            }
        }
        for _ in 0..rng.below(shape.statements + 1) {
            block.statements.push(vote(rng, &sharers, favourite, rejects));
        }
    }
}

fn payload(rng: &mut Rng) -> Vec<u8> {
    let length = if rng.once_in(40) { rng.below(300) } else { rng.below(4) };
    (0..length).map(|_| rng.word() as u8).collect()
}

/// A vote, most often for the shares of one block, so that quorums come about.
fn vote(rng: &mut Rng, sharers: &[(Reference, u64)], favourite: Option<(Reference, u64)>, rejects: bool) -> Statement {
    let Some(favourite) = favourite else {
        return Statement::Share(payload(rng));
    };
    let (mut block, count) = if rng.once_in(3) { *rng.pick(sharers) } else { favourite };
    if rng.once_in(15) {
        block.digest[rng.below(32) as usize] ^= 1 << rng.below(8);
    }
    if rng.once_in(30) {
        block.author = rng.word() >> rng.below(64);
    }
    let offset = if rng.once_in(40) { u64::MAX - rng.within(1, 2) } else { rng.below(count + 1) };
    match rng.below(8) {
        0 if rejects => Statement::Reject(Locator::new(block, offset), rng.once_in(2).then_some(Locator::new(block, 1))),
        1 if rejects => Statement::Range(block, offset.min(count), offset.min(count)),
        0..=3 => {
            let (a, b) = (rng.below(count + 2), rng.below(count + 2));
            Statement::Range(block, a.min(b), a.max(b).max(a.min(b) + 1))
        }
        4 => Statement::Range(block, 0, count),
        _ => Statement::Accept(Locator::new(block, offset)),
    }
}

/// Breaks a rule of the block, or comes near to it.
fn break_rule(rng: &mut Rng, block: &mut Block, members: u64) {
    let target = block.includes.first().copied().unwrap_or(block.reference);
    let one_more = rng.below(2);
    let near_end = *rng.pick(&[0, 1_048_576]);
    let add = |rng: &mut Rng, block: &mut Block, statement: Statement| {
        let at = rng.below(block.statements.len() as u64 + 1) as usize;
        block.statements.insert(at, statement);
    };
    for _ in 0..rng.within(1, 2) {
        match rng.below(14) {
            0 => block.reference.author = *rng.pick(&[members, members + 1, 128, u64::MAX]),
            1 => block.reference.round = 0,
            2 => block.reference.round = *rng.pick(&[1, block.reference.round.wrapping_add(1), u64::MAX]),
            3 if !block.includes.is_empty() => {
                let i = rng.below(block.includes.len() as u64) as usize;
                block.includes[i].author = *rng.pick(&[members, 127, 128, u64::MAX]);
            }
            4 if !block.includes.is_empty() => {
                let i = rng.below(block.includes.len() as u64) as usize;
                block.includes[i].round = *rng.pick(&[block.reference.round, block.reference.round.wrapping_add(1), u64::MAX]);
            }
            5 if !block.includes.is_empty() => {
                let i = rng.below(block.includes.len() as u64) as usize;
                block.includes[i].digest[rng.below(32) as usize] ^= 0x10;
            }
            6 => add(rng, block, Statement::Range(target, 5, 4)),
            7 => add(rng, block, Statement::Range(target, 1_048_570, 1_048_575 + one_more)),
            8 => add(rng, block, Statement::Range(target, near_end, 1_048_576)),
            9 => add(rng, block, Statement::Accept(Locator::new(target, u64::MAX))),
            10 => add(rng, block, Statement::Accept(Locator::new(target, u64::MAX - 1))),
            11 => drop(block.includes.pop()),
            12 => block.includes.retain(|include| include.round.wrapping_add(1) != block.reference.round),
            _ => block.reference.digest[rng.below(32) as usize] ^= 1,
        }
    }
}
