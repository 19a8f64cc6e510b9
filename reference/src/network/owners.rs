//! The owners: the blocks that they make of what their nodes have.

use super::node::Node;
use super::world::{digested, World};
use crate::damage::damaged;
use crate::model::loading::stored_shares;
use crate::model::record::{Block, Locator, Reference, Statement};
use crate::rng::Rng;

#[derive(Clone, Copy, PartialEq, Eq, Debug)]
pub enum Role {
    Honest,
    /// Two blocks a round, each to one half of the nodes first.
    Twice,
    /// Votes for what nobody sent, for offsets that are none, for ranges of nothing.
    Nonsense,
    /// Sends damaged records before the right ones.
    Damaging,
    /// Keeps its files now and then, and is killed.
    Killed,
}

impl Role {
    pub fn chance(rng: &mut Rng) -> Role {
        match rng.below(12) {
            0 => Role::Twice,
            1 => Role::Nonsense,
            2 => Role::Damaging,
            3 | 4 => Role::Killed,
            _ => Role::Honest,
        }
    }
}

/// A record, and the half of the nodes that it goes to first.
pub struct Made {
    pub bytes: Vec<u8>,
    pub to: Option<usize>,
}

/// What an owner makes of what its node has: nothing where a round lacks its quorum or is past the last.
pub fn make(world: &World, owner: usize, role: Role, rounds: u64, rng: &mut Rng) -> Vec<Made> {
    let node = &world.nodes[owner];
    let Some(round) = next_round(world, owner).filter(|round| *round < rounds) else { return vec![] };
    let mut block = Block {
        reference: Reference { author: owner as u64, round, digest: [0; 32] },
        marked: round > 0 && rng.once_in(14),
        includes: vec![],
        statements: vec![],
        time: rng.once_in(2).then(|| rng.word()),
    };
    if round > 0 {
        block.includes = includes(world, owner, round, rng);
        block.statements = statements(node, owner, role, rng);
    }
    let mut made = Vec::new();
    let bytes = digested(block.encode());
    if role == Role::Damaging && rng.once_in(2) {
        let bytes = damaged(&bytes, rng);
        // Half of them with the right digest of what is wrong.
        made.push(Made { bytes: if rng.once_in(2) { digested(bytes) } else { bytes }, to: None });
    }
    made.push(Made { bytes, to: (role == Role::Twice).then_some(0) });
    if role == Role::Twice {
        block.statements.truncate(2);
        block.time = Some(rng.word());
        made.push(Made { bytes: digested(block.encode()), to: Some(1) });
    }
    made
}

/// The round after the last one of the owner's that any node may have, where the one before it has its quorum: further up where the node sees more.
fn next_round(world: &World, owner: usize) -> Option<u64> {
    let own =
        world.by_reference.keys().filter(|block| block.author == owner as u64).map(|block| block.round + 1).max().unwrap_or(0);
    if own == 0 {
        return Some(0);
    }
    let stored = &world.nodes[owner].state.stores.index;
    let before = |round: u64| stored.keys().filter(|block| block.round + 1 == round).copied().collect::<Vec<_>>();
    let highest = stored.keys().map(|block| block.round + 1).max().unwrap_or(0);
    (own..=highest).rev().find(|round| holds_quorum(world, &before(*round)))
}

fn holds_quorum(world: &World, blocks: &[Reference]) -> bool {
    let authors = blocks.iter().fold(0u128, |set, block| set | 1 << block.author);
    world.committee.is_quorum(world.committee.stake_of(authors))
}

/// The blocks of the round before that the node has, sometimes without one, and some older ones.
fn includes(world: &World, owner: usize, round: u64, rng: &mut Rng) -> Vec<Reference> {
    let (mut includes, mut older) = (Vec::new(), Vec::new());
    for block in world.nodes[owner].state.stores.index.keys() {
        match block.round + 1 {
            before if before == round => includes.push(*block),
            before if before < round && (block.author == owner as u64 || rng.once_in(6)) => older.push(*block),
            _ => (),
        }
    }
    rng.shuffle(&mut includes);
    if rng.once_in(3) && holds_quorum(world, &includes[1..]) {
        includes.remove(0);
    }
    includes.extend(older.into_iter().rev().take(4));
    includes
}

/// Shares of its own, votes for what it sees and has not voted for, a reject now and then.
fn statements(node: &Node, owner: usize, role: Role, rng: &mut Rng) -> Vec<Statement> {
    let shares = stored_shares(&node.state.stores);
    let mut statements = Vec::new();
    for _ in 0..rng.below(3) {
        statements.push(Statement::Share(payload(&shares, rng)));
    }
    for share in shares.iter().filter(|share| share.block.author != owner as u64 && !voted(node, owner, share)) {
        match rng.below(12) {
            0 => statements.push(Statement::Reject(*share, None)),
            1 | 2 => (),
            3 | 4 => statements.push(Statement::Range(share.block, share.offset, share.offset + rng.within(1, 3))),
            _ => statements.push(Statement::Accept(*share)),
        }
    }
    if rng.once_in(5) {
        // A mistyped vote, which others make too.
        statements.push(Statement::Accept(Locator::new(ghost(), 0)));
    }
    if let Some(share) = shares.iter().find(|share| share.block.author == owner as u64).filter(|_| rng.once_in(10)) {
        statements.push(Statement::Reject(*share, None));
    }
    if role == Role::Nonsense {
        statements.extend((0..rng.within(1, 4)).map(|_| nonsense(&shares, rng)));
    }
    if rng.once_in(4) {
        rng.shuffle(&mut statements);
    }
    statements
}

/// A few bytes; sometimes the change needs another.
fn payload(shares: &[Locator], rng: &mut Rng) -> Vec<u8> {
    let mut payload = Vec::new();
    if !shares.is_empty() && rng.once_in(2) {
        payload.push(1);
        payload.extend(rng.pick(shares).bytes());
    }
    payload.extend(&rng.word().to_le_bytes()[..rng.below(9) as usize]);
    payload
}

/// A block that nobody sends.
fn ghost() -> Reference {
    Reference { author: 1, round: 1, digest: [0xee; 32] }
}

fn nonsense(shares: &[Locator], rng: &mut Rng) -> Statement {
    let known = if shares.is_empty() { Locator::new(ghost(), 0) } else { *rng.pick(shares) };
    let nobody = Reference { author: rng.below(20), round: rng.below(9), digest: [rng.below(4) as u8; 32] };
    match rng.below(24) {
        // Refused with 26, 27, 28 wherever it comes.
        0 => rng
            .pick(&[
                Statement::Range(nobody, 5, 4),
                Statement::Range(nobody, 0, 1 << 20),
                Statement::Accept(Locator::new(nobody, u64::MAX)),
            ])
            .clone(),
        1..4 => Statement::Accept(Locator::new(nobody, rng.word() >> rng.below(64) & !1)),
        4..8 => Statement::Range(known.block, known.offset, known.offset),
        8..12 => Statement::Range(known.block, 0, rng.within(1, 40)),
        12..16 => Statement::Accept(Locator::new(known.block, known.offset + rng.within(1, 9))),
        16..20 => Statement::Reject(known, Some(Locator::new(nobody, 1))),
        _ => Statement::Range(nobody, 5, 9),
    }
}

/// Whether the owner has voted for a share in a block that its node has.
fn voted(node: &Node, owner: usize, share: &Locator) -> bool {
    let own = node.state.stores.blocks.iter().filter(|stored| stored.block.reference.author == owner as u64);
    own.flat_map(|stored| &stored.block.statements).any(|statement| match statement {
        Statement::Accept(locator) | Statement::Reject(locator, _) => locator == share,
        Statement::Range(block, start, end) => *block == share.block && (*start..*end).contains(&share.offset),
        Statement::Share(_) => false,
    })
}
