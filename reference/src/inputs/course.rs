//! The course run of 01 and the exercises of docs/COURSE.md.

use super::input::{accept, range, reference, reject, share, Input};
use super::{named, Named};
use crate::model::committee::COURSE;
use crate::model::mistake::Mistake;
use crate::model::record::{Block, Locator, Reference, Statement};

pub fn inputs() -> Vec<Named> {
    named![course_run, heads_for_stake, owner_twice, marked_block, share_offsets, empty_range, mistyped_vote]
}

/// The mistake that each exercise shows.
pub const MISTAKES: [(&str, Mistake); 6] = [
    ("heads_for_stake", Mistake::HeadsForStake),
    ("owner_twice", Mistake::OwnerTwice),
    ("marked_block", Mistake::MarkedBlock),
    ("share_offsets", Mistake::ShareOffsets),
    ("empty_range", Mistake::EmptyRange),
    ("mistyped_vote", Mistake::NoShareListed),
];

const FOUR: [u64; 4] = [1; 4];

fn course_run() -> Vec<u8> {
    let mut i = Input::new(&FOUR);
    let first = i.round(0, 0..4, &[], &[]);
    let one = i.round(1, 0..3, &first[..3], &[(0, vec![share(b"gain")])]);
    let vote = vec![accept(one[0], 0)];
    let two = i.round(2, 0..3, &one, &[(1, vote.clone()), (2, vote)]);
    i.round(3, 0..3, &two, &[]);
    i.bytes
}

/// The course committee: five owners of seven hold 9 of 17, four others 12.
fn heads_for_stake() -> Vec<u8> {
    let mut i = Input::new(&COURSE);
    let first = i.round(0, 0..7, &[], &[]);
    let one = i.round(1, 0..7, &first, &[(6, vec![share(b"by heads")]), (0, vec![share(b"by stake")])]);
    let (by_heads, by_stake) = (accept(one[6], 0), accept(one[0], 0));
    let two = i.round(
        2,
        0..7,
        &one,
        &[
            (1, vec![by_stake.clone()]),
            (2, vec![by_heads.clone(), by_stake.clone()]),
            (3, vec![by_heads.clone()]),
            (4, vec![by_heads.clone()]),
            (5, vec![by_heads]),
            (6, vec![by_stake]),
        ],
    );
    i.round(3, 0..7, &two, &[]);
    i.bytes
}

/// Three of four are quorum. Owner 1 votes twice for the share of owner 0; owner 3 certifies the share of owner 2 twice.
fn owner_twice() -> Vec<u8> {
    let mut i = Input::new(&FOUR);
    let first = i.round(0, 0..4, &[], &[]);
    let one = i.round(1, 0..4, &first, &[(0, vec![share(b"two owners vote")]), (2, vec![share(b"two owners certify")])]);
    let (mine, other) = (vec![accept(one[0], 0)], vec![accept(one[2], 0)]);
    let two = i.round(2, 0..4, &one, &[(0, other.clone()), (1, mine.clone()), (3, other)]);
    i.add(1, 2, &one, &mine); // a second block of owner 1 in round 2
    i.round(3, [3, 3, 0], &two, &[]);
    i.bytes
}

/// The votes of owners 1, 2 and 3 stand in marked blocks, and round 3 reaches the share through these alone.
fn marked_block() -> Vec<u8> {
    let mut i = Input::new(&FOUR);
    let first = i.round(0, 0..4, &[], &[]);
    let one = i.round(1, 0..4, &first, &[(0, vec![share(b"gain")])]);
    let two = [1, 2, 3].map(|author| i.add_marked(author, 2, &one, &[accept(one[0], 0)]));
    i.round(3, 0..3, &two, &[]);
    i.bytes
}

/// Shares at statements 1 and 3 of a block; the votes go to offsets 1 and 3.
fn share_offsets() -> Vec<u8> {
    let mut i = Input::new(&FOUR);
    let first = i.round(0, 0..4, &[], &[]);
    let shares = vec![range(first[0], 0, 0), share(b"first"), reject(first[1], 0), share(b"second")];
    let one = i.round(1, 0..4, &first, &[(0, shares)]);
    let votes = vec![accept(one[0], 1), range(one[0], 3, 4)];
    let two = i.round(2, 0..4, &one, &[(1, votes.clone()), (2, votes)]);
    i.round(3, 0..4, &two, &[]);
    i.bytes
}

/// Item 0..8, a vote 3..5 of owner 1, then a vote 3..3 of owner 2.
fn empty_range() -> Vec<u8> {
    let mut i = Input::new(&FOUR);
    let first = i.round(0, 0..4, &[], &[]);
    let one = i.round(1, 0..4, &first, &[(0, vec![share(b""); 8])]);
    let two = i.round(2, 0..4, &one, &[(1, vec![range(one[0], 3, 5)]), (2, vec![range(one[0], 3, 3)])]);
    i.round(3, 0..4, &two, &[(3, vec![range(one[0], 3, 4)])]);
    i.bytes
}

/// Owners 1, 2 and 3 vote by range 0..3 for a block of two shares, and accept a block that nobody sent.
fn mistyped_vote() -> Vec<u8> {
    let mut i = Input::new(&FOUR);
    let first = i.round(0, 0..4, &[], &[]);
    let one = i.round(1, 0..4, &first, &[(0, vec![share(b"gain"), share(b"filter"), reject(first[1], 0)])]);
    let votes = vec![range(one[0], 0, 3), accept(reference(0, 1, 85), 0)];
    let two = i.round(2, 0..4, &one, &[(1, votes.clone()), (2, votes.clone()), (3, votes)]);
    i.round(3, 0..4, &two, &[]);
    i.bytes
}

/// The records of the course run and one more, 14, of owner 3, round 2, which no other includes; with a reject of the share by the owner of one
/// of them, after all that it says.
pub fn withdrawn(rejecting: Option<usize>) -> Vec<Block> {
    let reference = |k: u8, author: u64, round: u64| {
        let mut digest = [0; 32];
        digest[3] = k;
        Reference { author, round, digest }
    };
    let mut blocks: Vec<Block> = Vec::new();
    let mut add = |author: u64, round: u64, includes: Vec<Reference>, statements: Vec<Statement>| {
        let reference = reference(1 + blocks.len() as u8, author, round);
        blocks.push(Block { reference, marked: false, includes, statements, time: None });
    };
    (0..4).for_each(|author| add(author, 0, vec![], vec![]));
    let round = |round: u64, first: u8| -> Vec<Reference> {
        (0..3).map(|author| reference(first + author as u8, author, round)).collect()
    };
    let share = Locator::new(reference(5, 0, 1), 0);
    for author in 0..3 {
        add(author, 1, round(0, 1), if author == 0 { vec![Statement::Share(vec![])] } else { vec![] });
    }
    for author in 0..3 {
        add(author, 2, round(1, 5), if author == 0 { vec![] } else { vec![Statement::Accept(share)] });
    }
    (0..3).for_each(|author| add(author, 3, round(2, 8), vec![]));
    add(3, 2, round(1, 5), vec![]);
    if let Some(k) = rejecting {
        blocks[k - 1].statements.push(Statement::Reject(share, None));
    }
    blocks
}

/// A sole owner's program at offset 0 of record 2, an accept of it beside, and in record 3 a gain table whose payload is told in words.
pub fn following(payload: &str) -> Vec<Block> {
    let reference = |round: u64| {
        let mut digest = [0; 32];
        digest[3] = 1 + round as u8;
        Reference { author: 0, round, digest }
    };
    let program = Locator::new(reference(1), 0);
    let needing = |first: u8, change: Locator| [&[first], &change.bytes()[..]].concat();
    let payload = match payload {
        "1, the program" => needing(1, program),
        "1, the program, the table" => [needing(1, program), b"gain".to_vec()].concat(),
        "1, the program without its last byte" => needing(1, program)[..56].to_vec(),
        "2, the program" => needing(2, program),
        "1, the accept beside the program" => needing(1, Locator { offset: 1, ..program }),
        "1, the table itself" => needing(1, Locator::new(reference(2), 0)),
        "1, a block that nobody sent" => needing(1, Locator::new(Reference { author: 0, round: 1, digest: [9; 32] }, 0)),
        _ => b"gain".to_vec(),
    };
    let block = |round: u64, statements: Vec<Statement>| {
        let includes = if round == 0 { vec![] } else { vec![reference(round - 1)] };
        Block { reference: reference(round), marked: false, includes, statements, time: None }
    };
    let shared = vec![Statement::Share(b"program".to_vec()), Statement::Accept(program)];
    vec![block(0, vec![]), block(1, shared), block(2, vec![Statement::Share(payload)])]
}
