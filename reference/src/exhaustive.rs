//! Short lists, every one of them: one or two owners, three blocks above round 0, each with up to two statements of a small menu.

use crate::list::List;
use crate::model::record::{Block, Locator, Reference, Statement};

/// Committees and the authors of the three blocks, with the round of each.
const PLANS: [(&[u64], [(u64, u64); 3]); 5] = [
    (&[1], [(0, 1), (0, 2), (0, 3)]),
    (&[1], [(0, 1), (0, 1), (0, 2)]),
    (&[1, 1], [(0, 1), (1, 1), (0, 2)]),
    (&[3, 1], [(0, 1), (1, 1), (0, 2)]),
    (&[2, 1], [(0, 1), (1, 2), (0, 2)]),
];

/// Statements to choose from; those of two are pairs.
const SINGLE: u64 = 6;
const MENU: u64 = 1 + SINGLE + SINGLE * SINGLE;
/// None or one of the blocks is marked.
const MARKS: u64 = 4;

pub const COUNT: u64 = PLANS.len() as u64 * MARKS * MENU * MENU * MENU;

/// The list of this number, below `COUNT`.
pub fn list(n: u64) -> List {
    let mut rest = n;
    let mut take = |radix: u64| {
        let digit = rest % radix;
        rest /= radix;
        digit
    };
    let (stakes, plan) = PLANS[take(PLANS.len() as u64) as usize];
    let mark = take(MARKS);
    let mut blocks: Vec<Block> = (0..stakes.len() as u64).map(|author| bare(author, 0, 0)).collect();
    let references: Vec<Reference> =
        plan.iter().enumerate().map(|(i, (author, round))| bare(*author, *round, i as u8 + 1).reference).collect();
    for (i, reference) in references.iter().enumerate() {
        let before = blocks.iter().filter(|block| block.reference.round + 1 == reference.round);
        let includes = before.map(|block| block.reference).collect();
        let statements = statements(take(MENU), i, &references);
        blocks.push(Block { reference: *reference, marked: mark == i as u64 + 1, includes, statements, time: None });
    }
    List::roomy(stakes.to_vec(), blocks.iter().map(Block::encode).collect())
}

fn bare(author: u64, round: u64, k: u8) -> Block {
    let mut digest = [0; 32];
    digest[3] = k;
    Block { reference: Reference { author, round, digest }, marked: false, includes: vec![], statements: vec![], time: None }
}

fn statements(choice: u64, i: usize, references: &[Reference]) -> Vec<Statement> {
    match choice {
        0 => vec![],
        _ if choice <= SINGLE => vec![statement(choice - 1, i, references)],
        _ => {
            let pair = choice - 1 - SINGLE;
            vec![statement(pair / SINGLE, i, references), statement(pair % SINGLE, i, references)]
        }
    }
}

/// A share; votes on the first block, on the block before (the next one, for the first) and on the block itself.
fn statement(choice: u64, i: usize, references: &[Reference]) -> Statement {
    let (first, own, near) = (references[0], references[i], references[if i == 0 { 1 } else { i - 1 }]);
    match choice {
        0 => Statement::Share(vec![7]),
        1 => Statement::Accept(Locator::new(first, 0)),
        2 => Statement::Range(first, 1, 2),
        3 => Statement::Range(first, 0, 3),
        4 => Statement::Accept(Locator::new(near, 1)),
        _ => Statement::Range(own, 0, 2),
    }
}
