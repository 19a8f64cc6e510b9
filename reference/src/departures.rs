//! What the Rust does where it departs from 01, shown once each, for docs/DIFFERENCES.md.

use crate::model::record::{Block, Locator, Reference, Statement};
use crate::rust::{compared, RustSide};

/// Blocks of one round: author, and what it states.
fn block(author: u64, k: u8, statements: Vec<Statement>) -> Block {
    let mut digest = [0; 32];
    digest[3] = k;
    Block { reference: Reference { author, round: 1, digest }, marked: false, includes: vec![], statements, time: None }
}

pub fn show() {
    let sharing = block(0, 1, vec![Statement::Share(vec![]); 8]);
    let shared = sharing.reference;
    let feed = |stakes: &[u64], blocks: &[Block]| {
        let mut side = RustSide::new(stakes).unwrap();
        for block in blocks {
            println!("  {:?} {:?}", block.reference, block.statements);
            println!("    calls: {:?}", side.feed_as_it_is(block));
            for range in side.pending() {
                println!("    pending: {}..{} voters {:b} stake {}", range.start, range.end, range.voters, range.stake);
            }
        }
    };

    println!("an empty range over a pending run (01: it does nothing)");
    let cut = block(1, 2, vec![Statement::Range(shared, 3, 5)]);
    let empty = block(2, 3, vec![Statement::Range(shared, 3, 3)]);
    feed(&[1; 4], &[sharing.clone(), cut.clone(), empty.clone()]);

    println!("the same where the run has not been cut: it is cut at 3, and its whole rest gets the vote");
    feed(&[1; 4], &[sharing.clone(), empty.clone()]);

    println!("an empty range that no pending run holds");
    feed(&[1; 4], &[block(2, 3, vec![Statement::Range(shared, 9, 9)])]);
    feed(&[1; 4], &[sharing.clone(), block(2, 3, vec![Statement::Range(shared, 9, 9)])]);

    println!("a reject (01: it does nothing)");
    feed(&[1; 4], &[sharing.clone(), block(1, 2, vec![Statement::Reject(Locator::new(shared, 0), None)])]);

    println!("an accept at offset 2^64 - 1 (01: refused with 28)");
    feed(&[1; 4], &[block(1, 2, vec![Statement::Accept(Locator::new(shared, u64::MAX))])]);

    println!("a sole owner's share: pending, though it has quorum (01 says so too)");
    feed(&[1], &[block(0, 1, vec![Statement::Share(vec![])])]);

    println!("two references that differ in their digest: cmp and ==");
    println!("  {:?}", compared(&shared, &cut.reference.with_author(0)));

    println!("a committee of one stake, 2^63 (01: refused with 4)");
    println!("  {:?}", RustSide::new(&[1 << 63]).err());
}

impl Reference {
    fn with_author(mut self, author: u64) -> Reference {
        self.author = author;
        self
    }
}
