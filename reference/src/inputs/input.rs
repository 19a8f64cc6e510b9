//! An input of `listing`, record by record.

use crate::list::List;
use crate::model::committee::COURSE;
use crate::model::record::{Block, Locator, Reference, Statement};

/// The member count and the stakes.
pub fn stakes(stakes: &[u64]) -> Vec<u8> {
    List::roomy(stakes.to_vec(), vec![]).to_listing()
}

/// The reference whose digest has this number in its first four bytes, highest byte first, as in the course run.
pub fn reference(author: u64, round: u64, number: u32) -> Reference {
    let mut digest = [0; 32];
    digest[..4].copy_from_slice(&number.to_be_bytes());
    Reference { author, round, digest }
}

pub fn share(payload: &[u8]) -> Statement {
    Statement::Share(payload.to_vec())
}

pub fn accept(block: Reference, offset: u64) -> Statement {
    Statement::Accept(Locator::new(block, offset))
}

pub fn reject(block: Reference, offset: u64) -> Statement {
    Statement::Reject(Locator::new(block, offset), None)
}

pub fn range(block: Reference, start: u64, end: u64) -> Statement {
    Statement::Range(block, start, end)
}

/// What some owners' blocks of a round say.
pub type Says<'a> = &'a [(u64, Vec<Statement>)];

/// The bytes so far. Record k has k in its digest.
pub struct Input {
    pub bytes: Vec<u8>,
    records: u32,
}

impl Input {
    pub fn new(committee: &[u64]) -> Input {
        let bytes = if committee == COURSE { vec![255] } else { stakes(committee) };
        Input { bytes, records: 0 }
    }

    /// A record of any bytes.
    pub fn raw(&mut self, record: &[u8]) {
        self.records += 1;
        self.bytes.extend((record.len() as u32).to_le_bytes());
        self.bytes.extend(record);
    }

    /// The reference of the record that comes next.
    pub fn next(&self, author: u64, round: u64) -> Reference {
        reference(author, round, self.records + 1)
    }

    pub fn add(&mut self, author: u64, round: u64, includes: &[Reference], statements: &[Statement]) -> Reference {
        self.add_block(author, round, includes, statements, false)
    }

    pub fn add_marked(&mut self, author: u64, round: u64, includes: &[Reference], statements: &[Statement]) -> Reference {
        self.add_block(author, round, includes, statements, true)
    }

    fn add_block(
        &mut self,
        author: u64,
        round: u64,
        includes: &[Reference],
        statements: &[Statement],
        marked: bool,
    ) -> Reference {
        let reference = self.next(author, round);
        self.raw(&block(reference, includes, statements, marked).encode());
        reference
    }

    /// A block of each author, with the same includes.
    pub fn round(
        &mut self,
        round: u64,
        authors: impl IntoIterator<Item = u64>,
        includes: &[Reference],
        says: Says,
    ) -> Vec<Reference> {
        let said = |author: u64| says.iter().find(|(owner, _)| *owner == author).map_or(&[][..], |(_, said)| said);
        authors.into_iter().map(|author| self.add(author, round, includes, said(author))).collect()
    }
}

pub fn block(reference: Reference, includes: &[Reference], statements: &[Statement], marked: bool) -> Block {
    Block { reference, marked, includes: includes.to_vec(), statements: statements.to_vec(), time: None }
}
