//! 01, "Store": its layout, the checks of a record (20 to 30) and accepting one.

use std::collections::BTreeMap;

use super::committee::Committee;
use super::record::{number, Block, Locator, Reference, Statement};

pub const MAX_LEN: u64 = 1_048_576;
pub const MAX_BLOCKS: usize = 1024;
const HEADER: usize = 16;

/// An accepted record with its place.
#[derive(Clone, Debug, PartialEq, Eq)]
pub struct Stored {
    pub position: u64,
    pub record: Vec<u8>,
    pub block: Block,
}

/// The accepted records in order of arrival, and each one's index by its reference.
#[derive(Clone, Debug, PartialEq, Eq, Default)]
pub struct Stores {
    pub blocks: Vec<Stored>,
    pub index: BTreeMap<Reference, usize>,
}

/// A fresh store of this length: first 0, used 16, count 0. The rest is filled as told.
pub fn fresh(length: usize, fill: impl Fn(usize) -> u8) -> Vec<u8> {
    let mut store: Vec<u8> = (0..length).map(|i| if i < HEADER { 0 } else { fill(i) }).collect();
    if length > 4 {
        store[4] = HEADER as u8;
    }
    store
}

impl Stores {
    /// What a lent store holds, or 10: it is in order when its used part is what accepting its records from fresh leaves.
    pub fn read(committee: &Committee, store: &[u8]) -> Result<Stores, u64> {
        if store.len() < HEADER || store.len() as u64 > u32::MAX as u64 {
            return Err(10);
        }
        let used = number(&store[4..8]) as usize;
        if used < HEADER || used > store.len() {
            return Err(10);
        }
        let (mut stores, mut at) = (Stores::default(), HEADER);
        while at < used {
            let length = store[..used].get(at + 4..at + 8).ok_or(10u64)?;
            let record = store[..used].get(at + 8..at + 8 + number(length) as usize).ok_or(10u64)?;
            let block = stores.check(committee, record).map_err(|_| 10u64)?;
            if stores.blocks.len() == MAX_BLOCKS {
                return Err(10);
            }
            stores.accept(block, record);
            at += 8 + record.len();
        }
        if stores.layout() == store[..used] {
            Ok(stores)
        } else {
            Err(10)
        }
    }

    /// The used part of the store.
    pub fn layout(&self) -> Vec<u8> {
        let mut out = vec![0; HEADER];
        for stored in &self.blocks {
            out.extend([0; 4]);
            out.extend((stored.record.len() as u32).to_le_bytes());
            out.extend(&stored.record);
        }
        let mut link = 0;
        for &i in self.index.values() {
            let position = self.blocks[i].position as u32;
            out[link..link + 4].copy_from_slice(&position.to_le_bytes());
            link = position as usize;
        }
        let used = out.len() as u32;
        out[4..8].copy_from_slice(&used.to_le_bytes());
        out[8..10].copy_from_slice(&(self.blocks.len() as u16).to_le_bytes());
        out
    }

    pub fn used(&self) -> u64 {
        self.blocks.last().map_or(HEADER as u64, |last| last.position + 8 + last.record.len() as u64)
    }

    pub fn get(&self, reference: &Reference) -> Option<&Stored> {
        self.index.get(reference).map(|i| &self.blocks[*i])
    }

    /// The block that stands at a position.
    pub fn at(&self, position: u64) -> Option<&Stored> {
        self.blocks.iter().find(|stored| stored.position == position)
    }

    /// Whether a store of this length cannot take the record (13).
    pub fn is_full(&self, length: usize, record: &[u8]) -> bool {
        self.used() + 8 + record.len() as u64 > length as u64 || self.blocks.len() >= MAX_BLOCKS
    }

    pub fn accept(&mut self, block: Block, record: &[u8]) {
        let position = self.used();
        self.index.insert(block.reference, self.blocks.len());
        self.blocks.push(Stored { position, record: record.to_vec(), block });
    }

    /// The block of a record that keeps the rules, or the first of 20 to 30 that applies.
    pub fn check(&self, committee: &Committee, record: &[u8]) -> Result<Block, u64> {
        let block = Block::decode(record).ok_or(20u64)?;
        check_head(committee, &block)?;
        if self.get(&block.reference).is_some() {
            return Err(23);
        }
        check_body(committee, &block)?;
        if block.includes.iter().any(|include| self.get(include).is_none()) {
            return Err(30);
        }
        Ok(block)
    }

    /// Where a stored share's payload stands in the store, and its length.
    pub fn payload(&self, locator: &Locator) -> Option<(u64, u64)> {
        let stored = self.get(&locator.block)?;
        if !stored.block.shares(locator.offset) {
            return None;
        }
        // The record up to the share, without its payload: the share's own bytes are 3 and the payload.
        let mut before = stored.block.clone();
        before.statements.truncate(locator.offset as usize);
        let Statement::Share(payload) = &stored.block.statements[locator.offset as usize] else { return None };
        Some((stored.position + 8 + before.encode().len() as u64 + 3, payload.len() as u64))
    }
}

/// 21 and 22.
pub fn check_head(committee: &Committee, block: &Block) -> Result<(), u64> {
    if !committee.knows(block.reference.author) {
        return Err(21);
    }
    if block.reference.round == 0 && !(block.includes.is_empty() && block.statements.is_empty()) {
        return Err(22);
    }
    Ok(())
}

/// 24 to 29.
pub fn check_body(committee: &Committee, block: &Block) -> Result<(), u64> {
    for include in &block.includes {
        if !committee.knows(include.author) {
            return Err(24);
        }
        if include.round >= block.reference.round {
            return Err(25);
        }
    }
    for statement in &block.statements {
        match statement {
            Statement::Range(_, start, end) if end < start => return Err(26),
            Statement::Range(_, _, end) if *end >= MAX_LEN => return Err(27),
            Statement::Accept(locator) if locator.offset == u64::MAX => return Err(28),
            _ => {}
        }
    }
    if block.reference.round != 0 && !clock(committee, block) {
        return Err(29);
    }
    Ok(())
}

/// Authors of includes at round - 1 hold quorum.
pub fn clock(committee: &Committee, block: &Block) -> bool {
    let before = block.includes.iter().filter(|include| include.round + 1 == block.reference.round);
    let authors = before.fold(0, |authors: u128, include| authors | 1 << include.author);
    committee.is_quorum(committee.stake_of(authors))
}
