//! The Rust's side where its files are not there: it cannot be made, so nothing is asked of it.

use crate::model::record::{Block, Locator, Reference};

#[derive(Clone, Copy, PartialEq, Eq, Debug)]
pub enum Call {
    Processed(Locator),
    Unknown(Locator),
    Duplicate(Locator),
}

#[derive(Clone, Copy, PartialEq, Eq, PartialOrd, Ord, Debug)]
pub struct PendingRange {
    pub block: Reference,
    pub start: u64,
    pub end: u64,
    pub voters: u128,
    pub stake: u64,
}

pub enum RustSide {}

#[allow(unused_variables)]
impl RustSide {
    pub fn new(stakes: &[u64]) -> Result<RustSide, String> {
        Err(String::new())
    }

    pub fn is_quorum(&self, stake: u64) -> bool {
        match *self {}
    }

    pub fn is_valid(&self, stake: u64) -> bool {
        match *self {}
    }

    pub fn adds(&self, voters: &[u64]) -> Result<(Vec<bool>, u128), String> {
        match *self {}
    }

    pub fn clock(&self, block: &Block) -> Result<bool, String> {
        match *self {}
    }

    pub fn verify(&self, block: &Block) -> Result<Result<(), String>, String> {
        match *self {}
    }

    pub fn feed(&mut self, block: &Block) -> Result<Vec<(u64, Call)>, String> {
        match *self {}
    }

    pub fn store_all(&mut self, blocks: &[Block]) {
        match *self {}
    }

    pub fn creation_time(&self, reference: &Reference) -> Option<u128> {
        match *self {}
    }

    pub fn pending(&self) -> Vec<PendingRange> {
        match *self {}
    }

    pub fn final_list(&self) -> Result<Vec<(Locator, Vec<Reference>)>, String> {
        match *self {}
    }
}

pub fn vote_ranges(_offsets: &[u64]) -> Option<Vec<(u64, u64)>> {
    None
}
