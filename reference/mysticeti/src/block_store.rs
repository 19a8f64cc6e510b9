//! Stand-in: a map by reference in place of WAL and metrics, with the three questions that the interpreter asks.

use std::collections::{BTreeMap, HashMap};

use crate::data::Data;
use crate::types::{AuthorityIndex, BlockDigest, BlockReference, RoundNumber, StatementBlock};

#[derive(Default)]
pub struct BlockStore {
    index: BTreeMap<RoundNumber, HashMap<(AuthorityIndex, BlockDigest), Data<StatementBlock>>>,
}

impl BlockStore {
    pub fn insert_block(&mut self, block: Data<StatementBlock>) {
        let reference = block.reference();
        self.index.entry(reference.round()).or_default().insert(reference.author_digest(), block);
    }

    pub fn highest_round(&self) -> RoundNumber {
        self.index.keys().next_back().copied().unwrap_or(0)
    }

    pub fn get_blocks_by_round(&self, round: RoundNumber) -> Vec<Data<StatementBlock>> {
        self.index.get(&round).map_or(Vec::new(), |blocks| blocks.values().cloned().collect())
    }

    pub fn get_block(&self, reference: BlockReference) -> Option<Data<StatementBlock>> {
        self.index.get(&reference.round())?.get(&reference.author_digest()).cloned()
    }
}
