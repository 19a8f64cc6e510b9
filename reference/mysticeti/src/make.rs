//! What only this crate may make: locators and ranges, and blocks whose digest is set.

use std::ops::Range;

use crate::crypto::{BlockDigest, SignatureBytes};
use crate::data::Data;
use crate::types::{BaseStatement, BlockReference, StatementBlock, TransactionLocator, TransactionLocatorRange};

pub fn reference(authority: u64, round: u64, digest: [u8; 32]) -> BlockReference {
    BlockReference { authority, round, digest: BlockDigest(digest) }
}

pub fn locator(block: BlockReference, offset: u64) -> TransactionLocator {
    TransactionLocator::new(block, offset)
}

pub fn range(block: BlockReference, range: Range<u64>) -> TransactionLocatorRange {
    TransactionLocatorRange::new(block, range)
}

pub fn block(
    reference: BlockReference,
    marked: bool,
    includes: Vec<BlockReference>,
    statements: Vec<BaseStatement>,
    meta_creation_time_ns: u128,
) -> Data<StatementBlock> {
    let signature = SignatureBytes(reference.digest.0);
    let (authority, round) = (reference.authority, reference.round);
    Data::new(StatementBlock::new(authority, round, includes, statements, meta_creation_time_ns, marked, signature))
}
