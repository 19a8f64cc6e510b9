//! 02, "Fourteen": a sorted list of locators answered with the index.

use super::committee::Committee;
use super::finality::Graph;
use super::index::afresh;
use super::record::{number, Locator, Reference};
use super::store::Stores;

/// The number of locators, with their replies in front of the words that are lent; or the first refusal after 10.
pub fn answer_sorted(
    committee: &Committee,
    stores: &Stores,
    index: &[u64],
    bytes: &[u8],
    replies: &mut [u64],
) -> Result<u64, u64> {
    let right = afresh(stores);
    let used = index.first().map(|used| *used as usize);
    if used.is_none_or(|used| index.get(..used) != Some(&right)) {
        return Err(54);
    }
    let locators: Vec<Locator> = bytes.chunks_exact(56).map(locator).collect();
    if bytes.len() % 56 != 0 || !locators.is_sorted() {
        return Err(62);
    }
    if replies.len() < 3 * locators.len() {
        return Err(63);
    }
    let graph = Graph::new(committee, stores);
    for (locator, reply) in locators.iter().zip(replies.chunks_mut(3)) {
        let finality = graph.finality(locator);
        let authors = finality.certifying.iter().fold(0u128, |authors, block| authors | 1 << block.author);
        reply.copy_from_slice(&[finality.is_final as u64, authors as u64, (authors >> 64) as u64]);
    }
    Ok(locators.len() as u64)
}

fn locator(bytes: &[u8]) -> Locator {
    let digest = bytes[16..48].try_into().unwrap();
    Locator::new(Reference { author: number(&bytes[..8]), round: number(&bytes[8..16]), digest }, number(&bytes[48..]))
}
