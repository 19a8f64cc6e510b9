//! 02, "Seven": a gain table after its program. What a payload needs, which stored shares are loadable, and the list of them, in both readings of
//! "An owner may withdraw".

use std::collections::BTreeSet;

use super::committee::Committee;
use super::finality::{Graph, Listed, Reading};
use super::lent::Answer;
use super::record::{locator_of, Locator, Statement};
use super::store::Stores;

/// The program that a change needs: a payload may begin with the byte 1 and a 56-byte locator.
pub fn needed(payload: &[u8]) -> Option<Locator> {
    if payload.len() < 57 || payload[0] != 1 {
        return None;
    }
    locator_of(&payload[1..57])
}

/// The payload of a stored share.
fn payload<'a>(stores: &'a Stores, locator: &Locator) -> Option<&'a [u8]> {
    let offset = usize::try_from(locator.offset).ok()?;
    match stores.get(&locator.block)?.block.statements.get(offset)? {
        Statement::Share(payload) => Some(payload),
        _ => None,
    }
}

/// A stored share that is final, and whose needed change, if any, is a stored share of a lower round that is itself loadable, in the same reading.
pub fn is_loadable(reading: Reading, graph: &Graph, stores: &Stores, locator: &Locator) -> bool {
    let Some(payload) = payload(stores, locator) else { return false };
    if !graph.finality_in(reading, locator).is_final {
        return false;
    }
    needed(payload)
        .is_none_or(|change| change.block.round < locator.block.round && is_loadable(reading, graph, stores, &change))
}

/// Every stored share, in ascending order.
pub fn stored_shares(stores: &Stores) -> Vec<Locator> {
    let blocks = stores.index.values().map(|i| &stores.blocks[*i].block);
    let shares = blocks.flat_map(|block| {
        let offsets = (0..block.statements.len() as u64).filter(|offset| block.shares(*offset));
        offsets.map(|offset| Locator::new(block.reference, offset))
    });
    shares.collect()
}

/// The list of all loadable stored shares: those that `is_loadable` says yes of. They ascend by round first, so that what a share needs was
/// judged before it.
pub fn loadable(reading: Reading, graph: &Graph, stores: &Stores) -> Vec<Locator> {
    let mut found = BTreeSet::new();
    for (share, _) in graph.listed_in(reading, Listed::Ordinary) {
        let change = payload(stores, &share).and_then(needed);
        if change.is_none_or(|change| change.block.round < share.block.round && found.contains(&change)) {
            found.insert(share);
        }
    }
    found.into_iter().collect()
}

// ---- as the host calls them

/// 5, 10, 20 for a locator not of 56 bytes.
pub fn is_loadable_call(reading: Reading, stakes: &[u8], store: &[u8], locator: &[u8]) -> Answer {
    let committee = Committee::lent(stakes)?;
    let stores = Stores::read(&committee, store)?;
    let locator = locator_of(locator).ok_or(20u64)?;
    Ok(is_loadable(reading, &Graph::new(&committee, &stores), &stores, &locator) as u64)
}

/// 5, 10, 58 for fewer places than stored shares; a place is the position of the block's entry and the offset.
pub fn loadable_call(reading: Reading, stakes: &[u8], store: &[u8], places: &mut [u64]) -> Answer {
    let committee = Committee::lent(stakes)?;
    let stores = Stores::read(&committee, store)?;
    if places.len() / 2 < stored_shares(&stores).len() {
        return Err(58);
    }
    let found = loadable(reading, &Graph::new(&committee, &stores), &stores);
    for (place, share) in places.chunks_exact_mut(2).zip(&found) {
        place.copy_from_slice(&[stores.get(&share.block).unwrap().position, share.offset]);
    }
    Ok(found.len() as u64)
}
