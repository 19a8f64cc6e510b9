//! The calls over lent slices: every length of what they are lent, every answer, and what they refuse.

mod calendars;
mod committees;
mod feeding;
mod lists;
mod loading;
mod pending;
mod records;
mod slips;

use crate::{AuthorityIndex, Locator, RoundNumber};

/// A locator of bare numbers.
fn locator(round: u64, author: u64, digest: [u8; 32], offset: u64) -> Locator {
    Locator::new(RoundNumber(round), AuthorityIndex(author), digest, offset)
}

/// A block record of author 0.
fn record(round: u64, k: u8, includes: &[u8], payloads: &[&[u8]]) -> Vec<u8> {
    let mut bytes = vec![0; 56];
    bytes[8..16].copy_from_slice(&round.to_le_bytes());
    bytes[19] = k;
    bytes[49] = (includes.len() / 48) as u8;
    bytes[51] = payloads.len() as u8;
    bytes.extend(includes);
    for payload in payloads {
        bytes.push(0);
        bytes.extend((payload.len() as u16).to_le_bytes());
        bytes.extend(*payload);
    }
    bytes
}

/// A store of these records, in ascending order of reference as of arrival, with bytes to spare.
fn store(records: &[Vec<u8>]) -> Vec<u8> {
    let mut bytes = vec![0; 16];
    for (i, record) in records.iter().enumerate() {
        let next = if i + 1 < records.len() { bytes.len() + 8 + record.len() } else { 0 };
        bytes.extend((next as u32).to_le_bytes());
        bytes.extend((record.len() as u32).to_le_bytes());
        bytes.extend(record);
    }
    let used = bytes.len() as u32;
    bytes[0] = if records.is_empty() { 0 } else { 16 };
    bytes[4..8].copy_from_slice(&used.to_le_bytes());
    bytes[8] = records.len() as u8;
    bytes.resize(bytes.len() + 100, 7);
    bytes
}
