//! Damaged copies: records with a byte or a field changed, and stores and tables that are no longer in order. The engine must
//! answer what the model makes of the same bytes, and change no other byte.

use crate::compare::{same, same_bytes, Memory, Outcome};
use crate::engine;
use crate::model::finality::{Listed, Reading};
use crate::model::lent;
use crate::model::loading;
use crate::questions::ListCall;
use crate::rng::Rng;
use crate::tally::Tally;

/// Changes one thing about a slice of bytes: a bit, a byte, a word's worth near zero, its length.
pub fn damaged(bytes: &[u8], rng: &mut Rng) -> Vec<u8> {
    let mut out = bytes.to_vec();
    if out.is_empty() {
        return vec![rng.word() as u8];
    }
    let at = rng.below(out.len() as u64) as usize;
    match rng.below(8) {
        0 => out.truncate(at),
        1 => out.extend((0..rng.within(1, 60)).map(|_| rng.word() as u8)),
        2 => out[at] = rng.word() as u8,
        3 => out[at] = out[at].wrapping_add(1),
        4 => out[at] = out[at].wrapping_sub(1),
        5 if at + 8 <= out.len() => out[at..at + 8].copy_from_slice(&rng.within(0, 300).to_le_bytes()),
        6 => drop(out.remove(at)),
        _ => out[at] ^= 1 << rng.below(8),
    }
    out
}

/// Damages the store or the table after a list, then asks every call about them.
pub fn memory(right: &Memory, record: &[u8], locator: &[u8], rng: &mut Rng, tally: &mut Tally) -> Outcome {
    let mut memory = right.clone();
    let used = crate::model::record::number(&memory.store[4..8]) as usize;
    let items = crate::model::record::number(&memory.table[..8]) as usize;
    match rng.below(5) {
        0 => change(&mut memory.store[..16], rng),
        1 => change(&mut memory.store[..used], rng),
        2 => change(&mut memory.table[..8 + 48 * items], rng),
        3 => change(&mut memory.table, rng),
        _ => drop(rng.once_in(2).then(|| change(&mut memory.stakes, rng))),
    }
    every_call(&memory, record, locator, tally)
}

/// Changes one byte, most often by little.
fn change(bytes: &mut [u8], rng: &mut Rng) {
    let at = rng.below(bytes.len() as u64) as usize;
    bytes[at] = match rng.below(4) {
        0 => rng.word() as u8,
        1 => bytes[at].wrapping_add(1),
        2 => bytes[at].wrapping_sub(1),
        _ => bytes[at] ^ 1 << rng.below(8),
    };
}

/// Every call over these bytes, the engine's beside the model's: answers and every lent byte. Any length is allowed.
pub fn every_call(memory: &Memory, record: &[u8], locator: &[u8], tally: &mut Tally) -> Outcome {
    let Memory { stakes, store, table, .. } = memory;
    let mut right = memory.clone();
    let fed = lent::feed(stakes, &mut right.store, &mut right.table, &mut right.events, record);
    *tally.damaged.entry(fed.err().unwrap_or(0)).or_default() += 1;
    let mut got = memory.clone();
    let told = engine::feed(stakes, &mut got.store, &mut got.table, &mut got.events, record);
    same("feed over damaged memory", "engine", told, fed)?;
    got.same("after feeding over damaged memory", &right)?;
    let votes = lent::pending(stakes, store, table, locator);
    let told = engine::pending_stake(stakes, store, table, locator);
    same("pending_stake over damaged memory", "engine", told, votes.map(|votes| votes.stake))?;
    let told = engine::pending_voters(stakes, store, table, locator);
    same("pending_voters over damaged memory", "engine", told, votes.map(|votes| votes.voters.count_ones() as u64))?;
    let (mut right, mut got) = ([0x3c; 24], [0x3c; 24]);
    let answer = lent::whom_to_ring(stakes, store, table, u128::MAX, locator, &mut right);
    let told = engine::whom_to_ring(stakes, store, table, u128::MAX, locator, &mut got);
    same("whom_to_ring over damaged memory", "engine", told, answer)?;
    same_bytes("whom_to_ring's set over damaged memory", &got, &right)?;
    questions_of_store(stakes, store, locator)
}

/// The questions that need no table.
fn questions_of_store(stakes: &[u8], store: &[u8], locator: &[u8]) -> Outcome {
    let payload = lent::payload(stakes, store, locator);
    let told = engine::payload_length(stakes, store, locator);
    same("payload_length over damaged memory", "engine", told, payload.map(|payload| payload.1))?;
    let told = engine::payload_start(stakes, store, locator);
    same("payload_start over damaged memory", "engine", told, payload.map(|payload| payload.0))?;
    let reference = &locator[..locator.len().min(48)];
    let (mut right, mut got) = ([0x3c; 8], [0x3c; 8]);
    let answer = lent::creation_time(stakes, store, reference, &mut right);
    let told = engine::creation_time(stakes, store, reference, &mut got);
    same("creation_time over damaged memory", "engine", told, answer)?;
    same_bytes("creation_time's time over damaged memory", &got, &right)?;
    let (mut right, mut got) = (vec![0x3c; lent::POSITION_BYTES], vec![0x3c; lent::POSITION_BYTES]);
    let answer = lent::finality(stakes, store, &mut right, locator);
    let told = engine::finality(stakes, store, &mut got, locator);
    same("finality over damaged memory", "engine", told, answer)?;
    same_bytes("positions over damaged memory", &got, &right)?;
    let (mut right, mut got) = (vec![0x3c; lent::POSITION_BYTES], vec![0x3c; lent::POSITION_BYTES]);
    let answer = lent::finality_in(Reading::Withdrawing, stakes, store, &mut right, locator);
    let told = engine::finality_withdrawing(stakes, store, &mut got, locator);
    same("finality_withdrawing over damaged memory", "engine", told, answer)?;
    same_bytes("positions of the second reading over damaged memory", &got, &right)?;
    let told = engine::is_loadable(stakes, store, locator);
    same("is_loadable over damaged memory", "engine", told, loading::is_loadable_call(Reading::Old, stakes, store, locator))?;
    let told = engine::is_loadable_withdrawing(stakes, store, locator);
    let answer = loading::is_loadable_call(Reading::Withdrawing, stakes, store, locator);
    same("is_loadable_withdrawing over damaged memory", "engine", told, answer)?;
    let (mut right, mut got) = ([0x3c; 32], [0x3c; 32]);
    let answer = loading::loadable_call(Reading::Old, stakes, store, &mut right);
    same("loadable over damaged memory", "engine", engine::loadable(stakes, store, &mut got), answer)?;
    same("places over damaged memory", "engine", got, right)?;
    let (mut right, mut got) = ([0x3c; 32], [0x3c; 32]);
    let answer = loading::loadable_call(Reading::Withdrawing, stakes, store, &mut right);
    same("loadable_withdrawing over damaged memory", "engine", engine::loadable_withdrawing(stakes, store, &mut got), answer)?;
    same("places of the second reading over damaged memory", "engine", got, right)?;
    let (mut right, mut got) = (vec![0x3c; 56], vec![0x3c; 56]);
    let answer = lent::next_final(stakes, store, locator, &mut right);
    let told = engine::next_final(stakes, store, locator, &mut got);
    same("next_final over damaged memory", "engine", told, answer)?;
    same_bytes("next_final's locator over damaged memory", &got, &right)?;
    let answer = lent::next_wide(stakes, store, locator, &mut right);
    let told = engine::next_wide(stakes, store, locator, &mut got);
    same("next_wide over damaged memory", "engine", told, answer)?;
    same_bytes("next_wide's locator over damaged memory", &got, &right)?;
    let (mut right, mut got) = (vec![0x3c; 128 * lent::STRETCH_BYTES], vec![0x3c; 128 * lent::STRETCH_BYTES]);
    let answer = lent::final_stretches(stakes, store, locator, &mut right);
    let told = engine::final_stretches(stakes, store, locator, &mut got);
    same("final_stretches over damaged memory", "engine", told, answer)?;
    same_bytes("stretches over damaged memory", &got, &right)?;
    let answer = lent::wide_stretches(stakes, store, locator, &mut right);
    let told = engine::wide_stretches(stakes, store, locator, &mut got);
    same("wide_stretches over damaged memory", "engine", told, answer)?;
    same_bytes("wide stretches over damaged memory", &got, &right)?;
    for (list, next, bulk) in [
        (Listed::Ordinary, engine::next_final_withdrawing as ListCall, engine::final_stretches_withdrawing as ListCall),
        (Listed::Wide, engine::next_wide_withdrawing, engine::wide_stretches_withdrawing),
    ] {
        let (mut right, mut got) = (vec![0x3c; 56], vec![0x3c; 56]);
        let answer = lent::next_listed(Reading::Withdrawing, list, stakes, store, locator, &mut right);
        same(
            "the next locator in the second reading over damaged memory",
            "engine",
            next(stakes, store, locator, &mut got),
            answer,
        )?;
        same_bytes("that locator over damaged memory", &got, &right)?;
        let (mut right, mut got) = (vec![0x3c; 128 * lent::STRETCH_BYTES], vec![0x3c; 128 * lent::STRETCH_BYTES]);
        let answer = lent::list_stretches(Reading::Withdrawing, list, stakes, store, locator, &mut right);
        same("a list of the second reading over damaged memory", "engine", bulk(stakes, store, locator, &mut got), answer)?;
        same_bytes("its stretches over damaged memory", &got, &right)?;
    }
    Ok(())
}
