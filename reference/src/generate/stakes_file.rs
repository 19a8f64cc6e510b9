//! Files of stakes: chains of records near each limit, whole and damaged.

use super::stakes::stakes;
use crate::damage::damaged;
use crate::members::{self, in_file, record};
use crate::model::stakes_file::{LONGEST, RECORD};
use crate::rng::Rng;

const MOST_RECORDS: u64 = ((LONGEST - 2) / RECORD) as u64;

/// A name that no other member has: a text of 1 to 16 bytes that ends with the member's number.
fn name(member: usize) -> [u8; 16] {
    let mut name = [0; 16];
    let text = format!("{}{member}", &"owner of a site "[..member % 11]);
    name[..text.len()].copy_from_slice(text.as_bytes());
    name
}

/// A file of these stakes, one record after the other.
pub fn good(stakes: &[u64]) -> Vec<u8> {
    members::file(&stakes.iter().enumerate().map(|(i, stake)| (name(i), *stake)).collect::<Vec<_>>())
}

/// File n of a run.
pub fn file(seed: u64, n: u64) -> Vec<u8> {
    let mut rng = Rng::new(seed.wrapping_mul(0x2545f4914f6cdd1d) ^ n);
    if rng.once_in(40) {
        return (0..rng.below(60)).map(|_| rng.below(3) as u8).collect();
    }
    let mut file = chained(&mut rng);
    if rng.once_in(3) {
        file = damaged(&file, &mut rng);
    }
    file
}

/// A chain through records in any order, others off it; names, stakes and links may be bad.
fn chained(rng: &mut Rng) -> Vec<u8> {
    let most = *rng.pick(&[3, 7, 7, 7, 20, 127, 128, 129, 140, MOST_RECORDS - 2, MOST_RECORDS]);
    let few = rng.within(0, most);
    let members = if most > 300 && rng.once_in(8) { most } else { few.min(*rng.pick(&[2, 5, 9, 129, 140])) };
    let members = if rng.once_in(4) { most.min(140) } else { members } as usize;
    let off = rng.below(5).min(MOST_RECORDS + 2 - members as u64) as usize;
    let mut places: Vec<usize> = (1..=members + off).collect();
    if rng.once_in(2) {
        rng.shuffle(&mut places);
    }
    let given = stakes(rng, 128);
    let stake = |rng: &mut Rng, i: usize| if rng.once_in(400) { 0 } else { given[i % given.len()] };
    // Off the chain anything may stand.
    let mut records: Vec<Vec<u8>> = (0..members + off).map(|_| (0..RECORD).map(|_| rng.word() as u8).collect()).collect();
    for i in 0..members {
        let next = if i + 1 < members { places[i + 1] as u16 } else { 0 };
        let text = bad_name(rng, i, members);
        let stake = stake(rng, i);
        records[places[i] - 1] = record(next, &text, stake);
    }
    let first = if members > 0 { places[0] as u16 } else { 0 };
    let mut file = in_file(first, &records);
    if rng.once_in(6) && members > 0 {
        // A link to any place near the records' number, so often to one on the chain.
        let at = if rng.once_in(4) { 0 } else { 2 + RECORD * (places[rng.below(members as u64) as usize] - 1) };
        let link = rng.within(0, (members + off) as u64 + 2) as u16;
        file[at..at + 2].copy_from_slice(&link.to_le_bytes());
    }
    if rng.once_in(60) {
        // Whole records up to the limit and one past it.
        let records = *rng.pick(&[MOST_RECORDS - 1, MOST_RECORDS, MOST_RECORDS + 1, MOST_RECORDS + 2]) as usize;
        file.resize(file.len().max(2 + RECORD * records), 0);
    }
    file
}

/// Mostly the member's own name; else none, one with a byte after a zero, another member's, or one that differs in its last byte.
fn bad_name(rng: &mut Rng, member: usize, members: usize) -> [u8; 16] {
    let mut text = name(member);
    if !rng.once_in(3 * members as u64 + 10) {
        return text;
    }
    match rng.below(5) {
        0 => text = [0; 16],
        1 => text[rng.within(1, 15) as usize] = 0,
        2 => text = name(rng.below(members as u64) as usize),
        3 => text[15] ^= 1,
        _ => text[0] = 0,
    }
    text
}
