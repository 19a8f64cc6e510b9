//! Slips for the station, of both readings: whole, damaged and made up ones, with all records, with the ones they name, with one left out or damaged, on
//! the engine and on the model; and slips carried to another store, fed in another order.

use crate::compare::{same, same_bytes, Memory, Outcome};
use crate::damage::damaged;
use crate::engine;
use crate::generate;
use crate::list::List;
use crate::model::committee::Committee;
use crate::model::feed::{State, EVENT_BYTES};
use crate::model::finality::{Graph, Reading};
use crate::model::lent::{self, POSITION_BYTES};
use crate::model::record::{Locator, Reference};
use crate::model::slip::{blocks_of, framed, named, read_slip, slip_for, write_slip, Blocks, Certifier, Slip, Voter};
use crate::rng::Rng;

/// What the slips of a run held.
#[derive(Default)]
pub struct Told {
    /// Of the old reading and of the new one.
    pub slips: [u64; 2],
    pub accepted: u64,
    /// Refused with 52, with 53 and with 61.
    pub refused: [u64; 3],
    pub left_out: u64,
    pub carried: u64,
}

/// A store that the model fed.
struct Fed {
    stakes: Vec<u8>,
    committee: Committee,
    state: State,
    blocks: Blocks,
    store: Vec<u8>,
}

fn feed(list: &List, records: &[Vec<u8>]) -> Option<Fed> {
    let committee = Committee::new(&list.stakes).ok()?;
    let (mut memory, mut state) = (Memory::new(list), State::default());
    for record in records {
        if let Ok(told) = state.feed(&committee, list.store, EVENT_BYTES, record) {
            lent::write_back(&state, &told, &mut memory.store, &mut memory.table, &mut memory.events);
        }
    }
    let blocks = blocks_of(&state.stores);
    Some(Fed { stakes: memory.stakes, committee, state, blocks, store: memory.store })
}

/// Run n: the slips of some locators of a list, and slips made of them.
pub fn run(seed: u64, n: u64, told: &mut Told) -> Outcome {
    let mut rng = Rng::new(seed.wrapping_mul(0x9e3779b97f4a7c15) ^ n);
    let mut list = if n % 2 == 0 { generate::list(seed, n) } else { generate::rejecting(&mut rng) };
    list.records.truncate(120);
    list.store = list.needed() + 100;
    let Some(fed) = feed(&list, &list.records) else { return Ok(()) };
    for reading in [Reading::Old, Reading::Withdrawing] {
        let graph = Graph::new(&fed.committee, &fed.state.stores);
        let finals: Vec<Locator> = graph.final_list_in(reading).into_iter().map(|one| one.0).collect();
        if finals.is_empty() {
            continue;
        }
        for _ in 0..3 {
            of(&fed, reading, rng.pick(&finals), &mut rng, told)?;
        }
        for locator in graph.rejected() {
            write(&fed, reading, &fed.store, &locator.bytes(), 4096, "rejected")?;
        }
        carried(&list, &fed, reading, rng.pick(&finals), &mut rng, told)?;
    }
    Ok(())
}

/// One question, on both sides.
fn read(fed: &Fed, slip: &[u8], records: &[u8], what: &str, told: &mut Told) -> Outcome {
    let right = read_slip(&fed.stakes, slip, records);
    match right {
        Ok(_) => told.accepted += 1,
        Err(53) => told.refused[1] += 1,
        Err(61) => told.refused[2] += 1,
        Err(_) => told.refused[0] += 1,
    }
    same(format_args!("read_slip, {what}, slip {slip:02x?}"), "engine", engine::read_slip(&fed.stakes, slip, records), right)
}

/// The slip of a locator written into so much room, on both sides: the answer and every byte.
fn write(fed: &Fed, reading: Reading, store: &[u8], locator: &[u8], room: usize, what: &str) -> Outcome {
    let (mut ours, mut right) = (vec![9; room], vec![9; room]);
    let want = write_slip(reading, &fed.stakes, store, locator, &mut right);
    let told = match reading {
        Reading::Old => engine::write_slip(&fed.stakes, store, locator, &mut ours),
        Reading::Withdrawing => engine::write_slip_withdrawing(&fed.stakes, store, locator, &mut ours),
    };
    same(format_args!("write_slip, {reading:?}, {what}, {room} bytes"), "engine", told, want)?;
    same_bytes(format_args!("write_slip, {reading:?}, {what}, {room} bytes"), &ours, &right)
}

/// The same, where the answer is known beforehand.
fn told_so(fed: &Fed, slip: &[u8], records: &[u8], what: &str, want: Result<u64, u64>, told: &mut Told) -> Outcome {
    same(what, "model", read_slip(&fed.stakes, slip, records), want)?;
    read(fed, slip, records, what, told)
}

fn records(fed: &Fed, of: impl Fn(&Reference) -> bool) -> Vec<Vec<u8>> {
    let kept = fed.state.stores.blocks.iter().filter(|stored| of(&stored.block.reference));
    kept.map(|stored| stored.record.clone()).collect()
}

/// The slip of a locator that is final in a reading, and slips made of it.
fn of(fed: &Fed, reading: Reading, locator: &Locator, rng: &mut Rng, told: &mut Told) -> Outcome {
    let slip = slip_for(reading, &fed.committee, &fed.blocks, locator).ok_or("a final locator has no slip")?;
    let bytes = slip.encode();
    let count = slip.certifiers.len() as u64;
    told.slips[(reading == Reading::Withdrawing) as usize] += 1;
    for room in [0, bytes.len() - 1, bytes.len(), bytes.len() + 9] {
        write(fed, reading, &fed.store, &locator.bytes(), room, "final")?;
    }
    let mut other = locator.bytes();
    other[48] ^= 1;
    write(fed, reading, &fed.store, &other, bytes.len() + 9, "the neighbouring offset")?;
    write(fed, reading, &fed.store, &locator.bytes()[..55], bytes.len(), "no locator")?;
    write(fed, reading, &damaged(&fed.store, rng), &locator.bytes(), bytes.len(), "the store damaged")?;
    same("the slip, read", "model", Slip::decode(&bytes), Some(slip.clone()))?;
    let mut all = records(fed, |_| true);
    told_so(fed, &bytes, &framed(&all), "with all records", Ok(count), told)?;
    rng.shuffle(&mut all);
    told_so(fed, &bytes, &framed(&all), "with all records in another order", Ok(count), told)?;
    let names = named(&fed.blocks, &slip).ok_or("a slip of the store names what it has not")?;
    let own = records(fed, |reference| names.contains(reference));
    told_so(fed, &bytes, &framed(&own), "with the records it names", Ok(count), told)?;
    for left_out in 0..own.len() {
        let rest = framed(own.iter().enumerate().filter(|(i, _)| *i != left_out).map(|one| one.1));
        told_so(fed, &bytes, &rest, "with one of them left out", Err(53), told)?;
        told.left_out += 1;
    }
    told_so(fed, &[], &framed(&own), "no first byte", Err(61), told)?;
    for first in 0..=255 {
        let other = [&[first][..], &bytes[1..]].concat();
        if first > 1 {
            told_so(fed, &other, &framed(&own), "another first byte", Err(61), told)?;
            told_so(fed, &other[..1], &[], "another first byte alone", Err(61), told)?;
        } else {
            read(fed, &other, &framed(&own), "either reading, with the records of one", told)?;
            read(fed, &other, &framed(&all), "either reading, with all records", told)?;
        }
    }
    let own = framed(&own);
    for at in 0..bytes.len() {
        let mut other = bytes.clone();
        other[at] = *rng.pick(&[bytes[at] ^ 1, bytes[at] ^ 0x80, bytes[at].wrapping_add(1), 0, 255]);
        read(fed, &other, &own, "a byte changed", told)?;
        if rng.once_in(4) {
            read(fed, &bytes[..at], &own, "cut short", told)?;
        }
    }
    for _ in 0..12 {
        read(fed, &damaged(&bytes, rng), &framed(&all), "damaged", told)?;
        read(fed, &bytes, &damaged(&own, rng), "records damaged", told)?;
        read(fed, &made_up(fed, &slip, rng).encode(), &framed(&all), "made up", told)?;
    }
    let twice = [&own[..], &framed([rng.pick(&all)])].concat();
    read(fed, &bytes, &twice, "one record more", told)
}

/// A slip with something changed: a voter or a certifier left out, put in or repeated, another path, another author, another locator.
fn made_up(fed: &Fed, slip: &Slip, rng: &mut Rng) -> Slip {
    let mut slip = slip.clone();
    let blocks: Vec<Reference> = fed.blocks.keys().copied().collect();
    for _ in 0..rng.within(1, 2) {
        if slip.certifiers.is_empty() {
            break;
        }
        let k = rng.below(slip.certifiers.len() as u64) as usize;
        match rng.below(9) {
            8 => slip.reading = *rng.pick(&[Reading::Old, Reading::Withdrawing]),
            0 => drop(slip.certifiers.remove(k)),
            1 => {
                let reference = *rng.pick(&blocks);
                let voters = slip.certifiers[k].voters.clone();
                slip.certifiers.push(Certifier { reference, voters });
                if rng.once_in(2) {
                    slip.certifiers.sort_by_key(|certifier| certifier.reference);
                }
            }
            2 => slip.locator.offset = slip.locator.offset.wrapping_add(rng.within(0, 2)).wrapping_sub(1),
            3 => {
                let author = rng.below(fed.committee.stakes.len() as u64 + 2);
                slip.certifiers[k].voters.push(Voter { author, path: vec![] });
                if rng.once_in(2) {
                    slip.certifiers[k].voters.sort_by_key(|voter| voter.author);
                }
            }
            _ => {
                let voters = &mut slip.certifiers[k].voters;
                if voters.is_empty() {
                    continue;
                }
                let v = rng.below(voters.len() as u64) as usize;
                match rng.below(6) {
                    0 => drop(voters.remove(v)),
                    1 => voters[v].author = voters[v].author.wrapping_add(1),
                    2 => voters[v].path.push(rng.below(4) as u8),
                    3 => drop(voters[v].path.pop()),
                    4 => voters.insert(v, voters[v].clone()),
                    _ => voters[v].path = (0..rng.below(4)).map(|_| rng.below(5) as u8).collect(),
                }
            }
        }
    }
    slip
}

/// The slip of a final locator in another store that holds the records it names: there too each listed block certifies.
fn carried(list: &List, fed: &Fed, reading: Reading, locator: &Locator, rng: &mut Rng, told: &mut Told) -> Outcome {
    let slip = slip_for(reading, &fed.committee, &fed.blocks, locator).ok_or("a final locator has no slip")?;
    let mut records: Vec<Vec<u8>> = fed.state.stores.blocks.iter().map(|stored| stored.record.clone()).collect();
    // in a random order, until all that can be stored is
    let (mut kept, mut state) = (Vec::new(), State::default());
    for _ in 0..records.len() {
        rng.shuffle(&mut records);
        for record in &records {
            if state.feed(&fed.committee, list.store, EVENT_BYTES, record).is_ok() {
                kept.push(record.clone());
            }
        }
        if kept.len() == fed.blocks.len() {
            break;
        }
    }
    let Some(other) = feed(list, &kept) else { return Ok(()) };
    if other.blocks.len() != fed.blocks.len() {
        return Ok(());
    }
    told.carried += 1;
    told_so(&other, &slip.encode(), &framed(&kept), "with another store's records", Ok(slip.certifiers.len() as u64), told)?;
    let mut positions = vec![0; POSITION_BYTES];
    let word = match reading {
        Reading::Old => engine::finality(&other.stakes, &other.store, &mut positions, &locator.bytes()),
        Reading::Withdrawing => engine::finality_withdrawing(&other.stakes, &other.store, &mut positions, &locator.bytes()),
    };
    same("final there", "engine", word, Ok(2 * slip.certifiers.len() as u64 + 1))?;
    for (i, certifier) in slip.certifiers.iter().enumerate() {
        let position = crate::model::record::number(&positions[8 * i..8 * i + 8]);
        same(
            "certifies there",
            "engine",
            Some(position),
            other.state.stores.get(&certifier.reference).map(|stored| stored.position),
        )?;
    }
    Ok(())
}
