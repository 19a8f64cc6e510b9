//! Sorted lists of locators answered with the index: on the engine, on the model, and beside the single questions.

use crate::compare::{same, set, Outcome, Sides};
use crate::engine;
use crate::generate;
use crate::model::finality::Graph;
use crate::model::index::afresh;
use crate::model::lent::POSITION_BYTES;
use crate::model::record::{number, Locator};
use crate::model::sorted::answer_sorted;
use crate::rng::Rng;
use crate::tally::Tally;

/// What the lists of a run held.
#[derive(Default)]
pub struct Asked {
    pub lists: u64,
    pub locators: u64,
    pub finals: u64,
    /// By refusal: 54, 62, 63.
    pub refused: [u64; 3],
}

/// List n: questions after some of its records, and after all of them.
pub fn compare(seed: u64, n: u64, asked: &mut Asked) -> Outcome {
    let mut rng = Rng::new(seed.wrapping_mul(0x9e3779b97f4a7c15) ^ n);
    let list = if n % 2 == 0 { generate::rejecting(&mut rng) } else { generate::timed_list(seed, n) };
    let Some(mut sides) = set(&list)? else { return Ok(()) };
    if list.store < 16 {
        return Ok(());
    }
    let some = rng.below(list.records.len() as u64 + 1) as usize;
    for (i, record) in list.records.iter().enumerate() {
        if i == some {
            ask(&sides, &mut rng, asked).map_err(|text| format!("after {i} records: {text}"))?;
        }
        sides.feed(record, &mut Tally::default()).map_err(|text| format!("record {}: {text}", i + 1))?;
    }
    ask(&sides, &mut rng, asked).map_err(|text| format!("at the end: {text}"))
}

fn ask(sides: &Sides, rng: &mut Rng, asked: &mut Asked) -> Outcome {
    let index = afresh(&sides.state.stores);
    let locators = locators(sides, rng);
    let bytes: Vec<u8> = locators.iter().flat_map(Locator::bytes).collect();
    let mut replies = vec![7; 3 * locators.len() + rng.below(4) as usize];
    asked.lists += 1;
    asked.locators += locators.len() as u64;
    held(sides, &index, &bytes, &mut replies, asked)?;
    for (locator, reply) in locators.iter().zip(replies.chunks(3)) {
        asked.finals += reply[0];
        single(sides, locator, reply)?;
    }
    for _ in 0..4 {
        damaged(sides, &index, &bytes, replies.len(), rng, asked)?;
    }
    Ok(())
}

/// Locators with votes and their neighbours, in ascending order; some of them several times.
fn locators(sides: &Sides, rng: &mut Rng) -> Vec<Locator> {
    let graph = Graph::new(&sides.committee, &sides.state.stores);
    let mut locators = Vec::new();
    for locator in graph.voted().into_iter().take(200) {
        for offset in [locator.offset.wrapping_sub(1), locator.offset, locator.offset.wrapping_add(1)] {
            let times = [0, 1, 1, 1, 2, 3][rng.below(6) as usize];
            locators.extend((0..times).map(|_| Locator { offset, ..locator }));
        }
    }
    locators.sort();
    locators
}

/// The engine's answer and every word that it was lent, beside the model's.
fn held(sides: &Sides, index: &[u64], bytes: &[u8], replies: &mut [u64], asked: &mut Asked) -> Outcome {
    let lent = &sides.engine;
    let mut right = replies.to_vec();
    let told = engine::answer_sorted(&lent.stakes, &lent.store, index, bytes, replies);
    let answer = answer_sorted(&sides.committee, &sides.state.stores, index, bytes, &mut right);
    if let Err(number) = answer {
        asked.refused[[54, 62, 63].iter().position(|refusal| *refusal == number).expect("one of these")] += 1;
    }
    same(format_args!("answer_sorted of {} bytes, {} words", bytes.len(), replies.len()), "engine", told, answer)?;
    same("replies", "engine", &*replies, &*right)
}

/// A reply beside the single question.
fn single(sides: &Sides, locator: &Locator, reply: &[u64]) -> Outcome {
    let lent = &sides.engine;
    let mut positions = vec![0; POSITION_BYTES];
    let told = engine::finality(&lent.stakes, &lent.store, &mut positions, &locator.bytes()).expect("a store in order");
    let mut authors = 0u128;
    for position in positions.chunks(8).take(told as usize / 2).map(number) {
        let author = position as usize + 8;
        authors |= 1 << number(&lent.store[author..author + 8]);
    }
    let right = [told % 2, authors as u64, (authors >> 64) as u64];
    same(format_args!("the reply to {locator:?} beside the single question"), "engine", reply, &right)
}

/// The same with an index, a list or a slice of replies that is another.
fn damaged(sides: &Sides, index: &[u64], bytes: &[u8], room: usize, rng: &mut Rng, asked: &mut Asked) -> Outcome {
    let (mut index, mut bytes, mut room) = (index.to_vec(), bytes.to_vec(), room);
    let at = rng.below(index.len() as u64) as usize;
    match rng.below(7) {
        0 => index[at] = index[at].wrapping_add(1),
        1 => index[at] ^= 1 << rng.below(64),
        2 => index.truncate(at),
        3 => index.extend([rng.word(), 0, 1]),
        _ => {}
    }
    if !bytes.is_empty() {
        let at = rng.below(bytes.len() as u64) as usize;
        match rng.below(5) {
            0 => bytes.truncate(at),
            1 => bytes[at] = bytes[at].wrapping_add(1),
            2 => bytes.rotate_left(at / 56 * 56),
            _ => {}
        }
    }
    match rng.below(4) {
        0 => room = rng.below(room as u64 + 1) as usize,
        1 => room += rng.below(9) as usize,
        _ => {}
    }
    held(sides, &index, &bytes, &mut vec![9; room], asked)
}
