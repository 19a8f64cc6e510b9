//! Many records in one call: lists fed by it, on the engine and on the model, and by single feeds of the engine; cut, with records refused at any
//! place, and with too few words for outcomes and events; the same with the index.

use crate::compare::{same, set, Memory, Outcome};
use crate::engine;
use crate::generate;
use crate::graphs;
use crate::list::List;
use crate::model::index;
use crate::model::lent;
use crate::model::record::{Block, Locator, Reference, Statement};
use crate::rng::Rng;

/// What the lists of a run held.
#[derive(Default)]
pub struct Fed {
    pub calls: u64,
    pub records: u64,
    pub accepted: u64,
    /// Records that wanted more words for events than were left.
    pub untold: u64,
    /// Calls that 64 refused.
    pub short: u64,
    /// Calls held to single feeds.
    pub singly: u64,
    /// Calls with the index, held to single feeds of the model.
    pub indexed: u64,
    /// Records that found the table full, and those whose part found the index full.
    pub crowded: u64,
    pub unindexed: u64,
}

/// What stands in events and outcomes at first.
const PAST: u64 = 0xa5a5_5a5a_c3c3_3c3c;

/// List n: fed whole, then again in two calls with its records spoilt and few words.
pub fn compare(seed: u64, n: u64, fed: &mut Fed) -> Outcome {
    let mut rng = Rng::new(seed.wrapping_mul(0x9e3779b97f4a7c15) ^ n);
    let list = generate::timed_list(seed, n);
    whole(&list, fed)?;
    with_index(&list, &mut rng, fed)?;
    let Some(sides) = set(&list)? else { return Ok(()) };
    let (mut right, mut got) = (sides.right, sides.engine);
    let (mut beside, mut got_beside) = (right.clone(), got.clone());
    let mut right_index = fresh_index(rng.within(1, 3000) as usize);
    let mut got_index = right_index.clone();
    let half = rng.below(list.records.len() as u64 + 1) as usize;
    for records in [&list.records[..half], &list.records[half..]] {
        let bytes = spoilt(records, &mut rng);
        let most = if rng.once_in(2) { 40 } else { 20_000 };
        let events = rng.below(most) as usize;
        let outcomes = if rng.once_in(6) { records.len() } else { 3 * records.len() + 3 };
        one_call(&mut right, &mut got, &bytes, events, outcomes, fed)?;
        one_indexed_call((&mut beside, &mut right_index), (&mut got_beside, &mut got_index), &bytes, events, outcomes, fed)?;
    }
    Ok(())
}

/// How many words a call is lent.
#[derive(Clone, Copy)]
struct Words {
    index: usize,
    events: usize,
    outcomes: usize,
}

/// A short list on both calls: cut at every byte, with a bad record at every place, with slices of every length up to those that it needs, and a list
/// that fills the table before its end. How many calls of each.
pub fn every(fed: &mut Fed) -> Result<u64, String> {
    let list = List::roomy(vec![1; 4], graphs::generated(11).iter().map(Block::encode).collect());
    let (memory, all) = (Memory::new(&list), framed(&list.records));
    let roomy = Words { index: 1000, events: 60, outcomes: 12 };
    let mut tried = 0;
    let mut both = |memory: &Memory, words: Words, bytes: &[u8]| {
        tried += 1;
        on_both(memory, words, bytes, fed)
    };
    for cut in 0..=all.len() {
        both(&memory, roomy, &all[..cut])?;
    }
    let stranger = Block { reference: reference(9, 1, 77), ..graphs::generated(5).remove(4) };
    for place in 0..=list.records.len() {
        for bad in [vec![], stranger.encode(), list.records[0].clone()] {
            let mut records = list.records.clone();
            records.insert(place, bad);
            both(&memory, roomy, &framed(&records))?;
        }
    }
    for events in 0..60 {
        both(&memory, Words { events, ..roomy }, &all)?;
    }
    for outcomes in 0..12 {
        both(&memory, Words { outcomes, ..roomy }, &all)?;
    }
    for index in 0..1000 {
        both(&memory, Words { index, ..roomy }, &all)?;
    }
    for length in 0..48 {
        both(&Memory { stakes: [1, 0, 0, 0, 0, 0, 0, 0].repeat(6)[..length].to_vec(), ..memory.clone() }, roomy, &all)?;
    }
    for store in 0..list.store {
        both(&Memory::new(&List { store, ..list.clone() }), roomy, &all)?;
    }
    for length in [0, 1, 8, 49_152, 49_159, 49_161, 49_168] {
        both(&Memory { table: vec![0; length], ..memory.clone() }, roomy, &all)?;
    }
    let list = crowding();
    let before = fed.crowded;
    on_both(&Memory::new(&list), Words { index: 60_000, ..roomy }, &framed(&list.records), fed)?;
    same("records that found the table full", "model", fed.crowded - before, 4)?;
    Ok(2 * tried + 2)
}

fn reference(author: u64, round: u64, digest: u8) -> Reference {
    Reference { author, round, digest: [digest; 32] }
}

/// A sole owner's blocks with 512 shares each, none beside another: the table holds those of two. The third finds it full, the next, which shares
/// nothing, is taken, and the last share finds it full again.
fn crowding() -> List {
    let block = |round: u64, digest: u8, shares: usize| {
        let includes = if round == 0 { vec![] } else { vec![reference(0, round - 1, 1)] };
        let apart = Statement::Reject(Locator::new(reference(0, 0, 1), 0), None);
        let statements = (0..shares).flat_map(|_| [Statement::Share(vec![]), apart.clone()]).collect();
        Block { reference: reference(0, round, digest), marked: false, includes, statements, time: None }
    };
    let blocks = [block(0, 1, 0), block(1, 1, 512), block(2, 1, 512), block(3, 2, 512), block(3, 1, 0), block(4, 1, 1)];
    List::roomy(vec![1], blocks.iter().map(Block::encode).collect())
}

/// One call without and one with the index, from the same memory.
fn on_both(memory: &Memory, words: Words, bytes: &[u8], fed: &mut Fed) -> Outcome {
    one_call(&mut memory.clone(), &mut memory.clone(), bytes, words.events, words.outcomes, fed)?;
    let (mut right, mut got) = (fresh_index(words.index), fresh_index(words.index));
    one_indexed_call(
        (&mut memory.clone(), &mut right),
        (&mut memory.clone(), &mut got),
        bytes,
        words.events,
        words.outcomes,
        fed,
    )
}

/// A fresh store's index, of so many words.
fn fresh_index(length: usize) -> Vec<u64> {
    let mut index = vec![PAST; length];
    index.iter_mut().take(1).for_each(|word| *word = 1);
    index
}

/// A list in one call with roomy slices: what single feeds tell and leave.
pub fn whole(list: &List, fed: &mut Fed) -> Outcome {
    let Some(sides) = set(list)? else { return Ok(()) };
    let Memory { stakes, mut store, mut table, .. } = sides.engine;
    let mut single = sides.right;
    let bytes = framed(&list.records);
    let mut outcomes = vec![PAST; list.records.len()];
    let mut events = vec![PAST; 3 * 8192 + 3 * 8192 * list.records.len()];
    let answer = engine::feed_records(&stakes, &mut store, &mut table, &mut events, &mut outcomes, &bytes);
    let mut told = events.chunks_exact(3);
    let mut each = Vec::new();
    for (i, record) in list.records.iter().enumerate() {
        let Memory { stakes, store, table, events } = &mut single;
        let answer = engine::feed(stakes, store, table, events, record);
        // A call of its own lends 8,192 words: what asks for more is refused there alone.
        if answer == Err(15) {
            return Ok(());
        }
        each.push(answer.unwrap_or_else(|number| (1 << 63) + number));
        let words = events.chunks_exact(24).take(answer.unwrap_or(0) as usize);
        for event in words {
            let right: Vec<u64> = event.chunks(8).map(crate::model::record::number).collect();
            same(&format!("an event of record {}", i + 1), "engine", told.next().map(<[u64]>::to_vec), Some(right))?;
        }
    }
    if list.store < 16 {
        return same("feed_records", "engine", answer, Err(10));
    }
    same("feed_records", "engine", answer, Ok(list.records.len() as u64))?;
    same("its outcomes", "engine", &outcomes, &each)?;
    same("its store", "engine", &store, &single.store)?;
    same("its table", "engine", &table, &single.table)?;
    fed.singly += 1;
    Ok(())
}

/// A list in one call with an index of any length: what single feeds of the model with it tell and leave.
fn with_index(list: &List, rng: &mut Rng, fed: &mut Fed) -> Outcome {
    let Some(sides) = set(list)? else { return Ok(()) };
    let Memory { stakes, mut store, mut table, .. } = sides.engine;
    let mut single = sides.right;
    let mut index = fresh_index(rng.within(1, 4000) as usize);
    let mut right = index.clone();
    let bytes = framed(&list.records);
    let mut outcomes = vec![PAST; list.records.len()];
    let mut events = vec![PAST; 3 * 8192 + 3 * 8192 * list.records.len()];
    let answer = engine::feed_records_indexed(&stakes, &mut store, &mut table, &mut index, &mut events, &mut outcomes, &bytes);
    if list.store < 16 {
        return same("feed_records_indexed", "engine", answer, Err(10));
    }
    let mut each = Vec::new();
    for record in &list.records {
        let Memory { stakes, store, table, events } = &mut single;
        let answer = index::feed_indexed(stakes, store, table, &mut right, events, record);
        if answer == Err(15) {
            return Ok(());
        }
        each.push(answer.unwrap_or_else(|number| (1 << 63) + number));
    }
    same("feed_records_indexed", "engine", answer, Ok(list.records.len() as u64))?;
    same("its outcomes", "engine", &outcomes, &each)?;
    same("its store", "engine", &store, &single.store)?;
    same("its table", "engine", &table, &single.table)?;
    same("its index", "engine", &index, &right)?;
    fed.indexed += 1;
    Ok(())
}

fn after_length(record: &[u8]) -> Vec<u8> {
    [&(record.len() as u32).to_le_bytes(), record].concat()
}

fn framed(records: &[Vec<u8>]) -> Vec<u8> {
    records.iter().flat_map(|record| after_length(record)).collect()
}

/// Records after their lengths, now and then with one of no bytes or one more than once, cut short, or with stray bytes.
fn spoilt(records: &[Vec<u8>], rng: &mut Rng) -> Vec<u8> {
    let mut bytes = Vec::new();
    for record in records {
        if rng.once_in(6) {
            bytes.extend(after_length(&[]));
        }
        bytes.extend(after_length(record));
        if rng.once_in(6) {
            bytes.extend(after_length(record));
        }
    }
    match rng.below(4) {
        0 => bytes.truncate(rng.below(bytes.len() as u64 + 1) as usize),
        1 => bytes.extend(vec![rng.below(256) as u8; rng.below(6) as usize]),
        _ => {}
    }
    bytes
}

/// One call on both sides, with so many words: the answer and every byte.
fn one_call(right: &mut Memory, got: &mut Memory, bytes: &[u8], events: usize, outcomes: usize, fed: &mut Fed) -> Outcome {
    let (mut events, mut outcomes) = (vec![PAST; events], vec![PAST; outcomes]);
    let (mut told, mut each) = (events.clone(), outcomes.clone());
    let answer = lent::feed_records(&right.stakes, &mut right.store, &mut right.table, &mut events, &mut outcomes, bytes);
    let told_answer = engine::feed_records(&got.stakes, &mut got.store, &mut got.table, &mut told, &mut each, bytes);
    same("feed_records", "engine", told_answer, answer)?;
    same("the outcomes", "engine", &each, &outcomes)?;
    same("the events", "engine", &told, &events)?;
    same("the store", "engine", &got.store, &right.store)?;
    same("the table", "engine", &got.table, &right.table)?;
    note(answer, &outcomes, fed);
    Ok(())
}

/// The same with the index, on each side memory and its index.
fn one_indexed_call(
    (right, right_index): (&mut Memory, &mut [u64]),
    (got, got_index): (&mut Memory, &mut [u64]),
    bytes: &[u8],
    events: usize,
    outcomes: usize,
    fed: &mut Fed,
) -> Outcome {
    let (mut events, mut outcomes) = (vec![PAST; events], vec![PAST; outcomes]);
    let (mut told, mut each) = (events.clone(), outcomes.clone());
    let Memory { stakes, store, table, .. } = right;
    let answer = index::feed_records_indexed(stakes, store, table, right_index, &mut events, &mut outcomes, bytes);
    let Memory { stakes, store, table, .. } = got;
    let told_answer = engine::feed_records_indexed(stakes, store, table, got_index, &mut told, &mut each, bytes);
    same("feed_records_indexed", "engine", told_answer, answer)?;
    same("the outcomes with the index", "engine", &each, &outcomes)?;
    same("the events with the index", "engine", &told, &events)?;
    same("the store beside the index", "engine", &got.store, &right.store)?;
    same("the table beside the index", "engine", &got.table, &right.table)?;
    same("the index", "engine", &*got_index, &*right_index)?;
    note(answer, &outcomes, fed);
    Ok(())
}

/// What came of a call.
fn note(answer: engine::Answer, outcomes: &[u64], fed: &mut Fed) {
    fed.calls += 1;
    fed.short += (answer == Err(64)) as u64;
    let outcomes = &outcomes[..answer.unwrap_or(0) as usize];
    let with = |wanted: u64| outcomes.iter().filter(|outcome| **outcome == (1 << 63) + wanted).count() as u64;
    fed.records += outcomes.len() as u64;
    fed.accepted += outcomes.iter().filter(|outcome| **outcome >> 63 == 0).count() as u64;
    fed.untold += with(15);
    fed.crowded += with(14);
    fed.unindexed += with(55);
}
