//! Every call with every length of each of its slices, from none to past its limit. Each slice stands between canaries, or, for a
//! checker of memory, in an allocation of exactly its length. Answers and every byte are held to the model.

use crate::compare::{same, same_bytes, Memory, Outcome};
use crate::engine::{self, Answer};
use crate::generate;
use crate::list::List;
use crate::model::calendar;
use crate::model::committee::{Committee, COURSE};
use crate::model::feed::{State, EVENT_BYTES};
use crate::model::finality::{Listed, Reading};
use crate::model::lent;
use crate::model::loading;
use crate::model::record::{given_bytes, includes_bytes, number, Block, Locator, Reference, Statement};
use crate::model::writing::{write_record, Given};

const CANARY: u8 = 0xc9;
const FENCE: usize = 64;

/// A slice of its own, between canaries or not.
struct Fenced {
    bytes: Vec<u8>,
    fence: usize,
}

impl Fenced {
    fn new(content: &[u8], fence: usize) -> Fenced {
        let mut bytes = Vec::with_capacity(content.len() + 2 * fence);
        bytes.resize(fence, CANARY);
        bytes.extend(content);
        bytes.resize(content.len() + 2 * fence, CANARY);
        Fenced { bytes, fence }
    }

    fn inside(&mut self) -> &mut [u8] {
        let length = self.bytes.len();
        &mut self.bytes[self.fence..length - self.fence]
    }

    fn is_intact(&self) -> bool {
        let (before, rest) = self.bytes.split_at(self.fence);
        let after = &rest[rest.len() - self.fence..];
        before.iter().chain(after).all(|byte| *byte == CANARY)
    }
}

type Slices<'a, 'b> = &'a mut [&'b mut [u8]];

/// A call with good slices: what each is called, its content, and the length to go up to.
struct Case {
    name: &'static str,
    slices: Vec<(&'static str, Vec<u8>, usize)>,
    engine: fn(Slices) -> Answer,
    model: fn(Slices) -> Result<u64, u64>,
}

/// Runs every case; `exact` leaves the canaries out and takes fewer lengths, for a checker of memory, which is slow. Answers the
/// number of calls made.
pub fn run(exact: bool) -> Result<u64, String> {
    let mut calls = 0;
    for case in cases() {
        for (i, (name, content, limit)) in case.slices.iter().enumerate() {
            let mut count = 0;
            for length in lengths(content.len(), *limit, exact) {
                call(&case, i, length, exact).map_err(|text| format!("{} with {name} of {length} bytes: {text}", case.name))?;
                count += 1;
            }
            println!("{}: {name}, {count} lengths", case.name);
            calls += count;
        }
    }
    Ok(calls)
}

/// The lengths to try.
fn lengths(good: usize, limit: usize, exact: bool) -> Vec<usize> {
    let near = |n: usize, of: usize| n.abs_diff(of) <= 9;
    (0..=limit).filter(|n| !exact || *n < 130 || near(*n, good) || near(*n, limit) || n % 997 == 0).collect()
}

/// One call with slice i cut or extended to a length.
fn call(case: &Case, i: usize, length: usize, exact: bool) -> Outcome {
    let fence = if exact { 0 } else { FENCE };
    let mut right: Vec<Vec<u8>> = case.slices.iter().map(|(_, content, _)| content.clone()).collect();
    right[i].resize(length, 0);
    let mut fenced: Vec<Fenced> = right.iter().map(|content| Fenced::new(content, fence)).collect();
    let mut lent: Vec<&mut [u8]> = fenced.iter_mut().map(Fenced::inside).collect();
    let got = (case.engine)(&mut lent);
    let answer = (case.model)(&mut right.iter_mut().map(Vec::as_mut_slice).collect::<Vec<_>>());
    same("answer", "engine", got, answer)?;
    for ((name, _, _), (fenced, right)) in case.slices.iter().zip(fenced.iter_mut().zip(&right)) {
        same_bytes(name, fenced.inside(), right)?;
        same(format_args!("canaries of {name}"), "found", fenced.is_intact(), true)?;
    }
    Ok(())
}

/// A small run under the course committee: a block shares, two others vote; the fifth record is fed by the call.
fn fed() -> (Memory, Vec<u8>, Locator) {
    let reference = |author: u64, round: u64| {
        let mut digest = [0; 32];
        digest[3] = (10 * round + author) as u8;
        Reference { author, round, digest }
    };
    let mut blocks: Vec<Block> = Vec::new();
    for round in 0..4 {
        for author in 0..4 {
            let includes = if round == 0 { vec![] } else { (0..4).map(|author| reference(author, round - 1)).collect() };
            blocks.push(Block { reference: reference(author, round), marked: false, includes, statements: vec![], time: None });
        }
    }
    let shared = blocks[4].reference;
    blocks[4].time = Some(1_700_000_000_000_000_000);
    blocks[4].statements = (0..5u8).map(|length| Statement::Share(vec![7; length as usize])).collect();
    blocks[9].statements = vec![Statement::Range(shared, 1, 4)];
    blocks[10].statements = vec![Statement::Accept(Locator::new(shared, 2)), Statement::Range(shared, 0, 7)];
    blocks[12].statements = vec![Statement::Accept(Locator::new(shared, 1)), Statement::Share(vec![1, 2])];
    let list = List::roomy(COURSE.to_vec(), blocks.iter().map(Block::encode).collect());
    let (mut memory, mut state) = (Memory::new(&list), State::default());
    let committee = Committee::new(&list.stakes).unwrap();
    let (last, before) = list.records.split_last().unwrap();
    for record in before {
        let told = state.feed(&committee, list.store, EVENT_BYTES, record).unwrap();
        lent::write_back(&state, &told, &mut memory.store, &mut memory.table, &mut memory.events);
    }
    let mut last = Block::decode(last).unwrap();
    last.statements =
        vec![Statement::Range(shared, 0, 6), Statement::Share(vec![3]), Statement::Accept(Locator::new(shared, 4))];
    (memory, last.encode(), Locator::new(shared, 2))
}

/// Takes a call's slices apart.
macro_rules! over {
    (|$($slice:ident),*| $call:expr) => {
        |slices: Slices| {
            let [$($slice),*] = slices else { unreachable!("as many slices as names") };
            $call
        }
    };
}

/// A call over words, with the whole words of some bytes.
fn over_words(bytes: &mut [u8], call: impl FnOnce(&mut [u64]) -> Answer) -> Answer {
    let mut words: Vec<u64> = bytes.chunks_exact(8).map(number).collect();
    let answer = call(&mut words);
    lent::put_words(bytes, &words);
    answer
}

/// The slices of a draft as one; the numbers are always the same.
fn draft(digest: &[u8], time: Option<u64>, includes: &[u8], statements: &[u8]) -> Given {
    let (digest, includes, statements) = (digest.to_vec(), includes.to_vec(), statements.to_vec());
    Given { author: 3, round: 7, digest, mark: 1, time, includes, statements }
}

fn cases() -> Vec<Case> {
    let (memory, record, locator) = fed();
    let shared = locator.block;
    let drafted = [
        Statement::Share(vec![7; 5]),
        Statement::Accept(locator),
        Statement::Accept(Locator::new(shared, locator.offset + 1)),
        Statement::Reject(locator, None),
        Statement::Reject(locator, Some(locator)),
        Statement::Range(shared, 4, 9),
        Statement::Accept(locator),
    ];
    let stakes = ("stakes", memory.stakes.clone(), 8 * 140);
    let store = ("store", memory.store.clone(), memory.store.len() + 100);
    let table = ("table", memory.table.clone(), memory.table.len() + 16);
    let events = ("events", memory.events.clone(), memory.events.len() + 16);
    let locator = ("locator", locator.bytes().to_vec(), 80);
    let after = |bytes: &[u8]| ("after", bytes.to_vec(), 80);
    let record = ("record", record.clone(), record.len() + 100);
    let positions = ("positions", vec![5; lent::POSITION_BYTES], lent::POSITION_BYTES + 16);
    let found = ("locator written", vec![5; 56], 80);
    let stretches = ("stretches", vec![5; 3 * lent::STRETCH_BYTES], 3 * lent::STRETCH_BYTES + 100);
    let file = generate::stakes_file::good(&COURSE);
    let room = ("stakes written", vec![5; lent::STAKES_BYTES], lent::STAKES_BYTES + 100);
    vec![
        Case {
            name: "load_stakes",
            slices: vec![("file", file.clone(), file.len() + 100), room],
            engine: over!(|file, stakes| engine::load_stakes(file, stakes)),
            model: over!(|file, stakes| lent::load_stakes(file, stakes)),
        },
        Case {
            name: "new_committee",
            slices: vec![stakes.clone()],
            engine: over!(|stakes| engine::new_committee(stakes)),
            model: over!(|stakes| lent::new_committee(stakes)),
        },
        Case {
            name: "add",
            slices: vec![stakes.clone(), ("aggregator", vec![0; 24], 40)],
            engine: over!(|stakes, aggregator| engine::add(stakes, aggregator, 3)),
            model: over!(|stakes, aggregator| lent::add(stakes, aggregator, 3)),
        },
        Case {
            name: "feed",
            slices: vec![stakes.clone(), store.clone(), table.clone(), events, record],
            engine: over!(|stakes, store, table, events, record| engine::feed(stakes, store, table, events, record)),
            model: over!(|stakes, store, table, events, record| lent::feed(stakes, store, table, events, record)),
        },
        Case {
            name: "pending_stake",
            slices: vec![stakes.clone(), store.clone(), table.clone(), locator.clone()],
            engine: over!(|stakes, store, table, locator| engine::pending_stake(stakes, store, table, locator)),
            model: over!(|stakes, store, table, locator| Ok(lent::pending(stakes, store, table, locator)?.stake)),
        },
        Case {
            name: "pending_voters",
            slices: vec![stakes.clone(), store.clone(), table.clone(), locator.clone()],
            engine: over!(|stakes, store, table, locator| engine::pending_voters(stakes, store, table, locator)),
            model: over!(|stakes, store, table, locator| {
                Ok(lent::pending(stakes, store, table, locator)?.voters.count_ones() as u64)
            }),
        },
        Case {
            name: "whom_to_ring",
            slices: vec![stakes.clone(), store.clone(), table, locator.clone(), ("set and stake", vec![5; 24], 40)],
            engine: over!(|stakes, store, table, locator, out| {
                engine::whom_to_ring(stakes, store, table, u128::MAX, locator, out)
            }),
            model: over!(|stakes, store, table, locator, out| {
                lent::whom_to_ring(stakes, store, table, u128::MAX, locator, out)
            }),
        },
        Case {
            name: "payload_length",
            slices: vec![stakes.clone(), store.clone(), locator.clone()],
            engine: over!(|stakes, store, locator| engine::payload_length(stakes, store, locator)),
            model: over!(|stakes, store, locator| Ok(lent::payload(stakes, store, locator)?.1)),
        },
        Case {
            name: "payload_start",
            slices: vec![stakes.clone(), store.clone(), locator.clone()],
            engine: over!(|stakes, store, locator| engine::payload_start(stakes, store, locator)),
            model: over!(|stakes, store, locator| Ok(lent::payload(stakes, store, locator)?.0)),
        },
        Case {
            name: "finality",
            slices: vec![stakes.clone(), store.clone(), positions.clone(), locator.clone()],
            engine: over!(|stakes, store, positions, locator| engine::finality(stakes, store, positions, locator)),
            model: over!(|stakes, store, positions, locator| lent::finality(stakes, store, positions, locator)),
        },
        Case {
            name: "finality_withdrawing",
            slices: vec![stakes.clone(), store.clone(), positions, locator.clone()],
            engine: over!(|stakes, store, positions, locator| engine::finality_withdrawing(stakes, store, positions, locator)),
            model: over!(|stakes, store, positions, locator| {
                lent::finality_in(Reading::Withdrawing, stakes, store, positions, locator)
            }),
        },
        Case {
            name: "is_loadable",
            slices: vec![stakes.clone(), store.clone(), locator.clone()],
            engine: over!(|stakes, store, locator| engine::is_loadable(stakes, store, locator)),
            model: over!(|stakes, store, locator| loading::is_loadable_call(Reading::Old, stakes, store, locator)),
        },
        Case {
            name: "is_loadable_withdrawing",
            slices: vec![stakes.clone(), store.clone(), locator],
            engine: over!(|stakes, store, locator| engine::is_loadable_withdrawing(stakes, store, locator)),
            model: over!(|stakes, store, locator| loading::is_loadable_call(Reading::Withdrawing, stakes, store, locator)),
        },
        Case {
            name: "loadable",
            slices: vec![stakes.clone(), store.clone(), ("places", vec![5; 96], 120)],
            engine: over!(|stakes, store, places| over_words(places, |words| engine::loadable(stakes, store, words))),
            model: over!(|stakes, store, places| over_words(places, |words| loading::loadable_call(
                Reading::Old,
                stakes,
                store,
                words
            ))),
        },
        Case {
            name: "loadable_withdrawing",
            slices: vec![stakes.clone(), store.clone(), ("places", vec![5; 96], 120)],
            engine: over!(|stakes, store, places| over_words(places, |words| engine::loadable_withdrawing(
                stakes, store, words
            ))),
            model: over!(|stakes, store, places| over_words(places, |words| {
                loading::loadable_call(Reading::Withdrawing, stakes, store, words)
            })),
        },
        Case {
            name: "next_final",
            slices: vec![stakes.clone(), store.clone(), after(&[]), found.clone()],
            engine: over!(|stakes, store, after, out| engine::next_final(stakes, store, after, out)),
            model: over!(|stakes, store, after, out| lent::next_final(stakes, store, after, out)),
        },
        Case {
            name: "next_wide",
            slices: vec![stakes.clone(), store.clone(), after(&[]), found.clone()],
            engine: over!(|stakes, store, after, out| engine::next_wide(stakes, store, after, out)),
            model: over!(|stakes, store, after, out| lent::next_wide(stakes, store, after, out)),
        },
        Case {
            name: "next_final_withdrawing",
            slices: vec![stakes.clone(), store.clone(), after(&[]), found.clone()],
            engine: over!(|stakes, store, after, out| engine::next_final_withdrawing(stakes, store, after, out)),
            model: over!(|stakes, store, after, out| {
                lent::next_listed(Reading::Withdrawing, Listed::Ordinary, stakes, store, after, out)
            }),
        },
        Case {
            name: "next_wide_withdrawing",
            slices: vec![stakes.clone(), store.clone(), after(&[]), found],
            engine: over!(|stakes, store, after, out| engine::next_wide_withdrawing(stakes, store, after, out)),
            model: over!(|stakes, store, after, out| lent::next_listed(
                Reading::Withdrawing,
                Listed::Wide,
                stakes,
                store,
                after,
                out
            )),
        },
        Case {
            name: "write_record",
            slices: vec![
                ("digest", vec![9; 32], 80),
                ("includes", includes_bytes(&[shared; 3]), 48 * 5),
                ("statements", given_bytes(&drafted), given_bytes(&drafted).len() + 100),
                ("out", vec![5; 600], 700),
            ],
            engine: over!(|digest, includes, statements, out| engine::write_record(
                &draft(digest, None, includes, statements),
                out
            )),
            model: over!(|digest, includes, statements, out| write_record(&draft(digest, None, includes, statements), out)),
        },
        Case {
            name: "write_timed_record",
            slices: vec![
                ("digest", vec![9; 32], 80),
                ("includes", includes_bytes(&[shared; 3]), 48 * 5),
                ("statements", given_bytes(&drafted), given_bytes(&drafted).len() + 100),
                ("out", vec![5; 616], 716),
            ],
            engine: over!(|digest, includes, statements, out| {
                engine::write_record(&draft(digest, Some(9), includes, statements), out)
            }),
            model: over!(|digest, includes, statements, out| write_record(&draft(digest, Some(9), includes, statements), out)),
        },
        Case {
            name: "creation_time",
            slices: vec![
                stakes.clone(),
                store.clone(),
                ("reference", shared.bytes().to_vec(), 80),
                ("time written", vec![5; 8], 40),
            ],
            engine: over!(|stakes, store, reference, out| engine::creation_time(stakes, store, reference, out)),
            model: over!(|stakes, store, reference, out| lent::creation_time(stakes, store, reference, out)),
        },
        Case {
            name: "final_stretches",
            slices: vec![stakes.clone(), store.clone(), after(&[]), stretches.clone()],
            engine: over!(|stakes, store, after, out| engine::final_stretches(stakes, store, after, out)),
            model: over!(|stakes, store, after, out| lent::final_stretches(stakes, store, after, out)),
        },
        Case {
            name: "wide_stretches",
            slices: vec![stakes.clone(), store.clone(), after(&[]), stretches.clone()],
            engine: over!(|stakes, store, after, out| engine::wide_stretches(stakes, store, after, out)),
            model: over!(|stakes, store, after, out| lent::wide_stretches(stakes, store, after, out)),
        },
        Case {
            name: "final_stretches_withdrawing",
            slices: vec![stakes.clone(), store.clone(), after(&[]), stretches.clone()],
            engine: over!(|stakes, store, after, out| engine::final_stretches_withdrawing(stakes, store, after, out)),
            model: over!(|stakes, store, after, out| {
                lent::list_stretches(Reading::Withdrawing, Listed::Ordinary, stakes, store, after, out)
            }),
        },
        Case {
            name: "wide_stretches_withdrawing",
            slices: vec![stakes, store, after(&[]), stretches],
            engine: over!(|stakes, store, after, out| engine::wide_stretches_withdrawing(stakes, store, after, out)),
            model: over!(|stakes, store, after, out| {
                lent::list_stretches(Reading::Withdrawing, Listed::Wide, stakes, store, after, out)
            }),
        },
        Case {
            name: "is_open",
            slices: vec![weekly()],
            engine: over!(|calendar| engine::is_open(calendar, calendar::MONDAY)),
            model: over!(|calendar| calendar::is_open(calendar, calendar::MONDAY)),
        },
        Case {
            name: "next_open",
            slices: vec![weekly(), ("second written", vec![5; 8], 40)],
            engine: over!(|calendar, out| engine::next_open(calendar, calendar::MONDAY, out)),
            model: over!(|calendar, out| calendar::next_open(calendar, calendar::MONDAY, out)),
        },
    ]
}

/// As many windows as a calendar may have, a second each, and two more that are cut off or not.
fn weekly() -> (&'static str, Vec<u8>, usize) {
    let words = (0..2 * calendar::MOST_WINDOWS as u64 + 4).flat_map(u64::to_le_bytes);
    ("calendar", words.collect(), 16 * calendar::MOST_WINDOWS + 100)
}

/// Stores of 2^32 - 1 bytes, which are taken, and of 2^32, which are not (10). The memory is only named, never touched.
pub fn longest_store() -> Outcome {
    let (memory, _, locator) = fed();
    for (length, right) in [(u32::MAX as usize, Ok(2)), (u32::MAX as usize + 1, Err(10))] {
        let mut store = vec![0; length];
        store[..memory.store.len()].copy_from_slice(&memory.store);
        let got = engine::payload_length(&memory.stakes, &store, &locator.bytes());
        same(format_args!("payload_length in a store of {length} bytes"), "engine", got, right)?;
        println!("a store of {length} bytes: {got:?}");
    }
    Ok(())
}
