//! One list on all sides: the model says what is right, and the Rust and the engine are held to it after every record.

use std::fmt::{Debug, Display};

use crate::damage;
use crate::engine;
use crate::list::List;
use crate::model::committee::{is_quorum, is_valid, Committee, MOST_STAKE};
use crate::model::feed::{Event, Kind, State, EVENT_BYTES};
use crate::model::lent;
use crate::model::record::{Block, Locator, Statement};
use crate::model::store::{fresh, Stores};
use crate::model::table::TABLE_BYTES;
use crate::questions;
use crate::rng::Rng;
use crate::rust::{Call, PendingRange, RustSide};
use crate::tally::Tally;

/// What differed, with both answers.
pub type Outcome = Result<(), String>;

/// Holds an answer to the one that is right. What it is of is written out only where they differ.
pub fn same<T: PartialEq + Debug>(what: impl Display, side: &str, got: T, right: T) -> Outcome {
    if got == right {
        return Ok(());
    }
    Err(format!("{what}\n  {side}: {got:?}\n  right: {right:?}"))
}

/// Holds lent bytes to what they should be, and tells the first that differs.
pub fn same_bytes(what: impl Display, got: &[u8], right: &[u8]) -> Outcome {
    if got == right {
        return Ok(());
    }
    let at = got.iter().zip(right).position(|(a, b)| a != b);
    let at = at.unwrap_or(got.len().min(right.len()));
    Err(format!("{what}: byte {at} is {:?} and should be {:?}", got.get(at), right.get(at)))
}

/// The memory that is lent over a list.
#[derive(Clone)]
pub struct Memory {
    pub stakes: Vec<u8>,
    pub store: Vec<u8>,
    pub table: Vec<u8>,
    pub events: Vec<u8>,
}

impl Memory {
    pub fn new(list: &List) -> Memory {
        let store = fresh(list.store, |i| (i as u8).wrapping_mul(37) ^ 0x5a);
        Memory { stakes: list.stake_bytes(), store, table: vec![0; TABLE_BYTES], events: vec![0xa5; EVENT_BYTES] }
    }

    pub fn same(&self, what: &str, right: &Memory) -> Outcome {
        same_bytes(format_args!("{what}: store"), &self.store, &right.store)?;
        same_bytes(format_args!("{what}: table"), &self.table, &right.table)?;
        same_bytes(format_args!("{what}: events"), &self.events, &right.events)
    }
}

/// A list under way: what each side holds.
pub struct Sides {
    pub committee: Committee,
    pub state: State,
    /// What the lent memory should be, and what the engine made of it.
    pub right: Memory,
    pub engine: Memory,
    pub rust: Option<RustSide>,
}

/// Runs a list.
pub fn compare(list: &List, tally: &mut Tally) -> Outcome {
    let Some(mut sides) = set(list)? else {
        return Ok(());
    };
    let mut rng = Rng::of(&list.to_listing());
    points(&sides, &mut rng)?;
    adds(&sides, &mut rng)?;
    if list.store < 16 {
        // No store at all: each call is 10, which the model reads off the bytes.
        return list.records.iter().try_for_each(|record| damage::every_call(&sides.right, record, &[0; 56], tally));
    }
    let asked = rng.below(list.records.len() as u64 + 1) as usize;
    for (i, record) in list.records.iter().enumerate() {
        if i == asked {
            questions::ask(&sides, &mut rng, tally).map_err(|text| format!("after {i} records: {text}"))?;
        }
        let told = sides.feed(record, tally).map_err(|text| format!("record {}: {text}", i + 1));
        told?;
    }
    questions::ask(&sides, &mut rng, tally).map_err(|text| format!("at the end: {text}"))?;
    let read = State::read(&sides.committee, &sides.right.store, &sides.right.table);
    same("the model's own reading of its memory", "read", read.as_ref(), Ok(&sides.state))?;
    if list.records.is_empty() || !rng.once_in(if list.store < 30_000 { 3 } else { 30 }) {
        return Ok(());
    }
    let record = rng.pick(&list.records).clone();
    let locator = questions::some_locator(&sides, &mut rng);
    (0..4).try_for_each(|_| damage::memory(&sides.right, &record, &locator.bytes(), &mut rng, tally))
}

/// Sets the committee on each side; none where it is refused.
pub fn set(list: &List) -> Result<Option<Sides>, String> {
    let stakes = list.stake_bytes();
    let committee = Committee::new(&list.stakes);
    let right = committee.as_ref().map(|committee| committee.total).map_err(|number| *number);
    let got = engine::new_committee(&stakes);
    same("new_committee", "engine", got, right)?;
    let rust = RustSide::new(&list.stakes);
    if mysticeti::PRESENT {
        let got = rust.as_ref().map(|_| ()).map_err(|text| committee_refusal(text));
        same("Committee::new", "Rust", got, right.map(|_| ()))?;
    }
    let Ok(committee) = committee else { return Ok(None) };
    let memory = Memory::new(list);
    Ok(Some(Sides { committee, state: State::default(), right: memory.clone(), engine: memory, rust: rust.ok() }))
}

/// Which of 01's numbers a panic of `Committee::new` stands for.
fn committee_refusal(text: &str) -> u64 {
    let texts = [("is_empty()", 1), ("a.stake() > 0", 2), ("len() <= 128", 3), ("overflow", 4)];
    texts.iter().find(|(part, _)| text.contains(part)).map_or(0, |(_, number)| *number)
}

/// Quorum and valid stake at many points.
fn points(sides: &Sides, rng: &mut Rng) -> Outcome {
    let total = sides.committee.total;
    let mut stakes = vec![0, 1, total / 3, total - total / 3, total, MOST_STAKE, rng.word() >> rng.below(64)];
    stakes.extend([-2, -1, 0, 1, 2].map(|i| ((2 * total as u128 / 3) as u64).saturating_add_signed(i)));
    stakes.extend([-2, -1, 0, 1, 2].map(|i| (total / 3).saturating_add_signed(i)));
    // The engine takes any two words.
    for _ in 0..4 {
        let (total, stake) = (rng.word() >> rng.below(64), rng.word() >> rng.below(64));
        for stake in [stake, total, (2 * total as u128 / 3) as u64 + rng.below(2), total / 3 + rng.below(2)] {
            let got = (engine::is_quorum(total, stake), engine::is_valid(total, stake));
            let right = (is_quorum(total, stake), is_valid(total, stake));
            same(format_args!("is_quorum, is_valid of stake {stake} in {total}"), "engine", got, right)?;
        }
    }
    for stake in stakes {
        let what = format!("of stake {stake} in {total}");
        let got = engine::is_quorum(total, stake);
        same(format_args!("is_quorum {what}"), "engine", got, is_quorum(total, stake))?;
        let got = engine::is_valid(total, stake);
        same(format_args!("is_valid {what}"), "engine", got, is_valid(total, stake))?;
        if let Some(rust) = &sides.rust {
            same(format_args!("is_quorum {what}"), "Rust", rust.is_quorum(stake), is_quorum(total, stake))?;
            same(format_args!("is_valid {what}"), "Rust", rust.is_valid(stake), is_valid(total, stake))?;
        }
    }
    Ok(())
}

/// `StakeAggregator::add` of some voters in turn, some of them again, and at the end an unknown one and a broken aggregator.
fn adds(sides: &Sides, rng: &mut Rng) -> Outcome {
    let (stakes, members) = (&sides.right.stakes, sides.committee.stakes.len() as u64);
    let mut voters: Vec<u64> = (0..rng.below(8)).map(|_| rng.below(members)).collect();
    let mut right = vec![0; 24];
    let mut got = right.clone();
    let mut answers = Vec::new();
    for voter in &voters {
        let answer = lent::add(stakes, &mut right, *voter);
        answers.push(answer);
        let told = engine::add(stakes, &mut got, *voter);
        same(format_args!("add of voter {voter}"), "engine", told, answer)?;
        same_bytes("aggregator", &got, &right)?;
    }
    if let Some(rust) = &sides.rust {
        let set =
            crate::model::record::number(&right[..8]) as u128 | (crate::model::record::number(&right[8..16]) as u128) << 64;
        let quorum: Vec<bool> = answers.iter().map(|answer| matches!(answer, Ok(1 | 3 | 4))).collect();
        let crossed: Vec<usize> = (0..answers.len()).filter(|i| answers[*i] == Ok(4)).collect();
        let first: Vec<usize> = quorum.iter().position(|holds| *holds).into_iter().collect();
        same(format_args!("add of voters {voters:?}"), "Rust", rust.adds(&voters), Ok((quorum, set)))?;
        same(format_args!("the vote of {voters:?} that crosses"), "Rust", first, crossed)?;
        voters.push(members + rng.below(3));
        same("add of an unknown voter", "Rust", rust.adds(&voters), Err("Authority not found".into()))?;
    }
    for voter in [members, members + rng.below(200), u64::MAX, rng.below(members)] {
        let mut broken = right.clone();
        if voter < members {
            broken[rng.below(24) as usize] ^= 1 << rng.below(8);
        }
        let mut lent = broken.clone();
        let answer = lent::add(stakes, &mut broken, voter);
        let told = engine::add(stakes, &mut lent, voter);
        same(format_args!("add of voter {voter} to {right:?}"), "engine", told, answer)?;
        same_bytes("aggregator", &lent, &broken)?;
    }
    Ok(())
}

impl Sides {
    /// Feeds a record to each side.
    pub fn feed(&mut self, record: &[u8], tally: &mut Tally) -> Outcome {
        self.check_alone(record)?;
        let told = self.state.feed(&self.committee, self.right.store.len(), EVENT_BYTES, record);
        tally.feed(&told);
        if let Ok(told) = &told {
            let Memory { store, table, events, .. } = &mut self.right;
            lent::write_back(&self.state, told, store, table, events);
        }
        self.feed_engine(record, &told)?;
        let Ok(told) = told else { return Ok(()) };
        let block = Block::decode(record).unwrap();
        self.feed_rust(&block, &told)
    }

    fn feed_engine(&mut self, record: &[u8], told: &Result<Vec<Event>, u64>) -> Outcome {
        let Memory { stakes, store, table, events } = &mut self.engine;
        let got = engine::feed(stakes, store, table, events, record);
        same("feed", "engine", got, told.as_ref().map(|told| told.len() as u64).map_err(|number| *number))?;
        self.engine.same("after feeding", &self.right)
    }

    fn feed_rust(&mut self, block: &Block, told: &[Event]) -> Outcome {
        let Some(rust) = &mut self.rust else { return Ok(()) };
        let right = told.iter().map(|event| (event.statement, call_of(block, event))).collect();
        same("process_block, each call with its statement", "Rust", rust.feed(block), Ok(right))?;
        let pending = self.state.table.items.iter().map(|item| PendingRange {
            block: self.state.stores.at(item.position).unwrap().block.reference,
            start: item.start,
            end: item.end,
            voters: item.votes.voters,
            stake: item.votes.stake,
        });
        let mut pending: Vec<PendingRange> = pending.collect();
        pending.sort();
        same("pending ranges", "Rust", rust.pending(), pending)
    }

    /// What the Rust says of a record by itself: its clock against 29, and `verify` against 21 and 24 to 29. It takes no accept at
    /// 2^64 - 1 for wrong, and no round 0 for right.
    fn check_alone(&self, record: &[u8]) -> Outcome {
        let (Some(rust), Some(block)) = (&self.rust, Block::decode(record)) else { return Ok(()) };
        let alone = Stores::default().check(&self.committee, record);
        let alone = alone.map(|_| ()).or_else(|number| if number == 30 { Ok(()) } else { Err(number) });
        if block.reference.round == 0 || alone == Err(28) {
            return Ok(());
        }
        if matches!(alone, Ok(()) | Err(29)) {
            same("threshold_clock_valid_non_genesis", "Rust", rust.clock(&block), Ok(alone.is_ok()))?;
        }
        let verified = rust.verify(&block).map(|verified| verified.map_err(|text| verify_refusal(&text)));
        same("verify", "Rust", verified, Ok(alone))
    }
}

/// Which of 01's numbers a text of `verify` stands for.
pub fn verify_refusal(text: &str) -> u64 {
    let texts = [
        ("Unknown block author", 21),
        ("references unknown authority", 24),
        ("round is greater or equal", 25),
        ("must be greater or equal offset_start", 26),
        ("too large when uncompressed", 27),
        ("Threshold clock", 29),
    ];
    texts.iter().find(|(part, _)| text.contains(part)).map_or(0, |(_, number)| *number)
}

/// The handler's call that an event stands for: its unknown call covers late too.
fn call_of(block: &Block, event: &Event) -> Call {
    let reference = match &block.statements[event.statement as usize] {
        Statement::Accept(locator) => locator.block,
        Statement::Range(reference, ..) => *reference,
        _ => unreachable!("no other statement brings an event"),
    };
    let locator = Locator::new(reference, event.offset);
    match event.kind {
        Kind::Processed => Call::Processed(locator),
        Kind::Late | Kind::Unknown => Call::Unknown(locator),
    }
}
