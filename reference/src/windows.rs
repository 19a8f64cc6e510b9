//! Stores whose votes, rejects and shares begin and end at more places than a table of the engine holds, so that a list is made in several
//! windows: every list, the next questions and the loadable shares beside the model, and the wide list beside the Rust.

use crate::compare::{same, Outcome};
use crate::engine;
use crate::generate;
use crate::graphs;
use crate::list::List;
use crate::model::committee::Committee;
use crate::model::finality::{Finality, Graph, Listed, Reading};
use crate::model::lent::{stretches, write_stretches, Stretch, STRETCH_BYTES};
use crate::model::loading;
use crate::model::record::{Block, Locator, Reference, Statement};
use crate::model::store::Stores;
use crate::questions::ListCall;
use crate::rng::Rng;
use crate::rust::RustSide;

/// The rows of the table in which the engine gathers a window.
const TABLE_ROWS: usize = 5462;

/// How often each list is asked for from any place, and each next locator.
const BULKS: u64 = 5;
const NEXTS: u64 = 3;

/// What the stores of a run held.
#[derive(Default)]
pub struct Swept {
    /// The fewest and the most places at which the votes of a store begin or end, block by block.
    pub edges: Option<[usize; 2]>,
    /// Locators of the four lists: wide and ordinary, in the old reading and in the other.
    pub listed: [u64; 4],
    pub loadable: [u64; 2],
    pub questions: u64,
    /// Small stores on which the model's lists were held to its single questions.
    pub small: u64,
}

/// The list of a reading: both calls, and their names.
type Asked = (Reading, Listed, ListCall, ListCall, &'static str);

const LISTS: [Asked; 4] = [
    (Reading::Old, Listed::Wide, engine::wide_stretches, engine::next_wide, "wide"),
    (Reading::Old, Listed::Ordinary, engine::final_stretches, engine::next_final, "ordinary"),
    (
        Reading::Withdrawing,
        Listed::Wide,
        engine::wide_stretches_withdrawing,
        engine::next_wide_withdrawing,
        "wide, withdrawing",
    ),
    (
        Reading::Withdrawing,
        Listed::Ordinary,
        engine::final_stretches_withdrawing,
        engine::next_final_withdrawing,
        "ordinary, withdrawing",
    ),
];

/// Store n of a seed, after some small ones.
pub fn compare(seed: u64, n: u64, swept: &mut Swept) -> Outcome {
    let mut rng = Rng::new(seed.wrapping_mul(0x9e3779b97f4a7c15) ^ n.wrapping_mul(0xd1b54a32d192ed03));
    for _ in 0..10 {
        quick_as_slow(&mut rng)?;
        swept.small += 1;
    }
    let (owners, blocks) = match n % 5 {
        0 | 1 => any(&mut rng),
        2 => lone_shares(&mut rng),
        3 => same_votes(&mut rng),
        _ => few_places(&mut rng),
    };
    let edges = blocks.iter().map(edges).sum();
    if edges < 2 * TABLE_ROWS {
        return Err(format!("{edges} edges make no several windows"));
    }
    let [least, most] = swept.edges.unwrap_or([edges; 2]);
    swept.edges = Some([least.min(edges), most.max(edges)]);
    let stakes: Vec<u64> = (0..owners).map(|_| rng.within(1, 2)).collect();
    ask(&stakes, &blocks, &mut rng, swept)
}

/// The places at which a block's votes begin and end, overlapping and touching ones joined.
fn edges(block: &Block) -> usize {
    let mut votes: Vec<(Reference, u64, u64)> = Vec::new();
    for (offset, statement) in block.statements.iter().enumerate() {
        match statement {
            Statement::Share(_) => votes.push((block.reference, offset as u64, offset as u64 + 1)),
            Statement::Accept(locator) => votes.push((locator.block, locator.offset, locator.offset + 1)),
            Statement::Range(reference, start, end) if start < end => votes.push((*reference, *start, *end)),
            _ => {}
        }
    }
    votes.sort();
    let mut joined: Vec<(Reference, u64, u64)> = Vec::new();
    for (reference, start, end) in votes {
        match joined.last_mut() {
            Some(last) if last.0 == reference && start <= last.2 => last.2 = last.2.max(end),
            _ => joined.push((reference, start, end)),
        }
    }
    2 * joined.len()
}

/// The model's lists, which read the statements once, beside its questions about one locator, which read them each time: on a small store.
fn quick_as_slow(rng: &mut Rng) -> Outcome {
    let list = if rng.once_in(2) { generate::rejecting(rng) } else { generate::loading(rng) };
    let committee = Committee::new(&list.stakes).map_err(|number| format!("a committee refused with {number}"))?;
    let mut stores = Stores::default();
    for record in &list.records {
        if let Ok(block) = stores.check(&committee, record) {
            stores.accept(block, record);
        }
    }
    let graph = Graph::new(&committee, &stores);
    for reading in [Reading::Old, Reading::Withdrawing] {
        let single = |locator: Locator| (locator, graph.finality_in(reading, &locator));
        let slow: Vec<(Locator, Finality)> =
            graph.voted().into_iter().map(single).filter(|(_, finality)| finality.is_final).collect();
        same("the list by single questions", "model", graph.final_list_in(reading), slow)?;
        let shares = loading::stored_shares(&stores).into_iter();
        let slow: Vec<Locator> = shares.filter(|share| loading::is_loadable(reading, &graph, &stores, share)).collect();
        same("the loadable shares by single questions", "model", loading::loadable(reading, &graph, &stores), slow)?;
    }
    Ok(())
}

// ---- the stores

/// Votes of any kind for offsets of a few blocks: some that many make, some that nobody else makes, ranges of all lengths across them.
fn any(rng: &mut Rng) -> (u64, Vec<Block>) {
    let owners = rng.within(3, 6);
    let mut blocks = graphs::rounds(owners, rng.within(24, 40) / owners + 1);
    let count = blocks.len();
    let voted: Vec<Reference> = (0..rng.within(1, 6)).map(|_| rng.pick(&blocks).reference).collect();
    // Long ranges cover much of what others vote for one by one, so there are few of them.
    let (often, longest) = *rng.pick(&[(12, 3), (12, 3), (120, 200)]);
    let (spread, rejects) = (rng.within(1500, 4000), rng.once_in(2));
    for block in blocks.iter_mut().skip(owners as usize) {
        block.marked = rng.once_in(8);
        let each = 14_000 / (count as u64 - owners) + rng.below(60);
        for _ in 0..each.min(1000) {
            let (reference, start) = (*rng.pick(&voted), rng.below(spread));
            let locator = Locator::new(reference, start);
            block.statements.push(match rng.below(16) {
                0 => Statement::Share(vec![]),
                1 | 2 if rejects => Statement::Reject(locator, None),
                _ if rng.once_in(often) => Statement::Range(reference, start, start + rng.below(longest)),
                _ => Statement::Accept(locator),
            });
        }
    }
    (owners, blocks)
}

/// Shares that stand alone, most of which need one of the round before, accepted by ranges that end anywhere.
fn lone_shares(rng: &mut Rng) -> (u64, Vec<Block>) {
    let mut blocks = graphs::lone_shares();
    blocks.truncate(4 * rng.within(20, 40) as usize);
    let rejects = rng.once_in(2);
    for n in 4..blocks.len() {
        let before = blocks[n].includes.clone();
        for statement in &mut blocks[n].statements {
            match statement {
                Statement::Share(payload) if rng.once_in(2) => {
                    *payload = [&[1], &Locator::new(*rng.pick(&before), 2 * rng.below(101)).bytes()[..]].concat()
                }
                Statement::Range(_, start, end) if *end > *start => *end -= rng.below(20),
                Statement::Range(block, ..) if rejects && rng.once_in(12) => {
                    *statement = Statement::Reject(Locator::new(*block, rng.below(200)), None)
                }
                _ => {}
            }
        }
    }
    (4, blocks)
}

/// All blocks of a round accept the same locators, every other offset; some of them leave some out.
fn same_votes(rng: &mut Rng) -> (u64, Vec<Block>) {
    let mut blocks = graphs::same_votes();
    blocks.truncate(4 * rng.within(9, 14) as usize);
    let often = rng.within(2, 300);
    for block in &mut blocks {
        block.statements.retain(|_| !rng.once_in(often));
    }
    (4, blocks)
}

/// Hundreds of blocks that begin and end their votes at the same few places.
fn few_places(rng: &mut Rng) -> (u64, Vec<Block>) {
    let mut blocks = graphs::rounds(4, rng.within(180, 240));
    let first = blocks[0].reference;
    for block in blocks.iter_mut().skip(4) {
        block.statements = (0..9)
            .map(|k| match rng.below(30) {
                0 => Statement::Reject(Locator::new(first, 10 * k), None),
                1 => Statement::Share(vec![]),
                _ => Statement::Range(first, 10 * k, 10 * k + rng.within(1, 4)),
            })
            .collect();
    }
    (4, blocks)
}

// ---- the questions

fn ask(stakes: &[u64], blocks: &[Block], rng: &mut Rng, swept: &mut Swept) -> Outcome {
    let committee = Committee::new(stakes).map_err(|number| format!("a committee refused with {number}"))?;
    let stores = graphs::stored(blocks);
    let graph = Graph::new(&committee, &stores);
    let lent = Lent { stakes: List::roomy(stakes.to_vec(), vec![]).stake_bytes(), store: stores.layout() };
    let voted: Vec<Locator> = graph.voted().into_iter().collect();
    for (i, (reading, listed, bulk, next, name)) in LISTS.into_iter().enumerate() {
        let list = graph.listed_in(reading, listed);
        swept.listed[i] += list.len() as u64;
        if i == 0 {
            beside_rust(stakes, blocks, &list)?;
        }
        lent.in_bulk(bulk, &list, &voted, rng).map_err(|text| format!("{name} list: {text}"))?;
        lent.nexts(next, &list, &voted, rng).map_err(|text| format!("next of the {name} list: {text}"))?;
        swept.questions += 1 + BULKS + 2 + NEXTS;
    }
    for (i, reading) in [Reading::Old, Reading::Withdrawing].into_iter().enumerate() {
        let found = loading::loadable(reading, &graph, &stores);
        swept.loadable[i] += found.len() as u64;
        lent.loads(reading, &stores, &found, rng)?;
    }
    Ok(())
}

/// The wide list with its certifying blocks, on the Rust.
fn beside_rust(stakes: &[u64], blocks: &[Block], list: &[(Locator, Finality)]) -> Outcome {
    // Its time goes with the blocks times the votes below each.
    if !mysticeti::PRESENT || blocks.len() > 60 {
        return Ok(());
    }
    let mut rust = RustSide::new(stakes).map_err(|text| format!("a committee refused by the Rust: {text}"))?;
    rust.store_all(blocks);
    let right = list.iter().map(|(locator, finality)| (*locator, finality.certifying.clone())).collect();
    same("the wide list with its certifying blocks", "Rust", rust.final_list(), Ok(right))
}

/// What the calls are lent.
struct Lent {
    stakes: Vec<u8>,
    store: Vec<u8>,
}

impl Lent {
    /// A list from the start with room for all of it and one stretch more, and from any place with any room.
    fn in_bulk(&self, bulk: ListCall, list: &[(Locator, Finality)], voted: &[Locator], rng: &mut Rng) -> Outcome {
        let all = stretches(list, None);
        self.bulk(bulk, &all, None, all.len() + 1)?;
        for _ in 0..BULKS {
            let after = place(list, voted, rng);
            let rest = stretches(list, after);
            self.bulk(bulk, &rest, after, 1 + rng.below(rest.len() as u64 + 2) as usize)?;
        }
        Ok(())
    }

    fn bulk(&self, bulk: ListCall, rest: &[Stretch], after: Option<Locator>, room: usize) -> Outcome {
        let (mut right, mut got) = (vec![0x19; STRETCH_BYTES * room], vec![0x19; STRETCH_BYTES * room]);
        let told = bulk(&self.stakes, &self.store, &bytes(after), &mut got);
        let what = format!("{room} stretches after {after:?}");
        same(&what, "engine", told, Ok(write_stretches(rest, &mut right)))?;
        let differs = got.chunks(STRETCH_BYTES).zip(right.chunks(STRETCH_BYTES)).position(|(got, right)| got != right);
        same(format_args!("{what}: the first that differs"), "engine", differs, None)
    }

    /// The next locator from the start, after the last and after any.
    fn nexts(&self, next: ListCall, list: &[(Locator, Finality)], voted: &[Locator], rng: &mut Rng) -> Outcome {
        let last = list.last().map(|(locator, _)| *locator);
        let mut places = vec![None, last];
        places.extend((0..NEXTS).map(|_| place(list, voted, rng)));
        for after in places {
            let right = list.iter().map(|(locator, _)| *locator).find(|locator| Some(*locator) > after);
            let mut found = [0x77; 56];
            let told = next(&self.stakes, &self.store, &bytes(after), &mut found);
            same(format_args!("after {after:?}"), "engine", told, Ok(right.is_some() as u64))?;
            same(format_args!("the one after {after:?}"), "engine", found, right.map_or([0x77; 56], |next| next.bytes()))?;
        }
        Ok(())
    }

    /// The list of loadable shares, and yes or no for some.
    fn loads(&self, reading: Reading, stores: &Stores, found: &[Locator], rng: &mut Rng) -> Outcome {
        let (list, one): (fn(&[u8], &[u8], &mut [u64]) -> engine::Answer, fn(&[u8], &[u8], &[u8]) -> engine::Answer) =
            match reading {
                Reading::Old => (engine::loadable, engine::is_loadable),
                Reading::Withdrawing => (engine::loadable_withdrawing, engine::is_loadable_withdrawing),
            };
        let shares = loading::stored_shares(stores);
        let mut places = vec![7; 2 * shares.len() + 1];
        let told = list(&self.stakes, &self.store, &mut places);
        same(format_args!("loadable, {reading:?}"), "engine", told, Ok(found.len() as u64))?;
        let place = |share: &Locator| [stores.get(&share.block).unwrap().position, share.offset];
        let mut right: Vec<u64> = found.iter().flat_map(place).collect();
        right.resize(places.len(), 7);
        same(format_args!("the loadable shares, {reading:?}"), "engine", places, right)?;
        for _ in 0..if shares.is_empty() { 0 } else { 4 } {
            let any = found.is_empty() || rng.once_in(2);
            let share = rng.pick(if any { &shares } else { found });
            let right = found.binary_search(share).is_ok() as u64;
            let told = one(&self.stakes, &self.store, &share.bytes());
            same(format_args!("is_loadable of {share:?}, {reading:?}"), "engine", told, Ok(right))?;
        }
        Ok(())
    }
}

/// A place to go on from: a listed locator, one with a vote, or one beside it.
fn place(list: &[(Locator, Finality)], voted: &[Locator], rng: &mut Rng) -> Option<Locator> {
    match rng.below(3) {
        0 if !list.is_empty() => Some(rng.pick(list).0),
        1 => Some(*rng.pick(voted)),
        _ => {
            let beside = rng.pick(voted);
            Some(Locator { offset: (beside.offset + rng.below(3)).wrapping_sub(1), ..*beside })
        }
    }
}

/// The locator to go on from, as it crosses.
fn bytes(after: Option<Locator>) -> Vec<u8> {
    after.map_or(Vec::new(), |locator| locator.bytes().to_vec())
}
