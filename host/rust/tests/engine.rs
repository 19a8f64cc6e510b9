//! The engine that owns its memory, beside the calls over lent slices.

mod common;

use common::{Chance, graph};
use lomkhvide::{
    AuthorityIndex, Committee, Engine, Event, Listed, Locator, Outcome, Owners, Parts, Pending, Reading, Record, Refusal,
    RoundNumber, Slip, Stake, Stretch, fresh_store, fresh_table,
};

const ROOM: usize = 1 << 20;

fn fed(stakes: &[Stake], records: &[Record]) -> Engine {
    let mut engine = Engine::new(Committee::new(stakes).unwrap(), ROOM);
    records.iter().for_each(|record| drop(engine.feed(record).unwrap()));
    engine
}

/// Store, table, events and answers are those of the calls over lent slices.
#[test]
fn thin_calls() {
    let records = graph(4, 12);
    let committee = Committee::new(&[2, 1, 1, 1].map(Stake)).unwrap();
    let (mut store, mut table) = (fresh_store(ROOM), fresh_table());
    let mut engine = Engine::new(committee.clone(), ROOM);
    let mut events: Vec<Event> = Vec::new();
    for record in records.iter().flat_map(|record| [record, record]) {
        let told = engine.feed(record);
        assert_eq!(told, committee.feed(&mut store, &mut table, record.as_bytes()));
        events.extend(told.unwrap_or_default());
    }
    assert_eq!(engine.store(), store);
    assert!(events.iter().any(|event| event.outcome == Outcome::Processed));
    for locator in records.iter().flat_map(|record| [record.reference().at(0), record.reference().at(1)]) {
        for reading in [Reading::Old, Reading::Withdrawing] {
            assert_eq!(engine.finality(&locator, reading), committee.finality(&store, &locator, reading));
        }
        assert_eq!(engine.pending(&locator), committee.pending(&store, &table, &locator));
        assert_eq!(engine.payload(&locator), committee.payload(&store, &locator));
        let ring = engine.ring(&locator, Owners::ALL);
        assert_eq!(ring, committee.whom_to_ring(&store, &table, Owners::ALL, &locator));
    }
}

/// A part of a list has as many stretches as are asked for, and asked on after its end it gives the whole, with the index too.
#[test]
fn lists_in_parts() {
    let mut engine = Engine::with_index(Committee::new(&[Stake(1); 4]).unwrap(), ROOM);
    engine.feed_all(graph(4, 12)).unwrap();
    let (committee, store, index) = (engine.committee(), engine.store(), engine.parts().index.unwrap());
    let whole = engine.finals(Listed::Wide, Reading::Old).collect::<Result<Vec<_>, _>>().unwrap();
    for most in [0, 1, 2, 7, whole.len() - 1, whole.len(), 1000] {
        let mut listed = Vec::new();
        let mut more = true;
        while more {
            let after = listed.last().and_then(|last: &Stretch| last.locators().last());
            let part = committee.stretches(store, Listed::Wide, Reading::Old, after.as_ref(), most).unwrap();
            assert_eq!(committee.stretches_indexed(store, index, Listed::Wide, after.as_ref(), most), Ok(part.clone()));
            assert!(part.stretches.len() == most.max(1) || !part.more, "more follow a full slice only");
            listed.extend(part.stretches);
            more = part.more;
        }
        assert_eq!(listed, whole, "{most} at a time");
    }
}

/// More stretches than one call has room for at first: a sole owner's shares with votes between them for what nobody has sent.
#[test]
fn lists_in_several_calls() {
    let (mut engine, unsent) = (Engine::new(Committee::new(&[Stake(1)]).unwrap(), ROOM), "0/0/00000009/0".parse().unwrap());
    let mut before = Record::builder(RoundNumber(0), AuthorityIndex(0), [1; 32]).finish().unwrap();
    engine.feed(&before).unwrap();
    for round in 1..3 {
        let begun = Record::builder(RoundNumber(round), AuthorityIndex(0), [1; 32]).include(before.reference());
        before = (0..512).fold(begun, |record, _| record.share(b"").accept(unsent)).finish().unwrap();
        engine.feed(&before).unwrap();
    }
    for reading in [Reading::Old, Reading::Withdrawing] {
        assert_eq!(engine.finals(Listed::Ordinary, reading).count(), 1024);
        let wide = engine.finals(Listed::Wide, reading).collect::<Result<Vec<_>, _>>().unwrap();
        assert_eq!((wide.len(), wide[0].first), (1025, unsent));
        assert!(wide.is_sorted_by_key(|stretch| stretch.first));
    }
}

/// The list is what one by one is asked for.
#[test]
fn long_lists() {
    let records = graph(4, 60);
    let engine = fed(&[Stake(1); 4], &records);
    let stretches = engine.finals(Listed::Ordinary, Reading::Old).collect::<Result<Vec<_>, _>>().unwrap();
    assert!(stretches.len() > 128, "{} stretches", stretches.len());
    let mut listed = Vec::new();
    for stretch in stretches {
        listed.extend(stretch.locators());
    }
    let mut asked = Vec::new();
    while let Some(next) = engine.next(Listed::Ordinary, Reading::Old, asked.last()).unwrap() {
        asked.push(next);
    }
    assert_eq!(listed, asked);
    assert!(listed.is_sorted());
}

#[test]
fn items_and_records() {
    let records = graph(4, 6);
    let engine = fed(&[Stake(1); 4], &records);
    let used = engine.parts().store.len();
    assert_eq!(format!("{engine:?}"), format!("Engine(4 members, 24 records, {used} of {ROOM} bytes, no index)"));
    assert_eq!(engine.records().map(|(_, record)| record).collect::<Vec<_>>(), records);
    for (position, record) in engine.records() {
        assert_eq!(engine.record_at(position), Some(record));
        assert_eq!(engine.record_at(position + 1), None);
    }
    let mut pending: Vec<Locator> = Vec::new();
    for item in engine.pending_items() {
        for offset in item.first.offset()..item.end {
            let locator = item.first.reference().at(offset);
            let told = Pending { stake: item.stake, voters: item.voters.len() as u64 };
            assert_eq!(engine.pending(&locator), Ok(told));
            pending.push(locator);
        }
    }
    let shares = records.iter().flat_map(|record| record.shares().map(|(locator, _)| locator).collect::<Vec<_>>());
    let asked: Vec<Locator> = shares.filter(|locator| engine.pending(locator).is_ok()).collect();
    assert!(!asked.is_empty());
    assert_eq!(pending, asked);
}

/// A slip of many blocks, read at a station with the records alone.
#[test]
fn slips() {
    let records = graph(4, 40);
    let engine = fed(&[Stake(1); 4], &records);
    let share = records[4].reference().at(0);
    let slip = engine.slip(&share, Reading::Old).unwrap();
    assert!(slip.as_bytes().len() > 4096, "it does not fit at first");
    assert_eq!(slip.locator(), share);
    assert_eq!(slip.certifiers().len(), engine.finality(&share, Reading::Old).unwrap().certifying.len());
    for (certifier, position) in slip.certifiers().iter().zip(engine.finality(&share, Reading::Old).unwrap().certifying) {
        assert_eq!(certifier.block, engine.record_at(position).unwrap().reference());
        assert!(certifier.voters.len() >= 3);
    }
    assert_eq!(Slip::read(engine.committee(), slip.as_bytes(), &records, Reading::Old), Ok(slip.clone()));
    assert_eq!(Slip::read(engine.committee(), slip.as_bytes(), &records[..20], Reading::Old), Err(Refusal::SlipRecordMissing));
}

/// What was kept opens to the same engine, which goes on alike.
#[test]
fn kept_and_opened() {
    let records = graph(4, 10);
    let mut engine = fed(&[Stake(1); 4], &records[..25]);
    let (store, table) = (engine.parts().store.to_vec(), engine.parts().table.to_vec());
    let parts = Parts { store: &store, table: &table, index: None };
    let mut opened = Engine::open(Committee::new(&[Stake(1); 4]).unwrap(), ROOM, parts).unwrap();
    assert_eq!(opened, engine);
    for record in &records[25..] {
        assert_eq!(opened.feed(record), engine.feed(record));
    }
    assert_eq!(opened, engine);
    let less = Engine::open(Committee::new(&[Stake(1); 4]).unwrap(), 16, parts).unwrap();
    assert_eq!(less.store().len(), store.len(), "the room is never less than what was kept");
}

/// With the index: the same answers, an index that can be kept, and 54 for any other.
#[test]
fn indexed() {
    let records = graph(4, 12);
    let committee = Committee::new(&[Stake(1); 4]).unwrap();
    let (mut plain, mut engine) = (Engine::new(committee.clone(), ROOM), Engine::with_index(committee.clone(), ROOM));
    for record in records.iter().flat_map(|record| [record, record]) {
        assert_eq!(engine.feed(record), plain.feed(record));
    }
    assert_eq!(engine.store(), plain.store());
    for listed in [Listed::Ordinary, Listed::Wide] {
        assert!(engine.finals(listed, Reading::Old).eq(plain.finals(listed, Reading::Old)));
    }
    for share in records.iter().map(|record| record.reference().at(0)) {
        let quorum = |voters: &Owners| voters.len() >= 3;
        let mut certifying: Vec<u64> =
            engine.voters(&share).unwrap().iter().filter(|(_, voters)| quorum(voters)).map(|(at, _)| *at).collect();
        certifying.sort();
        assert_eq!(
            certifying,
            engine.finality(&share, Reading::Old).unwrap().certifying,
            "no block is marked, and all stand in ascending order"
        );
        assert_eq!(plain.voters(&share), None);
    }
    let shares: Vec<Locator> = records.iter().map(|record| record.reference().at(0)).collect();
    for (share, reply) in shares.iter().zip(engine.replies(&shares).unwrap()) {
        assert_eq!(reply.is_final, engine.finality(share, Reading::Old).unwrap().is_final);
    }
    assert_eq!(plain.replies(&shares), Err(Refusal::IndexDisagrees));
    assert_eq!(engine.replies(&[shares[1], shares[0]]), Err(Refusal::LocatorsNotSorted));
    let (store, table) = (engine.parts().store.to_vec(), engine.parts().table.to_vec());
    let index = engine.parts().index.unwrap().to_vec();
    assert!(index.len() > 1024, "it has grown: {} words", index.len());
    let opened =
        |index: &[u64]| Engine::open(committee.clone(), ROOM, Parts { store: &store, table: &table, index: Some(index) });
    assert_eq!(opened(&index).unwrap().parts(), engine.parts());
    let mut chance = Chance(11);
    for _ in 0..60 {
        let mut other = index.clone();
        match chance.below(2) {
            0 => other.truncate(chance.below(index.len() as u64) as usize),
            _ => other[chance.below(index.len() as u64) as usize] ^= 1 << chance.below(64),
        }
        assert_eq!(opened(&other), Err(Refusal::IndexDisagrees));
    }
}

/// Damaged parts are refused or are in order; nothing panics, and what is opened answers.
#[test]
fn damaged_parts() {
    let engine = fed(&[Stake(1); 4], &graph(4, 5));
    let committee = Committee::new(&[Stake(1); 4]).unwrap();
    let mut chance = Chance(5);
    let mut refused = 0;
    for _ in 0..600 {
        let (mut store, mut table) = (engine.parts().store.to_vec(), engine.parts().table.to_vec());
        let part = if chance.below(2) == 0 { &mut store } else { &mut table };
        let place = chance.below(part.len() as u64) as usize;
        match chance.below(3) {
            0 => part.truncate(place),
            1 => part[place] ^= 1 << chance.below(8),
            _ => part.insert(place, chance.below(256) as u8),
        }
        match Engine::open(committee.clone(), ROOM, Parts { store: &store, table: &table, index: None }) {
            Ok(opened) => {
                assert!(opened.finals(Listed::Ordinary, Reading::Old).all(|stretch| stretch.is_ok()));
                opened.pending_items().for_each(drop);
                opened.records().for_each(drop);
            }
            Err(refusal) => {
                assert!(matches!(refusal, Refusal::StoreNotInOrder | Refusal::TableNotInOrder), "{refusal}");
                refused += 1;
            }
        }
    }
    assert!(refused > 300, "{refused} refused");
}

/// Threads that ask one engine at once are answered alike, and an engine is fed on another thread than it was made on.
#[test]
fn threads() {
    let records = graph(4, 20);
    let mut engine = fed(&[Stake(1); 4], &records[..60]);
    let share = records[4].reference().at(0);
    let ask = || {
        let list: Vec<_> = engine.finals(Listed::Wide, Reading::Withdrawing).collect();
        (list, engine.finality(&share, Reading::Old), engine.slip(&share, Reading::Old))
    };
    let alone = ask();
    std::thread::scope(|scope| {
        let asked: Vec<_> = (0..4).map(|_| scope.spawn(ask)).collect();
        asked.into_iter().for_each(|thread| assert_eq!(thread.join().unwrap(), alone));
    });
    let engine = std::thread::spawn(move || {
        records[60..].iter().for_each(|record| drop(engine.feed(record).unwrap()));
        engine
    });
    assert_eq!(engine.join().unwrap(), fed(&[Stake(1); 4], &graph(4, 20)));
}

/// On a thread with less stack than any of these calls needs.
#[test]
fn on_a_small_thread() {
    let small = std::thread::Builder::new().stack_size(65_536).spawn(|| {
        let records = graph(4, 12);
        let mut engine = Engine::with_index(Committee::new(&[Stake(1); 4]).unwrap(), ROOM);
        for record in &records {
            Engine::with_stack(|| engine.feed(record)).unwrap().unwrap();
        }
        let share = records[4].reference().at(0);
        let slip = Engine::with_stack(|| engine.slip(&share, Reading::Withdrawing)).unwrap().unwrap();
        let list = Engine::with_stack(|| engine.finals(Listed::Wide, Reading::Withdrawing).count()).unwrap();
        let panicked = std::panic::catch_unwind(|| Engine::with_stack(|| panic!("as it came")));
        (slip.certifiers().len() > 3, list > 10, panicked.unwrap_err().downcast_ref::<&str>() == Some(&"as it came"))
    });
    assert_eq!(small.unwrap().join().unwrap(), (true, true, true));
}

/// Bytes changed, cut or put in, of one record in eight.
fn damaged(record: &Record, chance: &mut Chance) -> Vec<u8> {
    let mut bytes = record.as_bytes().to_vec();
    let place = chance.below(bytes.len() as u64) as usize;
    match chance.below(24) {
        0 => bytes.truncate(place),
        1 => bytes[place] = [0, 1, 2, 3, 255][chance.below(5) as usize],
        2 => bytes.insert(place, 0),
        _ => (),
    }
    bytes
}

/// Records fed at once become what they become one by one, in whatever order and damage, also where some can have more events than a feed is
/// lent room for.
#[test]
fn fed_at_once() {
    let mut chance = Chance(21);
    let (mut short, mut long) = (0, 0);
    for round in 0..12 {
        let (whole, later) = (graph(4, 2), graph(4, 10).split_off(8));
        let mut records: Vec<Vec<u8>> = later.iter().map(|record| damaged(record, &mut chance)).collect();
        let above = |digest: u8, end: u64| {
            let begun = Record::builder(RoundNumber(2), AuthorityIndex(0), [digest; 32]);
            let begun = whole[4..].iter().fold(begun, |begun, record| begun.include(record.reference()));
            begun.range(whole[4].reference().at(0), end).finish().unwrap().as_bytes().to_vec()
        };
        for (digest, end) in [(70, 2730), (71, 2731), (72, 1_048_575), (73, 2000), (74, 2730)] {
            records.insert(chance.below(records.len() as u64) as usize, above(digest, end));
        }
        for _ in 0..3 {
            let moved = records.remove(chance.below(records.len() as u64) as usize);
            records.insert(chance.below(records.len() as u64) as usize, moved);
        }
        records.splice(..0, whole.iter().map(|record| record.as_bytes().to_vec()));
        let committee = Committee::new(&[Stake(1); 4]).unwrap();
        let room = if round % 4 == 3 { 6000 } else { ROOM };
        for engine in [Engine::new(committee.clone(), room), Engine::with_index(committee.clone(), room)] {
            let (mut one, mut all) = (engine.clone(), engine);
            let told: Vec<_> = records.iter().map(|record| one.feed(record)).collect();
            short += told.iter().filter(|fed| **fed == Err(Refusal::EventsTooShort)).count();
            long += told.iter().filter(|fed| fed.as_ref().is_ok_and(|events| events.len() == 2730)).count();
            assert_eq!(all.feed_all(&records), Ok(told));
            assert_eq!(all.parts(), one.parts());
        }
    }
    assert!(short > 10 && long > 5, "{short} records had too many votes, and {long} as many as there is room for");
    let mut engine = fed(&[Stake(1); 4], &graph(4, 3));
    let before = engine.clone();
    assert_eq!(engine.feed_all::<&[u8]>([]), Ok(vec![]));
    assert_eq!(engine, before);
}
