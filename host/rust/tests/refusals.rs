//! Every refusal, reached by a call of the crate and told by its variant.

use std::collections::BTreeMap;

use lomkhvide::{
    Aggregator, AuthorityIndex, Calendar, Committee, Engine, Locator, Owners, Parts, Reading, Record, RecordBuilder, Reference,
    Refusal, RoundNumber, Slip, Stake, calls, fresh_index, fresh_store, fresh_table,
};

/// No host can reach it: the work slice of a feed is the call's own.
const NEVER: [Refusal; 1] = [Refusal::WorkTooShort];

const ROOM: usize = 1 << 20;

fn committee(stakes: &[u64]) -> Committee {
    Committee::new(&stakes.iter().copied().map(Stake).collect::<Vec<_>>()).unwrap()
}

/// A record of owner 0 of that round; its digest is the round and one more.
fn begun(round: u64) -> RecordBuilder {
    Record::builder(RoundNumber(round), AuthorityIndex(0), [round as u8 + 1; 32])
}

fn first() -> Record {
    begun(0).finish().unwrap()
}

/// The record of round 1 that includes it.
fn second() -> RecordBuilder {
    begun(1).include(first().reference())
}

/// A sole owner's engine that has the first record.
fn engine() -> Engine {
    let mut engine = Engine::new(committee(&[1]), ROOM);
    engine.feed(first()).unwrap();
    engine
}

/// The same, and the second record with a share.
fn shared() -> (Engine, Record) {
    let (mut engine, record) = (engine(), second().share(b"gain").finish().unwrap());
    engine.feed(&record).unwrap();
    (engine, record)
}

/// What feeding this record after the first one brings.
fn fed(record: RecordBuilder) -> Option<Refusal> {
    engine().feed(record.finish().unwrap()).err()
}

fn block(round: u64, author: u64) -> Reference {
    Reference::new(RoundNumber(round), AuthorityIndex(author), [77; 32])
}

fn nowhere() -> Locator {
    block(0, 0).at(0)
}

fn stakes_file(name: &[u8; 16]) -> Vec<u8> {
    [&[1, 0, 0, 0], &name[..], &[1, 0, 0, 0, 0, 0, 0, 0]].concat()
}

/// Whoever sets the committee, adds a vote or reads a calendar.
fn of_committees() -> Vec<Option<Refusal>> {
    let mut wrong = Aggregator { voters: Owners(1), stake: Stake(2) };
    vec![
        Committee::new(&[]).err(),
        Committee::new(&[Stake(0)]).err(),
        Committee::new(&[Stake(1); 129]).err(),
        Committee::new(&[u64::MAX / 2, 1].map(Stake)).err(),
        Committee::from_bytes(vec![1; 7]).err(),
        committee(&[1]).add(&mut wrong, AuthorityIndex(0)).err(),
        Committee::load(&[1]).err(),
        Committee::load(&stakes_file(&[0; 16])).err(),
        Calendar::from_bytes(vec![0; 8]).is_open(0).err(),
    ]
}

/// Records that feeding refuses.
fn of_records() -> Vec<Option<Refusal>> {
    let other = Record::builder(RoundNumber(0), AuthorityIndex(5), [1; 32]);
    let mut three = Engine::new(committee(&[1, 1, 1]), ROOM);
    three.feed(first()).unwrap();
    vec![
        engine().feed(b"noise").err(),
        fed(other),
        Engine::new(committee(&[1]), ROOM).feed(begun(0).share(b"gain").finish().unwrap()).err(),
        engine().feed(first()).err(),
        fed(begun(1).include(block(0, 9))),
        fed(begun(1).include(block(1, 0))),
        fed(second().range(block(0, 0).at(5), 4)),
        fed(second().range(block(0, 0).at(0), 1_048_576)),
        fed(second().accept(block(0, 0).at(u64::MAX))),
        three.feed(second().finish().unwrap()).err(),
        fed(second().include(block(0, 0))),
    ]
}

/// Shares that are no neighbours: 512 items of the pending table.
fn many_items(round: u64, before: &Record) -> Record {
    let begun = begun(round).include(before.reference());
    (0..512).fold(begun, |record, _| record.share(b"").accept(nowhere())).finish().unwrap()
}

/// Memory that is too short, or not in order.
fn of_memory() -> Vec<Option<Refusal>> {
    let (mut small, mut full) = (Engine::new(committee(&[1]), 16), engine());
    let one = many_items(1, &first());
    let two = many_items(2, &one);
    full.feed(&one).unwrap();
    full.feed(&two).unwrap();
    let open = |store: &[u8], table: &[u8], index: Option<&[u64]>| {
        Engine::open(committee(&[1]), ROOM, Parts { store, table, index }).err()
    };
    let store = fresh_store(16);
    vec![
        open(&[1; 16], &[], None),
        open(&store, &[1; 8], None),
        open(&store, &[], Some(&[2])),
        small.feed(first()).err(),
        full.feed(many_items(3, &two)).err(),
        fed(second().range(nowhere(), 3000)),
        committee(&[1]).feed_indexed(&mut fresh_store(ROOM), &mut fresh_table(), &mut fresh_index(1), first().as_bytes()).err(),
    ]
}

/// Questions.
fn of_questions() -> Vec<Option<Refusal>> {
    let (engine, record) = shared();
    let (committee, store) = (engine.committee(), engine.store());
    let (share, sorted) = (record.reference().at(0), Engine::with_index(committee.clone(), ROOM));
    let mut three = Engine::new(self::committee(&[1, 1, 1]), ROOM);
    let mut above = begun(1);
    for owner in three.committee().authorities() {
        let first = Record::builder(RoundNumber(0), owner, [1; 32]).finish().unwrap();
        three.feed(&first).unwrap();
        above = above.include(first.reference());
    }
    let above = above.share(b"gain").finish().unwrap();
    three.feed(&above).unwrap();
    vec![
        calls::finality(committee.stakes(), store, &mut [0; 8], &share.to_bytes()).err(),
        engine.payload(&nowhere()).err(),
        engine.pending(&nowhere()).err(),
        committee.loadable(store, Reading::Old, &mut [0; 1]).err(),
        three.ring(&above.reference().at(0), Owners(0)).err(),
        sorted.replies(&[block(1, 0).at(0), nowhere()]).err(),
        calls::answer_sorted(committee.stakes(), sorted.store(), &[1], &share.to_bytes(), &mut [0; 2]).err(),
        calls::feed_records(committee.stakes(), &mut fresh_store(16), &mut fresh_table(), &mut [], &mut [], &[0; 4]).err(),
    ]
}

/// What is written, and slips.
fn of_writing() -> Vec<Option<Refusal>> {
    let (engine, record) = shared();
    let slip = engine.slip(&record.reference().at(0), Reading::Old).unwrap();
    vec![
        begun(0).write(&mut [0; 55]).err(),
        second().share(&[0; 65_536]).finish().err(),
        engine.slip(&nowhere(), Reading::Old).err(),
        Slip::read(engine.committee(), slip.as_bytes(), &[first()], Reading::Old).err(),
        Slip::read(engine.committee(), b"noise", &[], Reading::Old).err(),
    ]
}

#[test]
fn every_refusal() {
    let mut reached: BTreeMap<u64, Refusal> = BTreeMap::new();
    for told in [of_committees(), of_records(), of_memory(), of_questions(), of_writing()].concat() {
        let refusal = told.expect("each of these is refused");
        assert!(reached.insert(refusal.number(), refusal).is_none(), "{refusal} was reached before");
    }
    let expected: Vec<Refusal> = Refusal::ALL.iter().copied().filter(|refusal| !NEVER.contains(refusal)).collect();
    assert_eq!(reached.into_values().collect::<Vec<_>>(), expected);
}

/// As an error it has its sentence, its number, and no other error below it.
#[test]
fn as_an_error() {
    let error: Box<dyn std::error::Error> = Box::new(Committee::new(&[]).unwrap_err());
    assert_eq!(error.to_string(), "the committee has no stakes (1)");
    assert!(error.source().is_none());
}
