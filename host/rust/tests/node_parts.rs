//! The parts of the node of the examples: state files with every byte damaged, what waits, and the place for digests and signatures, filled in.

#![allow(dead_code)]

mod common;

#[path = "../examples/node/epoch.rs"]
mod epoch;
#[path = "../examples/node/files.rs"]
mod files;
#[path = "../examples/node/input.rs"]
mod input;
#[path = "../examples/node/node.rs"]
mod node;
#[path = "../examples/node/waiting.rs"]
mod waiting;

/// A check in the place of the example's own: every digest ends in the bytes 1, 2, and the first byte is that of the epoch.
mod trust {
    use lomkhvide::Record;

    pub fn verified(record: &Record, epoch: u64) -> Result<(), String> {
        match record.digest() {
            [first, .., 1, 2] if first as u64 == epoch => Ok(()),
            _ => Err("its digest is not that of its content".to_string()),
        }
    }
}

use std::collections::BTreeMap;
use std::fs;
use std::io::Cursor;
use std::path::{Path, PathBuf};

use common::{builder, folder, graph, stakes_file};
use files::{Access, Files};
use input::Input;
use lomkhvide::{AuthorityIndex, Record, Reference, RoundNumber};
use node::Node;
use waiting::{Arrived, Lack, MOST_BYTES, MOST_RECORDS, Waiting};

fn digest(epoch: u8, number: u8) -> [u8; 32] {
    let mut digest = [number; 32];
    digest[0] = epoch;
    digest[30..].copy_from_slice(&[1, 2]);
    digest
}

/// Four owners of stake 1: all make a block of round 0, and three of them one of round 1.
fn records(epoch: u8) -> Vec<Record> {
    let mut records: Vec<Record> =
        (0..4).map(|owner| builder(0, owner, digest(epoch, owner as u8)).finish().unwrap()).collect();
    for owner in 0..3 {
        let mut record = builder(1, owner, digest(epoch, 16 + owner as u8)).marked();
        for block in &records[..4] {
            record = record.include(block.reference());
        }
        records.push(record.share(b"gain").share(b"table").finish().unwrap());
    }
    records
}

fn stream(records: &[Record]) -> Input {
    Input::stream(Cursor::new(common::input(0, records)[1..].to_vec()))
}

fn fed(state: &Path, records: &[Record]) -> Node {
    let mut node = Node::open(state).unwrap();
    node.run(&mut stream(records)).unwrap();
    node
}

fn contents(folder: &Path) -> BTreeMap<PathBuf, Vec<u8>> {
    let paths = fs::read_dir(folder).unwrap().map(|entry| entry.unwrap().path());
    paths.map(|path| (path.clone(), fs::read(&path).unwrap())).collect()
}

/// With any byte of any file changed, or the file cut at any place, the node does not open: the error names the file and nothing is
/// changed. Names in the file of stakes are nobody's stake.
#[test]
fn every_byte_damaged() {
    let (first, state) = (folder("parts-damaged-first"), folder("parts-damaged"));
    fs::write(first.join("stakes"), stakes_file(&[1; 4])).unwrap();
    drop(fed(&first, &records(1)));
    epoch::next(&first, &state).unwrap();
    let later = records(2);
    drop(fed(&state, &later[..6]));
    // One more that waits for a block that nobody has sent.
    let waits = builder(2, 3, digest(2, 99));
    let waits = later[4..7].iter().fold(waits, |record, block| record.include(block.reference())).finish().unwrap();
    let right = fed(&state, &[waits]).engine;
    let before = contents(&state);
    let (mut tried, mut harmless) = (BTreeMap::new(), 0);
    for (path, bytes) in &before {
        let name = path.file_name().unwrap().to_str().unwrap();
        if ["lock", "share-again"].contains(&name) {
            continue;
        }
        let cut = (0..bytes.len()).map(|length| bytes[..length].to_vec());
        let changed = (0..bytes.len()).flat_map(|place| {
            [1, 16, 128].map(|mask| {
                let mut bytes = bytes.clone();
                bytes[place] ^= mask;
                bytes
            })
        });
        for damaged in cut.chain(changed) {
            fs::write(path, &damaged).unwrap();
            *tried.entry(name).or_insert(0) += 1;
            match Node::open(&state) {
                Err(error) => assert!(error.to_string().contains(&path.display().to_string()), "{name}: {error}"),
                Ok(node) => {
                    // A name of the file of stakes; or `current` without its checksums, the files being whole.
                    assert!(name == "stakes" || name == "current" && damaged.len() < 3, "{name}: {damaged:?}");
                    assert_eq!(node.engine, right);
                    harmless += 1;
                }
            }
            let after = contents(&state);
            assert!(before.iter().all(|(other, bytes)| other == path || after[other] == *bytes), "{name}");
            assert_eq!((after.len(), &after[path]), (before.len(), &damaged), "{name}");
        }
        fs::write(path, bytes).unwrap();
    }
    let names: Vec<&str> = tried.keys().copied().collect();
    assert_eq!(names, ["current", "epoch", "stakes", "store.1", "table.1", "waiting"]);
    assert_eq!(Node::open(&state).unwrap().engine, right);
    println!("{tried:?} damaged files, {harmless} harmless");
}

/// A file that is not there is a fault too.
#[test]
fn every_file_missing() {
    let state = folder("parts-missing");
    fs::write(state.join("stakes"), stakes_file(&[1; 4])).unwrap();
    drop(fed(&state, &records(1)));
    let before = contents(&state);
    for (path, bytes) in &before {
        if path.ends_with("lock") {
            continue;
        }
        fs::remove_file(path).unwrap();
        let error = Node::open(&state).err().expect("a file is missing").to_string();
        assert!(error.contains("store.1") || error.contains("table.1"), "{error}");
        assert_eq!(contents(&state).len(), before.len() - 1);
        fs::write(path, bytes).unwrap();
    }
}

/// What the check does not take is refused before the engine sees it: it is not stored, and it does not wait.
#[test]
fn the_place_for_digests_and_signatures() {
    let state = folder("parts-trust");
    fs::write(state.join("stakes"), stakes_file(&[1; 4])).unwrap();
    let mut given = records(1);
    let forged = builder(0, 3, [3; 32]).finish().unwrap();
    given.insert(2, forged.clone());
    given.extend(records(2));
    let node = fed(&state, &given);
    let stored: Vec<Record> = node.engine.records().map(|(_, record)| record).collect();
    assert_eq!(stored, records(1));
    assert_eq!(fs::read(state.join("waiting")).map_or(8, |bytes| bytes.len()), 8);
}

fn arrived(order: u64, record: &Record) -> Arrived {
    Arrived { order, name: format!("record {order}"), record: record.clone() }
}

fn block(number: u64) -> Reference {
    let mut digest = [0; 32];
    digest[..8].copy_from_slice(&number.to_le_bytes());
    Reference::new(RoundNumber(number), AuthorityIndex(0), digest)
}

/// Only those that wait for what has come are taken out, in order of arrival.
#[test]
fn by_what_they_wait_for() {
    let records = graph(7, 2);
    let mut waiting = Waiting::default();
    for (i, record) in records.iter().enumerate() {
        let lack = if i == 13 { Lack::Room } else { Lack::Block(block(i as u64 % 3)) };
        assert!(!waiting.has(record));
        assert!(waiting.put(arrived(100 - i as u64, record), lack).is_empty());
        assert!(waiting.has(record));
    }
    assert_eq!(waiting.lacking().values().sum::<usize>(), 13);
    let orders = |taken: Vec<Arrived>| taken.iter().map(|arrived| arrived.order).collect::<Vec<_>>();
    assert_eq!(orders(waiting.take(Lack::Block(block(1)))), [90, 93, 96, 99]);
    assert_eq!(orders(waiting.take(Lack::Block(block(1)))), []);
    assert_eq!(orders(waiting.take(Lack::Room)), [87]);
    assert_eq!(orders(waiting.take(Lack::Block(block(0)))), [88, 91, 94, 97, 100]);
    assert_eq!(waiting.len(), 4);
    let kept = Waiting::records_of(&waiting.to_bytes()).unwrap();
    assert_eq!(kept.iter().map(|record| record.author().0).collect::<Vec<_>>(), [4, 1, 5, 2]);
}

/// Past either bound the oldest go, whatever they wait for.
#[test]
fn bounds_of_what_waits() {
    let mut waiting = Waiting::default();
    let short = builder(0, 0, [1; 32]).finish().unwrap();
    for order in 0..MOST_RECORDS as u64 {
        assert!(waiting.put(arrived(order, &short), Lack::Block(block(order))).is_empty());
    }
    let refused = waiting.put(arrived(5000, &short), Lack::Room);
    assert_eq!(refused.iter().map(|arrived| arrived.order).collect::<Vec<_>>(), [0]);
    let payload = [7; 60_000];
    let long = (0..17).fold(builder(1, 0, [1; 32]), |record, _| record.share(&payload)).finish().unwrap();
    let (mut order, mut gone) = (6000, 1);
    while waiting.len() == MOST_RECORDS {
        gone += waiting.put(arrived(order, &long), Lack::Room).len();
        order += 1;
    }
    assert!((order - 6000) as usize * long.as_bytes().len() > MOST_BYTES - (64 << 10), "the bytes are what stops it");
    assert_eq!(gone as u64, order - 6000 + 1 + (MOST_RECORDS - waiting.len()) as u64);
    assert!(Waiting::records_of(&waiting.to_bytes()).unwrap().len() == waiting.len());
}

/// A record that finds the pending table full (14) waits until a change leaves it.
#[test]
fn room_in_the_table() {
    let state = folder("parts-room");
    fs::write(state.join("stakes"), stakes_file(&[1; 4])).unwrap();
    let (records, mut given) = (records(1), records(1)[..4].to_vec());
    let round = |owner: u64, round: u64, number: u8, below: &[Record]| {
        below.iter().fold(builder(round, owner, digest(1, number)), |record, block| record.include(block.reference()))
    };
    // Shares that do not neighbour each other, 511 to a block, are an item each; the table holds 1,024.
    let nobody = Reference::new(RoundNumber(9), AuthorityIndex(0), [9; 32]);
    let many = |owner: u64, number: u8| {
        let record = round(owner, 1, number, &records[..4]);
        (0..511).fold(record, |record, _| record.share(b"").reject(nobody.at(0), None)).finish().unwrap()
    };
    let (one, two) = (many(0, 20), many(1, 21));
    let lone = round(2, 1, 22, &records[..4]).share(b"").reject(nobody.at(0), None).share(b"").reject(nobody.at(0), None);
    let lone = lone.share(b"").finish().unwrap();
    given.extend([one.clone(), two.clone(), lone.clone()]);
    let mut node = fed(&state, &given);
    assert_eq!(node.engine.records().count(), 6, "the last one finds no room");
    drop(node);
    let below = [one.clone(), two.clone(), round(3, 1, 23, &records[..4]).finish().unwrap()];
    let mut votes = vec![below[2].clone()];
    for owner in [1, 3] {
        votes.push(round(owner, 2, 24, &below).accept(one.reference().at(0)).accept(one.reference().at(2)).finish().unwrap());
    }
    node = fed(&state, &votes);
    assert_eq!(node.engine.records().count(), 10, "it was stored once shares had left");
    assert!(node.engine.records().any(|(_, record)| record == lone));
}

/// A record that is too long for every node is refused, and is no full store; a store that is full of bytes can be closed.
#[test]
fn full_of_bytes() {
    let (state, given, next) = (folder("parts-bytes"), folder("parts-bytes-given"), folder("parts-bytes-next"));
    fs::write(state.join("stakes"), stakes_file(&[1; 4])).unwrap();
    let first = &records(1)[..4];
    let payload = [7; 65_535];
    let long = |number: u8, shares: usize| {
        let record = first.iter().fold(builder(1, 0, digest(1, number)), |record, block| record.include(block.reference()));
        (0..shares).fold(record, |record, _| record.share(&payload)).finish().unwrap()
    };
    let mut given_records = first.to_vec();
    given_records.push(long(100, 17));
    given_records.extend((101..116).map(|number| long(number, 15)));
    for (i, record) in given_records.iter().enumerate() {
        fs::write(given.join(format!("{i:02}")), record.as_bytes()).unwrap();
    }
    let mut node = Node::open(&state).unwrap();
    node.run(&mut Input::folder(&given).unwrap()).unwrap();
    assert_eq!((node.engine.records().count(), node.full.is_none()), (19, true), "all but the one that is too long");
    drop(node);
    assert!(epoch::next(&state, &next).is_err(), "nothing is marked, and there is room for one of the longest");
    let node = fed(&state, &[long(200, 15), long(201, 15), long(202, 15)]);
    assert!(node.full.is_some(), "{} blocks", node.engine.records().count());
    drop(node);
    epoch::next(&state, &next).unwrap();
}

/// A folder can be read where it cannot be written, and reading makes no file.
#[test]
fn reading_makes_nothing() {
    let empty = folder("parts-reading");
    assert!(Files::open(&empty, Access::Read).is_err());
    assert_eq!(contents(&empty).len(), 0);
}
