//! Makes a failing list as small as it gets: fewer records, fewer statements and includes, fewer members.

use std::time::{Duration, Instant};

use crate::compare::{compare, Outcome};
use crate::list::List;
use crate::model::record::Block;
use crate::tally::Tally;

const LONGEST: Duration = Duration::from_secs(60);

/// The smallest list that was found to fail, with what differs there.
pub fn smallest(list: &List, failure: String) -> (List, String) {
    let (mut best, mut text) = (list.clone(), failure);
    let start = Instant::now();
    loop {
        let mut tried = smaller(&best).take_while(|_| start.elapsed() < LONGEST);
        let found = tried.find_map(|list| fails(&list).err().map(|failure| (list, failure)));
        drop(tried);
        match found {
            Some(found) => (best, text) = found,
            None => return (best, text),
        }
    }
}

fn fails(list: &List) -> Outcome {
    compare(list, &mut Tally::default())
}

/// Lists one step smaller: first without many records, then without one, then with less in one.
fn smaller(list: &List) -> impl Iterator<Item = List> + '_ {
    let count = list.records.len();
    let halves = (1..=6).map(move |i| count >> i).filter(|size| *size > 1);
    let chunks = halves.flat_map(move |size| (0..count / size).map(move |i| without(list, i * size, size)));
    let singles = (0..count).rev().map(move |i| without(list, i, 1));
    let parts = (0..count).flat_map(move |i| {
        lesser(&list.records[i]).into_iter().map(move |record| {
            let mut list = list.clone();
            list.records[i] = record;
            list
        })
    });
    let members = (list.stakes.len() > 1).then(|| {
        let mut list = list.clone();
        list.stakes.pop();
        list
    });
    // One member with more than two thirds of the stake needs no other's blocks.
    let alone = (0..list.stakes.len()).filter(|_| list.stakes.len() > 1 && list.stakes.iter().all(|stake| *stake < 1000));
    let alone = alone.map(|i| {
        let mut list = list.clone();
        list.stakes = (0..list.stakes.len()).map(|j| if i == j { 1000 } else { 1 }).collect();
        list
    });
    chunks.chain(singles).chain(members).chain(alone).chain(parts)
}

fn without(list: &List, from: usize, count: usize) -> List {
    let mut list = list.clone();
    list.records.drain(from..from + count);
    list
}

/// A record without a statement, without an include, without payloads, unmarked, without its time.
fn lesser(record: &[u8]) -> Vec<Vec<u8>> {
    let Some(block) = Block::decode(record) else { return vec![] };
    let mut out = Vec::new();
    for i in (0..block.statements.len()).rev() {
        let mut block = block.clone();
        block.statements.remove(i);
        out.push(block.encode());
    }
    for i in (0..block.includes.len()).rev() {
        let mut block = block.clone();
        block.includes.remove(i);
        out.push(block.encode());
    }
    if block.marked {
        out.push(Block { marked: false, ..block.clone() }.encode());
    }
    if block.time.is_some() {
        out.push(Block { time: None, ..block }.encode());
    }
    out
}
