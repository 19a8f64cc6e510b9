//! Feeding, without and with the index.

use super::{locator, record};
use crate::*;

#[test]
fn feeding() {
    let committee = Committee::new(&[1].map(Stake)).unwrap();
    let (mut store, mut table) = (fresh_store(1000), fresh_table());
    let first = record(0, 1, &[], &[]);
    let second = record(1, 2, &first[..48], &[b"gain", b"table"]);
    let mut third = record(2, 3, &second[..48], &[]);
    third[51] = 1;
    third.push(3);
    third.extend(&second[..48]);
    third.extend(bytes_of(&[1, 4]));
    assert_eq!(committee.feed(&mut store, &mut table, &second), Err(Refusal::IncludeNotStored));
    assert_eq!(committee.feed(&mut store, &mut table, &first), Ok(vec![]));
    let before = (store.clone(), table.clone());
    assert_eq!(committee.feed(&mut store, &mut table, &first), Err(Refusal::StoredAlready));
    assert_eq!(committee.feed(&mut store, &mut table[8..], &second), Err(Refusal::TableNotInOrder));
    assert_eq!(committee.feed(&mut store[..200], &mut table, &second), Err(Refusal::StoreFull));
    assert_eq!((&store, &table), (&before.0, &before.1), "a refusal writes nothing");
    assert_eq!(committee.feed(&mut store, &mut table, &second), Ok(vec![]));
    let share = |offset| locator(1, 0, second[16..48].try_into().unwrap(), offset);
    assert_eq!(committee.pending(&store, &table, &share(1)), Ok(Pending { stake: Stake(1), voters: 1 }));
    let event = |outcome, offset| Event { outcome, statement: 0, locator: share(offset) };
    let events = vec![event(Outcome::Processed, 1), event(Outcome::Unknown, 2), event(Outcome::Unknown, 3)];
    assert_eq!(committee.feed(&mut store, &mut table, &third), Ok(events));
    assert_eq!(committee.pending(&store, &table, &share(0)), Ok(Pending { stake: Stake(1), voters: 1 }));
    assert_eq!(committee.pending(&store, &table, &share(1)), Err(Refusal::NotPending));
    assert_eq!(committee.payload(&store, &share(1)), Ok(&b"table"[..]));
}

#[test]
fn feeding_with_the_index() {
    let committee = Committee::new(&[1].map(Stake)).unwrap();
    let (mut store, mut table, mut index) = (fresh_store(1000), fresh_table(), fresh_index(30));
    let first = record(0, 1, &[], &[]);
    let second = record(1, 2, &first[..48], &[b"gain", b"table"]);
    let mut feed = |index: &mut [u64], record| committee.feed_indexed(&mut store, &mut table, index, record);
    assert_eq!(feed(&mut [], &first), Err(Refusal::IndexDisagrees));
    assert_eq!(feed(&mut [2, 0], &first), Err(Refusal::IndexDisagrees));
    assert_eq!(feed(&mut [1], &first), Err(Refusal::IndexTooShort));
    assert_eq!(feed(&mut index, &first), Ok(vec![]));
    // no votes: a part of no runs
    assert_eq!(index[..3], [2, 0, 0]);
    assert_eq!(feed(&mut index, &first), Err(Refusal::StoredAlready));
    assert_eq!(feed(&mut index[..12], &second), Err(Refusal::IndexTooShort));
    assert_eq!(feed(&mut index, &second), Ok(vec![]));
    // the sharer's vote for both shares, the digest's fourth byte 2
    assert_eq!(index[..14], [13, 0, 1, 0, 1, 2 << 24, 0, 0, 0, 0, 2, 1, 0, 0]);
    index[11] = 2;
    let third = record(2, 3, &second[..48], &[]);
    assert_eq!(committee.feed_indexed(&mut store, &mut table, &mut index, &third), Err(Refusal::IndexDisagrees));
    index[11] = 1;
    assert_eq!(committee.feed_indexed(&mut store, &mut table, &mut index[..24], &third), Ok(vec![]));
    assert_eq!(index[..25], [24, 0, 1, 0, 1, 2 << 24, 0, 0, 0, 0, 2, 1, 0, 1, 0, 1, 2 << 24, 0, 0, 0, 0, 2, 1, 0, 0]);
}
