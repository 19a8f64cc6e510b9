//! The room of store, table and events; events; finality.

use super::input::{accept, range, reference, reject, share, Input};
use super::{named, Named};
use crate::model::listing::STORE_BYTES;
use crate::model::store::MAX_LEN;

pub fn inputs() -> Vec<Named> {
    named![accept_edges, events_room, store_full, blocks_most, table_full, sole_owner, events, two_blocks]
}

/// Accepts at 2^64 - 2 become final, and as no stored share they are not listed; a range of a million offsets has no room for its events.
fn accept_edges() -> Vec<u8> {
    let mut i = Input::new(&[1; 3]);
    let first = i.round(0, 0..3, &[], &[]);
    let far = vec![accept(reference(9, u64::MAX, 7), u64::MAX - 1)];
    let one = i.round(1, 0..3, &first, &[(0, far.clone()), (1, far.clone()), (2, far)]);
    i.round(2, 0..3, &one, &[]);
    i.add(0, 2, &one, &[range(first[0], 0, MAX_LEN - 1)]);
    i.add(0, 2, &one, &[range(first[0], MAX_LEN - 2, MAX_LEN - 1)]);
    i.bytes
}

/// 2,730 offsets have room, 2,731 have none, whether or not they give events: these shares stay pending.
fn events_room() -> Vec<u8> {
    let mut i = Input::new(&[1; 4]);
    let first = i.round(0, 0..4, &[], &[]);
    let one = i.add(0, 1, &first, &vec![share(b""); 1000]);
    let most = [range(one, 0, 1000), range(one, 0, 1000), range(one, 0, 730)];
    i.add(1, 1, &first, &most);
    i.add(1, 1, &first, &[&most[..], &[accept(one, 0)]].concat());
    i.add(1, 1, &first, &[&most[..], &[range(one, 0, 0), reject(one, 0)]].concat());
    i.bytes
}

/// Eight records fill the store to its last byte. The next is 13, but 15 before that.
fn store_full() -> Vec<u8> {
    let mut i = Input::new(&[1]);
    let mut last = i.add(0, 0, &[], &[]);
    let mut used = 16 + 8 + 56;
    for round in 1..9 {
        let length = if round < 8 { 8192 - 8 } else { STORE_BYTES - used - 8 };
        last = i.add(0, round, &[last], &[share(&vec![0; length - 56 - 48 - 3])]);
        used += 8 + length;
    }
    i.add(0, 0, &[], &[]);
    i.add(0, 9, &[last], &[range(last, 0, 2731)]);
    i.add(0, 9, &[last], &[range(last, 0, 2730)]);
    i.bytes
}

/// 1,023 records of 56 bytes are all that the store has room for.
fn blocks_most() -> Vec<u8> {
    let mut i = Input::new(&[1]);
    for _ in 0..1025 {
        i.add(0, 0, &[], &[]);
    }
    i.bytes
}

/// 1,024 items fill the table. Owner 0 of stake 5 is quorum alone, owner 1 of stake 1 is not.
fn table_full() -> Vec<u8> {
    let mut i = Input::new(&[5, 1]);
    let first = [i.add(0, 0, &[], &[])];
    let many = i.add(1, 1, &first, &vec![share(b""); 1024]);
    for start in [1, 257, 513, 769] {
        // an accept at each odd offset cuts its item out
        let accepts: Vec<_> = (start..start + 256).step_by(2).map(|offset| accept(many, offset)).collect();
        i.add(1, 1, &first, &accepts);
    }
    i.add(1, 1, &first, &[share(b"")]); // 14: an item more
    i.add(0, 1, &first, &[accept(many, 1023)]); // one leaves
    let two = i.add(1, 1, &first, &[share(b""), share(b"")]); // the table is full again
    i.add(0, 1, &first, &[accept(two, 1)]); // 14: cut in two, though one part would leave at once
    i.add(0, 1, &first, &[accept(many, 5), accept(two, 1)]); // after one has left it fits
    i.bytes
}

/// A sole owner's share is final and stays pending, until a vote.
fn sole_owner() -> Vec<u8> {
    let mut i = Input::new(&[7]);
    let first = i.add(0, 0, &[], &[]);
    let one = i.add(0, 1, &[first], &[share(b"pending"), share(b"voted")]);
    i.add(0, 2, &[one], &[accept(one, 1)]);
    i.bytes
}

/// Processed, late and unknown in one range; the block being fed; votes that come before their share.
fn events() -> Vec<u8> {
    let mut i = Input::new(&[1; 4]);
    let first = i.round(0, 0..4, &[], &[]);
    let later = reference(3, 2, 9);
    let one = i.add(0, 1, &first, &[share(b"a"), share(b"b"), range(first[0], 0, 0), share(b"c")]);
    let own = i.next(1, 1);
    // its author's vote on its own share counts once; its offset 1 is no share
    i.add(1, 1, &first, &[share(b"own"), accept(own, 0), accept(own, 1), accept(later, 0), accept(one, 0)]);
    let third = i.add(2, 1, &first, &[accept(one, 0), accept(later, 0)]); // offset 0 of one has quorum
    let fourth = i.add(3, 1, &first, &[range(one, 0, 6)]); // late, pending, unknown, pending, unknown, unknown
    let below = [one, own, third, fourth];
    assert_eq!(i.next(3, 2), later);
    i.add(3, 2, &below, &[share(b"final and pending: its votes came before it")]);
    let late = i.add(1, 2, &below, &[range(one, 0, 6)]); // late, processed, unknown, processed, unknown, unknown
    let last = i.add(2, 2, &below, &[range(one, 1, 2)]); // late
    i.round(3, 0..3, &[later, late, last], &[]);
    i.bytes
}

/// Two blocks of one author and round, apart by their digests: both certify, their author's stake counts once.
fn two_blocks() -> Vec<u8> {
    let mut i = Input::new(&[1; 3]);
    let first = i.round(0, 0..3, &[], &[]);
    // final lines go by author and digest, not by arrival
    let one = [2, 1, 0, 0].map(|author| i.add(author, 1, &first, &[share(b"mine")]));
    let everything = one.map(|shared| accept(shared, 0));
    let two = [0, 1, 2, 2].map(|author| i.add(author, 2, &one, &everything));
    i.round(3, [0, 1, 2, 2], &two, &[]);
    i.bytes
}
