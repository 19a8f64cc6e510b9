//! Whom to ring.

use super::{locator, record};
use crate::*;

#[test]
fn whom_to_ring() {
    // owner 0 of three shares; quorum is from 5
    let committee = Committee::new(&[3, 2, 2].map(Stake)).unwrap();
    let (first, mut second) = (record(0, 1, &[], &[]), record(0, 2, &[], &[]));
    second[0] = 1;
    let third = record(1, 3, &[&first[..48], &second[..48]].concat(), &[b"gain"]);
    let mut store = vec![0; 1024];
    store[4] = 16;
    let mut table = vec![0; 8 * 6145];
    for record in [&first, &second, &third] {
        assert_eq!(committee.feed(&mut store, &mut table, record), Ok(vec![]));
    }
    let mut digest = [0; 32];
    digest[3] = 3;
    let ask = |reachable, offset| committee.whom_to_ring(&store, &table, Owners(reachable), &locator(1, 0, digest, offset));
    assert_eq!(ask(6, 0), Ok(Ring { owners: Owners(2), stake: Stake(2) }));
    assert_eq!(ask(u128::MAX, 0), Ok(Ring { owners: Owners(2), stake: Stake(2) }));
    assert_eq!(ask(!3, 0), Ok(Ring { owners: Owners(4), stake: Stake(2) }));
    assert_eq!(ask(!6, 0), Err(Refusal::QuorumOutOfReach));
    assert_eq!(ask(0, 1), Err(Refusal::NotPending));
    for length in (0..200).chain(8 * 6145 - 20..8 * 6145).chain([8 * 6145 + 8]) {
        let other = vec![0; length];
        let told = committee.whom_to_ring(&store, &other, Owners(6), &locator(1, 0, digest, 0));
        assert_eq!(told, Err(Refusal::TableNotInOrder), "a table of {length} bytes");
    }
    let told = committee.whom_to_ring(&store[..15], &table, Owners(6), &locator(1, 0, digest, 0));
    assert_eq!(told, Err(Refusal::StoreNotInOrder));
}
