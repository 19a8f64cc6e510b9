//! Loadable shares.

use super::{locator, record, store};
use crate::*;

#[test]
fn loadable_shares() {
    let committee = Committee::new(&[1].map(Stake)).unwrap();
    let needs = |reference: &[u8]| [&[1], reference, &[0; 8]].concat();
    let first = record(0, 1, &[], &[]);
    let program = record(1, 2, &first[..48], &[b"gain"]);
    let itself = needs(&record(2, 3, &program[..48], &[])[..48]);
    let tables = record(2, 3, &program[..48], &[&itself, &needs(&program[..48]), &needs(&first[..48])]);
    let at = [16 + 8 + first.len() as u64, 16 + 16 + (first.len() + program.len()) as u64];
    let store = store(&[first, program, tables]);
    let locator = |round: u64, offset: u64| {
        let mut digest = [0; 32];
        digest[3] = round as u8 + 1;
        locator(round, 0, digest, offset)
    };
    let loadable = |round, offset| committee.is_loadable(&store, &locator(round, offset), Reading::Old);
    assert_eq!(loadable(1, 0), Ok(true));
    assert_eq!([0, 1, 2, 3].map(|offset| loadable(2, offset)), [Ok(false), Ok(true), Ok(false), Ok(false)]);
    assert_eq!(committee.is_loadable(&store[..15], &locator(1, 0), Reading::Old), Err(Refusal::StoreNotInOrder));
    for room in 0..12 {
        let mut places = vec![9; room];
        let told = committee.loadable(&store, Reading::Old, &mut places);
        if room < 8 {
            assert_eq!(told, Err(Refusal::PlacesTooShort), "{room} words");
            assert_eq!(places, vec![9; room]);
        } else {
            assert_eq!(told, Ok(2), "{room} words");
            assert_eq!(places[..4], [at[0], 0, at[1], 1]);
            assert_eq!(places[4..], vec![9; room - 4]);
        }
    }
    assert_eq!(committee.loadable(&store[..15], Reading::Old, &mut []), Err(Refusal::StoreNotInOrder));
}

/// A sole owner shares two programs and rejects the first in the same block, and then a gain table for each.
#[test]
fn loadable_where_owners_may_withdraw() {
    let committee = Committee::new(&[Stake(1)]).unwrap();
    let build = |round: u64, digest: u8| Record::builder(RoundNumber(round), AuthorityIndex(0), [digest; 32]);
    let first = build(0, 1).finish().unwrap();
    let own = Reference::new(RoundNumber(1), AuthorityIndex(0), [2; 32]);
    let program = build(1, 2).include(first.reference()).share(b"program").share(b"other").reject(own.at(0), None);
    let program = program.finish().unwrap();
    let needs = |offset| [&[1], &own.at(offset).to_bytes()[..]].concat();
    let tables = build(2, 3).include(own).share(&needs(0)).share(&needs(1)).finish().unwrap();
    let mut engine = Engine::new(committee, 4096);
    for record in [&first, &program, &tables] {
        engine.feed(record).unwrap();
    }
    let [table, other] = [tables.reference().at(0), tables.reference().at(1)];
    assert_eq!(engine.loadable(Reading::Old), Ok(vec![own.at(0), own.at(1), table, other]));
    assert_eq!(
        engine.loadable(Reading::Withdrawing),
        Ok(vec![own.at(1), other]),
        "the program was withdrawn, so its table waits"
    );
    for (locator, loadable) in [(own.at(0), false), (own.at(1), true), (table, false), (other, true)] {
        assert_eq!(engine.is_loadable(&locator, Reading::Old), Ok(true));
        assert_eq!(engine.is_loadable(&locator, Reading::Withdrawing), Ok(loadable));
    }
}
