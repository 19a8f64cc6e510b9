//! Records of our own.

use super::locator;
use crate::*;

#[test]
fn writing() {
    let at = |offset| locator(2, 1, [3; 32], offset);
    let include = Reference::from_bytes(&[8; 48]);
    let begun = Record::builder(RoundNumber(6), AuthorityIndex(5), [7; 32]).marked();
    let begun = begun.share(&[1, 2]).accept(at(4)).accept(at(5)).accept(at(7)).reject(at(8), Some(at(9))).range(at(8), 9);
    let builder = begun.clone().include(include);
    let need = 56 + 48 + 5 + 65 + 57 + 114 + 65;
    for length in 0..need + 40 {
        let mut out = vec![9; length];
        let answer = builder.write(&mut out);
        assert_eq!(answer, if length < need { Err(Refusal::TooShortToWrite) } else { Ok(need) });
        let kept = answer.unwrap_or(0);
        assert!(out[kept..].iter().all(|byte| *byte == 9));
        if answer.is_ok() {
            assert_eq!(out[48..56], [1, 1, 0, 5, 0, 0, 0, 0]);
            assert_eq!(out[109], 3);
            assert_eq!(out[109 + 49..109 + 65], bytes_of(&[4, 6])[..]);
        }
    }
    assert_eq!(builder.share(&[0; 65_536]).write(&mut []), Err(Refusal::NotWritable));
    let many = |count| (0..count).fold(begun.clone(), |builder, _| builder.include(include));
    assert_eq!(many(257).write(&mut [0; 20_000]), Err(Refusal::NotWritable));
    assert_eq!(many(256).write(&mut [0; 20_000]), Ok(need + 255 * 48));
}

/// Written, fed and asked for.
#[test]
fn written_and_fed() {
    let committee = Committee::new(&[Stake(1)]).unwrap();
    let (mut store, mut table) = (fresh_store(4096), fresh_table());
    let mut record = [0; 4096];
    let length = Record::builder(RoundNumber(0), AuthorityIndex(0), [1; 32]).write(&mut record).unwrap();
    assert_eq!(committee.feed(&mut store, &mut table, &record[..length]), Ok(vec![]));
    let include = Reference::from_bytes(record[..48].try_into().unwrap());
    let second = Record::builder(RoundNumber(1), AuthorityIndex(0), [2; 32]).include(include).share(&[4, 5]).share(&[6]);
    let length = second.write(&mut record).unwrap();
    assert_eq!(committee.feed(&mut store, &mut table, &record[..length]), Ok(vec![]));
    assert_eq!(committee.payload(&store, &locator(1, 0, [2; 32], 1)), Ok(&[6][..]));
}

/// Written with a time, fed, and asked for it.
#[test]
fn timed() {
    let committee = Committee::new(&[Stake(1)]).unwrap();
    let builder = |time: Option<u64>| {
        let builder = Record::builder(RoundNumber(0), AuthorityIndex(0), [1; 32]);
        time.map_or(builder.clone(), |time| builder.time(time))
    };
    for time in [None, Some(0), Some(1_700_000_000_000_000_000), Some(u64::MAX)] {
        let (mut store, mut table) = (fresh_store(4096), fresh_table());
        let mut record = [9; 100];
        let length = builder(time).write(&mut record).unwrap();
        assert_eq!(length, if time.is_some() { 72 } else { 56 });
        assert_eq!(record[53..56], [if time.is_some() { 2 } else { 0 }, 0, 0]);
        assert!(record[length..].iter().all(|byte| *byte == 9));
        assert_eq!(builder(time).write(&mut vec![0; length - 1]), Err(Refusal::TooShortToWrite));
        assert_eq!(committee.feed(&mut store, &mut table, &record[..length]), Ok(vec![]));
        let mut reference = Reference::from_bytes(record[..48].try_into().unwrap());
        assert_eq!(committee.creation_time(&store, &reference), Ok(time));
        assert_eq!(committee.creation_time(&store[..10], &reference), Err(Refusal::StoreNotInOrder));
        reference.digest[31] ^= 1;
        assert_eq!(committee.creation_time(&store, &reference), Ok(None));
    }
    let (mut store, mut table) = (fresh_store(4096), fresh_table());
    let mut record = [0; 72];
    builder(Some(5)).write(&mut record).unwrap();
    record[64] = 1;
    assert_eq!(committee.feed(&mut store, &mut table, &record), Err(Refusal::Malformed), "above 2^64 - 1");
}
