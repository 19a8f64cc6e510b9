//! Finality and the lists.

use super::{locator, record, store};
use crate::*;

#[test]
fn sorted_lists() {
    // one owner: its second block shares, and has itself for a voter
    let committee = Committee::new(&[1].map(Stake)).unwrap();
    let first = record(0, 1, &[], &[]);
    let second = record(1, 2, &first[..48], &[b"gain"]);
    let store = store(&[first, second]);
    let mut digest = [0; 32];
    digest[3] = 2;
    let index = [13, 0, 1, 0, 1, 2 << 24, 0, 0, 0, 0, 1, 1, 0, 7];
    let (share, past) = (locator(1, 0, digest, 0), locator(1, 0, digest, 1));
    let (yes, no) = (Reply { is_final: true, authors: Owners(1) }, Reply { is_final: false, authors: Owners(0) });
    let ask = |locators: &[Locator]| committee.answer_sorted(&store, &index, locators);
    assert_eq!(ask(&[]), Ok(vec![]));
    assert_eq!(ask(&[share, share, past]), Ok(vec![yes, yes, no]));
    assert_eq!(ask(&[past, share]), Err(Refusal::LocatorsNotSorted));
    for words in 0..13 {
        assert_eq!(committee.answer_sorted(&store, &index[..words], &[past, share]), Err(Refusal::IndexDisagrees));
    }
    assert_eq!(committee.answer_sorted(&store[..15], &index, &[share]), Err(Refusal::StoreNotInOrder));
}

#[test]
fn payloads() {
    let committee = Committee::new(&[1].map(Stake)).unwrap();
    let first = record(0, 1, &[], &[]);
    let second = record(1, 2, &first[..48], &[b"gain", b"", b"table"]);
    let store = store(&[first, second]);
    let mut digest = [0; 32];
    digest[3] = 2;
    for (offset, payload) in [&b"gain"[..], b"", b"table"].iter().enumerate() {
        let locator = locator(1, 0, digest, offset as u64);
        assert_eq!(committee.payload(&store, &locator), Ok(*payload));
    }
    assert_eq!(committee.payload(&store, &locator(1, 0, digest, 3)), Err(Refusal::NoSuchShare));
    assert_eq!(committee.payload(&store, &locator(1, 1, digest, 0)), Err(Refusal::NoSuchShare));
    assert_eq!(committee.payload(&store, &locator(1, 0, digest, u64::MAX)), Err(Refusal::NoSuchShare));
    let share = |offset| committee.finality(&store, &locator(1, 0, digest, offset), Reading::Old);
    let certified = Finality { is_final: true, certifying: vec![80] };
    assert_eq!([share(0), share(1), share(2)], [Ok(certified.clone()), Ok(certified.clone()), Ok(certified)]);
    assert_eq!(share(3), Ok(Finality { is_final: false, certifying: vec![] }));
    let in_both = |offset| committee.finality(&store, &locator(1, 0, digest, offset), Reading::Withdrawing) == share(offset);
    assert!((0..4).all(in_both), "nobody withdraws");
    let mut listed = Vec::new();
    let mut after = None;
    while let Some(locator) = committee.next(&store, Listed::Ordinary, Reading::Old, after.as_ref()).unwrap() {
        listed.push(locator);
        after = Some(locator);
    }
    let shares: Vec<Locator> = (0..3).map(|offset| locator(1, 0, digest, offset)).collect();
    assert_eq!(listed, shares);
    let stretch = |offset: usize| Stretch { first: shares[offset], end: 3, blocks: 1, stake: committee.total_stake() };
    let all = Stretches { stretches: vec![stretch(0)], more: false };
    assert_eq!(committee.stretches(&store, Listed::Ordinary, Reading::Old, None, 128), Ok(all));
    let last = Stretches { stretches: vec![stretch(2)], more: false };
    assert_eq!(committee.stretches(&store, Listed::Ordinary, Reading::Old, Some(&shares[1]), 128), Ok(last));
    assert_eq!(
        committee.stretches(&store, Listed::Wide, Reading::Old, None, 128),
        committee.stretches(&store, Listed::Ordinary, Reading::Old, None, 128),
        "every final locator is a share"
    );
    assert_eq!(
        committee.stretches(&store, Listed::Ordinary, Reading::Withdrawing, None, 128),
        committee.stretches(&store, Listed::Ordinary, Reading::Old, None, 128),
        "nobody withdraws"
    );
    assert_eq!(
        committee.stretches(&store, Listed::Wide, Reading::Withdrawing, None, 128),
        committee.stretches(&store, Listed::Wide, Reading::Old, None, 128),
        "nobody withdraws"
    );
    let mut table = fresh_table();
    let pending = |table: &[u8], offset| committee.pending(&store, table, &locator(1, 0, digest, offset));
    assert_eq!(pending(&table, 0), Err(Refusal::NotPending));
    table[..56].copy_from_slice(&bytes_of(&[1, 80, 0, 3, 1, 0, 1]));
    assert_eq!(pending(&table, 2), Ok(Pending { stake: Stake(1), voters: 1 }));
    assert_eq!(pending(&table, 3), Err(Refusal::NotPending));
    assert_eq!(pending(&table[8..], 2), Err(Refusal::TableNotInOrder));
    table[8] = 81;
    assert_eq!(pending(&table, 2), Err(Refusal::TableNotInOrder), "no entry stands there");
    let two = Committee::new(&[1, 2].map(Stake)).unwrap();
    assert_eq!(
        two.finality(&store, &locator(1, 0, digest, 0), Reading::Old),
        Err(Refusal::StoreNotInOrder),
        "its clock is not met"
    );
    let used = store.len() - 100;
    for length in 0..store.len() {
        let got = committee.payload(&store[..length], &locator(1, 0, digest, 0));
        let want = if length < used { Err(Refusal::StoreNotInOrder) } else { Ok(&b"gain"[..]) };
        assert_eq!(got, want, "{length} bytes of the store");
    }
}

#[test]
fn a_mistyped_vote() {
    let committee = Committee::new(&[1].map(Stake)).unwrap();
    let first = record(0, 1, &[], &[]);
    let mut second = record(1, 2, &first[..48], &[b"gain"]);
    let mut unsent = first[..48].to_vec();
    unsent[47] = 9;
    second[51] = 2;
    second.push(1);
    second.extend(&unsent);
    second.extend(bytes_of(&[5]));
    let store = store(&[first, second.clone()]);
    let share = locator(1, 0, second[16..48].try_into().unwrap(), 0);
    let mistyped = locator(0, 0, unsent[16..48].try_into().unwrap(), 5);
    assert_eq!(committee.payload(&store, &mistyped), Err(Refusal::NoSuchShare));
    assert!(committee.finality(&store, &mistyped, Reading::Old).unwrap().is_final);
    assert_eq!(committee.next(&store, Listed::Wide, Reading::Old, None), Ok(Some(mistyped)));
    assert_eq!(committee.next(&store, Listed::Wide, Reading::Old, Some(&mistyped)), Ok(Some(share)));
    assert_eq!(committee.next(&store, Listed::Ordinary, Reading::Old, None), Ok(Some(share)));
    assert_eq!(committee.next(&store, Listed::Ordinary, Reading::Old, Some(&share)), Ok(None));
    let firsts = |list: Result<Stretches, Refusal>| list.unwrap().stretches.iter().map(|one| one.first).collect::<Vec<_>>();
    assert_eq!(firsts(committee.stretches(&store, Listed::Ordinary, Reading::Old, None, 128)), [share]);
    assert_eq!(firsts(committee.stretches(&store, Listed::Wide, Reading::Old, None, 128)), [mistyped, share]);
    // The first block votes for nothing; the second for its share and for the other locator.
    let run = |locator: &Locator, start: u64| {
        let mut words = words_of(&locator.to_bytes()[..48]);
        words.extend([start, start + 1, 1, 0]);
        words
    };
    let index: Vec<u64> = [vec![23, 0, 2], run(&mistyped, 5), run(&share, 0), vec![7; 3]].concat();
    assert_eq!(
        committee.stretches_indexed(&store, &index, Listed::Ordinary, None, 128),
        committee.stretches(&store, Listed::Ordinary, Reading::Old, None, 128)
    );
    assert_eq!(
        committee.stretches_indexed(&store, &index, Listed::Wide, None, 128),
        committee.stretches(&store, Listed::Wide, Reading::Old, None, 128)
    );
    assert_eq!(
        committee.stretches_indexed(&store, &index, Listed::Wide, Some(&mistyped), 128),
        committee.stretches(&store, Listed::Wide, Reading::Old, Some(&mistyped), 128)
    );
    for length in 0..23 {
        assert_eq!(
            committee.stretches_indexed(&store, &index[..length], Listed::Wide, None, 128),
            Err(Refusal::IndexDisagrees),
            "{length} words of the index"
        );
    }
    for at in 0..23 {
        let mut other = index.clone();
        other[at] += 1;
        assert_eq!(
            committee.stretches_indexed(&store, &other, Listed::Ordinary, None, 128),
            Err(Refusal::IndexDisagrees),
            "another word {at}"
        );
    }
}

#[test]
fn a_withdrawn_share() {
    let committee = Committee::new(&[1].map(Stake)).unwrap();
    let first = record(0, 1, &[], &[]);
    let mut second = record(1, 2, &first[..48], &[b"gain", b"more", b"last"]);
    let block = second[..48].to_vec();
    second[51] = 4;
    second.push(2);
    second.extend(&block);
    second.extend(bytes_of(&[1]));
    second.push(0);
    let store = store(&[first, second.clone()]);
    let shares: Vec<Locator> = (0..3).map(|offset| locator(1, 0, second[16..48].try_into().unwrap(), offset)).collect();
    for listed in [Listed::Ordinary, Listed::Wide] {
        let next = |after| committee.next(&store, listed, Reading::Withdrawing, after);
        assert_eq!(next(None), Ok(Some(shares[0])));
        assert_eq!(next(Some(&shares[0])), Ok(Some(shares[2])), "the second was withdrawn");
        assert_eq!(next(Some(&shares[2])), Ok(None));
    }
    let runs =
        |list: Result<Stretches, Refusal>| list.unwrap().stretches.iter().map(|one| (one.first, one.end)).collect::<Vec<_>>();
    let apart = [(shares[0], 1), (shares[2], 3)];
    assert_eq!(runs(committee.stretches(&store, Listed::Ordinary, Reading::Withdrawing, None, 128)), apart);
    assert_eq!(runs(committee.stretches(&store, Listed::Wide, Reading::Withdrawing, None, 128)), apart);
    assert_eq!(runs(committee.stretches(&store, Listed::Ordinary, Reading::Old, None, 128)), [(shares[0], 3)]);
}
