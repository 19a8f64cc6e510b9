//! Committees, quorum and the counting of votes.

use crate::*;

/// A record of the file of stakes.
fn member(next: u16, name: &[u8], stake: u64) -> Vec<u8> {
    let mut bytes = next.to_le_bytes().to_vec();
    bytes.extend(name);
    bytes.resize(18, 0);
    bytes.extend(stake.to_le_bytes());
    bytes
}

fn stakes_file(first: u16, members: &[Vec<u8>]) -> Vec<u8> {
    [first.to_le_bytes().to_vec(), members.concat()].concat()
}

#[test]
fn loaded_stakes() {
    let loaded = |first, members: &[Vec<u8>]| Committee::load(&stakes_file(first, members));
    let words = |committee: Committee| words_of(committee.stakes());
    assert_eq!(Committee::load(&[]).map(words), Ok(vec![5, 3, 3, 2, 2, 1, 1]));
    let three = [member(0, b"quarry", 7), member(3, b"karst", 2), member(1, b"dam", 3)];
    assert_eq!(loaded(2, &three).map(words), Ok(vec![2, 3, 7]), "members in chain order");
    assert_eq!(loaded(1, &three).map(words), Ok(vec![7]), "records off the chain are not looked at");
    assert_eq!(loaded(0, &three), Err(Refusal::NoStakes));
    assert_eq!(loaded(4, &three), Err(Refusal::StakesFileBroken));
    assert_eq!(loaded(1, &[member(2, b"karst", 2), member(1, b"quarry", 7)]), Err(Refusal::StakesFileBroken));
    assert_eq!(loaded(1, &[member(2, b"karst", 2), member(0, b"karst", 0)]), Err(Refusal::StakesFileName));
    assert_eq!(loaded(1, &[member(0, b"", 2)]), Err(Refusal::StakesFileName));
    assert_eq!(loaded(1, &[member(0, b"a\0b", 2)]), Err(Refusal::StakesFileName));
    assert_eq!(loaded(1, &[member(2, b"a", 2), member(0, b"b", 0)]), Err(Refusal::ZeroStake));
    let many = |count: u16| -> Vec<u8> {
        let named = |i: u16| member((i + 1) % (count + 1), &i.to_be_bytes().map(|b| b + 1), 1);
        stakes_file(1, &(1..=count).map(named).collect::<Vec<_>>())
    };
    assert_eq!(Committee::load(&many(128)).unwrap().total_stake(), Stake(128));
    assert_eq!(Committee::load(&many(129)), Err(Refusal::TooManyMembers));
    let good = stakes_file(2, &three);
    for length in 0..good.len() {
        let got = Committee::load(&good[..length]).map(|committee| committee.total_stake());
        let want = if length == 0 { Ok(Stake(17)) } else { Err(Refusal::StakesFileBroken) };
        assert_eq!(got, want, "{length} bytes of the file");
    }
}

#[test]
fn every_length_for_loaded_stakes() {
    let file = stakes_file(1, &[member(2, b"karst", 2), member(0, b"quarry", 7)]);
    for length in 0..=1100 {
        let mut stakes = vec![9; length];
        let want = if length == 1024 { Ok(2) } else { Err(Refusal::AnswerSlice) };
        assert_eq!(calls::load_stakes(&file, &mut stakes), want, "{length} bytes for stakes");
        let mut kept = vec![9; length];
        if length == 1024 {
            kept[..16].copy_from_slice(&bytes_of(&[2, 7]));
        }
        assert_eq!(stakes, kept, "{length} bytes for stakes");
        assert_eq!(calls::load_stakes(&file[1..], &mut stakes), Err(Refusal::StakesFileBroken), "40 comes last");
        assert_eq!(stakes, kept, "a refusal writes nothing");
    }
}

#[test]
fn committees() {
    assert_eq!(Committee::new(&[5, 3, 3, 2, 2, 1, 1].map(Stake)).unwrap().total_stake(), Stake(17));
    assert_eq!(Committee::new(&[]), Err(Refusal::NoStakes));
    assert_eq!(Committee::new(&[1, 0].map(Stake)), Err(Refusal::ZeroStake));
    assert_eq!(Committee::new(&[1; 128].map(Stake)).unwrap().total_stake(), Stake(128));
    assert_eq!(Committee::new(&[1; 129].map(Stake)), Err(Refusal::TooManyMembers));
    assert_eq!(Committee::new(&[u64::MAX / 2].map(Stake)).unwrap().total_stake(), Stake(u64::MAX / 2));
    assert_eq!(Committee::new(&[u64::MAX / 2, 1].map(Stake)), Err(Refusal::TotalTooLarge));
}

#[test]
fn quorums() {
    for stakes in [&[1][..], &[1, 1], &[1, 1, 1], &[1; 4], &[u64::MAX / 2], &[5, 3, 3, 2, 2, 1, 1]] {
        let stakes: Vec<Stake> = stakes.iter().copied().map(Stake).collect();
        let committee = Committee::new(&stakes).unwrap();
        let quorum = committee.quorum();
        assert!(committee.is_quorum(quorum) && !committee.is_quorum(quorum - Stake(1)), "{stakes:?}");
    }
}

#[test]
fn every_length_of_stakes() {
    for length in 0..=2000 {
        // each stake is 2, so that whole words up to 128 of them are a committee
        let stakes: Vec<u8> = (0..length).map(|i| if i % 8 == 0 { 2 } else { 0 }).collect();
        let want = match length {
            0 => Err(Refusal::NoStakes),
            _ if length % 8 != 0 => Err(Refusal::BrokenCommittee),
            _ if length > 1024 => Err(Refusal::TooManyMembers),
            _ => Ok(Stake(length as u64 / 4)),
        };
        let got = Committee::from_bytes(stakes).map(|committee| committee.total_stake());
        assert_eq!(got, want, "{length} bytes");
    }
}

#[test]
fn votes() {
    let [total, quorum, below, valid, less] = [17, 12, 11, 6, 5].map(Stake);
    assert!(is_quorum(total, quorum) && !is_quorum(total, below) && is_valid(total, valid) && !is_valid(total, less));
    let committee = Committee::new(&[5, 3, 3, 2, 2, 1, 1].map(Stake)).unwrap();
    let mut aggregator = Aggregator::default();
    assert_eq!(committee.add(&mut aggregator, AuthorityIndex(0)), Ok(Vote::NewBelowQuorum));
    assert_eq!(committee.add(&mut aggregator, AuthorityIndex(0)), Ok(Vote::RepeatedBelowQuorum));
    assert_eq!(committee.add(&mut aggregator, AuthorityIndex(1)), Ok(Vote::NewBelowQuorum));
    assert_eq!(committee.add(&mut aggregator, AuthorityIndex(7)), Err(Refusal::UnknownAuthor));
    assert_eq!(aggregator, Aggregator { voters: Owners(3), stake: Stake(8) });
    assert_eq!(committee.add(&mut aggregator, AuthorityIndex(2)), Ok(Vote::NewBelowQuorum));
    let crossing = committee.add(&mut aggregator, AuthorityIndex(6));
    assert_eq!(crossing, Ok(Vote::NewWithQuorum { crossed: true }));
    assert!(crossing.unwrap().has_quorum() && !Vote::NewBelowQuorum.has_quorum());
    assert_eq!(aggregator, Aggregator { voters: Owners(71), stake: Stake(12) });
    assert_eq!(committee.add(&mut aggregator, AuthorityIndex(6)), Ok(Vote::RepeatedWithQuorum));
    assert_eq!(committee.add(&mut aggregator, AuthorityIndex(5)), Ok(Vote::NewWithQuorum { crossed: false }));
    aggregator = Aggregator { voters: Owners(71), stake: Stake(12) };
    aggregator.stake = Stake(11);
    assert_eq!(committee.add(&mut aggregator, AuthorityIndex(6)), Err(Refusal::BrokenAggregator));
}
