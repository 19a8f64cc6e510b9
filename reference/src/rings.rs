//! Whom to ring: every set of voters and every set that can be reached of small committees, on the engine and on the model that tries
//! every set of owners.

use crate::compare::{same, Memory, Outcome};
use crate::engine;
use crate::list::List;
use crate::model::committee::Committee;
use crate::model::feed::{State, EVENT_BYTES};
use crate::model::lent;
use crate::model::record::{Block, Locator, Reference, Statement};
use crate::model::ring;

/// Committees of at most five members, of stakes 1 to 3.
pub const COUNT: u64 = 3 + 9 + 27 + 81 + 243;

fn stakes(mut n: u64) -> Vec<u64> {
    let mut members = 1;
    while n >= 3u64.pow(members) {
        n -= 3u64.pow(members);
        members += 1;
    }
    (0..members).map(|i| 1 + n / 3u64.pow(i) % 3).collect()
}

/// A store in which owner 0 shares once, and its locator.
fn sharing(stakes: &[u64]) -> (Memory, Locator) {
    let reference = |author: u64, round: u64| Reference { author, round, digest: [(10 * round + author) as u8; 32] };
    let genesis: Vec<Reference> = (0..stakes.len() as u64).map(|author| reference(author, 0)).collect();
    let mut blocks: Vec<Block> = genesis
        .iter()
        .map(|reference| Block { reference: *reference, marked: false, includes: vec![], statements: vec![], time: None })
        .collect();
    let share = vec![Statement::Share(vec![7])];
    blocks.push(Block { reference: reference(0, 1), marked: false, includes: genesis, statements: share, time: None });
    let list = List::roomy(stakes.to_vec(), blocks.iter().map(Block::encode).collect());
    let (mut memory, mut state) = (Memory::new(&list), State::default());
    let committee = Committee::new(stakes).unwrap();
    for record in &list.records {
        let told = state.feed(&committee, list.store, EVENT_BYTES, record).unwrap();
        lent::write_back(&state, &told, &mut memory.store, &mut memory.table, &mut memory.events);
    }
    (memory, Locator::new(reference(0, 1), 0))
}

/// One committee: the share's item is given every set of voters that holds its owner.
pub fn compare(n: u64) -> Outcome {
    let stakes = stakes(n);
    let committee = Committee::new(&stakes).unwrap();
    let (mut memory, locator) = sharing(&stakes);
    let all = 1u128 << stakes.len();
    for voters in (0..all).filter(|voters| voters & 1 == 1) {
        let words = [voters as u64, 0, committee.stake_of(voters)];
        memory.table[32..56].copy_from_slice(&words.map(u64::to_le_bytes).concat());
        for reachable in 0..all {
            // numbers that the committee does not know stand beside them
            let unknown = !(all - 1) & (voters.wrapping_mul(reachable + 1) << 20 | 1 << 127);
            let right = ring::by_sets(&committee, voters, reachable);
            let mut found = [0x3c; 24];
            let told = engine::whom_to_ring(
                &memory.stakes,
                &memory.store,
                &memory.table,
                reachable | unknown,
                &locator.bytes(),
                &mut found,
            );
            let mut words = [0x3c; 24];
            if let Ok((owners, stake)) = right {
                words = [owners as u64, (owners >> 64) as u64, stake].map(u64::to_le_bytes).concat().try_into().unwrap();
            }
            let what = format!("stakes {stakes:?}, voters {voters:b}, reachable {reachable:b}");
            same(&what, "engine", (told, found), (right.map(|ring| ring.0.count_ones() as u64), words))?;
            same(&what, "by stake", ring::by_stake(&committee, voters, reachable), right)?;
            fewest(&what, &memory.stakes, voters | unknown, reachable | unknown)?;
        }
    }
    Ok(())
}

/// The same question without a store, for any voters.
fn fewest(what: &str, stakes: &[u8], voters: u128, reachable: u128) -> Outcome {
    let (mut right, mut found) = ([0x3c; 24], [0x3c; 24]);
    let answer = lent::fewest_owners(stakes, voters, reachable, &mut right);
    let (low, high) = (voters as u64, (voters >> 64) as u64);
    let told = engine::fewest_owners(stakes, low, high, reachable as u64, (reachable >> 64) as u64, &mut found);
    same(&format!("{what}: fewest_owners"), "engine", (told, found), (answer, right))
}
