//! 02, "Whom do we ring?"

use std::cmp::Reverse;

use super::committee::Committee;

/// The set of owners to ring and its stake, or 60.
pub type Ring = Result<(u128, u64), u64>;

/// The members of a set, ascending.
fn members(set: u128) -> Vec<u32> {
    (0..128).filter(|i| set >> i & 1 == 1).collect()
}

/// "further owners" among those "who can be reached (unknown numbers are ignored)".
fn further(committee: &Committee, voters: u128, reachable: u128) -> Vec<u32> {
    members(reachable & !voters).into_iter().filter(|owner| committee.knows(*owner as u64)).collect()
}

/// By trying every set: "the fewest further owners whose votes, with those counted, hold quorum ..; among sets of the same size the
/// one of larger stake, then the one whose members in ascending order come first. If no reachable set suffices it answers 60".
pub fn by_sets(committee: &Committee, voters: u128, reachable: u128) -> Ring {
    let owners = further(committee, voters, reachable);
    let sets = (0..1u64 << owners.len())
        .map(|picked| (0..owners.len()).filter(|i| picked >> i & 1 == 1).fold(0u128, |set, i| set | 1 << owners[i]));
    let enough = sets.filter(|set| committee.is_quorum(committee.stake_of(voters | set)));
    let best = enough.min_by_key(|set| (set.count_ones(), Reverse(committee.stake_of(*set)), members(*set)));
    best.map(|set| (set, committee.stake_of(set))).ok_or(60)
}

/// By stake, the largest first: for committees with too many sets to try.
pub fn by_stake(committee: &Committee, voters: u128, reachable: u128) -> Ring {
    let mut owners = further(committee, voters, reachable);
    owners.sort_by_key(|owner| (Reverse(committee.stakes[*owner as usize]), *owner));
    let mut set = 0u128;
    for owner in owners {
        if committee.is_quorum(committee.stake_of(voters | set)) {
            break;
        }
        set |= 1 << owner;
    }
    if committee.is_quorum(committee.stake_of(voters | set)) {
        Ok((set, committee.stake_of(set)))
    } else {
        Err(60)
    }
}

pub fn whom_to_ring(committee: &Committee, voters: u128, reachable: u128) -> Ring {
    if further(committee, voters, reachable).len() <= 8 {
        by_sets(committee, voters, reachable)
    } else {
        by_stake(committee, voters, reachable)
    }
}
