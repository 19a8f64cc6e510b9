//! A host's log of votes: which one completed the quorum.

use lomkhvide::{Aggregator, AuthorityIndex, Committee, Stake};

fn main() {
    let committee = Committee::new(&[5, 3, 3, 2, 2, 1, 1].map(Stake)).expect("the course committee");
    let mut aggregator = Aggregator::default();
    for voter in [0, 1, 1, 2, 7, 5, 6, 6].map(AuthorityIndex) {
        match committee.add(&mut aggregator, voter) {
            Ok(vote) => println!("vote of owner {voter}: {vote}, stake {}", aggregator.stake),
            Err(refusal) => println!("vote of owner {voter}: refused {}", refusal.number()),
        }
    }
}
