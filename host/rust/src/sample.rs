//! What examples in the documentation begin with.

use crate::{AuthorityIndex, Committee, Engine, Locator, Record, Refusal, RoundNumber, Stake, fresh_table};

/// One owner, who has shared a change in round 1.
pub struct Sample {
    /// The owner alone, with stake 1.
    pub committee: Committee,
    /// With the index.
    pub engine: Engine,
    /// The engine's store.
    pub store: Vec<u8>,
    /// And its pending table, whole.
    pub table: Vec<u8>,
    /// The record that shares.
    pub record: Record,
    /// The change that it shares.
    pub share: Locator,
}

/// Made by feeding.
pub fn sample() -> Sample {
    made().expect("a sole owner's records are taken")
}

fn made() -> Result<Sample, Refusal> {
    let committee = Committee::new(&[Stake(1)])?;
    let mut engine = Engine::with_index(committee.clone(), 4096);
    let first = Record::builder(RoundNumber(0), AuthorityIndex(0), [1; 32]).finish()?;
    let second = Record::builder(RoundNumber(1), AuthorityIndex(0), [2; 32]).include(first.reference()).share(b"gain");
    let second = second.finish()?;
    engine.feed(&first)?;
    engine.feed(&second)?;
    let (store, mut table) = (engine.store().to_vec(), fresh_table());
    table[..engine.parts().table.len()].copy_from_slice(engine.parts().table);
    let share = second.reference().at(0);
    Ok(Sample { committee, engine, store, table, record: second, share })
}
