//! The records that travel with a slip.

use std::collections::{HashMap, HashSet};

use super::Engine;
use crate::{Certifier, Reading, Record, Reference, Refusal, Slip};

impl Engine {
    /// The records that have to travel with a slip, in order of arrival: with them a station accepts it, and without any of them it is refused
    /// (53). They are those of the certifying blocks and of the blocks on the paths; in the reading in which an owner may withdraw, those of
    /// all blocks below the certifying ones. A share's own record is among them where a path leads to it or, in that reading, where it stands
    /// below; a station that checks a payload wants it in any case.
    ///
    /// Refused with 53 where the slip is another engine's and a record is not stored here, 52 where a path leaves the includes.
    ///
    /// ```
    /// # use lomkhvide::*;
    /// // One owner, who has shared a change in round 1.
    /// let Sample { engine, record, share, .. } = sample();
    /// let slip = engine.slip(&share, Reading::Old)?;
    /// assert_eq!(engine.slip_records(&slip)?, [record]);
    /// assert_eq!(engine.slip_records(&engine.slip(&share, Reading::Withdrawing)?)?.len(), 2, "with the block of round 0");
    /// # Ok::<(), Refusal>(())
    /// ```
    pub fn slip_records(&self, slip: &Slip) -> Result<Vec<Record>, Refusal> {
        let records: Vec<Record> = self.records().map(|(_, record)| record).collect();
        let stored = records.iter().map(|record| (record.reference(), record)).collect();
        let mut named = HashSet::new();
        for certifier in slip.certifiers() {
            match slip.reading() {
                Reading::Old => name_paths(&stored, certifier, &mut named)?,
                Reading::Withdrawing => name_ancestry(&stored, certifier.block, &mut named)?,
            }
        }
        Ok(records.iter().filter(|record| named.contains(&record.reference())).cloned().collect())
    }
}

type Stored<'a> = HashMap<Reference, &'a Record>;

fn record<'a>(stored: &Stored<'a>, block: &Reference) -> Result<&'a Record, Refusal> {
    stored.get(block).copied().ok_or(Refusal::SlipRecordMissing)
}

/// The certifying block, and every block on the paths from it.
fn name_paths(stored: &Stored, certifier: &Certifier, named: &mut HashSet<Reference>) -> Result<(), Refusal> {
    record(stored, &certifier.block)?;
    named.insert(certifier.block);
    for voter in &certifier.voters {
        let mut at = record(stored, &certifier.block)?;
        for place in &voter.path {
            let next = at.includes().nth(*place as usize).ok_or(Refusal::SlipNotHeld)?;
            named.insert(next);
            at = record(stored, &next)?;
        }
    }
    Ok(())
}

/// The block and all blocks below it.
fn name_ancestry(stored: &Stored, block: Reference, named: &mut HashSet<Reference>) -> Result<(), Refusal> {
    let mut ahead = vec![block];
    while let Some(block) = ahead.pop() {
        let record = record(stored, &block)?;
        if named.insert(block) {
            ahead.extend(record.includes());
        }
    }
    Ok(())
}
